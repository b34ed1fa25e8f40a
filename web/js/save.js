// Files that the reader saves.
function saveFile(name, type, content) {
  const address = URL.createObjectURL(new Blob([content], { type }));
  Object.assign(document.createElement("a"), { href: address, download: name }).click();
  setTimeout(() => URL.revokeObjectURL(address), 10000);
}

// A scenario file with the transcript of its run, so that `./scenario FILE` compares the two. A malformed line of the script ends the run.
function scenarioFileOf(experiment, { transcript, fault: found }) {
  const text = scenarioText(experiment, found?.line);
  return `# Saved from the mote in a web page. ./scenario FILE runs it and compares the transcript.\n${text}${textOf(transcript)}`;
}
