// The transcripts of one experiment with the usual sizes, with others, and quiet.
const settle = async () => {
  await new Promise((done) => setTimeout(done, TYPING_PAUSE + 50));
  await idle();
};
const set = (name, value) => {
  byId(name).value = value;
  byId(name).dispatchEvent(new Event("input"));
};
await showExperiment({ applications: "calls mmem-avail, heap-alloc 0 20, heap-stats\n", script: "" });
const found = [transcript()];
for (const [name, value] of [["mmem", 64], ["heap", 128], ["quota", 16], ["header", 8]]) set(name, value);
await settle();
found.push(transcript());
byId("quiet").click();
await settle();
found.push(transcript());
return found;
