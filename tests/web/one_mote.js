// The transcripts, pictures, words about them and explorers of each mote of a network; and then those that are shown of all motes, with no
// line chosen and with one of the last mote.
const transcripts = [], pictures = [], abouts = [], explorers = [];
const choose = async (value) => {
  byId("only").value = value;
  byId("only").dispatchEvent(new Event("change"));
  await idle();
};
const look = async () => {
  await click("tab-picture");
  pictures.push(shown.picture);
  abouts.push(byId("picture-about").textContent);
  await click("tab-explorer");
  explorers.push(byId("page").srcdoc);
  await click("tab-transcript");
};
for (const { value } of [...byId("only").options].slice(1)) {
  await choose(value);
  transcripts.push(transcript());
  await look();
}
await choose("");
await look();
view.choose(view.lines.findLastIndex((line) => line.startsWith("3 ")));
await look();
return [transcripts, pictures, abouts, explorers];
