// Two processes are played: what is shown after each step, and the experiment that comes of it.
await click("tab-hand");
byId("processes").value = 2;
await click("boot");
const said = [];
const look = () => said.push({ turn: byId("ask").hidden ? null : byId("turn").textContent, fault: byId("hand-fault").textContent });
const call = async (text) => {
  byId("call").value = text;
  byId("ask").requestSubmit();
  await idle();
  look();
};
const press = async (button) => {
  button.click();
  await idle();
  look();
};
look();
for (const text of ["timer-set 9 1", "print \"hi\\n\"", "frobnicate", "post 5"]) await call(text);
await press(document.querySelector("[data-call=wait]"));
await press(document.querySelector("[data-call=exit]"));
await call("wait");
const state = byId("state").textContent;
for (const button of byId("hand-inputs").querySelectorAll("button")) {
  await press(button);
  while (hand.hand.turn) await call("wait");
}
const lines = [...hand.hand.lines];
await click("undo");
const undone = [...hand.hand.lines];
await click("take");
return { said, state, lines, undone, experiment: readExperiment(), transcript: transcript(), tab: tabs.current };
