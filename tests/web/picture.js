// The picture of a run, of a part of it, and of a part that is none.
await showExperiment({ applications: "blink\n", script: "tick 9\ntick 1\ntick 25\n" });
await idle();
await click("tab-picture");
const draw = async (from, to) => {
  byId("from").value = from;
  byId("to").value = to;
  byId("part").requestSubmit();
  await idle();
  return shown.picture;
};
const whole = shown.picture, part = await draw(5, 20), none = await draw(20, 5);
return { whole, part, none, about: byId("picture-about").textContent, elements: byId("drawing").children.length };
