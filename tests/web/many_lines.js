// A long run with no repeated line: the rows that are made, how long the table takes, and the picture.
const script = Array.from({ length: 50000 }, (_, place) => `tick ${place + 1}\n`).join("");
await showExperiment({ applications: "calls wait\n", script });
await idle();
const begun = performance.now();
view.build();
const height = document.body.offsetHeight, took = performance.now() - begun;
await click("tab-picture");
const rows = document.querySelectorAll("#lines tr[data-row]").length, pictures = byId("drawing").querySelectorAll("svg").length;
return { lines: shown.run.lines.length, rows, took, height, pictures, about: byId("picture-about").textContent };
