// A long run that repeats itself, folded and then unfolded.
const rowsMade = () => document.querySelectorAll("#lines tr[data-row]").length;
await showExperiment({ applications: "blink\n", script: "tick 10\n".repeat(10000) });
await idle();
const lines = shown.run.lines.length, folded = rowsMade(), fold = document.querySelector("#lines tr.fold").innerText;
document.querySelector("#lines button.unfold").click();
const open = Number(byId("lines").getAttribute("aria-rowcount")) - 1;
view.choose(39000);
return { lines, folded, fold, open, made: rowsMade(), said: byId("said").textContent, about: byId("line-about").textContent };
