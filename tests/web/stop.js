// What is shown during a long run, after it was stopped, and the next run.
const look = () => [byId("stop").disabled, byId("progress").hidden];
const applications = "blink\n".repeat(16), script = "tick 10\n".repeat(20000);
const long = showExperiment({ applications, script });
for (let turn = 0; turn < 3000 && byId("progress").hidden; turn++) await new Promise((done) => setTimeout(done, 20));
const during = [...look(), byId("phase").textContent];
byId("stop").click();
await long;
const after = [...look(), byId("said").textContent];
await showExample(0);
await idle();
return { during, after, transcript: transcript() };
