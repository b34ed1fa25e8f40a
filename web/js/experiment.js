// An experiment { applications, script, mmem, heap, header, quota, quiet } and its run. The library runs names and lists. If there is a
// row, or an application or a line of the script is malformed for the library, the program `scenario` runs the experiment: it also reads
// rows, quotes and names of events, and explains what is wrong.
const DEFAULT_SIZES = { mmem: 4096, heap: 4096, header: 16, quota: null };
const SIZES = Object.keys(DEFAULT_SIZES);
const FILE_NAME = "experiment";
const FIRST_PROCESS = 4;
const SCENARIO = { DONE: 0, MALFORMED: 2, OUT_OF_MEMORY: 70 };
const SIZE_REASONS = { 1: "mmem", 2: "heap", 3: "header", 4: "quota", 5: "quota" };
const SIZE_RULES = {
  mmem: "Managed memory must be a multiple of 4, from 4 to 65,536 bytes.",
  heap: "Heap memory must be a multiple of 4, from 20 to 65,536 bytes.",
  header: "A heap header must have 16 or 8 bytes.", quota: "A quota must be a multiple of 4, from 4 to 65,536 bytes.",
};
const ALL_QUOTAS = 5;
const ALL_QUOTAS_RULE = "Managed memory must have room for a quota of each application and one of the frames.";

const isRowOf = (line) => /^on\b/.test(line);
const isNothing = (line) => line.trim() === "" || line.startsWith("#");

// The applications, a line each: { line: its number in the editor, from 1 on, text }.
function applicationsIn(text) {
  const lines = linesIn(text).map((line, place) => ({ line: place + 1, text: line }));
  return lines.filter(({ text: line }) => !isNothing(line) && !isRowOf(line));
}

// The names of the applications in a picture: names, `calls`, `rows`.
const nameOf = (text) => (/^(calls|rows)\b/.test(text) ? text.split(" ")[0] : text.replace(/^app /, "").trim());
const namesOf = (experiment) => applicationsIn(experiment.applications).map(({ text }) => nameOf(text));

// The names of the sizes that aren't the default, and the options of a program for them.
const unusualSizes = (experiment) => SIZES.filter((name) => experiment[name] !== DEFAULT_SIZES[name]);
const optionsOf = (experiment) => unusualSizes(experiment).flatMap((name) => [`--${name}`, String(experiment[name])]);

// The mote of an experiment, for a picture.
const moteOf = (experiment) => ({ names: namesOf(experiment), options: optionsOf(experiment) });

// The experiment as the lines of a scenario file, each with its position: { text, editor, line }. From the malformed line of the script on,
// which ends the run, the lines are taken as they are.
function scenarioLines(experiment, malformed = Infinity) {
  const applications = linesIn(experiment.applications).map((text, place) => ({
    text: text.trim() === "" ? "" : isNothing(text) || /^(app|calls|rows|on)\b/.test(text) ? text : `app ${text}`,
    editor: "applications", line: place + 1,
  }));
  const sizes = unusualSizes(experiment).map((name) => ({ text: `${name} ${experiment[name]}`, editor: name, line: 1 }));
  const quiet = experiment.quiet ? [{ text: "quiet", editor: "quiet", line: 1 }] : [];
  const isRead = (text, line) => line < malformed && /^(tick|serial|frame|text|at|times|script|last)\b/.test(text);
  const script = linesIn(experiment.script).map((text, place) => ({
    text: isRead(text, place + 1) ? text : `script ${text}`, editor: "script", line: place + 1,
  }));
  return [...applications, ...sizes, ...quiet, ...script];
}

const scenarioText = (experiment, malformed) => scenarioLines(experiment, malformed).map(({ text }) => `${text}\n`).join("");

// How a transcript ended: { name, line }, where line is the malformed one of the script.
function endOf(transcript) {
  const last = textOf(transcript.slice(Math.max(0, transcript.length - 40))).trimEnd().split("\n").at(-1);
  const bad = /^bad line (\d+)$/.exec(last);
  if (bad) return { name: "BAD_LINE", line: Number(bad[1]) };
  return { name: last === "halt" ? "HALTED" : last === "too long" ? "TOO_LONG" : "FINISHED", line: 0 };
}

const fault = (message, editor = null, line = 0) => ({ message, editor, line });

// What is added where `scenario` names a malformed line of a script alone.
const SCRIPT_FORMS = {
  tick: "N is a number from 0 to 4,294,967,295, with no zero before it", serial: "HEX is two digits for each of 1 to 256 bytes",
  frame: "HEX is two digits for each of 1 to 127 bytes",
};

// Why the program scenario refuses a file: { message, line }, where line is 0 if the reason is in no line.
function refusalOf({ status, errors }) {
  if (status === SCENARIO.OUT_OF_MEMORY) return { message: "The mote ran out of memory.", line: 0 };
  const said = textOf(errors).trim().replace(`scenario: ${FILE_NAME}: `, ""), placed = /^line (\d+): ([^]*)$/.exec(said);
  if (status !== SCENARIO.MALFORMED || !placed) return { message: said || `The program scenario ended with ${status}.`, line: 0 };
  const form = SCRIPT_FORMS[/^(?:\d+ )?(tick|serial|frame) .* is no line of a script$/.exec(placed[2])?.[1]];
  return { message: form ? `${placed[2]}: ${form}` : placed[2], line: Number(placed[1]) };
}

// A run by the program scenario: { transcript, end } or { fault }.
function runScenario(program, experiment, malformed) {
  const lines = scenarioLines(experiment, malformed), bytes = utf8.encode(scenarioText(experiment, malformed));
  const ran = program.run([FILE_NAME], new Uint8Array(), { name: FILE_NAME, bytes });
  if (ran.status === SCENARIO.DONE) return { transcript: ran.output, end: endOf(ran.output) };
  const { message, line } = refusalOf(ran), at = lines[line - 1];
  return { fault: at ? fault(message, at.editor, at.line) : fault(message) };
}

// An experiment with a malformed line of its script, run up to there: { transcript, end, fault }.
function runUpTo(program, experiment, found) {
  const { transcript, end } = runScenario(program, experiment, found.line);
  return { transcript: transcript ?? null, end: end ?? null, fault: found };
}

// Says why the library refuses an experiment: its sizes, its memory or the number of its applications.
function faultOf(answer, applications) {
  switch (answer.name) {
    case "BAD_SIZES":
      return fault(answer.reason === ALL_QUOTAS ? ALL_QUOTAS_RULE : SIZE_RULES[SIZE_REASONS[answer.reason]], SIZE_REASONS[answer.reason]);
    case "TOO_MANY_APPLICATIONS":
      return fault(`At most ${answer.application} applications are allowed.`, "applications", applications[answer.application].line);
    default:
      return fault("The mote ran out of memory.");
  }
}

// What the library makes of an experiment: { transcript, end, fault }, or null if `scenario` must read it.
function runByLibrary(library, experiment) {
  const applications = applicationsIn(experiment.applications);
  const answer = library.run(experiment, applications.map(({ text }) => text).join("\n"), utf8.encode(experiment.script));
  if (["BAD_LINE", "NO_APPLICATION"].includes(answer.name)) return null;
  if (!answer.transcript) return { transcript: null, end: null, fault: faultOf(answer, applications) };
  return { transcript: answer.transcript, end: { name: answer.name, line: answer.line }, fault: null };
}

// Runs an experiment: { transcript, end, fault }; there is no transcript where there is no run.
function runExperiment(library, scenario, experiment) {
  const own = linesIn(experiment.applications).some(isRowOf) ? null : runByLibrary(library, experiment);
  if (own) return own;
  const ran = runScenario(scenario, experiment);
  if (ran.fault?.editor === "script") return runUpTo(scenario, experiment, ran.fault);
  if (ran.fault) return { transcript: null, end: null, fault: ran.fault };
  return { ...ran, fault: ran.end.name === "BAD_LINE" ? fault(MALFORMED_INPUT, "script", ran.end.line) : null };
}

const MALFORMED_INPUT = "This line is malformed: write tick N, serial HEX, frame HEX or text WORDS.";
