// A network { network: its script, only: the number of the only mote whose lines are shown, or null, quiet }, and its run by the program
// `network`. The program `scenario` explains what is malformed.
const NETWORK = { DONE: 0, BAD_LINE: 2, HALTED: 3, TOO_LONG: 4, NO_MOTE: 64 };
const NETWORK_ENDS = {
  [NETWORK.DONE]: "FINISHED", [NETWORK.BAD_LINE]: "BAD_LINE", [NETWORK.HALTED]: "EXHAUSTED", [NETWORK.TOO_LONG]: "TOO_LONG",
};
const SETUP_WORDS = ["mote", "link", "line", "ring", "mesh", "grid", "room", "rounds"];
const SETUP_LINE = new RegExp(`^(?:${SETUP_WORDS.join("|")})(?: |$)`);
const INPUT_LINE = /^(?:tick|\d+ (?:serial|frame)) /;
const LINE_OF_A_MOTE = /^(\d+) ([^]*)$/;

const isNetwork = (experiment) => experiment.network !== undefined;

// The motes that the first lines set up: { first, last, names, options }, the options as those of the program `mote`.
function motesIn(script) {
  const motes = [];
  for (const line of linesIn(script)) {
    const found = /^mote (\d+)(?:\.\.(\d+))?( [^]*)?$/.exec(line);
    if (found) motes.push({ first: Number(found[1]), last: Number(found[2] ?? found[1]), ...namesAndOptions(found[3] ?? "") });
    else if (!isNothing(line) && !SETUP_LINE.test(line)) break;
  }
  return motes;
}

// The words after a mote's number. A list of calls is the last application.
function namesAndOptions(text) {
  const [before, ...calls] = text.split(/ calls(?= |$)/), names = [], options = [];
  const words = before.split(" ").filter((word) => word !== "");
  while (words.length > 0) {
    const word = words.shift();
    if (word.startsWith("--")) options.push(word, words.shift() ?? "");
    else names.push(word);
  }
  return { names: calls.length > 0 ? [...names, "calls"] : names, options };
}

const moteNumbered = (motes, number) => motes.find(({ first, last }) => first <= number && number <= last) ?? { names: [], options: [] };
const numberOfMotes = (motes) => motes.at(-1)?.last ?? 0;

// Lines that the program scenario would take for something else than a line of a network's script: a comment, a line of a transcript, one
// of its own files.
const WORDS_OF_SCENARIO = [
  "quiet", "at", "script", "last", "times", "ends", "network", "lost", "full", "missed", "halt", "bad", "too", "...",
];
const OF_TRANSCRIPT = /^(?:$|#|=|\d(?!\S* (?:serial|frame)(?: |$)))/;
const isForScenario = (line) => !OF_TRANSCRIPT.test(line) && !WORDS_OF_SCENARIO.includes(line.split(" ")[0]);

// What a line begins with that is malformed by its first words.
function formOfLine(line) {
  return /^\d/.test(line) ? "an input of a mote is N serial HEX or N frame HEX."
    : `a line begins with ${SETUP_WORDS.join(", ")}, tick or the number of a mote.`;
}

// Runs a script: { transcript, end, fault, script }, the script up to a malformed line. There is no transcript where no mote is started.
function runScript(program, script, { only, quiet }) {
  const options = [...(quiet ? ["--quiet"] : []), ...(only === null ? [] : ["--only", String(only)])];
  const ran = program.run(options, utf8.encode(script)), name = NETWORK_ENDS[ran.status];
  const none = (message, editor = null, line = 0) => ({ transcript: null, end: null, fault: fault(message, editor, line) });
  if (ran.status === NETWORK.NO_MOTE) return none(`There is no mote ${only}: choose another one.`, "only");
  if (name === undefined) return none(`The network ended early: ${textOf(ran.errors).trim().replace("network: ", "")}.`);
  const { line } = endOf(ran.output), lines = linesIn(script);
  if (name !== "BAD_LINE") return { transcript: ran.output, end: { name, line }, fault: null, script };
  const isStarted = lines.slice(0, line).some((it) => INPUT_LINE.test(it));
  return {
    transcript: isStarted ? ran.output : null, end: { name, line }, fault: fault(formOfLine(lines[line - 1]), "network", line),
    script: lines.slice(0, line - 1).map((it) => `${it}\n`).join(""),
  };
}

// A script with hex in place of quotes, and numbers in place of names, by the program scenario: { script }, or { fault }.
function plainScript(program, lines) {
  const shown = lines.map((line) => (isForScenario(line) ? line : `script ${line}`));
  const bytes = utf8.encode(["network", ...shown].map((line) => `${line}\n`).join(""));
  const ran = program.run(["--json", FILE_NAME], new Uint8Array(), { name: FILE_NAME, bytes });
  if (ran.status === SCENARIO.DONE) return { script: JSON.parse(textOf(ran.output)).script };
  const { message, line } = refusalOf(ran);
  return { fault: fault(message, line > 1 ? "network" : null, Math.max(0, line - 1)) };
}

// Runs a script in which `network` found a malformed line, or not the mote that is chosen: it takes no quotes and gives no reason, while
// `scenario` does both.
function runAsScenario({ network, scenario }, experiment, found) {
  const lines = linesIn(experiment.network), asked = plainScript(scenario, lines);
  if (!asked.fault) return runScript(network, asked.script, experiment);
  const { line } = asked.fault;
  if (line === 0) return { ...found, fault: asked.fault };
  const before = plainScript(scenario, lines.slice(0, line - 1));
  const ran = before.fault ? found : runScript(network, `${before.script}${lines[line - 1]}\n`, experiment);
  return ran.end?.name === "BAD_LINE" && ran.end.line < line ? ran : { ...ran, fault: asked.fault };
}

// Runs a network, as runScript does; its script may have quotes, too.
function runNetwork(programs, experiment) {
  const ran = runScript(programs.network, experiment.network, experiment);
  return ran.fault?.editor ? runAsScenario(programs, experiment, ran) : ran;
}

// The clock of the network at each line.
function networkClocks(lines) {
  let clock = 0;
  return lines.map((line) => {
    if (line.startsWith("= ")) clock = Number(line.slice(2));
    return clock;
  });
}

// The lines of each mote, by its number: their positions among all lines, from 0 on, and their texts without the number.
function linesOfMotes(lines) {
  const found = new Map();
  for (const [place, line] of lines.entries()) {
    const own = LINE_OF_A_MOTE.exec(line);
    if (!own) continue;
    const number = Number(own[1]);
    if (!found.has(number)) found.set(number, { places: [], texts: [] });
    found.get(number).places.push(place);
    found.get(number).texts.push(own[2]);
  }
  return found;
}

// A line of the network, in a few words.
function networkWords(line) {
  const [kind, from, to] = line.split(" ");
  if (kind === "=") return `the clock goes on to ${Number(from).toLocaleString("en")}`;
  if (kind === "lost") return `the frame from mote ${from} to ${to} is lost: the link's rule`;
  if (kind === "full") return `the frame from mote ${from} to ${to} finds no room in flight`;
  if (kind === "missed") return `${from === "-" ? "an input" : `the frame from mote ${from}`} arrives at mote ${to}, which was halted`;
  if (kind === "halt") return "the network halts: its last line took all its rounds";
  return line;
}
