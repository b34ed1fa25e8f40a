// The report of a run: how it ended, the time that it took, and its fault.
const ENDS = {
  FINISHED: "The script was run to its end", BAD_LINE: "The run ended at a malformed line of the script", HALTED: "The mote halted",
  TOO_LONG: "The script is too long: the run ended there", EXHAUSTED: "The network halted, since its last line took all its rounds",
};

function milliseconds(time) {
  return time < 999.5 ? `${time.toFixed(time < 10 ? 1 : 0)} ms` : `${(time / 1000).toFixed(1)} s`;
}

// What the page took longer than the run, in milliseconds, is worth a word.
const LONG_WAIT = 1000;

// `took` is the time of the run, `waited` that of the page.
function outcomeInWords({ end, lines, took, waited, rows }) {
  const late = waited > took + LONG_WAIT ? `, shown after ${milliseconds(waited)}` : "";
  const folded = rows && rows.length < lines.length ? ", repeated lines folded" : "";
  return `${ENDS[end.name]}: ${plural(lines.length, "line")} in ${milliseconds(took)}${late}${folded}.`;
}

// A fault, with its position, as a sentence.
function faultInWords({ message, editor, line }) {
  const places = { applications: `Applications, line ${line}: `, script: `Inputs, line ${line}: `, network: `Network, line ${line}: ` };
  return `${places[editor] ?? ""}${message}${/[.?!]$/.test(message) ? "" : "."}`;
}
