// The fields of an experiment: editors, sizes, and which kind of experiment it is.
const byId = (id) => document.getElementById(id);
const NUMBERS = ["mmem", "heap", "header"];
const KINDS = [
  ["calls wait", "a list of calls"],
  ["rows\non INIT: timer-set 0 10\non TIMER 0: print \"tick\\n\", timer-reset 0, repeat", "rows that react"],
  ...RULES.applications.map((name) => [name, `the sample ${name}`]),
];
const ADDED_LINES = [
  ["mote N relay", "a mote that relays"], ["mote N blink", "a mote with a timer"],
  ["mote N calls print 68690a", "a mote with a list of calls"], ["link 1 N delay 1", "a link, one way"],
  ["line 1..N delay 1", "links in a line"], ["ring 1..N delay 1", "links in a ring"], ["mesh 1..N delay 1", "links between all"],
  ["link 1 N delay 1 every 2", "a link that loses frames"],
];
const editors = {};
// The number of the mote of a network whose lines alone are shown, or null.
let only = null;

function readMote() {
  const numbers = Object.fromEntries(NUMBERS.map((name) => [name, Math.trunc(Number(byId(name).value))]));
  const quota = byId("quota").value === "" ? null : Math.trunc(Number(byId("quota").value));
  return { applications: editors.applications.text, script: editors.script.text, ...numbers, quota, quiet: byId("quiet").checked };
}

const readNetwork = () => ({ network: editors.network.text, only, quiet: byId("quiet").checked });
const readExperiment = () => (byId("many-motes").checked ? readNetwork() : readMote());

const isUsual = (experiment) => SIZES.every((name) => experiment[name] === DEFAULT_SIZES[name]);

// Shows the fields of one mote, or those of a network.
function showKind(isOfMany) {
  byId("many-motes").checked = isOfMany;
  byId("one-mote").checked = !isOfMany;
  byId("mote-fields").hidden = isOfMany;
  byId("network-fields").hidden = !isOfMany;
  byId(isOfMany ? "all-lines" : "add-field").after(byId("all-calls"));
  for (const editor of Object.values(editors)) editor.refresh();
}

function fillMote(given) {
  const experiment = { applications: "", script: "", ...DEFAULT_SIZES, ...given };
  editors.applications.text = experiment.applications;
  editors.script.text = experiment.script;
  for (const name of NUMBERS) byId(name).value = experiment[name];
  byId("quota").value = experiment.quota ?? "";
  byId("sizes").open = !isUsual(experiment);
}

function fillFields(given) {
  if (isNetwork(given)) editors.network.text = given.network;
  else fillMote(given);
  only = given.only ?? null;
  byId("quiet").checked = given.quiet ?? false;
  showKind(isNetwork(given));
}

// Adds a line that sets something up, for the last mote or the next one, before the first input.
function addSetupLine(form) {
  const lines = linesIn(editors.network.text), motes = numberOfMotes(motesIn(editors.network.text));
  const last = lines.findLastIndex((line) => SETUP_LINE.test(line));
  editors.network.insert(last + 1, form.replace("N", form.startsWith("mote") ? motes + 1 : Math.max(1, motes)));
}

// The motes of a network of which one can be chosen.
function fillChoice(motes) {
  const option = (number, names) => new Option(`mote ${number}${names.length > 0 ? `: ${names.join(", ")}` : ""}`, number);
  const alike = ({ first, last, names }) => Array.from({ length: last - first + 1 }, (_, place) => option(first + place, names));
  byId("only").replaceChildren(new Option("all motes", ""), ...motes.flatMap(alike));
  byId("only").value = only ?? "";
}

function makeEditors(typed) {
  const described = (name, mode, label) => new Editor(byId(name), mode, { label, help: `${name}-help`, changed: typed });
  editors.applications = described("applications", "applications", "Applications");
  editors.script = described("script", "script", "Inputs");
  editors.network = described("network", "network", "Network");
}

function fillHelp(list, entries) {
  for (const [form, about] of entries) {
    const item = element("li", "", undefined, byId(list).querySelector("ul"));
    element("code", "", form, item);
    element("span", "", ` ${about}`, item);
  }
}

function fillLists() {
  const own = Object.assign(new Option("your own", ""), { hidden: true });
  byId("example").append(own, ...EXAMPLES.map(({ name }, place) => new Option(name, place)));
  byId("kind").append(...KINDS.map(([text, name]) => new Option(name, text)));
  byId("line-kind").append(...ADDED_LINES.map(([text, name]) => new Option(name, text)));
  fillHelp("all-calls", RULES.calls.map((call) => [formOf(call), `${call.about}.`]));
  fillHelp("all-lines", NETWORK_LINES);
}
