// The page: its runs, its buttons and what they show.
const TYPING_PAUSE = 150;
const PAUSE_BEFORE_PROGRESS = 300;
const SAVES = ["save-transcript", "save-scenario", "save-picture"];
// Narrower windows have the experiment above its results, with what is seldom needed folded.
const NARROW = matchMedia("(max-width: 760px)");
const LINK_SHOWN = "The experiment of the link that you opened.";
const view = new TranscriptView(byId("lines"), byId("line-about"));
const NOT_SHOWN = { experiment: null, run: null, picture: null, mote: null, chart: null };
// The run that is shown, with its experiment; for a network also the mote of the pictures. `picture` and `chart` are SVGs.
const shown = { ...NOT_SHOWN };
let runner, tabs, hand, kept, typing = 0, isRunning = false, isWaiting = false, progressTimer = 0;

// ---- The experiment ----

// Says what is in the fields: the example of this number, or, with "", another experiment.
function introduce(example, about) {
  byId("example").value = example;
  byId("lesson").textContent = about;
}

function showExperiment(given) {
  fillFields(given);
  return run();
}

function showExample(place) {
  const { about, experiment } = EXAMPLES[place];
  introduce(place, about);
  return showExperiment(experiment);
}

// Another tab may have forgotten it.
function showKept() {
  const work = kept.read();
  if (work === null) {
    kept.tell();
    return showExample(0);
  }
  const { mote, network, isNetwork: isOfMany } = work;
  introduce("", KEPT_SHOWN);
  fillFields(mote);
  fillFields(network);
  return showExperiment(isOfMany ? network : mote);
}

function keepWork() {
  kept.write({ mote: readMote(), network: readNetwork(), isNetwork: byId("many-motes").checked });
}

function showKeeping(words, canForget) {
  byId("kept").hidden = words === "";
  byId("kept-words").textContent = words;
  byId("forget").hidden = !canForget;
  byId("example").options[0].hidden = !canForget;
}

// What the reader writes becomes the reader's own: it is kept, and a link in the address, which has an older text, goes.
function ownWork() {
  byId("example").value = "";
  keepWork();
  if (location.hash.startsWith(LINK_START)) history.replaceState(null, "", location.href.split("#")[0]);
}

// ---- A run ----

function showProgress(phase) {
  byId("stop").disabled = phase === null;
  byId("phase").textContent = phase ? `${phase} ..` : "";
  if (phase === null) {
    clearTimeout(progressTimer);
    progressTimer = 0;
    byId("progress").hidden = true;
  } else if (progressTimer === 0) {
    const begun = performance.now();
    const tell = () => {
      byId("progress").hidden = false;
      byId("bar").title = milliseconds(performance.now() - begun);
    };
    progressTimer = setTimeout(tell, PAUSE_BEFORE_PROGRESS);
  }
}

function say(words, isFault = false) {
  byId("said").textContent = words;
  byId("said").classList.toggle("fault", isFault);
}

function unmark() {
  for (const editor of Object.values(editors)) editor.unmark();
  for (const name of [...SIZES, "quiet", "only"]) byId(name).removeAttribute("aria-invalid");
}

function mark({ message, editor, line }) {
  if (editors[editor]) editors[editor].mark(line, message);
  else if (editor) {
    if (SIZES.includes(editor)) byId("sizes").open = byId("more-inputs").open = true;
    byId(editor).setAttribute("aria-invalid", "true");
  }
}

// While a run is under way, the newest experiment waits for its end.
async function run() {
  isWaiting = isRunning;
  if (isRunning) return;
  isRunning = true;
  const experiment = readExperiment(), begun = performance.now();
  try {
    const ran = await runner.ask("run", { experiment });
    showRun(experiment, { ...ran, waited: performance.now() - begun });
  } catch (error) {
    say(error instanceof Stopped ? "The run was stopped." : error.message, !(error instanceof Stopped));
  }
  isRunning = false;
  if (isWaiting) await run();
}

function showRun(experiment, ran) {
  unmark();
  const { fault: found } = ran;
  if (found) mark(found);
  const words = ran.transcript ? outcomeInWords(ran) : "Nothing was run.";
  say(found ? `${faultInWords(found)} ${words}` : words, Boolean(found));
  if (!ran.transcript && shown.run && isNetwork(shown.experiment) !== isNetwork(experiment)) clearShown();
  byId("results").classList.toggle("stale", !ran.transcript);
  if (!ran.transcript) return;
  for (const name of SAVES) byId(name).disabled = false;
  byId("save-scenario").textContent = isNetwork(experiment) ? "Save network script" : "Save scenario file";
  Object.assign(shown, { ...NOT_SHOWN, experiment, run: ran });
  showLines(experiment, ran);
  showPanel(tabs.current);
}

// The lines of one mote are a transcript as any other.
function showLines(experiment, ran) {
  if (!isNetwork(experiment)) {
    view.show({ ...ran, names: namesOf(experiment) });
    return;
  }
  fillChoice(ran.motes);
  if (experiment.only === null) view.show({ ...ran, names: [] });
  else view.show({ ...ran, motes: null, names: moteNumbered(ran.motes, experiment.only).names });
}

// ---- Inputs, files, links ----

// The other kind starts with its last text, or with an example.
function showOtherKind() {
  const isOfMany = byId("many-motes").checked, { experiment } = EXAMPLES.find((it) => isNetwork(it.experiment));
  if (isOfMany && editors.network.text === "") editors.network.text = experiment.network;
  introduce("", "");
  showKind(isOfMany);
  run();
}

function inputLine(button) {
  const { value } = button.nextElementSibling;
  return `${button.dataset.input} ${button.dataset.input === "serial" ? hexOf(utf8.encode(`${value}\n`)) : value}`;
}

// Where an input goes: the mote in hand, the script, or the network, in which a mote has a number.
function takeInput(button) {
  const { to } = button.closest("[data-to]").dataset, line = inputLine(button);
  if (to === "hand") hand.feed(line);
  else addLine(to, to === "network" && button.dataset.input !== "tick" ? `${byId("to-mote").value} ${line}` : line);
}

function addLine(editor, text) {
  editors[editor].append(text);
  return run();
}

async function copyLink() {
  const link = await linkOf(readExperiment());
  history.replaceState(null, "", link);
  try {
    await navigator.clipboard.writeText(location.href);
    byId("saved").textContent = "The link is copied. It has the whole experiment, and is in the address bar.";
  } catch {
    byId("saved").textContent = "The link is in the address bar: copy it from there. It has the whole experiment.";
  }
}

function saveTranscript() {
  const { experiment, run: ran } = shown;
  const name = !isNetwork(experiment) ? "mote" : experiment.only === null ? "network" : `mote-${experiment.only}`;
  saveFile(`${name}.transcript`, "text/plain", ran.transcript);
}

function saveScenario() {
  const { experiment, run: ran } = shown;
  if (isNetwork(experiment)) saveFile("script.net", "text/plain", ran.fault ? experiment.network : ran.script);
  else saveFile("mote.scenario", "text/plain", scenarioFileOf(experiment, ran));
}

async function savePicture() {
  if (tabs.current === "chart") {
    if (shown.chart === null) await showChart();
    if (shown.chart !== null) saveFile("network.svg", "image/svg+xml", shown.chart);
    return;
  }
  if (shown.picture === null || isOtherMote()) await showPicture();
  if (shown.picture !== null) saveFile(shown.mote ? `mote-${shown.mote.number}.svg` : "mote.svg", "image/svg+xml", shown.picture);
}

// Without a link in the address, the work that is kept is shown, or the first example.
async function openAddress() {
  if (location.hash === "#about") {
    tabs.choose("about");
    byId("what-is-proved-and-what-is-tested")?.scrollIntoView();
  }
  const showOwn = () => (kept.read() === null ? showExample(0) : showKept());
  if (!location.hash.startsWith(LINK_START)) return shown.run ? null : showOwn();
  try {
    const experiment = await experimentOf(location.hash);
    introduce("", kept.read() === null ? LINK_SHOWN : `${LINK_SHOWN} Your own work is the first of the examples.`);
    return showExperiment(experiment);
  } catch (error) {
    await showOwn();
    byId("saved").textContent = error.message;
  }
}

// ---- The start ----

function typed() {
  ownWork();
  clearTimeout(typing);
  if (byId("live").checked) typing = setTimeout(run, TYPING_PAUSE);
}

function listenToFields() {
  byId("example").addEventListener("change", () => (byId("example").value === "" ? showKept() : showExample(byId("example").value)));
  byId("forget").addEventListener("click", () => {
    kept.forget();
    showExample(0);
  });
  for (const name of ["one-mote", "many-motes"]) byId(name).addEventListener("change", showOtherKind);
  byId("add").addEventListener("click", () => addLine("applications", byId("kind").value));
  byId("add-line").addEventListener("click", () => {
    addSetupLine(byId("line-kind").value);
    run();
  });
  for (const name of [...SIZES, "quiet"]) byId(name).addEventListener("input", typed);
  for (const button of document.querySelectorAll("[data-input]")) button.addEventListener("click", () => takeInput(button));
}

function listen() {
  listenToFields();
  byId("only").addEventListener("change", () => {
    only = byId("only").value === "" ? null : Number(byId("only").value);
    run();
  });
  byId("run").addEventListener("click", run);
  byId("stop").addEventListener("click", () => runner.stop());
  for (const [form, show] of [["part", showPicture], ["chart-part", showChart]]) {
    byId(form).addEventListener("submit", (event) => {
      event.preventDefault();
      show();
    });
  }
  byId("save-transcript").addEventListener("click", saveTranscript);
  byId("save-scenario").addEventListener("click", saveScenario);
  byId("save-picture").addEventListener("click", savePicture);
  byId("link").addEventListener("click", copyLink);
  addEventListener("hashchange", () => (location.hash === "#about" || location.hash.startsWith(LINK_START)) && openAddress());
}

// In a narrow window a result is in sight at the start, since what is seldom needed is folded.
function foldMore() {
  for (const part of document.querySelectorAll("details.more")) part.open = !NARROW.matches;
}

async function compile() {
  const made = Object.entries(MODULES).map(async ([name, text]) => [name, await WebAssembly.compile(bytesOfBase64(text))]);
  return Object.fromEntries(await Promise.all(made));
}

function makeHand(modules) {
  hand = new HandView({
    library: new Library(modules.library),
    sizes: readMote,
    take: (experiment) => {
      tabs.choose("transcript");
      introduce("", "The calls that you have made, as lists.");
      showExperiment(experiment);
      keepWork();
    },
    tell: (lines, sizes) => runner.ask("tell", { experiment: { ...DEFAULT_SIZES, ...sizes, applications: "" }, lines }),
  });
}

async function start() {
  makeEditors(typed);
  fillLists();
  foldMore();
  NARROW.addEventListener("change", foldMore);
  makeDivider(byId("divider"), byId("experiment"));
  kept = new KeptWork(() => localStorage, showKeeping);
  kept.tell();
  tabs = new Tabs(byId("tabs"), showPanel);
  const modules = await compile();
  runner = new Runner({ ...modules, most: MOST_MEMORY }, byId("worker").textContent, showProgress);
  makeHand(modules);
  listen();
  tabs.choose("transcript");
  await openAddress();
  document.body.dataset.isReady = "yes";
}

start();
