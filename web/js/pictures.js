// The panels with pictures of the run that is shown: of a mote, of its lines, and of a network.
const MOST_LINES_DRAWN = 3000;
const FRONT_DRAWN = `The first ${MOST_LINES_DRAWN.toLocaleString("en")} lines. Choose clocks to see others.`;
const WHOLE_DRAWN = "Time goes down. Point at a row for its lines.";
const CHART_DRAWN = "Time goes down. An arrow is a frame on its way.";

// The first lines of a transcript, up to a number: they are a transcript, too.
function frontOf(transcript, most) {
  const lines = linesIn(textOf(transcript));
  return lines.length <= most ? transcript : utf8.encode(lines.slice(0, most).map((line) => `${line}\n`).join(""));
}

// The options of a picture for the clocks in a form's two fields.
function clockOptions(from, to) {
  const given = [["--from", byId(from).value], ["--to", byId(to).value]];
  return given.filter(([, value]) => value !== "").flat();
}

// Puts a picture into its place; for screen readers it is one image with a name.
function putPicture(place, svg, name) {
  byId(place).innerHTML = svg ?? "";
  const image = byId(place).querySelector("svg");
  image?.setAttribute("role", "img");
  image?.setAttribute("aria-label", name);
}

// The mote of a network for pictures: the one whose lines are shown; otherwise that of the chosen line; otherwise the first one.
const moteOfPictures = () => shown.experiment.only ?? view.chosenMote ?? 1;

// The data of pictures: { mote, transcript, page }, and the number in a network. Throws an Error if there is no such mote.
async function pictured() {
  const { experiment, run: ran } = shown;
  if (!isNetwork(experiment)) return { mote: moteOf(experiment), transcript: ran.transcript, page: ran.page };
  const number = moteOfPictures();
  if (shown.mote?.number === number) return shown.mote;
  const asked = await runner.ask("mote", { experiment, number });
  if (asked.fault) throw new Error(asked.fault);
  if (shown.run === ran) Object.assign(shown, { mote: asked, picture: null });
  return asked;
}

async function drawPicture() {
  const options = [...clockOptions("from", "to"), ...(byId("unfolded").checked ? ["--unfolded"] : [])];
  const { run: ran } = shown, { mote, transcript, number } = await pictured();
  const isLong = options.length === 0 && (ran.rows ?? ran.lines).length > MOST_LINES_DRAWN;
  const front = isLong ? frontOf(transcript, MOST_LINES_DRAWN) : transcript;
  const drawn = await runner.ask("picture", { mote, options, transcript: front });
  if (shown.run !== ran) return;
  shown.picture = drawn.svg ?? null;
  const about = drawn.fault ?? (front === transcript ? WHOLE_DRAWN : FRONT_DRAWN);
  byId("picture-about").textContent = number === undefined ? about : `Mote ${number}. ${about}`;
  putPicture("drawing", drawn.svg, number === undefined ? "Picture of the run" : `Picture of mote ${number}`);
}

async function drawChart() {
  const { experiment, run: ran } = shown, options = clockOptions("chart-from", "chart-to");
  const drawn = await runner.ask("chart", { experiment, options, most: options.length === 0 ? MOST_LINES_DRAWN : null });
  if (shown.run !== ran) return;
  shown.chart = drawn.svg ?? null;
  byId("chart-about").textContent = drawn.fault ?? (drawn.isFront ? FRONT_DRAWN : CHART_DRAWN);
  putPicture("chart-drawing", drawn.svg, `Chart of the network: ${plural(numberOfMotes(ran.motes), "mote")}`);
}

async function drawExplorer() {
  const { run: ran } = shown, { page } = await pictured();
  if (shown.run === ran) byId("page").srcdoc = page;
}

// Shows a picture or the explorer; a fault is shown above the picture.
async function attempt(work, about = "picture-about") {
  try {
    await work();
  } catch (error) {
    if (!(error instanceof Stopped)) byId(about).textContent = error.message;
  }
}

const showPicture = () => attempt(drawPicture);
const showChart = () => attempt(drawChart, "chart-about");

const isOtherMote = () => isNetwork(shown.experiment) && shown.mote?.number !== moteOfPictures();

// The chart's tab is there for a network; the choice of a mote is for what shows motes.
function showChoice(panel) {
  const isOfNetwork = Boolean(shown.run) && isNetwork(shown.experiment), isPicture = ["picture", "explorer"].includes(panel);
  byId("tab-chart").hidden = !isOfNetwork;
  byId("choice").hidden = !isOfNetwork || !(isPicture || panel === "transcript");
  if (!isOfNetwork) return;
  const number = moteOfPictures(), isOfAll = shown.experiment.only === null;
  byId("of-which").textContent = isPicture && isOfAll ? `This is mote ${number}. The network is in Chart.` : "";
}

function showPanel(panel) {
  showChoice(panel);
  if (byId("tab-chart").hidden && panel === "chart") tabs.choose("transcript");
  else if (panel === "hand") {
    if (!hand.hand) hand.boot();
  } else if (!shown.run) return;
  else if (panel === "chart" && shown.chart === null) showChart();
  else if (panel === "picture" && (shown.picture === null || isOtherMote())) showPicture();
  else if (panel === "explorer") attempt(drawExplorer);
}

// Nothing of a run is left where the next one, of the other kind, has none.
function clearShown() {
  Object.assign(shown, NOT_SHOWN);
  view.show({ lines: [], words: [], clocks: [], answers: [], rows: null, names: [], motes: null });
  for (const place of ["drawing", "chart-drawing", "picture-about", "chart-about"]) byId(place).replaceChildren();
  byId("page").srcdoc = "";
  for (const name of SAVES) byId(name).disabled = true;
  showPanel(tabs.current);
}
