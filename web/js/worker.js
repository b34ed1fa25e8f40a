// The worker: it runs experiments, and shows their lines in words and as a picture. Its first message has the modules; each further one is
// { id, task, .. }, to which it posts { id, phase } and at last { id, done } or { id, failed }.
const MOST_UNFOLDED = 20000;
// The number of motes of a network whose lines are put into words; those of others are shown as they are.
const MOST_MOTES_IN_WORDS = 256;
let modules = null;
// null: they are made for the next task.
let tools = null;

function makeTools() {
  const { library, most } = modules, program = (module, name) => new Program(modules[module], name, most);
  return {
    library: new Library(library, most), picture: program("picture", "mote_picture"), scenario: program("scenario", "scenario"),
    network: program("network", "network"), chart: program("picture", "network_picture"),
  };
}

// The arguments of mote_picture for a mote { names, options }. A name that begins with a dash is no option.
function pictureWords({ names, options }) {
  return [...options, ...(names.some((name) => name.startsWith("-")) ? ["--"] : []), ...names];
}

// The words of each line, the clocks and the explorer's page, by `mote_picture --page`.
function tellLines(mote, transcript) {
  const made = tools.picture.run(["--page", ...pictureWords(mote)], transcript);
  if (made.status !== 0) throw new Error(textOf(made.errors).trim());
  const page = textOf(made.output);
  const data = JSON.parse(/<script id="data" type="application\/json">([^]*?)<\/script>/.exec(page)[1]);
  return { page, words: linesIn(data.words), clocks: data.clocks, answers: data.answers };
}

// A picture by one of the programs that draw: { svg }, or { fault } with the reason.
function drawnBy(program, words, input) {
  const drawn = program.run(words, input);
  return drawn.status === 0 ? { svg: textOf(drawn.output) } : { fault: textOf(drawn.errors).trim().replace(`${program.name}: `, "") };
}

const bytesOfLines = (lines) => utf8.encode(lines.map((line) => `${line}\n`).join(""));

// The words and replies of a network's lines, mote by mote, and the network's clock at each.
function tellNetwork(motes, lines) {
  const words = lines.map((line) => (LINE_OF_A_MOTE.test(line) ? undefined : networkWords(line))), answers = lines.map(() => null);
  for (const [number, { places, texts }] of [...linesOfMotes(lines)].slice(0, MOST_MOTES_IN_WORDS)) {
    const found = tellLines(moteNumbered(motes, number), bytesOfLines(texts));
    for (const [at, place] of places.entries()) {
      words[place] = found.words[at];
      answers[place] = places[found.answers[at]] ?? null;
    }
  }
  return { words, answers, clocks: networkClocks(lines) };
}

// A transcript in words: of one mote, or of all motes of a network.
function tellRun(experiment, transcript, lines) {
  if (!isNetwork(experiment)) return tellLines(moteOf(experiment), transcript);
  const motes = motesIn(experiment.network);
  return { motes, ...(experiment.only === null ? tellNetwork(motes, lines) : tellLines(moteNumbered(motes, experiment.only), transcript)) };
}

const TASKS = {
  run({ experiment }, tell) {
    tell(isNetwork(experiment) ? "Running the network" : "Running the mote");
    const begun = performance.now();
    const ran = isNetwork(experiment) ? runNetwork(tools, experiment) : runExperiment(tools.library, tools.scenario, experiment);
    const took = performance.now() - begun;
    if (!ran.transcript) return ran;
    const lines = linesIn(textOf(ran.transcript));
    tell(`Putting ${lines.length.toLocaleString("en")} lines into words`);
    const found = tellRun(experiment, ran.transcript, lines);
    return { ...ran, took, lines, rows: lines.length > MOST_UNFOLDED ? foldedRows(lines) : null, ...found };
  },

  // The lines of one mote of a network, for a picture.
  mote({ experiment, number }, tell) {
    tell(`Running the network for mote ${number}`);
    const { transcript, fault: found } = runNetwork(tools, { ...experiment, only: number });
    if (!transcript) return { fault: found.message };
    const mote = moteNumbered(motesIn(experiment.network), number), { page } = tellLines(mote, transcript);
    return { number, mote, transcript, page };
  },

  // The words of lines that were played by hand.
  tell({ experiment, lines }) {
    return tellLines(moteOf(experiment), bytesOfLines(lines));
  },

  picture({ mote, transcript, options }, tell) {
    tell("Drawing the picture");
    return drawnBy(tools.picture, [...options, ...pictureWords(mote)], transcript);
  },

  // The chart of a network with all its motes and lines, at most this number of them, or null.
  chart({ experiment, options, most }, tell) {
    tell("Running the network");
    const { transcript, script, fault: found } = runNetwork(tools, { ...experiment, only: null, quiet: false });
    if (!transcript) return { fault: found.message };
    tell("Drawing the chart");
    const lines = linesIn(textOf(transcript)), isFront = most !== null && lines.length > most;
    const front = isFront ? bytesOfLines(lines.slice(0, most)) : transcript;
    return { ...drawnBy(tools.chart, options, joined([bytesOfLines(linesIn(script)), front])), isFront };
  },
};

onmessage = ({ data }) => {
  if (data.modules) {
    modules = data.modules;
    return;
  }
  const { id } = data;
  try {
    tools ??= makeTools();
    postMessage({ id, done: TASKS[data.task](data, (phase) => postMessage({ id, phase })) });
  } catch (error) {
    // After a trap nothing is known of the instances.
    tools = null;
    const isMemory = error instanceof OutOfMemory || error instanceof RangeError;
    postMessage({ id, failed: isMemory ? "The mote ran out of memory." : String(error.message) });
  }
};
