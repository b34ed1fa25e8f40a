// The library and the programs with the least memory that a page gives: what they tell, and that a later run is right.
const { library, picture, scenario, network } = await compile(), least = LEAST_PAGES * PAGE_BYTES;
const sizes = { ...DEFAULT_SIZES, quiet: false }, long = utf8.encode("tick 1\n".repeat(300000));
const small = new Library(library, least), told = [];

const outcomeOf = (work) => {
  try {
    return work();
  } catch (error) {
    return error.constructor.name;
  }
};
const usual = () => textOf(small.run(sizes, "blink", utf8.encode("tick 10\n")).transcript);

const usuals = [usual()];
told.push(outcomeOf(() => small.run(sizes, "blink", long).name));
usuals.push(usual());

// Motes are opened until there is no memory for one more.
const motes = [];
do motes.push(new Mote(small, { ...sizes, mmem: 65536, heap: 65536 }, 16)); while (motes.at(-1).status === 0);
told.push(STATUS[motes.at(-1).status]);
for (const mote of motes) mote.close();
usuals.push(usual());

const run = (module, name, words, input) => {
  const { status, errors } = new Program(module, name, least).run(words, input, { name: "run", bytes: long });
  return `${status} ${textOf(errors)}`;
};
const transcript = utf8.encode(`4 synch 129 - -> wait\n${"> tick 1\n".repeat(300000)}`);
told.push(outcomeOf(() => run(picture, "mote_picture", ["--page"], transcript)));
told.push(outcomeOf(() => run(scenario, "scenario", ["run"], new Uint8Array())));
told.push(outcomeOf(() => run(network, "network", [], utf8.encode("mote 1..100000 relay\ntick 1\n"))));
const charted = utf8.encode(`mote 1 relay\n${"1 > tick 1\n".repeat(300000)}`);
told.push(outcomeOf(() => run(picture, "network_picture", [], charted)));
return { told, usuals, motes: motes.length };
