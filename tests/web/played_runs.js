// Each case again, step by step: the test plays the lists of calls, and each turn must be told as its line has it.
const library = new Library((await compile()).library);
const goOn = (mote, lists, told) => {
  for (;;) {
    const { status, step, turn } = mote.next();
    if (status !== 0) throw new Error(`next: ${STATUS[status]}`);
    if (step === "REST" || step === "HALTED") return step;
    if (step === "TURN") {
      const answered = mote.answer(readCall(lists[turn.process - 4].shift() ?? "wait"));
      if (answered !== 0) throw new Error(`answer: ${STATUS[answered]}`);
    }
    const line = mote.line();
    const front = step === "TURN" ? `${turn.process} ${RULES.origins[turn.origin]} ${turn.stimulus} -> ` : "";
    if (!line.startsWith(front)) throw new Error(`${front} and ${line}`);
    told.push(line);
  }
};
return CASES.map(({ configuration, lists, script }) => {
  const mote = new Mote(library, configuration, lists.length), told = [];
  let step = goOn(mote, lists, told);
  for (const [place, line] of script.entries()) {
    if (step === "HALTED") break;
    const fed = mote.feed(line);
    if (STATUS[fed] === "BAD_LINE" || STATUS[fed] === "NO_INPUT") {
      told.push(`bad line ${place + 1}`);
      break;
    }
    if (fed !== 0) throw new Error(`feed: ${STATUS[fed]}`);
    step = goOn(mote, lists, told);
  }
  if (mote.close() !== 0) throw new Error("close");
  return told.map((line) => `${line}\n`).join("");
});
