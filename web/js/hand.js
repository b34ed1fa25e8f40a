// A mote whose applications are played by the reader: the actions, and the lines of the transcript.
const MOST_LISTED = RULES.limits.calls_of_a_list;
const BAD_SIZES = "No mote boots with these sizes: look at “Memory sizes”.";
const MALFORMED = ["BAD_LINE", "NO_INPUT"];

class HandMote {
  // Throws an Error if no mote boots with these sizes, or BadCall for a later action.
  constructor(library, sizes, processes, actions = []) {
    Object.assign(this, { library, sizes, processes, actions: [], lines: [], turn: null, step: null });
    this.mote = new Mote(library, sizes, processes);
    if (this.mote.status !== 0) {
      const { status } = this.mote;
      this.close();
      throw new Error(STATUS[status] === "BAD_SIZES" ? BAD_SIZES : `The mote doesn't boot: ${STATUS[status]}.`);
    }
    this.goOn();
    for (const action of actions) this.repeat(action);
  }

  // Works to the next turn, rest or halt.
  goOn() {
    for (;;) {
      const { status, step, turn } = this.mote.next();
      if (status !== 0) throw new Error(`The mote can't go on: ${STATUS[status]}.`);
      Object.assign(this, { step, turn });
      if (step !== "ENTRY") return;
      this.lines.push(this.mote.line());
    }
  }

  // Makes a call for the process whose turn it is. Throws BadCall.
  call(text) {
    const call = readCall(text), status = this.mote.answer(call);
    if (status !== 0) throw new BadCall(`The mote rejects this call (${STATUS[status]}).`);
    this.actions.push({ call: text.trim(), process: this.turn.process });
    this.lines.push(this.mote.line());
    this.goOn();
  }

  // Submits a line of a script. Throws BadCall.
  feed(line) {
    const status = this.mote.feed(line);
    if (MALFORMED.includes(STATUS[status])) throw new BadCall(`“${line}” is malformed.`);
    if (status !== 0) throw new BadCall(`The mote accepts no input now (${STATUS[status]}).`);
    this.actions.push({ feed: line });
    this.goOn();
  }

  repeat({ call, feed }) {
    if (feed === undefined) this.call(call);
    else this.feed(feed);
  }

  // The same mote without the last call or input. Where it can't be made, this one stays open.
  undone() {
    const made = new HandMote(this.library, this.sizes, this.processes, this.actions.slice(0, -1));
    this.close();
    return made;
  }

  get clock() {
    return this.mote.clock();
  }

  // The actions as an experiment: a list of calls for each process, and a script. Throws BadCall.
  asExperiment() {
    const lists = Array.from({ length: this.processes }, () => []), script = [];
    for (const { call, feed, process } of this.actions) {
      if (feed === undefined) lists[process - FIRST_PROCESS].push(call);
      else script.push(feed);
    }
    if (lists.some((list) => list.length > MOST_LISTED)) throw new BadCall(`A list has at most ${MOST_LISTED} calls.`);
    const written = (lines) => lines.map((line) => `${line}\n`).join("");
    const applications = lists.map((list) => ["calls", list.join(", ")].join(" ").trim());
    return { ...this.sizes, quiet: false, applications: written(applications), script: written(script) };
  }

  close() {
    this.mote.close();
  }
}
