// The library libtoarmuts as a module of WebAssembly: the calls of toarmuts.h, whose structs are read and written by their bytes.
const STATUS = {
  0: "FINISHED", 2: "BAD_LINE", 3: "HALTED", 4: "TOO_LONG", 16: "NOT_TEXT", 17: "NO_APPLICATION", 18: "TOO_MANY_APPLICATIONS",
  19: "BAD_SIZES", 20: "NO_ROOM", 21: "OUT_OF_MEMORY", 22: "CLOSED", 23: "IS_OPEN", 24: "AWAITS_CALL", 25: "NO_TURN", 26: "NOT_AT_REST",
  27: "NO_CALL", 28: "NO_INPUT", 29: "TOO_MANY_INPUTS", 30: "NO_LINE",
};
const STEPS = ["TURN", "ENTRY", "REST", "HALTED"];
const LAST_STATUS_OF_A_RUN = 4;
const FIRST_ROOM = 2 ** 20;
const LONGEST_LINE = 639;
// Replaces a number of more than 32 bits: no mote has such a size.
const NO_SIZE = 0xffffffff;
const isUint32 = (number) => Number.isInteger(number) && number >= 0 && number <= 0xffffffff;

// The sizes of the structs, in bytes, and where their members are.
const CONFIGURATION = { size: 24, members: ["mmem", "heap", "header", "has_quota", "quota", "quiet"] };
const ANSWER = { size: 40, status: 0, line: 8, length: 16, reason: 24, application: 28, call: 32 };
const TURN = {
  size: 184, process: 0, origin: 4, stimulus: 8, event: 12, payload: 16, reply: 20, number: 24, stats: 32, length: 52, bytes: 56,
};
const CALL = { size: 160, kind: 0, numbers: 4, payload: 20, number: 24, length: 28, bytes: 32 };
const MOTE_SIZE = 16;

class Library {
  constructor(module, most = MOST_MEMORY) {
    this.instance = new Instance(module, most);
  }

  // Writes a configuration { mmem, heap, header, quota, quiet } to a block; `quota` is null if there is none.
  putConfiguration(at, { mmem, heap, header, quota, quiet }) {
    const view = this.instance.view(at, CONFIGURATION.size);
    const members = [mmem, heap, header, quota === null ? 0 : 1, quota ?? 0, quiet ? 1 : 0];
    members.forEach((member, place) => view.setUint32(4 * place, isUint32(member) ? member : NO_SIZE, true));
  }

  // Runs applications (a text, a line for each) with a script (bytes). Returns the outcome's members, and the transcript or null.
  run(configuration, applications, script) {
    const first = this.runWithRoom(configuration, applications, script, FIRST_ROOM);
    return first.name === "NO_ROOM" ? this.runWithRoom(configuration, applications, script, first.length) : first;
  }

  runWithRoom(configuration, applications, script, size) {
    return this.instance.within(({ zeros, put, room }) => {
      const numbers = zeros(CONFIGURATION.size), answer = zeros(ANSWER.size), text = utf8.encode(applications);
      const [names, inputs, transcript] = [put(text), put(script), room(size)];
      this.putConfiguration(numbers, configuration);
      const [textLength, scriptLength, roomLength] = [text.length, script.length, size].map(BigInt);
      this.instance.calls.toarmuts_run(numbers, names, textLength, inputs, scriptLength, transcript, roomLength, answer);
      const ran = this.readAnswer(answer);
      return { ...ran, transcript: ran.status <= LAST_STATUS_OF_A_RUN ? this.instance.bytes(transcript, ran.length).slice() : null };
    });
  }

  readAnswer(at) {
    const view = this.instance.view(at, ANSWER.size);
    const small = (member) => view.getUint32(ANSWER[member], true), large = (member) => Number(view.getBigUint64(ANSWER[member], true));
    return {
      status: small("status"), name: STATUS[small("status")], line: large("line"), length: large("length"), reason: small("reason"),
      application: small("application"), call: large("call"),
    };
  }
}

// A mote that runs step by step. Its calls return a status; 0: it was done.
class Mote {
  constructor(library, configuration, applications) {
    const { instance } = library;
    this.instance = instance;
    this.calls = instance.calls;
    this.held = instance.allocateZeros(MOTE_SIZE);
    const sizes = { turn: TURN.size, call: CALL.size, line: LONGEST_LINE + 1, result: 8 };
    this.blocks = Object.fromEntries(Object.entries(sizes).map(([name, size]) => [name, instance.allocateZeros(size)]));
    instance.within(({ zeros }) => {
      const numbers = zeros(CONFIGURATION.size);
      library.putConfiguration(numbers, configuration);
      this.status = this.calls.toarmuts_open(numbers, applications, this.held);
    });
  }

  // Submits a line of a script.
  feed(line) {
    return this.instance.within(({ put }) => {
      const bytes = utf8.encode(line);
      return this.calls.toarmuts_feed(this.held, put(bytes), BigInt(bytes.length));
    });
  }

  // Works to the next turn, entry or rest: { status, step, turn }.
  next() {
    const { result, turn } = this.blocks, status = this.calls.toarmuts_next(this.held, result, turn);
    if (status !== 0) return { status, step: null, turn: null };
    const step = STEPS[this.instance.view(result, 4).getUint32(0, true)];
    return { status, step, turn: step === "TURN" ? this.readTurn() : null };
  }

  // The turn that awaits its call: { process, origin, stimulus }, the stimulus as a transcript writes it.
  readTurn() {
    const view = this.instance.view(this.blocks.turn, TURN.size), member = (name) => view.getUint32(TURN[name], true);
    const number = view.getBigUint64(TURN.number, true), hex = hexOf(this.instance.bytes(this.blocks.turn + TURN.bytes, member("length")));
    const payload = () => ["-", String(number), `x${hex}`][member("payload")];
    const stats = () => [0, 1, 2, 3, 4].map((place) => view.getUint32(TURN.stats + 4 * place, true)).join(" ");
    const replies = [() => "done", () => `refused ${number}`, () => `num ${number}`, () => `wide ${number}`,
      () => `flag ${number ? "true" : "false"}`, () => `bytes ${hex || "-"}`, () => `stats ${stats()}`];
    const stimuli = [() => `${member("event")} ${payload()}`, () => String(number), () => replies[member("reply")]()];
    return { process: member("process"), origin: member("origin"), stimulus: stimuli[member("stimulus")]() };
  }

  // Makes a call { kind, numbers, payload, number, bytes } for the process whose turn it is.
  answer({ kind, numbers, payload, number, bytes }) {
    const at = this.blocks.call, view = this.instance.view(at, CALL.size);
    this.instance.bytes(at, CALL.size).fill(0);
    view.setUint32(CALL.kind, kind, true);
    numbers.forEach((value, place) => view.setUint32(CALL.numbers + 4 * place, value, true));
    view.setUint32(CALL.payload, payload, true);
    view.setUint32(CALL.number, number, true);
    view.setUint32(CALL.length, bytes.length, true);
    this.instance.bytes(at + CALL.bytes, bytes.length).set(bytes);
    return this.calls.toarmuts_submit(this.held, at);
  }

  // The transcript's line of the last entry, or null.
  line() {
    const { line, result } = this.blocks;
    if (this.calls.toarmuts_line(this.held, line, BigInt(LONGEST_LINE), result) !== 0) return null;
    return textOf(this.instance.bytes(line, Number(this.instance.view(result, 8).getBigUint64(0, true))));
  }

  // The ticks since boot, as a BigInt.
  clock() {
    this.calls.toarmuts_clock(this.held, this.blocks.result);
    return this.instance.view(this.blocks.result, 8).getBigUint64(0, true);
  }

  close() {
    const status = this.calls.toarmuts_close(this.held);
    for (const at of [this.held, ...Object.values(this.blocks)]) this.instance.free(at);
    return status;
  }
}
