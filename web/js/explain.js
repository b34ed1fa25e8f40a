// Explains a line of a transcript in sentences.
const EVENTS = new Map(RULES.events.map(({ code, name }) => [code, name.toUpperCase().replaceAll("-", " ")]));
const REFUSALS = new Map(RULES.refusals.map(({ number, about }) => [number, about]));
const TURN_LINE = /^(\d+) (event|synch|poll|callback|answer) (.*) -> (.*)$/;

// Bytes in hex as a text where they are one.
function bytesInWords(hex) {
  if (hex === "-" || hex === "") return "no bytes";
  const bytes = bytesOfHex(hex);
  return bytes.every((byte) => (byte >= 32 && byte < 127) || byte === 10) ? `“${textOf(bytes).replaceAll("\n", "⏎")}”` : hex;
}

const plural = (count, word) => `${Number(count).toLocaleString("en")} ${word}${count === "1" || count === 1 ? "" : "s"}`;

function inputInWords(kind, value) {
  if (kind === "tick") return `The clock goes on by ${plural(value, "tick")}.`;
  if (kind === "serial") return `${bytesInWords(value)} arrives on the serial line.`;
  return `A radio frame of ${plural(value.length / 2, "byte")} arrives: ${value}.`;
}

function eventInWords(code, payload, origin) {
  const name = EVENTS.get(code), value = payload.startsWith("x") ? bytesInWords(payload.slice(1)) : payload;
  const carried = payload === "-" ? "" : ` with ${value}`;
  const special = {
    129: () => "starts: it receives INIT",
    131: () => "ends: it receives EXIT",
    135: () => `receives EXITED: process ${payload} has ended`,
    136: () => `receives TIMER: its event timer ${payload} has run out`,
    138: () => `receives a line from the serial line: ${value}`,
    139: () => `receives PACKET: a frame of ${plural(payload, "byte")} is held`,
  }[code];
  if (special) return special();
  return `receives event ${name ? `${name} (${code})` : code}${carried} ${origin === "synch" ? "at once" : "from the event queue"}`;
}

function stimulusInWords(origin, stimulus) {
  const [first, ...rest] = stimulus.split(" ");
  if (origin === "poll") return "is polled: it receives POLL";
  if (origin === "callback") return `is called: its callback timer ${first} has run out`;
  if (origin !== "answer") return eventInWords(Number(first), rest[0], origin);
  if (first === "done") return "goes on: its call was done";
  if (first === "refused") return `goes on: its call was refused with ${rest[0]}: ${REFUSALS.get(Number(rest[0]))}`;
  return `goes on: the reply to its call is ${first === "bytes" ? bytesInWords(rest[0]) : rest.join(" ")}`;
}

// An argument of a call, with bytes as a text where they are one.
function argumentInWords(name, word) {
  if (name === "data" && word !== "-") return bytesInWords(word);
  return name === "payload" && /^x./.test(word) ? `x${bytesInWords(word.slice(1))}` : word;
}

// A call as the transcript has it comes after it where bytes are shown as a text.
function callInWords(text) {
  const [name, ...words] = text.split(" "), call = CALLS.get(name);
  const shown = [name, ...words.map((word, place) => argumentInWords(call.arguments[place], word))].join(" ");
  return `It calls ${shown === text ? text : `${shown} (${text})`}. ${call.about}.`;
}

function noteInWords(kind, value) {
  if (kind === "lost") return `The frame is lost: ${REFUSALS.get(Number(value))}.`;
  return `A radio frame is sent: ${bytesInWords(value)}.`;
}

// One or two sentences on a line; `names` are those of the applications.
function lineInWords(line, names) {
  const turn = TURN_LINE.exec(line);
  if (turn) {
    const [, process, origin, stimulus, call] = turn, name = names[Number(process) - FIRST_PROCESS];
    return `Process ${process}${name ? ` (${name})` : ""} ${stimulusInWords(origin, stimulus)}. ${callInWords(call)}`;
  }
  const [first, kind, value] = line.split(" ");
  if (first === ">") return inputInWords(kind, value);
  if (first === "note") return noteInWords(kind, value);
  if (first === "halt") return `The mote halts: this input led to ${RULES.limits.work_of_an_input.toLocaleString("en")} turns and rounds.`;
  if (first === "bad") return `Line ${value} of the script is malformed: the run ends here.`;
  return `The script has more than ${RULES.limits.bytes_of_a_script.toLocaleString("en")} bytes: the run ends here.`;
}

// A sentence on a line of the network.
function networkLineInWords(line) {
  if (/^(?:bad|too)/.test(line)) return lineInWords(line, []);
  return `${networkWords(line).replace(/^./, (letter) => letter.toUpperCase())}.`;
}
