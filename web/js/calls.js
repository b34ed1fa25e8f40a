// Calls as the reader writes them, by the rules of rules.json.
const MOST_DATA = RULES.limits.bytes_of_data;
const MOST_PAYLOAD = RULES.limits.bytes_of_a_line;
const PAYLOAD = { NONE: 0, NUMBER: 1, LINE: 2 };
const CALLS = new Map(RULES.calls.map((call, place) => [call.name, { ...call, kind: place + 1 }]));
const ARGUMENTS = new Map(RULES.arguments.map((argument) => [argument.name, argument]));

// Says why a call is malformed.
class BadCall extends Error {}

// Hex in place of a text in quotes: "hi\n". For no bytes that is a dash, but nothing after the x of a line.
function withoutQuotes(line) {
  return line.replace(/(x?)"((?:[^"\\]|\\["\\n])*)"/g, (_, mark, text) => {
    const plain = text.replace(/\\(.)/g, (_all, letter) => (letter === "n" ? "\n" : letter));
    return mark + (hexOf(utf8.encode(plain)) || (mark ? "" : "-"));
  });
}

function readBytes(word, most) {
  if (word === "-") return [];
  if (!/^([0-9a-fA-F]{2})+$/.test(word)) throw new BadCall(`“${word}” must be a text in quotes, or hex: two digits for each byte`);
  if (word.length > 2 * most) throw new BadCall(`at most ${most} bytes are allowed`);
  return word.match(/../g).map((digits) => parseInt(digits, 16));
}

function readNumber(word, most, name) {
  if (!/^(0|[1-9][0-9]*)$/.test(word) || Number(word) > most) {
    throw new BadCall(`“${word}” must be a number from 0 to ${most.toLocaleString("en")} (${name})`);
  }
  return Number(word);
}

function readPayload(word) {
  if (word === "-") return { payload: PAYLOAD.NONE, number: 0, bytes: [] };
  if (word === "x") return { payload: PAYLOAD.LINE, number: 0, bytes: [] };
  if (/^x[^-]/.test(word)) return { payload: PAYLOAD.LINE, number: 0, bytes: readBytes(word.slice(1), MOST_PAYLOAD) };
  return { payload: PAYLOAD.NUMBER, number: readNumber(word, 2 ** 32 - 1, "payload"), bytes: [] };
}

const formOf = (call) => [call.name, ...call.arguments.map((name) => name.toUpperCase().replaceAll("_", "-"))].join(" ");

// A call { kind, numbers, payload, number, bytes, text }, the text as a transcript writes it. Throws BadCall.
function readCall(line) {
  const [name, ...words] = withoutQuotes(line.trim()).split(/ +/), call = CALLS.get(name);
  if (!call) throw new BadCall(`there is no call “${name}”`);
  if (words.length !== call.arguments.length) throw new BadCall(`write ${formOf(call)}`);
  const made = { kind: call.kind, numbers: [], payload: PAYLOAD.NONE, number: 0, bytes: [], text: "" };
  call.arguments.forEach((argument, place) => {
    const word = words[place];
    if (argument === "data") made.bytes = readBytes(word, MOST_DATA);
    else if (argument === "payload") Object.assign(made, readPayload(word));
    else made.numbers.push(readNumber(word, ARGUMENTS.get(argument).most, argument.replaceAll("_", " ")));
  });
  made.text = [name, ...words].join(" ").toLowerCase();
  return made;
}

// The description of a call and of its arguments.
function aboutCall(line) {
  const call = CALLS.get(line.trim().split(" ")[0]);
  if (!call) return null;
  const words = call.arguments.map((name) => [name.replaceAll("_", " "), ARGUMENTS.get(name).about]);
  return { form: formOf(call), about: `${call.about}.`, arguments: words };
}
