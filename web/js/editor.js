// The editors, by CodeMirror: lines with numbers, and messages at malformed lines.

// The lines of a network's script, and what each does.
const NETWORK_LINES = [
  ["mote N WORD..", "The next mote, or motes N..M: names of applications, sizes as --mmem 64, and at the end calls and a list of calls."],
  ["link A B delay D", "What mote A sends, mote B hears D ticks later; D is at least 1."],
  ["line N..M delay D", "Links both ways between each mote and the next."],
  ["ring N..M delay D", "The same, and between the last and the first; at least three motes."],
  ["mesh N..M delay D", "Links both ways between each two motes."],
  ["grid N..M width W delay D", "Rows of W motes, with links both ways between neighbours."],
  ...RULES.losses.map(({ form, about }) => [`.. ${form}`, `After a delay: ${about}.`]),
  ["room N", "The number of frames that can be in flight (default: 1,024)."],
  ["rounds N", "The number of rounds that one line can take (default: 16,777,216)."],
  ["tick N", "The clock goes on by N ticks."],
  ["N serial HEX", "Bytes arrive on the serial line of mote N."],
  ["N frame HEX", "A frame from outside arrives at mote N."],
];

const LOSS_WORDS = RULES.losses.flatMap(({ form }) => form.match(/\b[a-z]+\b/g));
const CALL_NAMES = new RegExp(`(?:${RULES.calls.map(({ name }) => name).sort((a, b) => b.length - a.length).join("|")})(?![\\w-])`);
const GUTTERS = ["CodeMirror-linenumbers", "mistakes"];

CodeMirror.defineSimpleMode("applications", {
  start: [
    { regex: /#.*/, sol: true, token: "comment" },
    { regex: /(?:app|calls|rows|on)\b/, sol: true, token: "keyword" },
    { regex: /"(?:[^"\\]|\\.)*"?/, token: "string" },
    { regex: CALL_NAMES, token: "builtin" },
    { regex: /\b(?:repeat|told)\b/, token: "keyword" },
    { regex: /\bx?[0-9a-fA-F]+\b/, token: "number" },
    { regex: /[\w-]+/, token: null },
  ],
});
CodeMirror.defineSimpleMode("script", {
  start: [
    { regex: /#.*/, sol: true, token: "comment" },
    { regex: /(?:tick|serial|frame|text|at|times|script|last)\b/, token: "keyword" },
    { regex: /"(?:[^"\\]|\\.)*"?/, token: "string" },
    { regex: /\b[0-9a-fA-F]+\b/, token: "number" },
    { regex: /\w+/, token: null },
  ],
});

CodeMirror.defineSimpleMode("network", {
  start: [
    { regex: /#.*/, sol: true, token: "comment" },
    { regex: new RegExp(`(?:${SETUP_WORDS.join("|")}|tick)\\b`), sol: true, token: "keyword" },
    { regex: new RegExp(`(?:delay|${LOSS_WORDS.join("|")}|width|calls|serial|frame)\\b|--\\w+`), token: "keyword" },
    { regex: CALL_NAMES, token: "builtin" },
    { regex: /\bx?[0-9a-fA-F]+\b/, token: "number" },
    { regex: /[\w-]+/, token: null },
  ],
});

// The completions: the first words of a network's lines at the start of a line, otherwise the names of calls.
const CALL_HINTS = RULES.calls.map((call) => ({ text: call.name, displayText: `${formOf(call)}: ${call.about}` }));
const LINE_HINTS = NETWORK_LINES.filter(([form]) => /^[a-z]/.test(form))
  .map(([form, about]) => ({ text: `${form.split(" ")[0]} `, displayText: `${form}: ${about}` }));

function completeWord(editor) {
  const cursor = editor.getCursor(), before = editor.getLine(cursor.line).slice(0, cursor.ch), typed = /[a-z-]*$/.exec(before)[0];
  const isFirst = editor.getOption("mode") === "network" && typed === before;
  const list = (isFirst ? LINE_HINTS : CALL_HINTS).filter(({ text }) => text.startsWith(typed));
  return { list, from: CodeMirror.Pos(cursor.line, cursor.ch - typed.length), to: cursor };
}

const offerWords = (editor) => editor.showHint({ hint: completeWord, completeSingle: false });

class Editor {
  constructor(host, mode, { label, help, changed }) {
    this.code = CodeMirror(host, {
      mode, lineNumbers: true, gutters: GUTTERS, lineWrapping: true, viewportMargin: 60, inputStyle: "contenteditable",
      spellcheck: false,
      // Tab leaves the editor, as it does each other field.
      extraKeys: { Tab: false, "Shift-Tab": false, "Ctrl-Space": offerWords },
    });
    const field = this.code.getInputField();
    field.setAttribute("aria-label", label);
    field.setAttribute("aria-describedby", help);
    field.setAttribute("role", "textbox");
    field.setAttribute("aria-multiline", "true");
    this.field = field;
    this.widgets = [];
    this.code.on("change", (_, { origin }) => origin !== "setValue" && changed());
  }

  get text() {
    return this.code.getValue();
  }

  set text(text) {
    this.code.setValue(text);
  }

  // Appends a line, and goes there.
  append(text) {
    const { code } = this, last = code.lastLine(), isOpen = code.getLine(last) !== "";
    code.replaceRange(`${isOpen ? "\n" : ""}${text}\n`, CodeMirror.Pos(last, code.getLine(last).length));
    code.setCursor(CodeMirror.Pos(code.lastLine(), 0));
  }

  // Adds a line after the one of this number; 0: as the first one.
  insert(after, text) {
    const { code } = this, last = code.lastLine(), isPast = after > last;
    if (isPast) code.replaceRange(`\n${text}`, CodeMirror.Pos(last, code.getLine(last).length));
    else code.replaceRange(`${text}\n`, CodeMirror.Pos(after, 0));
    code.setCursor(CodeMirror.Pos(after, text.length));
  }

  unmark() {
    for (const widget of this.widgets) widget.clear();
    this.widgets = [];
    this.code.clearGutter("mistakes");
    this.code.eachLine((line) => this.code.removeLineClass(line, "background", "mistaken"));
    this.field.removeAttribute("aria-invalid");
  }

  // Marks a line, from 1 on, with what is wrong with it.
  mark(line, message) {
    const at = Math.min(line - 1, this.code.lastLine());
    const sign = Object.assign(document.createElement("span"), { className: "mistake-sign", textContent: "●", title: message });
    const words = Object.assign(document.createElement("div"), { className: "mistake", textContent: message });
    this.code.setGutterMarker(at, "mistakes", sign);
    this.code.addLineClass(at, "background", "mistaken");
    this.widgets.push(this.code.addLineWidget(at, words));
    this.field.setAttribute("aria-invalid", "true");
  }

  focus() {
    this.code.focus();
  }

  refresh() {
    this.code.refresh();
  }
}
