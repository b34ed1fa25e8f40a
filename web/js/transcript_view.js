// A transcript as a grid, by the pattern of the ARIA guide: the grid has the focus, and names the chosen row. Rows are made when they are
// close to the visible part, so it may have any number of lines.
const ROWS_OF_A_PART = 200;
const ROW_HEIGHT = 26;

function element(name, look, text, parent) {
  const made = document.createElement(name);
  if (look) made.className = look;
  if (text !== undefined) made.textContent = text;
  if (parent) parent.append(made);
  return made;
}

function withRole(role, of) {
  of.setAttribute("role", role);
  return of;
}

const CHOOSE = "Choose a line, by a click or with ↑ and ↓, to read what it means.";
const EMPTY = "The transcript is empty.";
const KINDS_OF_LINES = [
  [/^>/, "input"], [/^note/, "note"], [/^(halt|bad|too)/, "end"], [/^=/, "passed"], [/^(lost|full|missed)/, "unheard"], [/^/, "turn"],
];
const kindOf = (line) => KINDS_OF_LINES.find(([form]) => form.test(line))[1];
const shownNumber = (number) => number.toLocaleString("en");

class TranscriptView {
  // `host` scrolls; `about` is where the chosen line is explained.
  constructor(host, about) {
    Object.assign(this, { host, about, rows: [], lines: [], chosen: -1 });
    host.setAttribute("aria-readonly", "true");
    const fillSeen = (parts) => parts.filter((part) => part.isIntersecting).forEach((part) => this.fill(part.target));
    this.observer = new IntersectionObserver(fillSeen, { root: host, rootMargin: "800px" });
    host.addEventListener("keydown", (event) => this.takeKey(event));
    host.addEventListener("click", (event) => this.takeClick(event));
  }

  // Shows { lines, words, clocks, answers, rows, names, motes }. `rows` is null if each line has a row; `motes` are those of a network,
  // whose lines begin with the numbers of motes, otherwise null.
  show(told) {
    Object.assign(this, { motes: null }, told, { chosen: -1 });
    this.rows = told.rows ?? told.lines.map((_, first) => ({ first, count: 1, period: 0 }));
    this.about.textContent = this.lines.length > 0 ? CHOOSE : EMPTY;
    this.build();
  }

  build() {
    this.observer.disconnect();
    this.host.removeAttribute("aria-activedescendant");
    this.host.setAttribute("aria-rowcount", this.rows.length + 1);
    this.host.setAttribute("aria-colcount", this.columns.length);
    const table = withRole("presentation", element("table", "transcript"));
    const head = withRole("row", element("tr", "", undefined, withRole("presentation", element("thead", "", undefined, table))));
    for (const [title, look] of this.columns) withRole("columnheader", element("th", look, title, head));
    for (let first = 0; first < this.rows.length; first += ROWS_OF_A_PART) this.addPart(table, first);
    this.host.replaceChildren(table);
    for (const part of table.tBodies) this.observer.observe(part);
    if (table.tBodies[0]) this.fill(table.tBodies[0]);
  }

  get columns() {
    const [first, last] = [[["Line", "number"], ["Clock", "number"]], [["In words", "words"], ["Transcript", "line"]]];
    return this.motes ? [...first, ["Mote", "number"], ...last] : [...first, ...last];
  }

  // A line as { mote: its number or null, text: without the number, names: of that mote's applications }.
  lineAt(place) {
    const text = this.lines[place], own = this.motes && LINE_OF_A_MOTE.exec(text);
    if (!own) return { mote: null, text, names: this.motes ? [] : this.names };
    return { mote: Number(own[1]), text: own[2], names: moteNumbered(this.motes, Number(own[1])).names };
  }

  // The mote of the chosen line, or null.
  get chosenMote() {
    return this.chosen < 0 ? null : this.lineAt(this.rows[this.chosen].first).mote;
  }

  addPart(table, first) {
    const part = withRole("presentation", element("tbody", "", undefined, table));
    const count = Math.min(ROWS_OF_A_PART, this.rows.length - first);
    part.dataset.first = first;
    const gap = withRole("presentation", element("tr", "gap", undefined, part));
    withRole("presentation", element("td", "", undefined, gap)).style.height = `${count * ROW_HEIGHT}px`;
  }

  fill(part) {
    if (part.dataset.isFilled) return;
    part.dataset.isFilled = "yes";
    this.observer.unobserve(part);
    const first = Number(part.dataset.first), made = [];
    for (let row = first; row < Math.min(first + ROWS_OF_A_PART, this.rows.length); row++) made.push(this.makeRow(row));
    part.replaceChildren(...made);
  }

  makeRow(row) {
    const { first, count } = this.rows[row], made = element("tr", count > 1 ? "fold" : kindOf(this.lineAt(first).text));
    made.dataset.row = row;
    made.id = `${this.host.id}-${row}`;
    made.setAttribute("aria-rowindex", row + 2);
    made.setAttribute("aria-selected", "false");
    element("td", "number", shownNumber(first + 1), made);
    if (count > 1) this.fillFold(made, row);
    else this.fillLine(made, row, first);
    for (const cell of withRole("row", made).cells) withRole("gridcell", cell);
    return made;
  }

  fillFold(made, row) {
    const { first, count, period } = this.rows[row], cell = element("td", "", undefined, made);
    cell.colSpan = this.columns.length - 1;
    cell.setAttribute("aria-colspan", this.columns.length - 1);
    const what = period === 1 ? "the line above" : `the ${period} lines above`;
    element("span", "", `to ${shownNumber(first + count)}: ${what}, ${shownNumber(count / period)} times more `, cell);
    element("button", "unfold", "Show these lines", cell).type = "button";
  }

  fillLine(made, row, place) {
    const before = row > 0 ? this.clocks[this.rows[row - 1].first + this.rows[row - 1].count - 1] : undefined;
    const clock = this.clocks[place], { mote, text, names } = this.lineAt(place);
    element("td", "number", clock === undefined || clock === before ? "" : shownNumber(clock), made);
    if (this.motes) element("td", "number mote", mote ?? "", made);
    this.fillWords(element("td", "words", undefined, made), text, names, this.words[place]);
    element("td", "line", this.lines[place], made);
  }

  // The words of a line, from the program if it has any.
  fillWords(cell, text, names, told) {
    const turn = TURN_LINE.exec(text), [first, call, reply] = (told ?? (turn ? `${turn[3]}\t${turn[4]}\t` : text)).split("\t");
    if (!turn) {
      element("span", /^(?:note lost|lost|full|missed)/.test(text) ? "refused" : "", first, cell);
      return;
    }
    const name = names[Number(turn[1]) - FIRST_PROCESS];
    element("b", "process", `${turn[1]}${name ? ` ${name}` : ""}`, cell).style.color = `var(--p${turn[1]})`;
    element("span", "told", ` ${first}${turn[2] === "answer" ? " " : " → "}`, cell);
    element("span", call === "wait" ? "told" : call.startsWith("print") ? "print" : "call", call, cell);
    if (reply) element("span", reply.includes("✗") ? "refused" : "reply", reply, cell);
  }

  // The element of a row, which is made if it isn't there.
  rowElement(row) {
    const part = this.host.querySelectorAll("tbody")[Math.floor(row / ROWS_OF_A_PART)];
    this.fill(part);
    return part.rows[row % ROWS_OF_A_PART];
  }

  choose(row) {
    if (this.rows.length === 0) return;
    const next = Math.max(0, Math.min(row, this.rows.length - 1)), made = this.rowElement(next), { first, count } = this.rows[next];
    const last = this.host.querySelector("tr.chosen");
    last?.classList.remove("chosen");
    last?.setAttribute("aria-selected", "false");
    made.classList.add("chosen");
    made.setAttribute("aria-selected", "true");
    this.host.setAttribute("aria-activedescendant", made.id);
    made.scrollIntoView({ block: "nearest" });
    this.chosen = next;
    const line = shownNumber(first + 1);
    if (count > 1) this.about.textContent = `Lines ${line} to ${shownNumber(first + count)} repeat what is above. Enter shows them.`;
    else this.about.textContent = `Line ${line}${this.lineInWords(first)}${this.replyInWords(first)}`;
  }

  lineInWords(place) {
    const { mote, text, names } = this.lineAt(place);
    if (this.motes && mote === null) return `, of the network: ${networkLineInWords(text)}`;
    return `${mote === null ? "" : `, of mote ${mote}`}: ${lineInWords(text, names)}`;
  }

  replyInWords(place) {
    const answer = this.answers?.[place];
    if (answer === null || answer === undefined) return "";
    const reply = TURN_LINE.exec(this.lineAt(answer).text)?.[3] ?? "", refusal = /^refused (\d+)$/.exec(reply);
    return ` The reply, in line ${shownNumber(answer + 1)}: ${refusal ? `refused, ${REFUSALS.get(Number(refusal[1]))}` : reply}.`;
  }

  unfold(row) {
    const { first, count } = this.rows[row];
    if (count === 1) return;
    const lines = Array.from({ length: count }, (_, place) => ({ first: first + place, count: 1, period: 0 }));
    this.rows = [...this.rows.slice(0, row), ...lines, ...this.rows.slice(row + 1)];
    this.build();
    this.choose(row);
    this.host.focus();
  }

  takeClick(event) {
    const row = event.target.closest("tr[data-row]");
    if (!row) return;
    if (event.target.closest("button.unfold")) this.unfold(Number(row.dataset.row));
    else this.choose(Number(row.dataset.row));
  }

  takeKey(event) {
    const rows = Math.max(1, Math.floor(this.host.clientHeight / ROW_HEIGHT) - 2);
    const steps = { ArrowDown: 1, ArrowUp: -1, PageDown: rows, PageUp: -rows };
    const to = { Home: 0, End: this.rows.length - 1 }[event.key] ?? (event.key in steps ? this.chosen + steps[event.key] : undefined);
    if (event.target !== this.host) return;
    if (to !== undefined) this.choose(to);
    else if (event.key === "Enter" && this.chosen >= 0) this.unfold(this.chosen);
    else return;
    event.preventDefault();
  }
}
