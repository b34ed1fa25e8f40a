// The tab in which the reader is the application.
const QUESTION = "Which call does it make?";

class HandView {
  // `sizes` returns those of the experiment; `take` receives an experiment; `tell` resolves with words for lines.
  constructor({ library, sizes, take, tell }) {
    const view = new TranscriptView(byId("hand-lines"), byId("hand-about"));
    Object.assign(this, { library, sizes, take, tell, view, hand: null, drawn: 0 });
    byId("boot").addEventListener("click", () => this.boot());
    byId("undo").addEventListener("click", () => this.attempt(() => { this.hand = this.hand.undone(); }));
    byId("take").addEventListener("click", () => this.attempt(() => this.take(this.hand.asExperiment())));
    byId("ask").addEventListener("submit", (event) => {
      event.preventDefault();
      this.makeCall(byId("call").value);
    });
    for (const button of document.querySelectorAll("[data-call]")) {
      button.addEventListener("click", () => this.makeCall(button.dataset.call));
    }
    byId("call").addEventListener("input", () => this.showHelp());
    const options = RULES.calls.map((call) => Object.assign(document.createElement("option"), { value: call.name, label: formOf(call) }));
    byId("calls").append(...options);
  }

  boot() {
    this.attempt(() => {
      this.hand?.close();
      this.hand = null;
      this.hand = new HandMote(this.library, this.sizes(), Number(byId("processes").value));
    });
  }

  makeCall(text) {
    this.attempt(() => {
      this.hand.call(text);
      byId("call").value = "";
    });
    if (this.hand?.turn) byId("call").focus();
  }

  feed(line) {
    this.attempt(() => this.hand.feed(line));
  }

  // Does something and draws, and shows its fault if there is one.
  attempt(work) {
    byId("hand-fault").textContent = "";
    try {
      work();
    } catch (error) {
      byId("hand-fault").textContent = error.message;
    }
    this.draw();
  }

  stateInWords() {
    const { hand } = this;
    if (!hand) return "No mote is running.";
    const clock = `Clock ${hand.clock.toLocaleString("en")}. `;
    if (hand.turn) return `${clock}It is process ${hand.turn.process}'s turn.`;
    if (hand.step === "HALTED") return `${clock}The mote halted: one input led to too much work.`;
    return `${clock}The mote rests: nothing happens until an input arrives.`;
  }

  turnInWords() {
    const { process, origin, stimulus } = this.hand.turn;
    return `Process ${process} ${stimulusInWords(RULES.origins[origin], stimulus)}. ${QUESTION}`;
  }

  draw() {
    const { hand } = this, isTurn = Boolean(hand?.turn);
    byId("state").textContent = this.stateInWords();
    byId("ask").hidden = !isTurn;
    if (isTurn) byId("turn").textContent = this.turnInWords();
    for (const button of byId("hand-inputs").querySelectorAll("button")) button.disabled = !hand || isTurn || hand.step === "HALTED";
    byId("undo").disabled = !hand || hand.actions.length === 0;
    byId("take").disabled = !hand || hand.actions.length === 0;
    this.showHelp();
    this.showLines();
  }

  showHelp() {
    const help = byId("call-help"), call = aboutCall(byId("call").value);
    help.replaceChildren();
    if (!call) {
      help.textContent = "Type a call, for example timer-set 0 10, or print \"hello\". An empty box lists all calls.";
      return;
    }
    element("code", "", call.form, help);
    element("span", "", ` ${call.about}`, help);
    const list = element("ul", "", undefined, help);
    for (const [name, about] of call.arguments) element("li", "", `${name}: ${about}`, list);
  }

  // The words come from the worker: of several drawings only the last one is shown. Lines whose words were stopped are shown without.
  async showLines() {
    const drawn = ++this.drawn, lines = this.hand ? [...this.hand.lines] : [];
    const found = await this.tell(lines, this.hand?.sizes).catch(() => ({ words: [], clocks: [], answers: [] }));
    if (drawn !== this.drawn) return;
    this.view.show({ ...found, lines, rows: null, names: [] });
    if (lines.length > 0) this.view.choose(lines.length - 1);
  }
}
