// Tabs, by the pattern of the ARIA guide: arrow keys go from one to the next, Tab into the panel. A tab may be hidden.
class Tabs {
  // `list` has a button for each panel, which its attribute aria-controls names; `chosen` is called with the panel's id.
  constructor(list, chosen) {
    Object.assign(this, { buttons: [...list.querySelectorAll("[role=tab]")], chosen });
    for (const button of this.buttons) button.addEventListener("click", () => this.choose(this.panelOf(button)));
    list.addEventListener("keydown", (event) => this.takeKey(event));
  }

  panelOf(button) {
    return button.getAttribute("aria-controls");
  }

  get current() {
    return this.panelOf(this.buttons.find((button) => button.getAttribute("aria-selected") === "true"));
  }

  choose(panel) {
    for (const button of this.buttons) {
      const isChosen = this.panelOf(button) === panel;
      button.setAttribute("aria-selected", String(isChosen));
      button.tabIndex = isChosen ? 0 : -1;
      document.getElementById(this.panelOf(button)).hidden = !isChosen;
    }
    this.chosen(panel);
  }

  takeKey(event) {
    const buttons = this.buttons.filter((button) => !button.hidden), last = buttons.length - 1;
    const at = buttons.indexOf(document.activeElement);
    const to = { ArrowRight: at === last ? 0 : at + 1, ArrowLeft: at === 0 ? last : at - 1, Home: 0, End: last }[event.key];
    if (to === undefined || at < 0) return;
    event.preventDefault();
    buttons[to].focus();
    this.choose(this.panelOf(buttons[to]));
  }
}
