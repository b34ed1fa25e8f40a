// The script's side of a reader's hands.
const press = (key) => byId("rows").dispatchEvent(new KeyboardEvent("keydown", { key, bubbles: true, cancelable: true }));
const line = () => chosen + run.first + 1;
const after = (key) => { press(key); return line(); };
const shown = () => kept.map((place) => place + run.first + 1);
const set = (box, value) => {
  if (box.type === "checkbox") box.checked = value; else box.value = value;
  box.dispatchEvent(new Event("input", { bubbles: true }));
};
const point = (kind, x) => {
  const box = byId("overview").getBoundingClientRect();
  byId("overview").dispatchEvent(new PointerEvent(kind, { clientX: box.left + x, clientY: box.top + 5, pointerId: 1, bubbles: true }));
};
const said = () => byId("panel").innerText;
const isDrawn = (clock, lane) => {
  const canvas = byId("overview");
  const [x, y] = [overviewX(clock, canvas.clientWidth), AXIS + lane * LANE + 2].map((place) => place * devicePixelRatio);
  return canvas.getContext("2d").getImageData(x, y, 1, 1).data[3] > 0;
};
