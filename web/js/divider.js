// The bar between the experiment and its results: it is dragged, or moved by arrow keys.
const LEAST_WIDTH = 320;
const LEAST_RESULTS = 360;
const WIDTH_STEP = 24;

function makeDivider(bar, side) {
  const most = () => Math.max(LEAST_WIDTH, innerWidth - LEAST_RESULTS);
  const tell = () => {
    const values = { valuemin: LEAST_WIDTH, valuemax: most(), valuenow: Math.round(side.getBoundingClientRect().width) };
    for (const [name, value] of Object.entries(values)) bar.setAttribute(`aria-${name}`, value);
  };
  const widen = (width) => {
    document.documentElement.style.setProperty("--side", `${Math.max(LEAST_WIDTH, Math.min(width, most()))}px`);
    tell();
  };
  bar.addEventListener("pointerdown", (event) => bar.setPointerCapture(event.pointerId));
  bar.addEventListener("pointermove", (event) => bar.hasPointerCapture(event.pointerId) && widen(event.clientX));
  bar.addEventListener("keydown", ({ key }) => {
    const step = { ArrowLeft: -WIDTH_STEP, ArrowRight: WIDTH_STEP }[key];
    if (step !== undefined) widen(side.getBoundingClientRect().width + step);
  });
  addEventListener("resize", tell);
  tell();
}
