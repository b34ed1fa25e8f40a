// Texts that stand out too little from their ground: less than 4.5 to 1, as the guidelines for accessible pages (WCAG 2) measure it.
const linear = (value) => (value <= 0.03928 ? value / 12.92 : ((value + 0.055) / 1.055) ** 2.4);
const luminance = (colour) => {
  const [red, green, blue] = colour.match(/[\d.]+/g).slice(0, 3).map((value) => linear(Number(value) / 255));
  return 0.2126 * red + 0.7152 * green + 0.0722 * blue;
};
const isClear = (colour) => /, 0\)$|transparent/.test(colour);
const groundOf = (it) => {
  for (let at = it; at; at = at.parentElement) {
    const { backgroundColor } = getComputedStyle(at);
    if (!isClear(backgroundColor)) return backgroundColor;
  }
  return "rgb(255, 255, 255)";
};
const ratioOf = (it) => {
  const [text, ground] = [luminance(getComputedStyle(it).color), luminance(groundOf(it))];
  return (Math.max(text, ground) + 0.05) / (Math.min(text, ground) + 0.05);
};
await click("tab-transcript");
await showExperiment({ applications: "calls print \"hi\", timer-set 9 1, frob\n".repeat(16), script: "tick 1\n" });
await showExperiment({ applications: "calls print \"hi\", timer-set 9 1\n".repeat(16), script: "tick 1\ntick\n" });
const weakTexts = () => {
  const texts = [...document.querySelectorAll("p, b, span, td, th, button:enabled, label, a, h1, h2, h3, summary, .mistake")];
  const shownTexts = texts.filter((it) => it.checkVisibility() && it.textContent.trim() !== "");
  const weak = shownTexts.filter((it) => ratioOf(it) < 4.5);
  return weak.slice(0, 5).map((it) => [ratioOf(it), it.className || it.id || it.tagName, it.textContent.slice(0, 20)]);
};
const found = weakTexts();
await showExperiment({ network: "mote 1..2 relay\nlink 1 2 delay 1 every 1\n1 frame 01\n2 serial 0a\ntick 9\nlink\n", only: null });
await idle();
return [...found, ...weakTexts()];
