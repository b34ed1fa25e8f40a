// How a panel looks: what is wider than the window, and how large it is.
await click(`tab-${PANEL}`);
const panel = byId(PANEL).getBoundingClientRect(), looked = document.querySelectorAll("button, input, select, .CodeMirror, p, .panel");
const wide = [...looked].filter((it) => it.checkVisibility() && it.getBoundingClientRect().right > innerWidth + 1);
const over = document.documentElement.scrollWidth - innerWidth;
return { over, height: panel.height, width: panel.width, wide: wide.map((it) => it.id || it.className || it.tagName) };
