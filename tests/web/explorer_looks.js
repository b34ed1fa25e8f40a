// A page's looks: what is wider than the window, and how large its parts are.
const box = (id) => byId(id).getBoundingClientRect();
return {
  width: innerWidth, over: document.documentElement.scrollWidth - innerWidth, rows: box("rows").height, panel: box("panel").height,
  wide: box("panel").width, right: box("panel").right, words: document.querySelector(".row .words").getBoundingClientRect().width,
  headsStay: box("heads").bottom <= box("rows").top + 1,
};
