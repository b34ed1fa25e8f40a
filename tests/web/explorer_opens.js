// How long a page takes to open and to scroll on, in milliseconds, and what it shows of one of its last lines.
document.body.offsetHeight;
const laid = performance.now();
const scrolls = [];
for (let turn = 0; turn < 50; turn++) {
  const begun = performance.now();
  byId("rows").scrollTop += 60;
  draw();
  drawCursor();
  document.body.offsetHeight;
  scrolls.push(performance.now() - begun);
}
go(77776);
const told = { laid, scroll: scrolls.sort((a, b) => a - b)[25], lines: kept.length };
told.rows = document.querySelectorAll(".row").length;
told.number = document.querySelector(".row.chosen .number").textContent;
return told;
