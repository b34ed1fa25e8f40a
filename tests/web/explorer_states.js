// What a page of `mote_picture --page` tells of a line, in the form of page_data.py.
const order = (a, b) => { for (let k = 0; k < a.length; k++) if (a[k] !== b[k]) return a[k] - b[k]; return 0; };
const canonical = (state) => ({
  active: state.active,
  managed: state.managed.map((block) => [block.pid, block.pid !== 3 && block.name, block.size]),
  heap: state.heap.map((block) => [block.pid, block.name, block.size]).sort(order),
  used: state.used.map((block) => [block.at, block.pid]).sort(order),
  linked: state.linked.map((block) => [block.at, block.name]).sort(order),
  lists: state.lists.map(({ list, blocks }) => [list, blocks]),
  timers: state.timers.map((timer) => [timer.pid, timer.isCallback, timer.number, timer.due]).sort(order),
  events: state.events,
});
const states = (run) => run.lines.map((_, place) => canonical(stateAt(run, run.first + place)));
return RUNS.map((data) => states(readRun(data)));
