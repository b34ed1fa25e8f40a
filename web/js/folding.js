// Folds lines that repeat those right before them, so that a long run can be read.
const LONGEST_PERIOD = 64;
const FEWEST_FOLDED = 4;

// Gives equal lines equal numbers.
function numbered(lines) {
  const known = new Map();
  return Int32Array.from(lines, (line) => {
    if (!known.has(line)) known.set(line, known.size);
    return known.get(line);
  });
}

// The length of the lines from `at` on that repeat those `period` lines before.
function repeatedFrom(numbers, at, period) {
  let end = at;
  while (end < numbers.length && numbers[end] === numbers[end - period]) end++;
  return end - at - ((end - at) % period);
}

// The shortest period that repeats at a line, and for how many lines: { period, count }.
function repetitionAt(numbers, at) {
  for (let period = 1; period <= Math.min(at, LONGEST_PERIOD); period++) {
    if (numbers[at] !== numbers[at - period]) continue;
    const count = repeatedFrom(numbers, at, period);
    if (count >= Math.max(2 * period, FEWEST_FOLDED)) return { period, count };
  }
  return null;
}

// The lines in rows { first, count, period }: a row has one line, or all those that repeat the last `period` ones before it.
function foldedRows(lines) {
  const numbers = numbered(lines), rows = [];
  for (let at = 0; at < lines.length;) {
    const { period, count } = repetitionAt(numbers, at) ?? { period: 0, count: 1 };
    rows.push({ first: at, count, period });
    at += count;
  }
  return rows;
}
