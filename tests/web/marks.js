// The lines that are marked as mistaken: the editor, the line from 1 on, and the words at it.
return Object.entries(editors).flatMap(([name, { code }]) => {
  const found = [];
  code.eachLine((line) => {
    if (line.widgets) found.push([name, code.getLineNumber(line) + 1, line.widgets.map(({ node }) => node.textContent).join()]);
  });
  return found;
});
