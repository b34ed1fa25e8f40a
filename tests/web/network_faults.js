// The malformed line of each script, and whether there is a reason; or null.
const modules = await compile();
const programs = { network: new Program(modules.network, "network"), scenario: new Program(modules.scenario, "scenario") };
return CASES.map((network) => {
  const { fault: found } = runNetwork(programs, { network, only: null, quiet: false });
  return found && [found.editor, found.line, found.message !== ""];
});
