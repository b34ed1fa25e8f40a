// What a program does with each case: its status, the sum of its output, and its errors.
const module = (await compile())[PROGRAM];
const program = new Program(module, NAME), sums = [];
const sum = async (bytes) => hexOf(new Uint8Array(await crypto.subtle.digest("SHA-256", bytes)));
for (const { words, input, file } of CASES) {
  const ran = program.run(words, utf8.encode(input), file === null ? null : { name: "run", bytes: bytesOfBase64(file) });
  sums.push([ran.status, await sum(ran.output), textOf(ran.errors)]);
}
return sums;
