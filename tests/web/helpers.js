// What the scripts of the tests use beside those of the page.
const idle = async () => {
  for (let quiet = 0; quiet < 3; quiet++) {
    await new Promise((done) => setTimeout(done, 5));
    if (runner.isBusy || isWaiting) quiet = -1;
  }
};
const transcript = () => shown.run.lines.map((line) => `${line}\n`).join("");
const click = async (id) => { byId(id).click(); await idle(); };
const sum = async (bytes) => hexOf(new Uint8Array(await crypto.subtle.digest("SHA-256", bytes)));
