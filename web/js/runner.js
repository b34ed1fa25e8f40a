// The worker of this page: one task at a time, which can be stopped.
class Stopped extends Error {}

class Runner {
  // `modules` are compiled; `source` is the worker's script; `show` is called with a phase, or null at the end of a task.
  constructor(modules, source, show) {
    const address = URL.createObjectURL(new Blob([source], { type: "text/javascript" }));
    Object.assign(this, { modules, show, address, worker: null, waiting: new Map(), tasks: 0 });
    this.start();
  }

  start() {
    this.worker = new Worker(this.address);
    this.worker.onmessage = ({ data }) => this.take(data);
    // A browser that refuses the worker has no message.
    this.worker.onerror = ({ message }) => this.end(new Error(`The page's worker failed: ${message ?? "this browser refuses it"}.`));
    this.worker.postMessage({ modules: this.modules });
  }

  take({ id, phase, done, failed }) {
    if (phase) {
      this.show(phase);
      return;
    }
    const { resolve, reject } = this.waiting.get(id);
    this.waiting.delete(id);
    if (this.waiting.size === 0) this.show(null);
    if (failed !== undefined) reject(new Error(failed));
    else resolve(done);
  }

  // Resolves with the worker's result; rejects with Stopped, or with an error that has a message.
  ask(task, given) {
    const id = ++this.tasks;
    this.show("Starting");
    if (this.worker === null) this.start();
    return new Promise((resolve, reject) => {
      this.waiting.set(id, { resolve, reject });
      this.worker.postMessage({ id, task, ...given });
    });
  }

  get isBusy() {
    return this.waiting.size > 0;
  }

  stop() {
    this.end(new Stopped());
    this.start();
  }

  // Ends the worker, and rejects what waits for it. The next task starts another one.
  end(why) {
    this.worker?.terminate();
    this.worker = null;
    const waiting = [...this.waiting.values()];
    this.waiting.clear();
    this.show(null);
    for (const { reject } of waiting) reject(why);
  }
}
