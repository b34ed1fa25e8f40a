// A program of the mote as a module of WebAssembly.
class Program {
  constructor(module, name, most = MOST_MEMORY) {
    this.module = module;
    this.name = name;
    this.most = most;
  }

  // Runs the program, each time in a new instance: arguments, standard input, and one file { name, bytes } or none.
  // Returns { status, output, errors } with bytes.
  run(words, input, file = null) {
    const written = { 1: [], 2: [] };
    const instance = new Instance(this.module, this.most, {
      write: (descriptor, at, length) => written[descriptor].push(instance.bytes(at, length).slice()),
    });
    if (file) instance.calls.page_file(instance.put(utf8.encode(`${file.name}\0`)), instance.put(file.bytes), file.bytes.length);
    const text = [this.name, ...words].map((word) => `${word}\0`).join("");
    const status = instance.calls.page_main(instance.put(utf8.encode(text)), words.length + 1, instance.put(input), input.length);
    return { status, output: joined(written[1]), errors: joined(written[2]) };
  }
}
