// The memory of a module of WebAssembly, which the page provides. scripts/for-web links each module for this least size.
const PAGE_BYTES = 65536;
const LEAST_PAGES = 64;
const MOST_MEMORY = 2 ** 30;

class OutOfMemory extends Error {}

// An instance of a module with its memory, and the blocks that the page has in it.
class Instance {
  constructor(module, most, imports = {}) {
    const maximum = Math.max(LEAST_PAGES, Math.floor(most / PAGE_BYTES));
    this.memory = new WebAssembly.Memory({ initial: LEAST_PAGES, maximum });
    this.calls = new WebAssembly.Instance(module, { env: { memory: this.memory, ...imports } }).exports;
  }

  bytes(at, length) {
    return new Uint8Array(this.memory.buffer, at, length);
  }

  view(at, length) {
    return new DataView(this.memory.buffer, at, length);
  }

  // A block of bytes of any value. Throws OutOfMemory.
  allocate(length) {
    const at = this.calls.page_alloc(length);
    if (at === 0) throw new OutOfMemory(`no memory for ${length.toLocaleString("en")} bytes`);
    return at;
  }

  // A block of bytes 0.
  allocateZeros(length) {
    const at = this.allocate(length);
    this.bytes(at, length).fill(0);
    return at;
  }

  // A block with these bytes.
  put(bytes) {
    const at = this.allocate(bytes.length);
    this.bytes(at, bytes.length).set(bytes);
    return at;
  }

  free(at) {
    this.calls.page_free(at);
  }

  // Calls `work` with this instance; blocks that it allocates by the object it is given are freed afterwards.
  within(work) {
    const blocks = [];
    const keep = (at) => {
      blocks.push(at);
      return at;
    };
    try {
      const zeros = (length) => keep(this.allocateZeros(length)), room = (length) => keep(this.allocate(length));
      return work({ zeros, room, put: (bytes) => keep(this.put(bytes)) });
    } finally {
      for (const at of blocks) this.free(at);
    }
  }
}
