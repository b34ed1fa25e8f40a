// The experiment as the end of an address: its JSON, deflated, in base64.
const LINK_START = "#e=";
// The bytes of the JSON at most, as of a script.
const MOST_INFLATED = 2 ** 24;
// The members of an experiment with one mote and of a network, with their types; those of the last one may be null instead.
const MEMBERS = {
  mote: { applications: "string", script: "string", mmem: "number", heap: "number", header: "number", quiet: "boolean" },
  network: { network: "string", quiet: "boolean" },
};
const NUMBERS_OR_NULL = { mote: "quota", network: "only" };

function isWhole(read) {
  if (read === null || typeof read !== "object") return false;
  const kind = isNetwork(read) ? "network" : "mote", last = read[NUMBERS_OR_NULL[kind]];
  return Object.entries(MEMBERS[kind]).every(([name, type]) => typeof read[name] === type) && (last === null || typeof last === "number");
}

class BadLink extends Error {}

// The bytes that come out of a stream. Throws BadLink over this number of them.
async function piped(bytes, stream, most = Infinity) {
  const parts = [];
  let length = 0;
  const reader = new Blob([bytes]).stream().pipeThrough(stream).getReader();
  for (let read = await reader.read(); !read.done; read = await reader.read()) {
    length += read.value.length;
    if (length > most) {
      await reader.cancel();
      throw new BadLink("The link holds more than 16 MB.");
    }
    parts.push(read.value);
  }
  return joined(parts);
}

async function linkOf(experiment) {
  const bytes = await piped(utf8.encode(JSON.stringify(experiment)), new CompressionStream("deflate-raw"));
  return LINK_START + base64ForAddress(bytes);
}

// The experiment of an address's end. Throws BadLink.
async function experimentOf(hash) {
  let read;
  try {
    const bytes = bytesOfBase64(hash.slice(LINK_START.length));
    read = JSON.parse(textOf(await piped(bytes, new DecompressionStream("deflate-raw"), MOST_INFLATED)));
  } catch (error) {
    throw error instanceof BadLink ? error : new BadLink("The link is incomplete: it holds no experiment.");
  }
  if (!isWhole(read)) throw new BadLink("The link holds no experiment of this page.");
  return read;
}
