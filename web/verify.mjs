/* Checks what a transparency log shows: keys, signed checkpoints, tiles, entries and proofs. It needs nothing but
   WebCrypto (SHA-256, Ed25519), and runs in a browser and in Node 20. It is tested (tests/module), not proved: `tlog`
   makes the same checks and is proved.

   The formats are those of C2SP: signed-note, tlog-checkpoint, tlog-cosignature, tlog-tiles and tlog-proof, over the
   Merkle tree of RFC 6962. What isn't right is an error of the class Refused, which says why.

       const policy = await readPolicy({ key: VKEY, witnesses: [VKEY, ..], need: 1 });
       const get = overHttp("https://log.example.com/");
       const log = new Log(get, await openCheckpoint(await get("checkpoint"), policy));
       const entries = await log.bundle(0);          // the first 256 entries, checked
       const index = await log.find(await leafHash(entry));
       const head = await checkProof(proof, entry, policy);                                                    */

export class Refused extends Error {}

const refuse = (why) => { throw new Refused(why); };
const WIDTH = 256;                       // hashes of a full tile, entries of a full bundle
const MOST = { checkpoint: 65536, tile: 32 * WIDTH, bundle: (2 + 65535) * WIDTH };
const LOG_KIND = 1, WITNESS_KIND = 4;    // the first byte of a key

// Bytes and texts

export const utf8 = (text) => new TextEncoder().encode(text);

export function textOf(bytes) {
  try {
    return new TextDecoder("utf-8", { fatal: true, ignoreBOM: true }).decode(bytes);
  } catch {
    return refuse("not UTF-8");
  }
}

export function joined(...parts) {
  const all = new Uint8Array(parts.reduce((length, part) => length + part.length, 0));
  let at = 0;
  for (const part of parts) {
    all.set(part, at);
    at += part.length;
  }
  return all;
}

export const same = (a, b) => a.length === b.length && a.every((byte, i) => byte === b[i]);
export const hex = (bytes) => [...bytes].map((byte) => byte.toString(16).padStart(2, "0")).join("");
export const base64 = (bytes) => btoa(String.fromCharCode(...bytes));

// Bytes of base64 (RFC 4648, section 4), read strictly: with padding and zero trailing bits, and nothing else in it.
export function unbase64(text) {
  if (!/^[A-Za-z0-9+/]*={0,2}$/.test(text) || text.length % 4) refuse("bad base64");
  const bytes = Uint8Array.from(atob(text), (letter) => letter.charCodeAt(0));
  return base64(bytes) === text ? bytes : refuse("bad base64");
}

function hashIn(text) {
  const bytes = unbase64(text);
  return bytes.length === 32 ? bytes : refuse("a hash has 32 bytes");
}

// A decimal number without sign or leading zeros, below 2^63.
function numberIn(text) {
  if (!/^(0|[1-9][0-9]{0,18})$/.test(text) || BigInt(text) >= 1n << 63n) refuse("bad number");
  return BigInt(text);
}

// The Merkle tree (RFC 6962, section 2.1)

export const sha256 = async (...parts) => new Uint8Array(await crypto.subtle.digest("SHA-256", joined(...parts)));
export const leafHash = (entry) => sha256(Uint8Array.of(0), entry);
export const nodeHash = (left, right) => sha256(Uint8Array.of(1), left, right);

// The root over this many hashes, a power of two.
async function rootOf(hashes) {
  while (hashes.length > 1) {
    const pairs = Array.from({ length: hashes.length / 2 }, (_, i) => nodeHash(hashes[2 * i], hashes[2 * i + 1]));
    hashes = await Promise.all(pairs);
  }
  return hashes[0];
}

// The root over complete subtrees, of which each is smaller than the one before it.
async function fold(peaks) {
  let root = peaks[peaks.length - 1];
  for (const peak of peaks.slice(0, -1).reverse()) root = await nodeHash(peak, root);
  return root;
}

// Whether the path leads from the leaf at the index to the root of a tree of this size (RFC 9162, section 2.1.3.2).
export async function isIncluded(leaf, index, size, path, root) {
  let at = BigInt(index), last = BigInt(size) - 1n, hash = leaf;
  if (at > last) return false;
  for (const beside of path) {
    if (last === 0n) return false;
    if (at & 1n || at === last) {
      hash = await nodeHash(beside, hash);
      while (!(at & 1n) && at) [at, last] = [at >> 1n, last >> 1n];
    } else {
      hash = await nodeHash(hash, beside);
    }
    [at, last] = [at >> 1n, last >> 1n];
  }
  return last === 0n && same(hash, root);
}

// Keys

const PRIME = (1n << 255n) - 19n;
const mod = (number) => ((number % PRIME) + PRIME) % PRIME;

function power(base, exponent) {
  let result = 1n;
  for (; exponent; exponent >>= 1n, base = mod(base * base)) if (exponent & 1n) result = mod(result * base);
  return result;
}

const CURVE = mod(-121665n * power(121666n, PRIME - 2n));

// Whether 32 bytes are the one spelling of a point of edwards25519, not of small order (RFC 8032, section 5.1.3).
function isPoint(bytes) {
  const y = BigInt("0x" + hex(bytes.slice().reverse())) & ((1n << 255n) - 1n);
  if (y >= PRIME) return false;
  const yy = mod(y * y), xx = mod((yy - 1n) * power(CURVE * yy + 1n, PRIME - 2n));
  const isSmall = y === 0n || yy === 1n || mod(xx + yy) === 0n;
  return !isSmall && power(xx, (PRIME - 1n) / 2n) === 1n;
}

const isName = (text) => text !== "" && !/[\p{White_Space}+\0-\x1f]/u.test(text);

const BASE = Uint8Array.of(0x58, ...Array(31).fill(0x66));

// Why signatures can't be checked here: an empty text if they can.
export async function whyNot() {
  if (!globalThis.crypto?.subtle) return "WebCrypto is missing here: it needs https, localhost or a page on a disk";
  try {
    await crypto.subtle.importKey("raw", BASE, "Ed25519", false, ["verify"]);
    return "";
  } catch {
    return "this browser has no Ed25519 in WebCrypto";
  }
}

// A verifier key, `<name>+<identifier>+<key>` (C2SP signed-note, "Verifier keys"), of a log or of a witness.
export async function readKey(text) {
  const [, name, id, data] = text.match(/^([^+]*)\+([0-9a-f]{8})\+(.*)$/s) ?? refuse("bad key");
  const bytes = unbase64(data);
  if (!isName(name) || bytes.length !== 33 || ![LOG_KIND, WITNESS_KIND].includes(bytes[0])) refuse("bad key");
  if (hex((await sha256(utf8(name + "\n"), bytes)).slice(0, 4)) !== id) refuse("bad key");
  if (!isPoint(bytes.slice(1))) refuse("bad key");
  const key = await crypto.subtle.importKey("raw", bytes.slice(1), "Ed25519", false, ["verify"]);
  return { name, id, key, isWitness: bytes[0] === WITNESS_KIND, point: hex(bytes.slice(1)) };
}

// Who is trusted: the log's key, keys of witnesses, and how many of them have to have cosigned (all, if left out).
export async function readPolicy({ key, witnesses = [], need }) {
  const log = await readKey(key), others = await Promise.all(witnesses.map(readKey));
  if (log.isWitness) refuse("the log's key is of a witness");
  if (others.some((witness) => !witness.isWitness)) refuse("the key of a witness is of a log");
  if (new Set([log, ...others].map((one) => one.point)).size <= others.length) refuse("a key stands twice");
  const names = new Set(others.map((witness) => witness.name)), least = need ?? names.size;
  if (!Number.isInteger(least) || least < 0) refuse("the number of witnesses that are needed is none");
  return { log, witnesses: others, names: [...names], need: least };
}

// Notes and checkpoints

// The text of a note and its signature lines (C2SP signed-note, "Format").
function readNote(note) {
  const all = textOf(note), end = all.lastIndexOf("\n\n");
  if (end < 0 || !all.endsWith("\n") || /[\0-\x09\x0b-\x1f]/.test(all)) refuse("malformed note");
  const lines = all.slice(end + 2, -1).split("\n");
  if (lines.length > 100) refuse("malformed note");
  const signatures = lines.map((line) => {
    const [dash, name, data = "", ...more] = line.split(" "), bytes = unbase64(data);
    if (dash !== "\u2014" || !isName(name ?? "") || bytes.length < 5 || more.length) refuse("malformed note");
    return { name, id: hex(bytes.slice(0, 4)), bytes: bytes.slice(4) };
  });
  return { text: all.slice(0, end + 1), signatures };
}

// Whether a signature is the key's over this text; of a witness its time, too (C2SP tlog-cosignature, version 1).
async function checkSignature(key, text, bytes) {
  let time = null, message = utf8(text);
  if (key.isWitness && bytes.length > 8) {
    time = new DataView(bytes.buffer, bytes.byteOffset).getBigUint64(0);
    message = utf8(`cosignature/v1\ntime ${time}\n${text}`);
    bytes = bytes.slice(8);
  }
  const isRight = bytes.length === 64 && (await crypto.subtle.verify("Ed25519", key.key, bytes, message));
  return isRight ? time : refuse(`wrong signature of ${key.name}`);
}

// The text of a note, and which of these keys signed it, each with its time if it is of a witness. If a line of one
// of them is wrong, the note is refused.
export async function openNote(note, keys) {
  const { text, signatures } = readNote(note), by = new Map();
  for (const { name, id, bytes } of signatures) {
    const key = keys.find((one) => one.name === name && one.id === id);
    if (key && !by.has(key)) by.set(key, await checkSignature(key, text, bytes));
  }
  return { text, by };
}

// A signed checkpoint (C2SP tlog-checkpoint), once it is signed by the log and cosigned as the policy wants it.
export async function openCheckpoint(note, policy) {
  const { text, by } = await openNote(note, [policy.log, ...policy.witnesses]);
  if (!by.has(policy.log)) refuse("signed by another key than the log's");
  const [origin, size, root, ...more] = text.slice(0, -1).split("\n");
  if (root === undefined || origin === "" || more.includes("")) refuse("bad checkpoint");
  if (origin !== policy.log.name) refuse("the checkpoint of another log");
  const head = { origin, size: numberIn(size), root: hashIn(root), text, note, cosigned: [] };
  for (const witness of policy.witnesses) {
    if (by.has(witness)) head.cosigned.push({ name: witness.name, time: by.get(witness) });
  }
  const count = new Set(head.cosigned.map((one) => one.name)).size;
  return count < policy.need ? refuse(`cosigned by ${count} witnesses of ${policy.need} that are needed`) : head;
}

// Proofs

// A proof of inclusion with its checkpoint (C2SP tlog-proof), as it is written.
export function readProof(bytes) {
  const all = textOf(bytes), end = all.indexOf("\n\n");
  if (end < 0) refuse("not a tlog-proof");
  const lines = all.slice(0, end).split("\n");
  if (lines.shift() !== "c2sp.org/tlog-proof@v1") refuse("not a tlog-proof");
  const extra = lines[0]?.startsWith("extra ") ? unbase64(lines.shift().slice(6)) : null;
  if (!lines[0]?.startsWith("index ")) refuse("a tlog-proof without an index");
  const index = numberIn(lines.shift().slice(6));
  if (lines.length > 63) refuse("a proof of more than 63 hashes");
  return { extra, index, path: lines.map(hashIn), note: utf8(all.slice(end + 2)) };
}

// Checks that a tlog-proof shows the entry in the policy's log: the checkpoint, the proof and the entry's hash.
export async function checkProof(bytes, entry, policy) {
  const proof = readProof(bytes), head = await openCheckpoint(proof.note, policy);
  const { index, path } = proof, leaf = await leafHash(entry);
  if (!(await isIncluded(leaf, index, head.size, path, head.root))) refuse("it is no proof of this entry");
  return { head, proof, leaf };
}

// Logs

// The path of a tile (level 0 to 7) or of a bundle (level "entries"), with its width (C2SP tlog-tiles).
export function pathOf(level, n, width = WIDTH) {
  const groups = [String(n % 1000).padStart(3, "0")];
  while ((n = Math.floor(n / 1000))) groups.unshift("x" + String(n % 1000).padStart(3, "0"));
  return `tile/${level}/${groups.join("/")}${width < WIDTH ? `.p/${width}` : ""}`;
}

export const mostBytes = (path) =>
  path === "checkpoint" ? MOST.checkpoint : path.startsWith("tile/entries/") ? MOST.bundle : MOST.tile;

// Gets resources of a log from an address: their bytes, and null for one that isn't there.
export function overHttp(address) {
  return async (path) => {
    const cache = path === "checkpoint" ? "no-store" : "default";
    const answer = await fetch(address + path, { cache, credentials: "omit", referrerPolicy: "no-referrer" });
    if ([403, 404, 410].includes(answer.status)) return null;
    if (!answer.ok) refuse(`${path}: status ${answer.status}`);
    const parts = [];
    let length = 0;
    for (const reader = answer.body.getReader(); ;) {
      const { done, value } = await reader.read();
      if (done) return joined(...parts);
      parts.push(value);
      length += value.length;
      if (length > mostBytes(path)) refuse(`${path}: too large`);
    }
  };
}

// A log at the size of a checkpoint that was opened, over a source that nobody trusts: `get` as overHttp gives it.
// What its calls return is checked under the checkpoint's root.
export class Log {
  #get; #kept = new Map(); #edge = null;

  constructor(get, head) {
    if (head.size > BigInt(Number.MAX_SAFE_INTEGER)) refuse("a log of 2^53 entries or more");
    this.#get = get;
    this.head = head;
    this.size = Number(head.size);
  }

  // How many hashes or entries the tile or bundle has.
  width(level, n) {
    const count = Math.floor(this.size / WIDTH ** (level === "entries" ? 0 : level));
    return Math.max(0, Math.min(WIDTH, count - n * WIDTH));
  }

  path(level, n) {
    return pathOf(level, n, this.width(level, n));
  }

  // The bytes of a tile or bundle. The full one stands for a partial one that isn't there ("Partial Tiles").
  async #bytes(level, n) {
    const path = this.path(level, n), bytes = (await this.#get(path)) ?? (await this.#get(pathOf(level, n)));
    return bytes ?? refuse(`${path}: not there`);
  }

  async #hashes(level, n) {
    const path = this.path(level, n), width = this.width(level, n), bytes = await this.#bytes(level, n);
    if (bytes.length !== 32 * width && bytes.length !== 32 * WIDTH) refuse(`${path}: malformed`);
    return Array.from({ length: width }, (_, i) => bytes.slice(32 * i, 32 * i + 32));
  }

  // The partial tiles at the right edge, which together have the checkpoint's root.
  async #readEdge() {
    const tiles = new Map(), peaks = [];
    for (let level = 0, count = this.size; count; level += 1, count = Math.floor(count / WIDTH)) {
      if (count % WIDTH) tiles.set(level, await this.#hashes(level, Math.floor(count / WIDTH)));
    }
    for (const level of [...tiles.keys()].reverse()) {
      const hashes = tiles.get(level);
      for (let at = 0, part = WIDTH / 2; part >= 1; part /= 2) {
        if (hashes.length & part) peaks.push(await rootOf(hashes.slice(at, (at += part))));
      }
    }
    const root = peaks.length ? await fold(peaks) : await sha256();
    const paths = [...tiles.keys()].map((level) => this.path(level, Math.floor(this.size / WIDTH ** (level + 1))));
    if (!same(root, this.head.root)) refuse(`${paths.join(", ") || "no tile"}: not under the checkpoint's root`);
    return tiles;
  }

  // The hashes of a tile, checked.
  async tile(level, n) {
    const path = this.path(level, n), width = this.width(level, n), known = this.#kept.get(path);
    if (known) return known;
    if (!width) refuse(`no tile ${n} at level ${level} in a log of ${this.size}`);
    this.#edge ??= this.#readEdge();
    const edge = await this.#edge;
    if (width < WIDTH) return edge.get(level);
    const above = await this.tile(level + 1, Math.floor(n / WIDTH)), hashes = await this.#hashes(level, n);
    if (!same(await rootOf(hashes), above[n % WIDTH])) refuse(`${path}: not the tile under the checkpoint's root`);
    if (this.#kept.size >= 1024) this.#kept.delete(this.#kept.keys().next().value);
    this.#kept.set(path, hashes);
    return hashes;
  }

  // The entries of a bundle, checked.
  async bundle(n) {
    const path = this.path("entries", n), width = this.width("entries", n), entries = [];
    const [bytes, hashes] = await Promise.all([this.#bytes("entries", n), this.tile(0, n)]);
    let at = 0;
    while (at < bytes.length) {
      const start = at + 2, length = 256 * bytes[at] + bytes[at + 1];
      at = start + length;
      if (!(at <= bytes.length)) refuse(`${path}: malformed`);
      entries.push(bytes.slice(start, at));
    }
    if (entries.length !== width && entries.length !== WIDTH) refuse(`${path}: malformed`);
    const leaves = await Promise.all(entries.slice(0, width).map(leafHash));
    const wrong = leaves.findIndex((leaf, i) => !same(leaf, hashes[i]));
    if (wrong >= 0) refuse(`${path}: entry ${n * WIDTH + wrong} isn't the one under the checkpoint's root`);
    return entries.slice(0, width);
  }

  // One entry, checked.
  async entry(index) {
    if (!(index >= 0 && index < this.size)) refuse(`no entry ${index} in a log of ${this.size}`);
    return (await this.bundle(Math.floor(index / WIDTH)))[index % WIDTH];
  }

  // The hash of a complete subtree over 2^level entries, and the tile that has what is below it.
  async #complete(level, at) {
    const above = Math.floor(level / 8), width = 2 ** (level % 8), first = at * width, n = Math.floor(first / WIDTH);
    const hashes = await this.tile(above, n), start = first % WIDTH;
    return { hash: await rootOf(hashes.slice(start, start + width)), tiles: [this.path(above, n)] };
  }

  // The hash of the entries from one index up to another. The first is a multiple of a power of two of at least their
  // number: so they are complete subtrees, each smaller than the one before it.
  async #range(start, end) {
    const peaks = [];
    for (let level = Math.ceil(Math.log2(end - start)); start < end; level -= 1) {
      if (2 ** level <= end - start) {
        peaks.push(await this.#complete(level, start / 2 ** level));
        start += 2 ** level;
      }
    }
    const tiles = [...new Set(peaks.flatMap((peak) => peak.tiles))];
    return { hash: await fold(peaks.map((peak) => peak.hash)), tiles };
  }

  // The root that the log had at a smaller size.
  async rootAt(size) {
    return size === 0 ? sha256() : (await this.#range(0, size)).hash;
  }

  // The path of an entry, the leaf's neighbour first: of each hash its level, its side, which entries it is over, and
  // the tiles that it was computed from.
  async prove(index) {
    const path = [];
    for (let level = 0, at = index; 2 ** level < this.size; level += 1, at = Math.floor(at / 2)) {
      const beside = at % 2 ? at - 1 : at + 1, start = beside * 2 ** level;
      if (start >= this.size) continue;
      const end = Math.min(start + 2 ** level, this.size);
      path.push({ level, side: at % 2 ? "left" : "right", start, end, ...(await this.#range(start, end)) });
    }
    return path;
  }

  // The index of the last entry with this hash, and -1 if none of the log has it. `report` is called with how many
  // were looked at; if it returns false, the search ends with null.
  async find(hash, report = () => true) {
    for (let end = Math.ceil(this.size / WIDTH); end > 0; end -= 8) {
      const numbers = Array.from({ length: Math.min(8, end) }, (_, i) => end - 1 - i);
      const tiles = await Promise.all(numbers.map((n) => this.tile(0, n)));
      for (const [i, hashes] of tiles.entries()) {
        const place = hashes.findLastIndex((one) => same(one, hash));
        if (place >= 0) return numbers[i] * WIDTH + place;
      }
      if (report(this.size - Math.max(0, end - 8) * WIDTH) === false) return null;
    }
    return -1;
  }
}
