/* Runs rows on web/verify.mjs, for tests/module: each line of standard input is a JSON object, and its answer a line
   of JSON: what the call returned, or `refused`. Any other error is shown as it is, and is never due. Bytes are in
   base64. A log is named by a row that comes before those that read it. */
import { createInterface } from "node:readline";
import * as verify from "../../web/verify.mjs";

const bytes = (text) => new Uint8Array(Buffer.from(text, "base64"));
const logs = new Map(), policies = new Map();

async function policyOf(given) {
  const name = JSON.stringify(given);
  if (!policies.has(name)) policies.set(name, await verify.readPolicy(given));
  return policies.get(name);
}

// A log in which some resources are others, or aren't there.
async function logOf({ log, changes, policy }) {
  const files = { ...logs.get(log), ...changes };
  const get = async (wanted) => (files[wanted] === undefined || files[wanted] === null ? null : bytes(files[wanted]));
  return new verify.Log(get, await verify.openCheckpoint(await get("checkpoint"), await policyOf(policy)));
}

const calls = {
  log: async ({ name, files }) => logs.set(name, files) && "kept",
  key: async ({ text }) => (({ name, id, isWitness }) => [name, id, isWitness])(await verify.readKey(text)),
  policy: async ({ policy }) => (await verify.readPolicy(policy)).need,
  checkpoint: async ({ note, policy }) => {
    const head = await verify.openCheckpoint(bytes(note), await policyOf(policy));
    return [head.origin, String(head.size), verify.base64(head.root), head.cosigned.map((one) => String(one.time))];
  },
  proof: async ({ proof, entry, policy }) => {
    const { head, proof: { index } } = await verify.checkProof(bytes(proof), bytes(entry), await policyOf(policy));
    return [String(index), String(head.size)];
  },
  included: async ({ leaf, index, size, path, root }) =>
    (await verify.isIncluded(bytes(leaf), BigInt(index), BigInt(size), path.map(bytes), bytes(root))) || "refused",
  bundle: async (row) => (await (await logOf(row)).bundle(row.n)).map(verify.base64),
  find: async (row) => (await logOf(row)).find(await verify.leafHash(bytes(row.entry))),
  prove: async (row) => (await (await logOf(row)).prove(row.index)).map((step) => verify.base64(step.hash)),
  root: async (row) => verify.base64(await (await logOf(row)).rootAt(row.size)),
};

for await (const line of createInterface({ input: process.stdin, crlfDelay: Infinity })) {
  const row = JSON.parse(line);
  try {
    console.log(JSON.stringify(await calls[row.call](row)));
  } catch (fault) {
    console.log(JSON.stringify(fault instanceof verify.Refused ? "refused" : `error ${fault.stack}`));
  }
}
