// Lets memory end during a check, at many places. Each answer must be that memory ran out, with nothing written into
// the room, or the module's own; once everything is freed, the answer must be its own again. Prints how often memory
// ran out.
import { readFileSync } from "node:fs";

const ROOM = 1 << 16, MARK = 0xee;
const [wasm, ...names] = process.argv.slice(2);
const { exports } = (await WebAssembly.instantiate(readFileSync(wasm), {})).instance;

/** The answer of a call to a text where no more than `left` bytes are left: its kind, and what is in the room. */
function answered(call, text, left) {
  exports.heap_forget();
  const [answer, at, room] = [40, text.length, ROOM].map((size) => exports.heap_take(BigInt(size)));
  const memory = () => new Uint8Array(exports.memory.buffer);
  memory().set(text, Number(at));
  memory().fill(MARK, Number(room), Number(room) + ROOM);
  for (let size = 1n << 27n; left && size >= BigInt(left); size >>= 1n) while (exports.heap_take(size));
  call([answer, at, BigInt(text.length), 1], [room, BigInt(ROOM)]);
  const found = Buffer.from(memory().slice(Number(room), Number(room) + ROOM)).toString("latin1");
  return { kind: new DataView(exports.memory.buffer, Number(answer)).getUint32(0, true), found };
}

const nothing = String.fromCharCode(MARK).repeat(ROOM);

/** Lets memory end during a call for a text, at many places. */
function vary(call, name, counts) {
  const text = readFileSync(name), own = answered(call, text, 0);
  if (own.kind !== 0 || own.found === nothing) throw new Error(`${name}: kind ${own.kind}, or too little room`);
  for (let left = 64; left < 1 << 22; left = Math.ceil(left * 1.3)) {
    const { kind, found } = answered(call, text, left);
    const isOwn = kind === own.kind && found === own.found;
    if (!isOwn && (kind !== 2 || found !== nothing)) throw new Error(`${name}, ${left}: kind ${kind}`);
    counts[isOwn ? "own" : "wanting"] += 1;
    if (answered(call, text, 0).found !== own.found) throw new Error(`${name}, ${left}: another answer afterwards`);
  }
}

const CALLS = {
  reports: (given, lent) => exports.pycheck_check(...given, 2, ...lent),
  types: (given, lent) => exports.pycheck_types(...given, ...lent),
};
for (const [what, call] of Object.entries(CALLS)) {
  const counts = { wanting: 0, own: 0 };
  for (const name of names) vary(call, name, counts);
  console.log(`${what}: ${counts.wanting} wanting, ${counts.own} own`);
}
