// The type that web/types.mjs finds at a byte: for each line of standard input, a byte and a text in base64, a line with the
// place and the type, or `none`.
import { readFileSync } from "node:fs";
import { createInterface } from "node:readline";
import { checkerOf } from "../../web/checker.mjs";
import { rowsOf, smallestAt } from "../../web/types.mjs";

const check = await checkerOf(readFileSync(new URL("../../web/pycheck.wasm", import.meta.url)));
for await (const line of createInterface({ input: process.stdin })) {
  const [byte, text] = line.split(" ");
  const row = smallestAt(rowsOf(check(Buffer.from(text, "base64"), { types: true })), Number(byte));
  console.log(row ? `${row.start} ${row.end} ${row.kind} ${row.type}` : "none");
}
