// Prints how many seconds of the processor each of some checks of a file takes.
import { readFileSync } from "node:fs";
import { checkerOf } from "../../web/checker.mjs";

const check = await checkerOf(readFileSync(new URL("../../web/pycheck.wasm", import.meta.url)));
const text = readFileSync(process.argv[2]);
for (let turn = 0; turn < 5; turn++) {
  const begun = process.cpuUsage();
  check(text);
  const { user, system } = process.cpuUsage(begun);
  console.log((user + system) / 1e6);
}
