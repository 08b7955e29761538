// The answers of the check of web/ for files: for each line of standard input, the name of a file, and each form and format, a
// line with the status, and the text in base64, or the refusal.
import { readFileSync } from "node:fs";
import { createInterface } from "node:readline";
import { REFUSED, REPORTED, checkerOf } from "../../web/checker.mjs";

const REPORTS = [{ json: false, format: 2 }, { json: false, format: 1 }, { json: true, format: 2 }, { json: true, format: 1 }];
const FORMS = [...REPORTS, { json: false, types: true }, { json: true, types: true }];
const check = await checkerOf(readFileSync(new URL("../../web/pycheck.wasm", import.meta.url)));

function lineOf(answer) {
  if (answer.kind === REFUSED) return `2 refused ${answer.code} at byte ${answer.byte}`;
  if (answer.kind !== REPORTED) return "3 out of memory";
  return `${answer.errors === 0 ? 0 : 1} ${Buffer.from(answer.text).toString("base64")}`;
}

for await (const name of createInterface({ input: process.stdin })) {
  const bytes = readFileSync(name);
  for (const form of FORMS) console.log(lineOf(check(bytes, form)));
}
