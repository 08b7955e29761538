// The requests that web/words.mjs reads from words. Prints a line of JSON for each line of standard input, a list of
// words as JSON.
import { createInterface } from "node:readline";
import { asked } from "../../web/words.mjs";

for await (const line of createInterface({ input: process.stdin })) console.log(JSON.stringify(asked(JSON.parse(line))));
