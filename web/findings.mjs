// The findings that the page shows for an answer, each with its place in the text and with the words about it.
import { REFUSED, REPORTED } from "./checker.mjs";

// The word that tells more than the code: for an attribute the one at its end, for all else the one at the beginning
const ATTRIBUTE = "E15", ANNOTATION = "E09", OF_TESTED = "is None", OF_UNKNOWN = "unknown name";
const TYPES = new Set("int bool str None object list dict tuple List Dict Tuple Optional Union".split(" "));
const FIRST = /^[\p{L}\p{N}_]+/u, LAST = /\.\s*([\p{L}\p{N}_]+)$/u;
// How far before an attribute a test of its value is searched for
const NEAR = 4096;

/** Returns the places in a text, in units of UTF-16, of bytes of its UTF-8 in ascending order. */
function placesOf(text, bytes) {
  const places = new Map();
  let unit = 0, byte = 0;
  for (const wanted of bytes) {
    while (byte < wanted && unit < text.length) {
      const point = text.codePointAt(unit);
      byte += point < 0x80 ? 1 : point < 0x800 ? 2 : point < 0x10000 ? 3 : 4;
      unit += point < 0x10000 ? 1 : 2;
    }
    places.set(wanted, unit);
  }
  return places;
}

/** Whether a value is an attribute that the text before it tests for None. */
function isTested(before, value) {
  if (!value.includes(".") || value.length > 64) return false;
  const escaped = value.replace(/[.*+?^${}()|[\]\\]/g, "\\$&");
  return new RegExp(`(?<![\\w.])${escaped}\\s+is\\s+(?:not\\s+)?None\\b`).test(before);
}

/** Returns the word that tells the case of a finding; empty if there is none. */
function wordAt(text, { code, from, to }) {
  const place = text.slice(from, to);
  if (code !== ATTRIBUTE) return FIRST.exec(place)?.[0] ?? "";
  const found = LAST.exec(place);
  if (!found) return "";
  const value = place.slice(0, found.index);
  return isTested(text.slice(Math.max(0, from - NEAR), from), value) ? OF_TESTED : found[1];
}

/** Returns how to mend a finding: the sentence for its case, or else for its code. */
function adviceOf(texts, text, finding) {
  const word = wordAt(text, finding);
  const of = (wanted) => texts.cases.find((it) => it.code === finding.code && it.words.includes(wanted))?.write;
  const isClass = () => new RegExp(`^class\\s+${word}\\b`, "mu").test(text);
  let said = word ? of(word) : undefined;
  if (!said && finding.code === ANNOTATION && /^[^\d]/.test(word) && !TYPES.has(word) && !isClass()) said = of(OF_UNKNOWN);
  return said?.replaceAll("`NAME`", `\`${word}\``) ?? texts.codes[finding.code].mend;
}

/** Returns the texts of the page about a code. */
function saidOf(texts, text, finding) {
  const { title, kind, meaning, run } = texts.codes[finding.code];
  return { ...finding, title, kind, meaning, run, advice: adviceOf(texts, text, finding) };
}

/** Returns the place of a refusal: the character at its byte, or the end of the text. */
function refusalOf(texts, text, { code, byte }) {
  const from = placesOf(text, [byte]).get(byte), before = text.slice(0, from);
  const line = before.split("\n").length, column = [...before.slice(before.lastIndexOf("\n") + 1)].length + 1;
  const to = from + (text[from] === "\n" || from === text.length ? 0 : text.codePointAt(from) > 0xffff ? 2 : 1);
  const forms = texts.forms.filter((it) => it.codes.includes(code));
  return { ...saidOf(texts, text, { code, line, column, from, to }), where: `refused ${code} at byte ${byte}`, forms };
}

/** Returns the findings of a report, each with the line that the program prints for it. */
function findingsOf(texts, text, report) {
  const bytes = report.findings.flatMap((it) => [it.start, it.end]).sort((a, b) => a - b);
  const places = placesOf(text, bytes);
  return report.findings.map(({ code, line, column, start, end, from, to }) => {
    const found = saidOf(texts, text, { code, line, column, from: places.get(start), to: places.get(end) });
    const flow = from === undefined ? "" : ` ${from} -> ${to}`;
    return { ...found, where: `${line}:${column} ${code} ${found.title}${flow}`, forms: [] };
  });
}

/** Returns the parts of an answer that the page shows: a line that sums it up, its kind, and the findings. */
export function shownOf(texts, text, answer) {
  if (answer.kind === REFUSED) {
    const refusal = refusalOf(texts, text, answer);
    return { summary: refusal.where, findings: [refusal] };
  }
  if (answer.kind !== REPORTED) return { summary: "out of memory", findings: [] };
  const report = JSON.parse(new TextDecoder().decode(answer.text));
  return { summary: `errors ${answer.errors}, dynamic ${answer.dynamic}`, findings: findingsOf(texts, text, report) };
}

/** Returns the innermost finding around a place of the text, if there is one. */
export function findingAt(findings, place) {
  const around = findings.filter((it) => it.from <= place && place <= it.to);
  return around.reduce((best, it) => (best && best.to - best.from <= it.to - it.from ? best : it), undefined);
}
