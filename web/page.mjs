// The page: the text, its report as one types, and what is said of each finding and of the types of expressions and names.
import { checkerOf, isSupported } from "./checker.mjs";
import { findingAt, shownOf } from "./findings.mjs";
import { fragmentOf, textOf } from "./link.mjs";
import { rowsOf, smallestAt } from "./types.mjs";

// At most so many findings are listed and marked; more would only slow the page down
const MOST_LISTED = 500, MOST_MARKED = 5000;
// The most characters that are shown of an expression, and of its type
const MOST_OF_TEXT = 60, MOST_OF_TYPE = 200;
const FIRST = "ages", INDENT = "    ";
const at = (name) => document.getElementById(name);
const page = { check: null, texts: null, shown: { summary: "", findings: [] }, typed: null, waiting: 0, took: 0 };

/** Returns an element with a class and parts: texts, or elements. */
function element(name, style, ...parts) {
  const made = document.createElement(name);
  if (style) made.className = style;
  made.append(...parts);
  return made;
}

/** Returns the parts of a sentence, with text between backquotes as code. */
function worded(sentence) {
  return sentence.split("`").map((part, number) => (number % 2 ? element("code", "", part) : part));
}

/** Returns the meaning of a finding, as a sentence. */
function meaningOf({ meaning }) {
  return worded(`${meaning[0].toUpperCase()}${meaning.slice(1)}.`);
}

/** Returns the words about a finding, in paragraphs. */
function saidOf(found) {
  const { where, kind, run, advice } = found;
  const parts = [meaningOf(found), worded(run), worded(advice)].filter((it) => it.join(""));
  return [element("strong", `where ${kind}`, where), ...parts.map((it) => element("p", "", ...it))];
}

/** Returns what to write in place of each form that a refusal may be about, folded. */
function formsOf({ forms }) {
  if (!forms.length) return [];
  const rows = forms.map((it) => element("li", "", ...worded(`${it.form}: ${it.write}`)));
  return [element("details", "", element("summary", "", "What to write instead"), element("ul", "", ...rows))];
}

/** Marks the places of the findings below the text; a finding inside another one is marked over it. */
function showMarks(text, findings) {
  const edges = findings.slice(0, MOST_MARKED).flatMap((it) => [it.from, it.to]);
  const cuts = [...new Set([0, ...edges, text.length])].sort((a, b) => a - b);
  const parts = [];
  const open = findings.slice(0, MOST_MARKED).sort((a, b) => a.from - b.from || b.to - a.to);
  let around = [], next = 0;
  cuts.forEach((from, number) => {
    const to = cuts[number + 1] ?? from;
    around = around.filter((it) => it.to > from);
    for (; next < open.length && open[next].from === from; next++) {
      if (open[next].to === from) parts.push(element("mark", `${open[next].kind} empty`, "\u200b"));
      else around.push(open[next]);
    }
    const part = text.slice(from, to);
    const inner = around.reduce((best, it) => (best && best.to - best.from <= it.to - it.from ? best : it), null);
    parts.push(inner ? element("mark", inner.kind, part) : part);
  });
  at("marks").replaceChildren(...parts, "\n");
}

/** Lists the findings; a click goes to the place. */
function showList(findings) {
  const rows = findings.slice(0, MOST_LISTED).map((it) => {
    const where = element("span", `where ${it.kind}`, it.where);
    const button = element("button", "", where, ...meaningOf(it), " ", ...worded(it.advice));
    button.type = "button";
    button.addEventListener("click", () => goTo(it));
    return element("li", "", button, ...formsOf(it));
  });
  const left = findings.length - rows.length;
  at("findings").replaceChildren(...rows, ...(left > 0 ? [element("li", "soft", `and ${left} more`)] : []));
}

/** Checks the text, and shows the report. */
function check() {
  const text = at("text").value, begun = performance.now();
  page.shown = shownOf(page.texts, text, page.check(new TextEncoder().encode(text)));
  clearTimeout(page.waiting);
  at("summary").textContent = page.shown.summary;
  at("summary").removeAttribute("aria-busy");
  showMarks(text, page.shown.findings);
  showList(page.shown.findings);
  showNumbers(text);
  showAtCaret();
  page.took = performance.now() - begun;
  performance.mark("answered");
}

function showNumbers(text) {
  const lines = text.split("\n").length;
  at("numbers").textContent = Array.from({ length: lines }, (_, number) => number + 1).join("\n");
}

/** Checks as soon as nothing was typed for as long as the last check took. */
function checkSoon() {
  at("marks").textContent = `${at("text").value}\n`;
  at("summary").setAttribute("aria-busy", "true");
  showNumbers(at("text").value);
  clearTimeout(page.waiting);
  page.waiting = setTimeout(check, Math.min(page.took, 500));
}

/** Puts another text into the editor. */
function open(text) {
  at("text").value = text;
  at("text").setSelectionRange(0, 0);
  at("editor").scrollTo(0, 0);
  check();
}

/** Selects the place of a finding, and brings it into sight. */
function goTo(finding) {
  const text = at("text"), editor = at("editor");
  text.focus({ preventScroll: true });
  text.setSelectionRange(finding.from, finding.to);
  const height = at("marks").clientHeight / text.value.split("\n").length;
  editor.scrollTo({ top: Math.max(0, (finding.line - 4) * height), left: 0 });
  showAtCaret();
}

/** Goes to the next finding after the caret, or to the one before it, round and round. */
function step(back) {
  const { findings } = page.shown, { selectionStart: from, selectionEnd: to } = at("text");
  if (!findings.length) return;
  const isAfter = (it) => it.from > from || (it.from === from && it.to > to);
  const isBefore = (it) => it.from < from || (it.from === from && it.to < to);
  goTo(back ? findings.findLast(isBefore) ?? findings.at(-1) : findings.find(isAfter) ?? findings[0]);
}

/** Shows the finding at the caret. */
function showAtCaret() {
  const { selectionStart: from, selectionEnd: to } = at("text"), { findings } = page.shown;
  const found = findings.find((it) => it.from === from && it.to === to) ?? findingAt(findings, from);
  at("advice").hidden = !found;
  at("advice").replaceChildren(...(found ? [element("strong", "", found.where), ". ", ...worded(found.advice)] : []));
  const rows = at("findings").querySelectorAll("button");
  rows.forEach((row, number) => row.toggleAttribute("aria-current", findings[number] === found));
}

/** Returns the place of the text under the pointer, if a mark is there. */
function findingUnder(event) {
  const mark = document.elementsFromPoint(event.clientX, event.clientY).find((it) => it.localName === "mark");
  if (!mark) return undefined;
  let place = 0;
  for (let part = mark.previousSibling; part; part = part.previousSibling) {
    place += part.textContent.replaceAll("\u200b", "").length;
  }
  const length = mark.textContent.replaceAll("\u200b", "").length;
  const around = page.shown.findings.filter((it) => it.from <= place && it.to >= place + length);
  return findingAt(around, place);
}

/** Returns the box in which the marks draw the character at a place of the text. */
function boxOf(place) {
  const nodes = document.createTreeWalker(at("marks"), NodeFilter.SHOW_TEXT), range = document.createRange();
  for (let left = place; nodes.nextNode(); ) {
    const node = nodes.currentNode, isText = !node.parentElement.classList.contains("empty");
    if (isText && left < node.length) {
      range.setStart(node, left);
      range.setEnd(node, left + 1);
      break;
    }
    left -= isText ? node.length : 0;
  }
  return range.getBoundingClientRect();
}

/** Returns the place of the character under the pointer, if there is one: before or behind the nearest place of a caret. */
function placeUnder({ clientX: x, clientY: y }) {
  const caret = document.caretPositionFromPoint?.(x, y);
  if (caret?.offsetNode !== at("text")) return undefined;
  return [caret.offset - 1, caret.offset].find((place) => {
    if (place < 0) return false;
    const { left, right, top, bottom } = boxOf(place);
    return left <= x && x < right && top <= y && y < bottom;
  });
}

/** Returns the present text, its bytes and the rows of its types, which are listed when a type is first asked for. */
function typed() {
  const text = at("text").value;
  if (page.typed?.text !== text) {
    const bytes = new TextEncoder().encode(text);
    page.typed = { text, bytes, rows: rowsOf(page.check(bytes, { types: true })) };
  }
  return page.typed;
}

const cut = (text, most) => (text.length > most ? `${text.slice(0, most)}…` : text);

/** What is said of the types of the smallest expression or name at a place: a paragraph, or none where there is neither. */
function typeAt(place) {
  const { text, bytes, rows } = typed();
  const row = smallestAt(rows, new TextEncoder().encode(text.slice(0, place)).length);
  if (!row) return [];
  const expression = new TextDecoder().decode(bytes.subarray(row.start, row.end));
  const told = "current" in row ? `${row.type} = ${row.current}` : row.type;
  const [shown, type] = [cut(expression, MOST_OF_TEXT), cut(told, MOST_OF_TYPE)].map((it) => element("code", "", it));
  return [element("p", "type", "Type of ", shown, ": ", type)];
}

/** Says beside the pointer what is found under it, and the type of the expression or the name there. */
function showHint(event) {
  const found = findingUnder(event), place = placeUnder(event), hint = at("hint");
  const said = [...(found ? saidOf(found) : []), ...(place === undefined ? [] : typeAt(place))];
  hint.hidden = !said.length;
  if (!said.length) return;
  hint.replaceChildren(...said);
  const { width, height } = hint.getBoundingClientRect();
  hint.style.left = `${Math.max(8, Math.min(event.clientX, innerWidth - width - 8))}px`;
  const below = event.clientY + 20;
  hint.style.top = `${below + height < innerHeight ? below : Math.max(8, event.clientY - height - 12)}px`;
}

/** Handles the keys of the editor that do more than typing. */
function press(event) {
  const text = at("text");
  if (event.key === "F8") {
    event.preventDefault();
    step(event.shiftKey);
  } else if (event.key === "Escape") {
    page.leaves = true;
    at("hint").hidden = true;
    return;
  } else if (event.key === "Tab" && !event.shiftKey && !page.leaves) {
    event.preventDefault();
    document.execCommand("insertText", false, INDENT);
  } else if (event.key === "Enter" && !event.isComposing) {
    const line = text.value.slice(text.value.lastIndexOf("\n", text.selectionStart - 1) + 1, text.selectionStart);
    event.preventDefault();
    document.execCommand("insertText", false, `\n${/^ */.exec(line)[0]}${/:\s*$/.test(line) ? INDENT : ""}`);
  }
  page.leaves = false;
}

/** Puts the text into the address, and the address on the clipboard. */
async function makeLink() {
  history.replaceState(null, "", await fragmentOf(at("text").value));
  const said = await navigator.clipboard?.writeText(location.href).then(() => "Link copied", () => null);
  at("link").textContent = said ?? "The link is the address";
}

function changeTheme() {
  const isDark = matchMedia("(prefers-color-scheme: dark)").matches;
  const now = document.documentElement.dataset.theme ?? (isDark ? "dark" : "light");
  document.documentElement.dataset.theme = now === "dark" ? "light" : "dark";
}

/** Offers the examples: those of the first page, and those that are worked out by hand. */
function offerExamples() {
  const groups = { "First page": element("optgroup", ""), Worked: element("optgroup", "") };
  for (const [label, group] of Object.entries(groups)) group.label = label;
  page.texts.examples.forEach((it, number) => {
    const option = element("option", "", it.name.replace("worked/", "").replaceAll("_", " "));
    option.value = number;
    groups[it.name.includes("/") ? "Worked" : "First page"].append(option);
  });
  at("example").append(...Object.values(groups));
  at("example").addEventListener("change", () => open(page.texts.examples[at("example").value].text));
}

/** Opens the text of the address, if it has one. */
async function openAddress() {
  const text = await textOf(location.hash);
  if (text !== null) open(text);
  return text !== null;
}

function listen() {
  at("text").addEventListener("input", () => {
    at("link").textContent = "Link to this text";
    at("hint").hidden = true;
    checkSoon();
  });
  at("text").addEventListener("keydown", press);
  at("text").addEventListener("mousemove", showHint);
  at("text").addEventListener("mouseleave", () => (at("hint").hidden = true));
  at("editor").addEventListener("scroll", () => (at("hint").hidden = true));
  document.addEventListener("selectionchange", () => document.activeElement === at("text") && showAtCaret());
  at("link").addEventListener("click", makeLink);
  at("theme").addEventListener("click", changeTheme);
  addEventListener("hashchange", openAddress);
}

async function start() {
  if (!isSupported()) {
    at("summary").textContent =
      "This browser does not run WebAssembly with addresses of 64 bits. Chromium from 133 and Firefox from 134 do.";
    return;
  }
  const [wasm, texts] = await Promise.all([
    fetch("pycheck.wasm").then((it) => it.arrayBuffer()),
    fetch("texts.json").then((it) => it.json()),
  ]);
  Object.assign(page, { check: await checkerOf(wasm), texts });
  offerExamples();
  const number = texts.examples.findIndex((it) => it.name === FIRST);
  at("example").value = number;
  listen();
  if (!(await openAddress())) open(texts.examples[number].text);
}

start().catch((fault) => {
  at("summary").textContent = `The checker could not be loaded: ${fault.message}`;
});
