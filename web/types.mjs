// The types of a text: the listing of the proved check, and which of its rows is told at a byte.
import { REPORTED } from "./checker.mjs";

/** The rows of a listing as JSON, each with its first byte, the byte behind it, and its types; none where there is no listing. */
export function rowsOf(answer) {
  return answer.kind === REPORTED ? JSON.parse(new TextDecoder().decode(answer.text)).types : [];
}

/** Returns the row with the smallest place around a byte, the first of equally small ones, as `type_at` of `pc_top` does. */
export function smallestAt(rows, byte) {
  const around = rows.filter(({ start, end }) => start <= byte && byte <= end);
  return around.reduce((best, it) => (best && best.end - best.start <= it.end - it.start ? best : it), undefined);
}
