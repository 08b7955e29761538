// The proved check, as the module of WebAssembly answers it: what `crates/pycheck_library` says of `pycheck_check` and of
// `pycheck_types`. The page and the command stand on this file alone.

// The kinds of an answer
export const REPORTED = 0, REFUSED = 1, OUT_OF_MEMORY = 2;
// The place of each number in an answer, and how many bytes an answer has
const KIND = 0, LETTER = 4, DIGIT = 5, BYTE = 8, LENGTH = 16, ERRORS = 24, DYNAMIC = 32, ANSWER = 40;
// Room for the report, or for the types, of a module of so many bytes; one that has more is asked again, with room for it
const roomFor = (bytes, types) => (1 << 16) + (types ? 32 : 4) * bytes;

/** Makes the check from the bytes of the module. It is asked for a report, or with `types` for the listing of types. */
export async function checkerOf(bytes) {
  const { instance } = await WebAssembly.instantiate(bytes, {});
  return (text, asked = {}) => answered(instance.exports, text, { json: true, types: false, format: 2, ...asked });
}

/** Whether this system runs modules with addresses of 64 bits. */
export function isSupported() {
  // An empty module with one such memory
  return WebAssembly.validate(new Uint8Array([0, 97, 115, 109, 1, 0, 0, 0, 5, 3, 1, 4, 1]));
}

/**
 * Checks bytes, and gives `kind`, of a refusal `code` and `byte`, and else `text`, which is the report or the listing of
 * types, and the numbers of the report, `errors` and `dynamic`.
 * A module so deep that the engine's own stack does not suffice counts as one for which memory is wanting.
 */
function answered(wasm, bytes, asked) {
  try {
    const first = tried(wasm, bytes, asked, roomFor(bytes.length, asked.types));
    return first.kind === REPORTED && first.text === null ? tried(wasm, bytes, asked, first.length) : first;
  } catch (fault) {
    if (fault instanceof RangeError || fault instanceof WebAssembly.RuntimeError) return { kind: OUT_OF_MEMORY };
    throw fault;
  }
}

function tried(wasm, bytes, { json, types, format }, room) {
  wasm.heap_forget();
  const [answer, text, out] = [ANSWER, bytes.length, room].map((size) => wasm.heap_take(BigInt(size)));
  if (!answer || !text || !out) return { kind: OUT_OF_MEMORY };
  new Uint8Array(wasm.memory.buffer).set(bytes, Number(text));
  const given = [answer, text, BigInt(bytes.length), json ? 1 : 0], lent = [out, BigInt(room)];
  if (types) wasm.pycheck_types(...given, ...lent);
  else wasm.pycheck_check(...given, format, ...lent);
  const found = answerAt(new DataView(wasm.memory.buffer, Number(answer), ANSWER));
  if (found.kind === REPORTED && found.length <= room) {
    found.text = new Uint8Array(wasm.memory.buffer, Number(out), found.length).slice();
  }
  return found;
}

function answerAt(view) {
  const number = (at) => Number(view.getBigUint64(at, true));
  const kind = view.getUint32(KIND, true);
  if (kind === REFUSED) {
    return { kind, code: String.fromCharCode(view.getUint8(LETTER), view.getUint8(DIGIT)), byte: number(BYTE) };
  }
  if (kind === REPORTED) {
    return { kind, length: number(LENGTH), errors: number(ERRORS), dynamic: number(DYNAMIC), text: null };
  }
  return { kind };
}
