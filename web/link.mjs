// A text in the fragment of a link, which no browser sends anywhere.

// One byte more than a source text may have; no link is unpacked further
const MOST = 1_048_577;

/** Returns all bytes of a stream, or the first of them. */
async function bytesOf(stream, most = Infinity) {
  const parts = [];
  let length = 0;
  for (const reader = stream.getReader(); length < most; ) {
    const { done, value } = await reader.read();
    if (done) break;
    parts.push(value);
    length += value.length;
  }
  return new Uint8Array(await new Blob(parts).arrayBuffer()).subarray(0, most);
}

/** Returns the fragment that holds a text. */
export async function fragmentOf(text) {
  const bytes = await bytesOf(new Blob([text]).stream().pipeThrough(new CompressionStream("deflate-raw")));
  const letters = Array.from(bytes, (byte) => String.fromCharCode(byte)).join("");
  return `#text=${btoa(letters).replaceAll("+", "-").replaceAll("/", "_").replaceAll("=", "")}`;
}

/** Returns the text that a fragment holds; null if it holds none. */
export async function textOf(fragment) {
  const packed = /^#text=([\w-]+)$/.exec(fragment)?.[1];
  if (!packed) return null;
  try {
    const bytes = Uint8Array.from(atob(packed.replaceAll("-", "+").replaceAll("_", "/")), (it) => it.charCodeAt(0));
    const stream = new Blob([bytes]).stream().pipeThrough(new DecompressionStream("deflate-raw"));
    return new TextDecoder().decode(await bytesOf(stream, MOST));
  } catch {
    return null;
  }
}
