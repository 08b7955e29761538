#!/usr/bin/env node
// Checks a Python module, as the program `pycheck` does: same words, same output, same statuses. The check is the proved
// one, as a module of WebAssembly; this script, which reads the words and the file, is only tested.
import { closeSync, openSync, readFileSync, readSync, writeSync } from "node:fs";
import { isUtf8 } from "node:buffer";
import { spawnSync } from "node:child_process";
import { createHash } from "node:crypto";
import { fileURLToPath } from "node:url";
import { REFUSED, REPORTED, checkerOf, isSupported } from "./checker.mjs";
import { asked } from "./words.mjs";

const FLAG = "--experimental-wasm-memory64";
// One byte more than a source text may have; the program reads no further either
const MOST = 1_048_577;
// The words of the system for errors that Node words otherwise
const REASONS = {
  EISDIR: "Is a directory",
  ELOOP: "Too many levels of symbolic links",
  ENAMETOOLONG: "File name too long",
  EIO: "Input/output error",
};

/** Reads a file to its end, or up to one byte more than a source text may have. */
function read(name) {
  const device = openSync(name);
  try {
    const bytes = Buffer.alloc(MOST);
    let length = 0;
    for (let more = -1; more !== 0 && length < MOST; length += more) {
      more = readSync(device, bytes, length, MOST - length, null);
    }
    return bytes.subarray(0, length);
  } finally {
    closeSync(device);
  }
}

/** Writes all of a text to a file that is open already. */
function write(device, text) {
  const bytes = typeof text === "string" ? Buffer.from(text) : text;
  for (let at = 0; at < bytes.length; ) {
    try {
      at += writeSync(device, bytes, at);
    } catch (fault) {
      if (fault.code !== "EAGAIN") throw fault;
    }
  }
}

/** Returns the system's words for a fault, as the program prints them. */
function reasonOf(fault) {
  const said = /^[A-Z0-9_]+: ([^,]+)/.exec(fault.message)?.[1] ?? fault.message;
  return REASONS[fault.code] ?? said[0].toUpperCase() + said.slice(1);
}

const beside = (name) => readFileSync(fileURLToPath(new URL(name, import.meta.url)));

/** Returns the module's bytes; null if they do not have its sum. */
function wasm() {
  const bytes = beside("pycheck.wasm"), sum = createHash("sha256").update(bytes).digest("hex");
  return beside("SHA256SUMS").toString().split("\n").includes(`${sum}  pycheck.wasm`) ? bytes : null;
}

/** Whether a word is not UTF-8, if the system tells: Node has U+FFFD in place of such bytes. */
function isBroken(words) {
  if (!words.some((word) => word.includes("\uFFFD"))) return false;
  try {
    const given = readFileSync("/proc/self/cmdline", "latin1").split("\0").slice(-words.length - 1);
    return !given.every((word) => isUtf8(Buffer.from(word, "latin1")));
  } catch {
    return false;
  }
}

/** Prints help or the version, and returns the exit status. */
function help(text) {
  try {
    return write(1, text), 0;
  } catch {
    return write(2, text), 3;
  }
}

/** Runs the command, and returns the exit status. */
async function run(words) {
  const wanted = asked(words);
  if (wanted.help) return help(wanted.help);
  if (wanted.mistake) return write(2, wanted.mistake), 3;
  if (wanted.details) return write(2, "pycheck: the module of WebAssembly tells no details, only the program does\n"), 3;
  let bytes;
  try {
    bytes = read(wanted.file);
  } catch (fault) {
    return write(2, `pycheck: ${wanted.file}: ${reasonOf(fault)}\n`), 3;
  }
  const module = wasm();
  if (!module) return write(2, "pycheck: pycheck.wasm is not the module of SHA256SUMS, so nothing is run\n"), 3;
  const answer = (await checkerOf(module))(bytes, wanted);
  if (answer.kind === REFUSED) return write(2, `refused ${answer.code} at byte ${answer.byte}\n`), 2;
  if (answer.kind !== REPORTED) return write(2, "out of memory\n"), 3;
  try {
    write(1, answer.text);
  } catch (fault) {
    return write(2, `pycheck: standard output: ${reasonOf(fault)}\n`), 3;
  }
  return answer.errors === 0 ? 0 : 1;
}

/** Starts Node again with the flag that older versions need, if this one was started without it. */
function again() {
  if (process.execArgv.includes(FLAG)) return null;
  const words = [FLAG, "--no-warnings", fileURLToPath(import.meta.url), ...process.argv.slice(2)];
  return spawnSync(process.execPath, words, { stdio: "inherit" }).status;
}

if (isBroken(process.argv.slice(2))) {
  write(2, "error: a word of the command line is not UTF-8\n");
  process.exitCode = 3;
} else if (isSupported()) {
  process.exitCode = await run(process.argv.slice(2));
} else {
  const status = again();
  if (status === null) write(2, "pycheck: this version of Node does not run the module: take 20.9 or later\n");
  process.exitCode = status ?? 3;
}
