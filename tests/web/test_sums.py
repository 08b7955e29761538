"""The shipped files beside the programs: their sums, and the texts of the page."""
from __future__ import annotations

import gzip
import hashlib
import unittest

from beside import ROOT, WEB, library_of, run

# A part of a module of x86-64 with everything that is changed, and its new text
HOST = """target datalayout = "e-m:e-i64:64-n8:16:32:64-S128"
target triple = "x86_64-unknown-linux-gnu"
define i64 @f(<16 x i8> %a) #0 {
  %b = call <16 x i8> @llvm.x86.ssse3.pshuf.b.128(<16 x i8> %a, <16 x i8> %a)
}
declare <16 x i8> @llvm.x86.ssse3.pshuf.b.128(<16 x i8>, <16 x i8>) #1
attributes #0 = { nounwind "probe-stack"="inline-asm" "stack-probe-size"="3072" "target-cpu"="x86-64-v2" }
attributes #1 = { "target-cpu"="x86-64-v2" }
"""
OURS = """target triple = "wasm64-unknown-unknown"
define i64 @f(<16 x i8> %a) #0 {
  %b = call <16 x i8> @shuffled(<16 x i8> %a, <16 x i8> %a)
}
attributes #0 = { nounwind }
attributes #1 = { "wasm64" }
"""


class Shipped(unittest.TestCase):
    """web/SHA256SUMS and web/texts.json."""

    def test_sums(self) -> None:
        files = {"pycheck.wasm": (WEB / "pycheck.wasm").read_bytes(),
                 "libpycheck.a": gzip.decompress((ROOT / "release" / "libpycheck.a.gz").read_bytes())}
        wanted = "".join(f"{hashlib.sha256(data).hexdigest()}  {name}\n" for name, data in files.items())
        self.assertEqual((WEB / "SHA256SUMS").read_text(encoding="ascii"), wanted)

    def test_sizes(self) -> None:
        module = (WEB / "pycheck.wasm").read_bytes()
        self.assertLess(len(module), 1 << 20)
        self.assertLess(len(gzip.compress(module, 9)), 1 << 19)
        self.assertLess((ROOT / "release" / "libpycheck.a.gz").stat().st_size, 1 << 20)

    def test_texts(self) -> None:
        done = run(ROOT / "tools" / "check", "data")
        self.assertEqual((done.returncode, done.stdout), (0, b""), done.stdout)


class Retargeted(unittest.TestCase):
    """The changes of `tools/ship web` to the LLVM module."""

    def setUp(self) -> None:
        self.tool = library_of("shipping/web")

    def test_what_is_changed(self) -> None:
        found = self.tool.retargeted(HOST)
        self.assertTrue(found.startswith(OURS), found)
        self.assertEqual(found[len(OURS):], self.tool.SHUFFLED)

    def test_another_instruction_of_the_processor_ends_the_build(self) -> None:
        with self.assertRaisesRegex(self.tool.Fault, "llvm.x86.sse42.crc32.64.64"):
            self.tool.retargeted("declare i64 @llvm.x86.sse42.crc32.64.64(i64, i64)\n")
