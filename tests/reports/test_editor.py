"""The language server for a project with a core, `--server`: sessions over files of the test's folder."""
from __future__ import annotations

import os
import shutil
import subprocess
import sys
from typing import Dict, List, Sequence

from sessions import ENDS, SessionTest, frame
from support import CLEAN, COMMAND, ERROR, HERE

# The diagnostic of the module with an error
FOUND = ["E13"]
ORDINARY = "import json\n"
REFUSED = ["N1"]


class Server(SessionTest):
    """Sessions in a folder that is a project."""

    def setUp(self) -> None:
        super().setUp()
        self.write("core/prices.py", ERROR)
        self.write("web.py", ORDINARY)
        self.write("marked.py", "# pycheck: core\n" + ERROR)

    def shown(self, *names: str, words: Sequence[str] = (), root: str = "") -> Dict[str, List[str]]:
        """Returns the codes that the server shows for files that are opened; none are for files that are left out."""
        found = {}
        for it in self.session(*map(self.opened, names), words=words, root=root):
            if it.get("method") == "textDocument/publishDiagnostics":
                name = next(one for one in names if self.uri(one) == it["params"]["uri"])
                found[name] = [one["code"] for one in it["params"]["diagnostics"] if one["source"] == "pycheck"]
        return found

    def configure(self, lines: str, name: str = "pyproject.toml") -> None:
        """Writes the settings of the project."""
        self.write(name, "[tool.pycheck]\n" + lines)

    def test_without_settings_everything_is_checked(self) -> None:
        self.assertEqual(self.shown("core/prices.py", "web.py"), {"core/prices.py": FOUND, "web.py": REFUSED})

    def test_a_core_alone_is_checked(self) -> None:
        self.configure('core = ["core"]\n')
        self.assertEqual(self.shown("core/prices.py", "web.py", "marked.py"), {"core/prices.py": FOUND})

    def test_what_settings_exclude(self) -> None:
        self.configure('core = ["core"]\nexclude = ["made_*.py"]\n')
        self.write("core/made_prices.py", ERROR)
        self.assertEqual(self.shown("core/made_prices.py", "core/prices.py"), {"core/prices.py": FOUND})

    def test_marked_files(self) -> None:
        marked = ["--only-marked"]
        self.assertEqual(self.shown("web.py", "marked.py", words=marked), {"marked.py": FOUND})
        self.configure('core = ["core"]\n')
        self.assertEqual(self.shown("core/prices.py", "marked.py", words=marked), {"core/prices.py": FOUND})

    def test_which_settings_count(self) -> None:
        self.configure('core = ["core"]\n')
        # Above the open folder, only folders of the same checkout count
        both = {"core/prices.py": FOUND, "web.py": REFUSED}
        self.assertEqual(self.shown("core/prices.py", "web.py", root="core"), {"core/prices.py": FOUND})
        self.write("deep/web.py", ORDINARY)
        self.assertEqual(self.shown("deep/web.py", root="deep"), {"deep/web.py": REFUSED})
        self.assertEqual(self.shown("deep/web.py"), {})
        self.write(".git/HEAD", "")
        self.assertEqual(self.shown("deep/web.py", root="deep"), {})
        self.configure('core = ["web.py"]\n', "deep/pyproject.toml")
        self.assertEqual(self.shown("deep/web.py"), {"deep/web.py": REFUSED})
        (self.folder / "pyproject.toml").unlink()
        self.assertEqual(self.shown("core/prices.py", "web.py"), both)

    def test_settings_are_read_at_each_opening(self) -> None:
        self.configure('core = ["core"]\n')
        self.assertEqual(self.shown("web.py"), {})
        (self.folder / "pyproject.toml").unlink()
        self.assertEqual(self.shown("web.py"), {"web.py": REFUSED})

    def test_settings_that_cannot_be_read_are_told(self) -> None:
        self.configure('cores = ["core"]\n')
        found = self.session(self.opened("web.py"))
        self.assertEqual(found[0]["method"], "window/showMessage")
        self.assertEqual(found[0]["params"]["type"], 1)
        self.assertIn("has no key 'cores'", found[0]["params"]["message"])
        self.assertEqual(found[1]["id"], 1)
        self.assertEqual(found[2]["params"]["diagnostics"][0]["code"], "N1")

    def test_what_is_no_file(self) -> None:
        self.configure('core = ["core"]\n')
        message = self.opened("web.py")
        for uri in ("untitled:one", "file://elsewhere/web.py", "file:///a%00b", "file://[", "web.py"):
            message["params"]["textDocument"]["uri"] = uri
            found = [it["params"] for it in self.session(message) if "method" in it]
            self.assertEqual([(it["uri"], it["diagnostics"][0]["code"]) for it in found], [(uri, "N1")])

    def test_changes_and_closing(self) -> None:
        self.configure('core = ["core"]\n')
        for name, wanted in (("core/prices.py", [FOUND, [], []]), ("web.py", [[]])):
            document = {"uri": self.uri(name), "version": 2}
            changed = {"textDocument": document, "contentChanges": [{"text": CLEAN}]}
            found = self.session(
                self.opened(name),
                {"jsonrpc": "2.0", "method": "textDocument/didChange", "params": changed},
                {"jsonrpc": "2.0", "method": "textDocument/didClose", "params": {"textDocument": document}},
            )
            codes = [[one["code"] for one in it["params"]["diagnostics"]] for it in found if "method" in it]
            self.assertEqual(codes, wanted)

    def test_other_messages_pass_as_they_came(self) -> None:
        odd = [b"{", b"[]", b"[" * 100_000, b"\xff", {"method": 3}, {"method": "textDocument/didOpen", "params": [1]},
               {"jsonrpc": "2.0", "method": "textDocument/didOpen", "params": {"textDocument": {"uri": 1}}},
               {"jsonrpc": "2.0", "id": "é", "method": "none"}, b" " * (17 << 20)]
        given = b"".join(map(frame, [self.begun(), *odd, self.opened("core/prices.py"), *ENDS]))
        for text in (given, given[:-40], b"Content-Length: 3\r\n\r\n", b"nothing", b"", b"Content-Length: x\r\n\r\n{}"):
            done = subprocess.run([self.server], input=text, capture_output=True, timeout=120)
            status, output, _ = self.ran(text)
            self.assertEqual((status, output), (done.returncode, done.stdout))

    def test_words(self) -> None:
        done = subprocess.run([self.server, "--version"], capture_output=True, timeout=60)
        self.assertEqual(self.ran(b"", ["--version"])[:2], (done.returncode, done.stdout))
        self.assertEqual(self.check("--strict", "--server").status, 3)
        self.assertIn("it is the first word", self.check("--strict", "--server").error)
        done_elsewhere = self.check("--server", PYCHECK_SERVER="/nowhere/at/all")
        self.assertEqual((done_elsewhere.status, done_elsewhere.output), (3, ""))
        self.assertIn("/nowhere/at/all: no such program", done_elsewhere.error)

    def test_a_server_that_ends_first(self) -> None:
        for lines, wanted in (("exit 7", 7), ("kill -9 $$", 137)):
            path = self.write("ending", f"#!/bin/sh\n{lines}\n")
            path.chmod(0o755)
            reads, writes = os.pipe()
            words = [sys.executable, str(COMMAND), "--server"]
            with subprocess.Popen(words, stdin=reads, env={**os.environ, "PYCHECK_SERVER": str(path)}) as process:
                self.assertEqual(process.wait(60), wanted)
            os.close(reads)
            os.close(writes)

    def test_in_neovim(self) -> None:
        if shutil.which("nvim") is None:
            self.skipTest("there is no nvim")
        self.configure('core = ["core"]\n')
        files = [str(self.folder / it) for it in ("web.py", "core/prices.py")]
        words = [sys.executable, str(COMMAND), "--server", "--stdio"]
        variables = {"SERVER": "\n".join(words), "FILES": "\n".join(files), "PYCHECK_SERVER": self.server}
        done = subprocess.run(
            ["nvim", "--headless", "--clean", "-c", f"luafile {HERE / 'editor.lua'}"], cwd=self.folder, timeout=120,
            env={**os.environ, **variables}, stdin=subprocess.DEVNULL, capture_output=True, text=True,
        )
        self.assertEqual(done.stdout, "web.py \nprices.py E13\n", done.stderr)
