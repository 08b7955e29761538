"""A project of three ordinary modules and a core, set up as docs/CORE.md says: guards, the command, the action's step,
the editor, the hook and mypy over it, without a fault and with one."""
from __future__ import annotations

import json
import os
import re
import shutil
import sys
import textwrap
from pathlib import Path
from typing import Any, Dict, List

from room import ROOT, Done, RoomCase, run

ORDINARY = {
    "__init__.py": "",
    "core/__init__.py": "",
    "stock.py": '''\
"""Reads the stock."""
import json
from pathlib import Path

from shop.core import prices_api as prices


def read(path: Path) -> prices.Shop:
    """The shop that a file has."""
    data = json.loads(path.read_text())
    return prices.Shop({name: prices.Item(*numbers) for name, numbers in data.items()})
''',
    "sell.py": '''\
"""Sells."""
from shop.core import prices_api as prices


def cost(shop: prices.Shop, name: str, count: int) -> str:
    """What an item costs, in words."""
    found = prices.price_of(shop, name, count)
    if isinstance(found, prices.Refused):
        return f"{found.name}: {found.reason}"
    return f"{found / 100:.2f}"
''',
    "__main__.py": '''\
"""The command."""
import sys
from pathlib import Path

from shop import sell, stock

print(sell.cost(stock.read(Path(sys.argv[1])), sys.argv[2], int(sys.argv[3])))
''',
}
LEFT = "1 file: 0 errors, 0 dynamic places, 4 left out by exclude, 3 left out as outside the core\n"


class Core(RoomCase):
    """The project, beside a clone of this repository."""

    def setUp(self) -> None:
        super().setUp()
        self.project = self.room / "project"
        self.environment: Dict[str, str] = {
            "PATH": os.environ["PATH"], "HOME": str(self.room), "PRE_COMMIT_HOME": str(self.room / "kept"),
            "LC_ALL": "C.UTF-8", "GIT_CONFIG_NOSYSTEM": "1"}
        for who in ("AUTHOR", "COMMITTER"):
            self.environment.update({f"GIT_{who}_NAME": "A", f"GIT_{who}_EMAIL": "a@b"})
        for name, text in ORDINARY.items():
            self.write(f"src/shop/{name}", text)
        self.core = self.project / "src/shop/core/prices.py"
        shutil.copyfile(ROOT / "tutorial/shop/core.py", self.core)
        self.page = (ROOT / "docs/CORE.md").read_text(encoding="utf-8")
        self.write("pyproject.toml", self.block("toml"))
        self.write("stock.json", '{"tea": [250, 40], "cup": [900, 3]}')
        self.write("wrong.json", '{"tea": [2.5, 40]}')
        done = self.command("--guards", "src/shop/core/prices.py")
        self.assertEqual(done.returncode, 0, done.stderr)

    def block(self, language: str) -> str:
        """Returns the first block of a language on the page."""
        found = re.search(f"^```{language}\n(.*?)^```$", self.page, re.MULTILINE | re.DOTALL)
        assert found is not None
        return found[1]

    def write(self, name: str, text: str) -> None:
        """Writes a file of the project."""
        path = self.project / name
        path.parent.mkdir(parents=True, exist_ok=True)
        path.write_text(text, encoding="utf-8")

    def ran(self, *words: object) -> "Done[str]":
        """Runs a command in the project."""
        return run(words, self.project, {**self.environment, "PYTHONPATH": "src"})

    def command(self, *words: str) -> "Done[str]":
        """Runs the command of the clone in the project."""
        return self.ran(sys.executable, self.clone / "tools/check_all", *words)

    def shop(self, *words: str) -> "Done[str]":
        """Runs the project."""
        return self.ran(sys.executable, "-m", "shop", *words)

    def plant(self, old: str, new: str) -> None:
        """Puts a bug into the core."""
        text = self.core.read_text(encoding="utf-8")
        self.assertEqual(text.count(old), 1)
        self.core.write_text(text.replace(old, new), encoding="utf-8")

    def commit(self, folder: Path) -> None:
        """Makes a repository of a folder."""
        for words in (["init", "-q"], ["add", "-A"], ["commit", "-q", "-m", "all"]):
            done = run(["git", *words], folder, self.environment)
            self.assertEqual(done.returncode, 0, done.stderr)

    def test_a_wrong_call_is_stopped_at_the_border(self) -> None:
        self.assertEqual(self.shop("stock.json", "tea", "2").stdout, "5.00\n")
        self.assertEqual(self.shop("stock.json", "cup", "9").stdout, "cup: not so many\n")
        done = self.shop("wrong.json", "tea", "2")
        self.assertEqual((done.returncode, done.stdout), (1, ""))
        self.assertTrue(done.stderr.endswith("price: expected int, found float\n"), done.stderr)

    def test_the_command_checks_the_core_alone(self) -> None:
        done = self.command("--strict")
        self.assertEqual((done.returncode, done.stdout), (0, LEFT), done.stderr)
        self.plant("    return item.price * count\n", "    return shop.items.get(name)\n")
        done = self.command("--strict", "--output", "full")
        self.assertEqual(done.returncode, 1)
        said = "error E12 flow: cannot return None | Item from price_of, which returns int | Refused"
        self.assertIn(said, done.stdout)
        self.assertIn("return shop.items.get(name)", done.stdout)

    def test_guards_of_another_text_are_refused(self) -> None:
        self.plant("    return item.price * count\n", "    return item.price + count\n")
        done = self.shop("stock.json", "tea", "2")
        self.assertEqual(done.returncode, 1)
        self.assertIn("ImportError", done.stderr)

    def test_a_folder_that_is_no_package_is_told(self) -> None:
        (self.project / "src/shop/core/__init__.py").unlink()
        done = self.command("--guards", "src/shop/core/prices.py")
        self.assertEqual(done.returncode, 0, done.stderr)
        self.assertIn("; they import `prices`, since there is no src/shop/core/__init__.py\n", done.stdout)

    def test_the_action(self) -> None:
        text = (self.clone / "action.yml").read_text(encoding="utf-8")
        step = self.room / "step"
        step.write_text(textwrap.dedent(text.split("      run: |\n")[1]), encoding="utf-8")
        environment = {**self.environment, "GITHUB_ACTION_PATH": str(self.clone), "PYCHECK_FILES": ".",
                       "PYCHECK_OUTPUT": "github", "PYCHECK_ONLY_MARKED": "false"}
        words = ["bash", "--noprofile", "--norc", "-e", "-o", "pipefail", str(step)]
        done = run(words, self.project, environment)
        self.assertEqual((done.returncode, done.stdout), (0, LEFT), done.stderr)
        self.plant("    return item.price * count\n", "    return shop.items.get(name)\n")
        done = run(words, self.project, environment)
        self.assertEqual(done.returncode, 1)
        self.assertIn("::error file=src/shop/core/prices.py", done.stdout)

    def shown(self, *names: str) -> Dict[str, List[Any]]:
        """Returns what an editor shows for files of the project that are opened in it, by their names."""
        messages: List[Dict[str, Any]] = [
            {"id": 1, "method": "initialize", "params": {"rootUri": self.project.as_uri(), "capabilities": {}}},
            {"method": "initialized", "params": {}},
        ]
        for name in names:
            path = self.project / "src/shop" / name
            document = {"uri": path.as_uri(), "languageId": "python", "version": 1, "text": path.read_text("utf-8")}
            messages.append({"method": "textDocument/didOpen", "params": {"textDocument": document}})
        messages += [{"id": 2, "method": "shutdown"}, {"method": "exit"}]
        texts = [json.dumps({"jsonrpc": "2.0", **it}) for it in messages]
        given = "".join(f"Content-Length: {len(it)}\r\n\r\n{it}" for it in texts)
        words = [sys.executable, self.clone / "tools/check_all", "--server"]
        done = run(words, self.project, self.environment, input=given)
        self.assertEqual(done.returncode, 0, done.stderr)
        found = [json.loads(it) for it in re.split(r"Content-Length: \d+\s+", done.stdout) if it]
        params = [it["params"] for it in found if it.get("method") == "textDocument/publishDiagnostics"]
        return {it["uri"].rpartition("/shop/")[2]: it["diagnostics"] for it in params}

    def test_the_editor(self) -> None:
        self.assertEqual(self.shown("core/prices.py", "sell.py"), {"core/prices.py": []})
        self.plant("    return item.price * count\n", "    return shop.items.get(name)\n")
        lines = self.core.read_text(encoding="utf-8").splitlines()
        found = self.shown("core/prices.py", "sell.py", "stock.py")
        self.assertEqual([(name, it["code"]) for name, its in found.items() for it in its], [("core/prices.py", "E12")])
        place = found["core/prices.py"][0]["range"]["start"]
        self.assertEqual(lines[place["line"]][place["character"] :], "shop.items.get(name)")

    def test_the_hook(self) -> None:
        if shutil.which("pre-commit") is None or shutil.which("git") is None:
            self.skipTest("pre-commit or git is not there: Debian has them as packages of these names")
        self.commit(self.clone)
        listed = run(["git", "ls-remote", str(self.clone), "HEAD"], self.room, self.environment).stdout
        config = self.block("yaml").replace("URL of this repository", str(self.clone))
        self.write(".pre-commit-config.yaml", config.replace("COMMIT", listed.split()[0]))
        self.commit(self.project)
        done = self.ran("pre-commit", "run", "--all-files")
        self.assertEqual(done.returncode, 0, done.stdout + done.stderr)
        self.assertIn(LEFT, done.stdout)
        tried = self.ran("pre-commit", "try-repo", self.clone, "pycheck", "--all-files")
        self.assertEqual(tried.returncode, 0, tried.stdout + tried.stderr)
        self.plant("    return item.price * count\n", "    return shop.items.get(name)\n")
        self.commit(self.project)
        done = self.ran("pre-commit", "run", "--all-files")
        self.assertEqual(done.returncode, 1, done.stdout + done.stderr)
        self.assertIn("src/shop/core/prices.py", done.stdout)

    def test_mypy(self) -> None:
        if shutil.which("mypy") is None:
            self.skipTest("mypy is not there: Debian has it as a package of this name")
        done = run(["mypy", "--strict", "src"], self.project, self.environment)
        self.assertEqual(done.returncode, 0, done.stdout + done.stderr)
