"""Guards of a core: their text, when they are written, and the answers of the border to a value."""
from __future__ import annotations

import contextlib
import hashlib
import importlib
import io
import random
import shutil
import subprocess
import sys
import traceback
import unittest
from types import ModuleType
from typing import Any, Callable, Dict, List

from guards_modules import made_core
from support import ANY_OPERATOR, CLEAN, DYNAMIC, ERROR, HEADER, OPERATOR, PACKAGE, REFUSED, ROOT, Test


from pycheck_all.guard_text import PROMISE

CORE = HEADER + """from dataclasses import dataclass

limit = 3
names = ["Ada"]

@dataclass
class Item:
    name: str
    price: int = 0

    def cost(self, more: int = 1) -> int:
        return self.price + more

def total(items: list[Item], of: dict[str, Item | None]) -> int:
    return len(items)

def shown(value):
    print(value)

def main():
    print("run")

main()
"""
# The guards of this core, without the parts that every module of guards has
WRITTEN = '''
import typing as _typing
from typing import Any

import pycheck_guards as _guards
import shop as _core

__all__ = ["Item", "total", "shown", "main"]

_border = _guards.Border(
    _core,
    digest="DIGEST",
    classes={
        "Item": {"name": "str", "price": "int"},
    },
    constants={"names": "list[str]"},
)

if _typing.TYPE_CHECKING:
    from shop import Item as Item
else:

    @_border.class_
    class Item:
        def __init__(self, name: str, price: int = 0) -> None: ...

        def cost(self, more: int = 1) -> int: ...


@_border.function
def total(items: list[Item], of: dict[str, Item | None]) -> int:
    return _core.total(items, of)


@_border.function
def shown(value: Any) -> Any:
    return _typing.cast(Any, _core.shown)(value)


@_border.function
def main() -> Any:
    return _typing.cast(Any, _core.main)()
'''
# The whole comment of guards
SENTENCE = (
    "Where the report of the core is clean, a call through this module either raises a TypeError here, or the core"
    " raises none of the four exceptions, as long as nobody rebinds names of the core or writes into these values from"
    " another thread meanwhile."
)
# Names that the guards would have themselves
NAMED = HEADER + """from dataclasses import dataclass
from typing import Any

@dataclass
class TYPE_CHECKING:
    self: int
    _core: list[Any]

    def cast(self, _typing: int) -> int:
        return _typing

    def mro(self, receiver: int, wrapper: int) -> int:
        return receiver

@dataclass
class Fields:
    cls: int
    given: int
    by_name: int

def _border(_guards: int, self: int) -> int:
    return _guards + self

def sum(numbers: list[int], guarded: tuple[()] | None = None) -> int:
    return len(numbers)

def main():
    pass

main()
"""


class Guards(Test):
    """The command, and the guards that it writes into the folder of a test."""

    def setUp(self) -> None:
        super().setUp()
        sys.path.insert(0, str(self.folder))
        self.addCleanup(sys.path.remove, str(self.folder))
        self.addCleanup(self.forget)

    def forget(self) -> None:
        """Makes Python read the files of the folder anew."""
        for name in [it for it, module in sys.modules.items() if self.lies_here(module)]:
            del sys.modules[name]
        importlib.invalidate_caches()

    def lies_here(self, module: ModuleType) -> bool:
        """Whether a module comes from the folder."""
        return str(getattr(module, "__file__", "")).startswith(str(self.folder))

    def api(self, text: str) -> Any:
        """Returns the guards of a core with this text."""
        self.forget()
        for path in self.folder.glob("*.py"):
            path.unlink()
        self.write("shop.py", text)
        done = self.check("--guards", "shop.py")
        self.assertEqual((done.status, done.error), (0, ""), done.output)
        with contextlib.redirect_stdout(io.StringIO()):
            return importlib.import_module("shop_api")

    def files(self) -> List[str]:
        """Returns the files in the folder."""
        return sorted(it.name for it in self.folder.iterdir())

    def told(self, call: Callable[[], object]) -> str:
        """Returns the message to a call that is not let in."""
        with self.assertRaises(TypeError) as caught:
            call()
        entered = [it.filename for it in traceback.extract_tb(caught.exception.__traceback__)]
        self.assertNotIn(str(self.folder / "shop.py"), entered)
        return str(caught.exception)


class Writing(Guards):
    """When guards are written, and their contents."""

    def test_what_is_written(self) -> None:
        self.write("shop.py", CORE)
        done = self.check("--guards", "shop.py")
        wanted = "shop_api.py: guards of 3 functions, 1 class and 1 method\n"
        self.assertEqual((done.status, done.output, done.error), (0, wanted, ""))
        self.assertEqual(self.files(), ["pycheck_guards.py", "shop.py", "shop_api.py"])
        text = (self.folder / "shop_api.py").read_text(encoding="utf-8")
        digest = hashlib.sha256(CORE.encode()).hexdigest()
        head, _, body = text.partition("\nfrom __future__ import annotations\n")
        self.assertEqual(body.replace(digest, "DIGEST"), WRITTEN)
        first = "Guards of the core `shop`, written by pycheck-all --guards; not to be changed."
        self.assertEqual(head, f'"""{first}\n\n{PROMISE}\n"""')
        self.assertEqual(" ".join(PROMISE.split()), SENTENCE)
        border = (self.folder / "pycheck_guards.py").read_bytes()
        self.assertEqual(border, (PACKAGE / "pycheck_guards.py").read_bytes())
        self.assertEqual(self.check("--guards", "shop.py").output, wanted)
        self.assertEqual((self.folder / "shop_api.py").read_text(encoding="utf-8"), text)

    def test_a_core_that_is_not_clean(self) -> None:
        withheld = "core.py: no guards, since the promise excludes what is listed; --guards-anyway writes them\n"
        rows = [
            (ERROR, f"core.py:4:11: {OPERATOR}", "1 error, 0 dynamic places"),
            (DYNAMIC, f"core.py:4:12: {ANY_OPERATOR}", "0 errors, 1 dynamic place"),
        ]
        for text, line, counts in rows:
            with self.subTest(line):
                self.write("core.py", text)
                done = self.check("--guards", "core.py")
                self.assertEqual((done.status, done.error), (1, withheld))
                self.assertEqual(done.output, f"{line}\n1 file: {counts}\n")
                self.assertEqual(self.files(), ["core.py"])
                done = self.check("--guards", "core.py", "--guards-anyway", "--guards-to", "border.py")
                self.assertEqual((done.status, done.error), (0, ""))
                self.assertEqual(done.output.splitlines()[:2], [line, f"1 file: {counts}"])
                self.assertIn(f"\n\nIt is not clean: {counts}.\n", (self.folder / "border.py").read_text())
                (self.folder / "border.py").unlink()
                (self.folder / "pycheck_guards.py").unlink()

    def test_what_gets_no_guards(self) -> None:
        self.write("core.py", REFUSED)
        told = "core.py: no guards, since it is no module of the profile\n"
        for words in (["--guards", "core.py"], ["--guards", "core.py", "--guards-anyway"]):
            done = self.check(*words)
            self.assertEqual((done.status, done.error), (2, told))
            self.assertTrue(done.output.startswith("core.py:5:11: N2 refused"))
        done = self.check("--guards", "gone.py")
        self.assertEqual(done.status, 3)
        self.assertTrue(done.error.endswith("gone.py: cannot be read: No such file or directory\n"), done.error)
        twice = "from dataclasses import dataclass\n\n@dataclass\nclass A:\n    a: int\n    a: int\n"
        self.write("core.py", HEADER + twice + "\ndef main():\n    pass\n\nmain()\n")
        done = self.check("--guards", "core.py", "--guards-anyway")
        self.assertEqual(done.status, 3)
        self.assertIn("core.py: no guards, since errors of the core would be errors of them: duplicate", done.error)
        self.assertEqual(self.files(), ["core.py"])

    def test_files_that_are_there(self) -> None:
        self.write("core.py", CLEAN)
        for name in ("core_api.py", "pycheck_guards.py"):
            path = self.write(name, "print(1)\n")
            done = self.check("--guards", "core.py")
            self.assertEqual(done.status, 3)
            self.assertTrue(done.error.endswith(f"{name}: it is there already, and not written by --guards\n"))
            self.assertEqual(path.read_text(encoding="utf-8"), "print(1)\n")
            path.unlink()
            other = self.write("other.txt", "pycheck-all --guards")
            path.symlink_to(other)
            done = self.check("--guards", "core.py")
            self.assertEqual(done.status, 3)
            self.assertIn("it goes over a link of what is checked, which is not followed", done.error)
            self.assertEqual(other.read_text(encoding="utf-8"), "pycheck-all --guards")
            path.unlink()

    def test_words(self) -> None:
        self.write("core.py", CLEAN)
        rows = [
            (["--guards", "core.py", "core.py"], "argument --guards: it goes alone, without core.py"),
            (["--guards", "core.py", "--page", "a.html"], "argument --guards: it goes alone, without --page"),
            (["--guards", "core.py", "--all-refusals"], "argument --guards: it goes alone, without --all-refusals"),
            (["--guards", "core.py", "--output", "json"], "argument --guards: not in the form json"),
            (["--guards-to", "a.py", "core.py"], "arguments --guards-to and --guards-anyway: there is no --guards"),
            (["--guards", "core.txt"], "core.txt: no module of this name can be imported"),
            (["--guards", "core.py", "--guards-to", "a-b.py"], "a-b.py: no module of this name can be imported"),
            (["--guards", "core.py", "--guards-to", "core.py"], "core.py: the guards cannot have this name"),
            (["--guards", "core.py", "--guards-to", "pycheck_guards.py"], "the guards cannot have this name"),
        ]
        for words, told in rows:
            with self.subTest(words):
                done = self.check(*words)
                self.assertEqual(done.status, 3)
                self.assertTrue(done.error.endswith(told + "\n"), done.error)
        self.assertEqual(self.files(), ["core.py"])

    def test_in_a_package(self) -> None:
        self.write("shop/__init__.py", "")
        self.write("shop/core/__init__.py", "")
        self.write("shop/core/money.py", CORE)
        done = self.check("--guards", "shop/core/money.py", "--guards-to", "shop/border.py")
        self.assertEqual((done.status, done.error), (0, ""))
        self.forget()
        with contextlib.redirect_stdout(io.StringIO()):
            api = importlib.import_module("shop.border")
        self.assertEqual(api.total([api.Item("tea")], of={}), 1)
        self.assertEqual(api.total.__module__, "shop.border")
        text = (self.folder / "shop" / "border.py").read_text(encoding="utf-8")
        self.assertIn("\nimport shop.pycheck_guards as _guards\nimport shop.core.money as _core\n", text)

    def test_names_that_the_guards_would_have(self) -> None:
        api = self.api(NAMED)
        self.assertEqual(api._border(1, self=2), 3)
        made = api.TYPE_CHECKING(self=1, _core=[2])
        self.assertEqual(api.TYPE_CHECKING.cast(made, _typing=4), 4)
        self.assertEqual(api.TYPE_CHECKING.mro(made, receiver=5, wrapper=6), 5)
        self.assertEqual(api.Fields(cls=1, given=2, by_name=3).given, 2)
        self.assertEqual(self.told(lambda: api.TYPE_CHECKING("a", [])), "self: expected int, found str")
        self.assertEqual(self.told(lambda: api.sum(["a"])), "numbers[0]: expected int, found str")

    def test_types_of_constants(self) -> None:
        lines: Dict[str, List[str]] = {
            "a = []": ["list[object]"],
            "b = [1, True]": ["list[int]"],
            "c = [1, None, 'a']": ["list[int | None | str]"],
            "d = {True: [1]}": ["dict[int, list[int]]"],
            "e = (1, ['a'], ())": ["tuple[int, list[str], tuple[()]]"],
            "f = [One(1), Two(1)]": ["list[One]"],
            "g = b": ["list[int]"],
            "h = e[1]": ["list[str]"],
            "i = [d[1][0], -1, 2 + 3, len('a')]": ["list[int]"],
            "j = ['a' + 'b', str(1), e[1][0]]": ["list[str]"],
            "k: Any = [1]": ["Any"],
            "l = One(2)": ["One"],
            "m = [l.one, not 1, 1 < 2]": ["list[int]"],
            "o = 1": [],
            "p = (1, 'a')": [],
            "q = d[1] or b": ["list[int]"],
        }
        classes = "@dataclass\nclass One:\n    one: int\n\n@dataclass\nclass Two(One):\n    pass\n\n"
        heads = "from dataclasses import dataclass\nfrom typing import Any\n"
        text = HEADER + heads + classes + "\n".join(lines) + "\n\ndef main():\n    pass\n\nmain()\n"
        api = self.api(text.replace("'", '"'))
        found = {name: it.text for name, it in api._border.constants.items()}
        types = api._border.types
        wanted = {line[0]: types.read(it[0]).text for line, it in lines.items() if it}
        self.assertEqual(found, wanted)

    def test_a_constant_that_hides_its_type(self) -> None:
        end = "\n\ndef main():\n    pass\n\nmain()\n"
        told = "core.py: no guards, since these constants do not show their types; annotate them: "
        for line in ("b = [[1], []]", "b = [] or [1]"):
            self.write("core.py", HEADER + "a = [1]\n" + line + end)
            done = self.check("--guards", "core.py")
            self.assertEqual((done.status, self.files()), (3, ["core.py"]))
            self.assertEqual(done.error, f"check_all: error: {told}b (line 4)\n")
        self.write("core.py", HEADER + "a = [1]\nb: list[list[int]] = [[1], []]" + end)
        self.assertEqual(self.check("--guards", "core.py").status, 0)

    def test_the_core_is_not_run(self) -> None:
        self.write("core.py", HEADER + 'def main():\n    assert False, "run"\n\nmain()\n')
        self.assertEqual(self.check("--guards", "core.py").status, 0)

    @unittest.skipUnless(shutil.which("mypy"), "mypy is not there")
    def test_mypy_has_nothing_to_say(self) -> None:
        texts = {f"made{at}": made_core(random.Random(f"mypy/{at}")) for at in range(3)}
        texts.update(shop=CORE, named=NAMED)
        for path in (ROOT / "examples").glob("*.py"):
            texts[path.stem] = path.read_text(encoding="utf-8")
        for name, text in texts.items():
            self.write(f"{name}.py", text)
            self.check("--guards", f"{name}.py")
        written = sorted(it.name for it in self.folder.glob("*_api.py"))
        self.assertGreater(len(written), 6)
        words = ["mypy", "--strict", "--follow-imports=silent", "--cache-dir=cache", "pycheck_guards.py", *written]
        done = subprocess.run(words, cwd=self.folder, capture_output=True, timeout=300)
        self.assertEqual(done.stdout.decode(), f"Success: no issues found in {len(written) + 1} source files\n")
