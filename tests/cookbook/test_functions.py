"""The modules of the cookbook: clean, alike if they are copies, and the same as Python's own on random input."""
from __future__ import annotations

import re
import shutil
import subprocess
import types
from typing import Callable, Dict, Iterator, List

import compared
from compared import COOKBOOK, FUNCTIONS, module_of
from rooms import MAIN, RoomCase, parts_of, source_of

FILES = sorted(path.name for path in COOKBOOK.glob("*.py"))
CASES = 2000
# Functions that only another function calls
STEPS = {"merged", "merge", "merged_str", "merge_str"}
CHECKS: Dict[str, Callable[[types.ModuleType], Iterator[str]]] = {
    **{file: lambda module, file=file: compared.differences(module, file, CASES) for file in FUNCTIONS},  # type: ignore
    "queues.py": lambda module: compared.differences_of_queues(module, CASES),
    "results.py": lambda module: compared.differences_of_results(module, CASES),
}
# Mistakes that the comparison must find: a file, a text that occurs there once, and its replacement
MISTAKES = [
    ("texts.py", "text[start] in characters", 'text[start] in " \\t"'),
    ("texts.py", "text[stop - 1] in characters", "text[stop - 1] == characters"),
    ("texts.py", 'strip(text: str, characters: str = " \\t\\n\\r")', 'strip(text: str, characters: str = " \\t\\n")'),
    ("texts.py", "start = at + len(separator)", "start = at + 1"),
    ("texts.py", "parts.append(slice_of(text, start))", "parts.append(slice_of(text, at))"),
    ("texts.py", "return [text]", "return []"),
    ("texts.py", 'if character not in " \\t\\n\\r"', 'if character != " "'),
    ("texts.py", 'if word != "":\n        words', 'if len(word) > 1:\n        words'),
    ("texts.py", "if at > 0:\n", "if at > 1:\n"),
    ("texts.py", "while at + len(part) <= len(text)", "while at + len(part) < len(text)"),
    ("texts.py", "        at = at + 1\n    return -1", "        at = at + 2\n    return -1"),
    ("texts.py", "if at < 0 or at + len(part) > len(text)", "if at + len(part) > len(text)"),
    ("texts.py", "text[at + offset] != part[offset]", "text[at + offset] != part[0]"),
    ("texts.py", "    result = new\n", '    result = ""\n'),
    ("texts.py", "if stop is not None and stop < end", "if stop is not None and stop < 0"),
    ("texts.py", "    if end < 0:\n        end = end + len(text)\n", ""),
    ("texts.py", 'if negative or starts_at(digits, "+", 0)', "if negative"),
    ("texts.py", 'elif character != "_" or not after_digit', 'elif character != "_"'),
    ("texts.py", "    if not after_digit:\n        return None\n    if", "    if"),
    ("texts.py", "return -number", "return number"),
    ("texts.py", "number * 10 + value", "number * 10 - value"),
    ("lists_of_int.py", "if value > largest", "if value >= largest"),
    ("lists_of_int.py", "if value < smallest", "if value <= smallest"),
    ("lists_of_int.py", "values[right] < values[left]", "values[right] <= values[left]"),
    ("lists_of_int.py", "    result = slice_of_list(values)\n", "    result = values\n    result.append(0)\n"),
    ("lists_of_int.py", "    if place < 0:\n        place = 0\n", ""),
    ("lists_of_int.py", "while free > place", "while free > place + 1"),
    ("lists_of_int.py", "len(values) - 1 - count", "count"),
    ("lists_of_int.py", "    if at < 0:\n        at = 0\n", ""),
    ("lists_of_int.py", "result = result + value", "result = result + 1"),
    ("lists_of_str.py", "values[right] < values[left]", "values[left] < values[right]"),
    ("lists_of_str.py", "    free = len(values) - 1\n", "    free = len(values) - 1\n    values[0] = value\n"),
    ("queues.py", "if self.size() == 0", "if self.size() <= 1"),
    ("queues.py", "left.append(self.values[self.taken + at])", "left.append(self.values[at])"),
    ("queues.py", "            last.next = node\n", "            last.next = None\n"),
    ("queues.py", "        if first.next is None:\n            self.last = None\n", ""),
    ("queues.py", "self.last = before", "self.last = node"),
    ("queues.py", "                before = node\n            else", "                before = None\n            else"),
    ("queues.py", "        self.last = node\n        while", "        while"),
    ("results.py", "at + 1, \"a second", "at, \"a second"),
    ("results.py", "if entry.name in document.values", 'if entry.name == ""'),
    ("results.py", "entry_of(lines[at], at + 1)", "entry_of(lines[at], at)"),
    ("results.py", "strip(without_comment(line))", "strip(line)"),
    ("results.py", "find(text, \"=\")", "find(text, \" \")"),
    ("results.py", "if not is_name(name)", 'if name == ""'),
    ("results.py", "return text != \"\"", "return True"),
    ("results.py", "total = total + ", "total = "),
]


class Functions(RoomCase):
    """The modules of cookbook/."""

    def test_each_module_is_clean(self) -> None:
        self.assertEqual(set(FILES), set(CHECKS))
        for file in FILES:
            self.assert_clean(str(COOKBOOK / file))

    def test_mypy_is_content_too(self) -> None:
        if not shutil.which("mypy"):
            self.skipTest("mypy is not there")
        for file in FILES:
            words = ["mypy", "--strict", "--cache-dir", str(self.room), str(COOKBOOK / file)]
            done = subprocess.run(words, cwd=self.room, capture_output=True, text=True, timeout=300)
            self.assertEqual(done.returncode, 0, done.stdout + done.stderr)

    def test_all_functions_go_into_one_module(self) -> None:
        parts = {name: part.source for file in FILES for name, part in parts_of(source_of(file)).items()}
        head = "from __future__ import annotations\nfrom dataclasses import dataclass\n\n"
        self.assert_clean(self.write(head + "\n\n".join([*parts.values(), MAIN + "    pass"]) + "\n\nmain()\n"))

    def test_copies_of_a_function_are_alike(self) -> None:
        first: Dict[str, str] = {}
        copies = 0
        for file in ("texts.py", *FILES):
            for name, part in parts_of(source_of(file)).items():
                copies += name in first and file != "texts.py"
                self.assertEqual(first.setdefault(name, part.source), part.source, f"{file}: {name}")
        self.assertGreater(copies, 0)

    def test_lists_of_str_are_made_from_those_of_int(self) -> None:
        ints, made = parts_of(source_of("lists_of_int.py")), parts_of(source_of("lists_of_str.py"))
        del ints["sum_of"]
        for name, part in ints.items():
            text = part.source
            for other in ints:
                text = re.sub(rf"\b{other}\(", f"{other}_str(", text)
            for form in ("list[%s]", "value: %s", "-> %s | None"):
                text = text.replace(form % "int", form % "str")
            self.assertEqual(made.pop(f"{name}_str").source, text)
        self.assertEqual(made, {})

    def test_each_function_says_how_it_differs(self) -> None:
        for file, functions in FUNCTIONS.items():
            parts = parts_of(source_of(file))
            self.assertEqual(set(parts) - STEPS, set(functions), file)
            for name in functions:
                self.assertRegex(parts[name].comment, r"(?m)^# (Differs|Does not differ)\b", f"{file}: {name}")
        for file in set(FILES) - set(FUNCTIONS):
            self.assertRegex(source_of(file), r"(?m)^# (Differs|They differ) from ", file)

    def same_as_python(self, file: str) -> None:
        """Asserts that a module has the results of Python's own functions."""
        self.assertEqual(list(CHECKS[file](module_of(source_of(file))))[:5], [])

    def test_texts(self) -> None:
        self.same_as_python("texts.py")

    def test_lists(self) -> None:
        self.same_as_python("lists_of_int.py")
        self.same_as_python("lists_of_str.py")

    def test_queues(self) -> None:
        self.same_as_python("queues.py")

    def test_results(self) -> None:
        if not compared.HAS_TOMLLIB:
            self.skipTest("this Python has no tomllib")
        self.same_as_python("results.py")

    def test_long_lists_are_sorted(self) -> None:
        chance = compared.Random("long")
        module = module_of(source_of("lists_of_int.py"))
        for length in (255, 256, 257, 3000):
            values = [chance.randrange(length) for _ in range(length)]
            self.assertEqual(module.sorted_of(values), sorted(values))

    def test_mistakes_are_found(self) -> None:
        missed: List[str] = []
        for file, old, new in MISTAKES:
            if file == "results.py" and not compared.HAS_TOMLLIB:
                continue
            source = source_of(file)
            self.assertEqual(source.count(old), 1, f"{file}: {old}")
            if next(CHECKS[file](module_of(source.replace(old, new))), None) is None:
                missed.append(f"{file}: {new}")
        self.assertEqual(missed, [])

    def test_a_module_that_is_not_clean_is_found(self) -> None:
        source = source_of("queues.py")
        wrong = source.replace("            last.next = node", "            self.last.next = node")
        self.assertNotEqual(source, wrong)
        with self.assertRaisesRegex(AssertionError, "E15 attribute"):
            self.assert_clean(self.write(wrong))
