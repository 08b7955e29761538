"""Dynamic places under the error from which they follow, in the form `full` and on the page."""
from __future__ import annotations

import json
import re
from typing import List

from support import HEADER, Test

HEADS = "from __future__ import annotations\nfrom dataclasses import dataclass\n\n@dataclass\nclass A:\n    n: int\n\n"
MAIN = "\ndef main():\n    print(g(A(1), 2))\n\nmain()\n"


class Following(Test):
    """Modules whose bodies are the lines of one function, from line 9 on; places were counted by hand."""

    def full(self, *lines: str) -> str:
        """Returns the output for a module with these lines."""
        body = "".join(f"    {line}\n" for line in lines)
        self.write("a.py", f"{HEADS}def g(a: A, n: int):\n{body}{MAIN}")
        return self.check("--output", "full", "a.py").output

    def heads(self, output: str) -> List[str]:
        """Returns the places and codes that have lines of their own."""
        return [" ".join(it) for it in re.findall(r"^a\.py:(\d+:\d+): \w+ (\w+)", output, re.MULTILINE)]

    def under(self, output: str) -> List[str]:
        """Returns the places that are shown under errors."""
        return re.findall(r"= And at (.*), since its type is unknown\.", output)

    def expect(self, lines: List[str], heads: List[str], under: List[str]) -> None:
        """Compares the places that have lines of their own, and those under an error."""
        output = self.full(*lines)
        self.assertEqual(self.heads(output), heads)
        self.assertEqual(self.under(output), under)

    def advice(self, *lines: str) -> List[str]:
        """Returns for each dynamic place of a module with these lines its place, its code, and the place of the error
        that its advice names; `-` if it names none."""
        self.full(*lines)
        found = []
        for it in json.loads(self.check("--output", "json", "a.py").output)["files"][0]["findings"]:
            said = re.match(r"It follows from \w+ at (\d+:\d+), and goes away with it\.", it["instead"])
            if it["code"][0] == "A":
                start = it["start"]
                found.append(f"{start['line']}:{start['column']} {it['code']} {said[1] if said else '-'}")
        return found

    def test_the_first_value_of_a_local(self) -> None:
        self.assertEqual(self.advice("x = a.cost", "print(x + 1)", "x.m()"), ["10:11 A2 9:9", "11:5 A4 9:9"])
        self.assertEqual(self.advice("x = a.cost - 1", "y = x", "n = y"), ["9:9 A2 9:9", "11:9 A1 9:9"])
        self.assertEqual(self.advice("for i in a.parts:", "    print(-i)"), ["9:14 A5 9:14", "10:15 A2 9:14"])
        loop = ["while n < 3:", "    mid = (n + None) // 2", "    if n < 2:", "        n = mid + 1"]
        self.assertEqual(self.advice(*loop), ["10:15 A2 10:16", "12:17 A1 10:16", "12:17 A2 10:16"])

    def test_a_local_with_a_type_from_elsewhere(self) -> None:
        self.assertEqual(self.advice("x = g(a, 1)", "x = a.cost", "print(x + 1)"), ["11:11 A2 -"])
        self.assertEqual(self.advice("x = a.cost < 1", "print(x + g(a, 1))"), ["9:9 A2 9:9", "10:11 A2 -"])
        self.assertEqual(self.advice("x = len(a.cost)", "print(x + g(a, 1))"), ["9:9 A6 9:13", "10:11 A2 -"])
        self.assertEqual(self.advice("x = y", "y = a.cost", "print(g(a, 1) + 1)"), ["11:11 A2 -"])

    def test_an_operand_that_is_unknown_for_another_reason(self) -> None:
        self.assertEqual(self.advice("x = a.cost", "print(x + g(a, 1))"), ["10:11 A2 -"])
        self.assertEqual(self.advice("n = a.cost + g(a, 1)"), ["9:9 A1 -", "9:9 A2 -"])
        self.assertEqual(self.advice("x = a.cost", "y = x + x", "z = y + y", "print(z < 1)"),
                         ["10:9 A2 9:9", "11:9 A2 9:9", "12:11 A2 9:9"])

    def test_a_length(self) -> None:
        self.expect(["print(len(a.cost))"], ["9:15 E15"], ["9:11 A6"])

    def test_operators_and_flows(self) -> None:
        self.expect(["x: int = a.cost + 1", "print(-a.cost)"], ["9:14 E15", "10:12 E15"], ["9:14 A1, 9:14 A2", "10:11 A2"])

    def test_chain_of_attributes(self) -> None:
        self.expect(["n + a.cost.b.c"], ["9:9 E15"], ["9:5 A2, 9:9 A4, 9:9 A4"])

    def test_call_of_an_error(self) -> None:
        self.expect(["a.run(1).go(2)"], ["9:5 E15"], ["9:5 A4"])

    def test_items_and_loops(self) -> None:
        self.expect(["(a.cost)[0]", "for i in a.parts:", "    print(i)"], ["9:6 E15", "10:14 E15"], ["9:5 A3", "10:14 A5"])

    def test_a_name_bound_to_an_error_does_not_follow(self) -> None:
        self.expect(["x = a.cost", "print(x + 1)"], ["9:9 E15", "10:11 A2"], [])

    def test_a_flow_that_does_not_fit_causes_nothing(self) -> None:
        self.expect(["x: str = n", "x.cost.price"], ["9:14 E12", "10:5 E15"], ["10:5 A4"])

    def test_a_test_of_an_error_is_a_bool(self) -> None:
        self.expect(["x: bool = not a.cost", "print(x)"], ["9:19 E15"], [])

    def test_many_places(self) -> None:
        output = self.full("a.cost" + ".x" * 10)
        self.assertEqual(self.heads(output), ["9:5 E15"])
        self.assertIn("And at " + "9:5 A4, " * 8 + "2 more, since", " ".join(output.replace("\n", " ").split()))

    def test_the_other_forms_and_the_counts_stay(self) -> None:
        output = self.full("x: int = a.cost + 1", "print(x)")
        self.assertTrue(output.endswith("1 file: 1 error, 2 dynamic places\n"), output)
        concise = self.check("--output", "concise", "a.py").output
        self.assertEqual(re.findall(r"^a\.py:9:14: (\w+)", concise, re.MULTILINE), ["E15", "A1", "A2"])

    def test_a_known_error_has_nothing_under_it(self) -> None:
        self.full("print(a.cost + 1)")
        self.check("--write-baseline", "known.json", "a.py")
        entries = (self.folder / "known.json").read_text(encoding="utf-8").replace('"A2"', '"A3"')
        (self.folder / "known.json").write_text(entries, encoding="utf-8")
        output = self.check("--output", "full", "--baseline", "known.json", "a.py").output
        self.assertEqual(self.heads(output), ["9:11 A2"])

    def test_page(self) -> None:
        self.full("print(a.cost + 1)")
        self.check("--page", "page.html", "a.py")
        page = (self.folder / "page.html").read_text(encoding="utf-8")
        self.assertRegex(page, r'<li id="f0-n0">(?:(?!</li>).)*E15(?:(?!</li>).)*<ul><li id="f0-n1">(?:(?!</li>).)*A2')
        self.assertIn("The type is unknown because of the error above.", page)

    def test_a_module_without_errors(self) -> None:
        self.write("a.py", HEADER + "def f(x):\n    return x + 1\n\ndef main():\n    print(f(1))\n\nmain()\n")
        self.assertEqual(self.heads(self.check("--output", "full", "a.py").output), ["4:12 A2"])
