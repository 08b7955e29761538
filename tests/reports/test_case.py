"""The advice for the case of an error by the word at its place: each word of the table of docs/CODES.md."""
from __future__ import annotations

import json
import re
from typing import Dict, Iterator, List, Tuple

from support import HEADER, ROOT, Test

TABLE = re.compile(r"^\| Code \| Words \| Detail \| Advice \|\n\|[-|]+\n((?:\|.*\n)+)", re.MULTILINE)
# An expression with an error of the code at the word, which replaces {}
USES = {
    "E02": "print({}(1))",
    "E09": "x: {} = 1",
    "E15 str": 'print("a".{}("b"))',
    "E15 list": 'print([1].{}("b"))',
    "E15 dict": 'print({{"a": 1}}.{}("b"))',
    "E20": 'print({}("3"))',
    "E27": "print({}(3))",
}


def rows() -> Iterator[Tuple[str, str, str]]:
    """Yields the code, the word and the advice of each case on the page that has a word of one part. Behind the code of
    an attribute is the type of the object, with which the form of sentences begins."""
    for table in TABLE.findall((ROOT / "docs" / "CODES.md").read_text(encoding="utf-8")):
        for line in table.splitlines():
            code, words, detail, advice = (it.strip() for it in re.split(r"(?<!\\)\|", line)[1:-1])
            kind = f"{code.strip('`')} {re.split('[^a-z]', detail.strip('`'))[0]}".strip()
            for word in words.split(", ") if words else []:
                if " " not in word:
                    yield kind, word.strip("`"), advice.replace("NAME", word.strip("`"))


class Cases(Test):
    """The advice under an error."""

    def advice(self, lines: List[str]) -> Dict[str, Dict[str, str]]:
        """Returns the text under the errors of a function with each line, by their codes."""
        for number, line in enumerate(lines):
            self.write(f"{number:03}.py", HEADER + f"def main():\n    {line}\n\nmain()\n")
        said = [dict(it) for it in self.messages()]
        found: Dict[str, Dict[str, str]] = {line: {} for line in lines}
        for it in said:
            found[lines[int(it["path"][:3])]][it["code"]] = it["text"]
        return found

    def messages(self) -> Iterator[Dict[str, str]]:
        """Yields the path, the code and the message of each finding."""
        for it in json.loads(self.check("--output", "sarif", ".").output)["runs"][0]["results"]:
            path = it["locations"][0]["physicalLocation"]["artifactLocation"]["uri"]
            yield {"path": path, "code": it["ruleId"], "text": it["message"]["text"]}

    def test_each_word_of_the_page_has_its_advice(self) -> None:
        cases = list(rows())
        self.assertGreater(len(cases), 50)
        found = self.advice([USES[kind].format(word) for kind, word, _ in cases])
        for kind, word, advice in cases:
            with self.subTest(f"{kind} {word}"):
                self.assertTrue(found[USES[kind].format(word)][kind[:3]].endswith(f". {advice}"))

    def test_other_words_have_the_sentence_of_the_code(self) -> None:
        lines = ["print(maxé(1))", "print(nmae)", "y = range(3)"]
        found = self.advice(lines)
        for line, code, advice in (
            (lines[0], "E02", "Spell the name as it is bound, or write the missing function."),
            (lines[1], "E02", "Spell the name as it is bound, or write the missing function."),
            (lines[2], "E27", "Write `range` in the head of the loop, or fill a list in a loop."),
        ):
            with self.subTest(line):
                self.assertTrue(found[line][code].endswith(advice), found[line])

    def test_the_word_is_that_of_the_place(self) -> None:
        found = self.advice(["print([1]. sort())", "largest = max\n    print(largest)", 'print(int ("3"))'])
        said = [text for it in found.values() for code, text in it.items() if code in ("E02", "E15", "E20")]
        for words in ("copy `sorted_of`", "`max` is a built-in of Python", "`int` is for annotations"):
            with self.subTest(words):
                self.assertEqual(sum(words in it for it in said), 1)
