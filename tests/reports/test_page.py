"""The page: its marks and texts, by itself and in a browser if there is one."""
from __future__ import annotations

import html
import json
import re
import unittest
from html.parser import HTMLParser
from typing import List, Optional, Tuple

import browser
from support import CLEAN, ERROR, HEADER, Test, modules

# The elements that the page need not close
VOID = {"meta", "link"}


class Outline(HTMLParser):
    """Reads a page: its elements, and the text of each mark, put together by the title of the mark."""

    def __init__(self, text: str) -> None:
        super().__init__()
        self.open: List[str] = []
        self.names: List[str] = []
        self.places: List[List[str]] = []
        self.links: List[str] = []
        self.feed(text)
        self.close()

    def handle_starttag(self, tag: str, attrs: "List[Tuple[str, Optional[str]]]") -> None:
        values = dict(attrs)
        self.names += [values["id"] or ""] if "id" in values else []
        self.links += [values["href"] or ""] if "href" in values else []
        if tag == "mark" and "place" in (values["class"] or "").split():
            self.places.append([(values["class"] or "").split()[1], values["title"] or ""])
        if tag not in VOID:
            self.open.append(tag)

    def handle_endtag(self, tag: str) -> None:
        if self.open.pop() != tag:
            raise AssertionError(f"</{tag}> closes another element")


def text_of(fragment: str) -> str:
    """Returns the text of a fragment of the page."""
    return html.unescape(re.sub(r"<[^>]*>", "", fragment))


class Pages(Test):
    """The page of the folder of modules, and of one large module."""

    def page(self, *words: str) -> str:
        """Returns the page that is written."""
        self.check("--page", "page.html", *words)
        return (self.folder / "page.html").read_text(encoding="utf-8")

    def test_marks(self) -> None:
        modules(self.folder)
        outline = Outline(self.page("."))
        self.assertEqual(outline.open, [])
        kinds = [kind for kind, _ in outline.places]
        self.assertEqual([kinds.count(kind) for kind in ("error", "dynamic", "refused")], [8, 2, 3])
        self.assertIn(
            "A1 any-flow: cannot tell whether Any fits parameter n: int of increase",
            [said for _, said in outline.places],
        )
        self.assertEqual(len(outline.names), len(set(outline.names)))
        inner = [it[1:] for it in outline.links if it.startswith("#")]
        self.assertEqual(set(inner) - set(outline.names), set())
        self.assertEqual([it for it in outline.links if not it.startswith("#")], ["data:,"])

    def test_nothing_from_elsewhere(self) -> None:
        modules(self.folder)
        page = self.page(".")
        self.assertNotIn("<script", page)
        self.assertNotRegex(page, r"(?:src|href)=\"(?!#|data:)")
        self.assertNotRegex(page, r"https?:|url\(|@import")
        self.assertIn("default-src 'none'", page)

    def test_table(self) -> None:
        modules(self.folder)
        rows = re.findall(r"<tr>(.*?)</tr>", self.page("."))
        cells = [[text_of(it) for it in re.findall(r"<t[dh][^>]*>(.*?)</t[dh]>", row)] for row in rows]
        # 13 lines of dynamic.py, two of them dynamic; 16 of lines.py, of which errors touch 3 and 8
        self.assertIn(["dynamic.py", "0", "2", "86 %"], cells)
        self.assertIn(["lines.py", "2", "0", "31 %"], cells)
        self.assertIn(["clean.py", "0", "0", "100 %"], cells)
        self.assertIn(["loop.py", "not checked: cannot be read: Too many levels of symbolic links"], cells)
        self.assertIn(["refused.py", "L2 refused: bad string"], cells)
        self.assertEqual(cells[-1][:3], ["All that have a report", "8", "2"])

    def test_text_stays_as_it_is(self) -> None:
        line = '    print("<b>&\\"\t𐀀", 1 + "<a" + 2)'
        text = HEADER + f"def main():\n{line}\n\nmain()\n"
        self.write("a<b>.py", text)
        page = self.page(".")
        shown = re.findall(r'<div class="line" id="f0-l\d+">(.*?)</div>', page, re.DOTALL)
        self.assertEqual([re.sub(r"^\d+", "", text_of(it)) for it in shown], text.splitlines())
        self.assertIn("<h2>a&lt;b&gt;.py</h2>", page)

    def test_places_in_one_another(self) -> None:
        self.write("a.py", HEADER + 'def main():\n    print(1 + "a" + 2)\n\nmain()\n')
        page = self.page("a.py")
        marks = re.findall(r'<mark class="(\w+) (\w+)"(?: id="[^"]*")? title="([^"]*)">', page)
        # The outer place starts where the inner one does; its rest is a mark of its own
        self.assertEqual([it[:2] for it in marks], [("place", "dynamic"), ("place", "error"), ("rest", "dynamic")])
        self.assertIn("A2 any-operator", marks[1][2])
        self.assertIn("E13 operator", marks[1][2])
        self.assertNotIn("E13 operator", marks[0][2])

    def test_modules_without_findings_are_folded(self) -> None:
        self.write("a.py", CLEAN)
        self.write("b.py", ERROR)
        page = self.page(".")
        self.assertEqual(page.count("<details>"), 1)
        self.assertEqual(page.count("<details open>"), 1)

    def test_that_cannot_be_written(self) -> None:
        self.write("a.py", CLEAN)
        done = self.check("--page", "no/page.html", "a.py")
        self.assertEqual((done.status, done.error), (3, "check_all: error: no/page.html: No such file or directory\n"))


@unittest.skipUnless(browser.found(), "there is no Chromium")
class InBrowser(Test):
    """The page as a browser shows it."""

    def setUp(self) -> None:
        super().setUp()
        modules(self.folder)
        self.write("a folder with a long name/and/another/folder_that_has_no_blank_in_its_very_long_name/a.py", ERROR)
        self.write("wide.py", HEADER + 'def main():\n    print("' + "x" * 200 + '", 1 + "a")\n\nmain()\n')
        self.write("guides.py", HEADER + "def main():\n    x = 1 / 2\n    y = 2 / 3\n\nmain()\n")
        done = self.check("--all-refusals", "--page", "page.html", "--output", "json", ".")
        counts = json.loads(done.output)["counts"]
        self.findings = sum(counts[it] for it in ("errors", "dynamic", "refused", "guides"))
        # 13 of the folder, the second refusal of refused.py, an error each of a.py and wide.py, two of guides.py
        self.assertEqual(self.findings, 18)
        self.browser = browser.Browser(str(browser.found()))
        self.addCleanup(self.browser.close)

    def test_in_each_width_and_colour(self) -> None:
        grounds = set()
        for width in (400, 1600):
            for scheme in ("light", "dark"):
                with self.subTest(width=width, scheme=scheme):
                    self.browser.open(self.folder / "page.html", width, scheme)
                    self.assertEqual(self.browser.value("window.innerWidth"), width)
                    self.assertLessEqual(self.browser.value("document.documentElement.scrollWidth"), width)
                    self.assertEqual(
                        self.browser.value("document.querySelectorAll('mark.place').length"), self.findings
                    )
                    self.assertEqual(self.browser.value(SHOWN), self.findings)
                    self.assertEqual(self.browser.value(UNREADABLE), [])
                    grounds.add(self.browser.value("getComputedStyle(document.body).backgroundColor"))
        self.assertEqual(len(grounds), 2)
        self.assertEqual(self.browser.told, [])

    def test_links(self) -> None:
        self.browser.open(self.folder / "page.html", 1600, "light")
        self.assertEqual(self.browser.value(DEAD), 0)
        self.browser.value("document.querySelector('li a').click()")
        self.assertEqual(self.browser.value("document.querySelector(':target').className"), "line")

    def test_the_console_is_heard(self) -> None:
        """The test of the console can fail: messages of a page are kept."""
        self.write("loud.html", "<!doctype html><script>console.error('loud')</script>")
        self.browser.open(self.folder / "loud.html", 400, "light")
        self.assertIn("loud", " ".join(self.browser.told))


# The marks that take some room; the marks whose text has a contrast of less than 4.5 to 1; the links to nowhere
SHOWN = "[...document.querySelectorAll('mark.place')].filter(it => it.getClientRects().length).length"
UNREADABLE = """(() => {
  const parts = text => text.match(/[\\d.]+/g).slice(0, 3).map(it => it / 255)
    .map(it => it <= 0.03928 ? it / 12.92 : ((it + 0.055) / 1.055) ** 2.4);
  const light = text => { const [r, g, b] = parts(text); return 0.2126 * r + 0.7152 * g + 0.0722 * b };
  const low = [];
  for (const it of document.querySelectorAll('mark')) {
    const style = getComputedStyle(it), one = light(style.color), two = light(style.backgroundColor);
    if ((Math.max(one, two) + 0.05) / (Math.min(one, two) + 0.05) < 4.5) low.push(it.outerHTML);
  }
  return low;
})()"""
DEAD = "[...document.querySelectorAll('a')].filter(it => !document.getElementById(it.hash.slice(1))).length"
