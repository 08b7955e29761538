"""The page in a browser, from a server of files, beside the program."""
from __future__ import annotations

import functools
import http.server
import json
import threading
import time
import unittest
from typing import Any, ClassVar, Dict, Iterable, List

import browser
from beside import EXAMPLES, ROOT, WEB, program

SHOWN = """[...document.querySelectorAll('#findings .where')].map(it => it.textContent).concat(
  document.getElementById('summary').textContent).join('\\n') + '\\n'"""
# The middle of a character by its line and column, from 1, in points of the window: all are of one width
MIDDLE = """((line, column) => {
  const text = document.getElementById('text'), style = getComputedStyle(text), box = text.getBoundingClientRect();
  const canvas = document.createElement('canvas').getContext('2d');
  canvas.font = style.font;
  return [box.x + parseFloat(style.paddingLeft) + (column - 0.5) * canvas.measureText('0').width,
          box.y + parseFloat(style.paddingTop) + (line - 0.5) * parseFloat(style.lineHeight)];
})(%d, %d)"""
# The place in a part of which, from 0 to 1 of its width, the snake of the text is drawn
SNAKE = """(part => {
  const node = [...document.getElementById('marks').childNodes].find(it => it.data.includes('\\u{1f40d}'));
  const range = document.createRange(), at = node.data.indexOf('\\u{1f40d}');
  range.setStart(node, at), range.setEnd(node, at + 2);
  const box = range.getBoundingClientRect();
  return [box.x + part * box.width, box.y + box.height / 2];
})(%f)"""
HINT = "document.getElementById('hint').hidden ? '' : document.getElementById('hint').textContent"
# Milliseconds to the first answer, and how often the page is opened for it, since other work may take the processors
FIRST_ANSWER, OPENINGS = 300, 10


class Quiet(http.server.SimpleHTTPRequestHandler):
    """A server of files that logs nothing."""

    def log_message(self, format: str, *args: Any) -> None:
        pass


class Page(browser.Browser):
    """A browser that records each address that it asks for."""

    def __init__(self, path: str) -> None:
        self.asked: List[str] = []
        super().__init__(path)
        self.ask("Network.enable")

    def read(self) -> Dict[str, Any]:
        message = super().read()
        if message.get("method") == "Network.requestWillBeSent":
            self.asked.append(message["params"]["request"]["url"])
        return message

    def visit(self, address: str, width: int = 1280, scheme: str = "light") -> None:
        """Opens an address anew, and waits for the first report."""
        self.ask("Emulation.setDeviceMetricsOverride", width=width, height=900, deviceScaleFactor=1, mobile=width < 800)
        self.ask("Emulation.setEmulatedMedia", features=[{"name": "prefers-color-scheme", "value": scheme}])
        # The browser comes from another page, since it would not load one anew that differs in its fragment alone
        self.ask("Page.navigate", url="about:blank")
        self.wait("location.href === 'about:blank'")
        self.ask("Page.navigate", url=address)
        self.wait("location.href !== 'about:blank' && document.readyState === 'complete'"
                  " && !/loading/.test(document.getElementById('summary').textContent)")

    def wait(self, expression: str) -> None:
        """Waits until an expression holds."""
        end = time.monotonic() + browser.SECONDS
        while not self.value(expression):
            if time.monotonic() > end:
                raise AssertionError(f"it never came: {expression}")
            time.sleep(0.02)

    def press(self, key: str, code: int, modifiers: int = 0) -> None:
        """Presses a key."""
        for kind in ("keyDown", "keyUp"):
            self.ask("Input.dispatchKeyEvent", type=kind, key=key, code=key, windowsVirtualKeyCode=code, modifiers=modifiers,
                     **({"text": "\r"} if key == "Enter" and kind == "keyDown" else {}))

    def types(self, text: str) -> None:
        """Types a text at the caret."""
        self.ask("Input.insertText", text=text)


class Pages(unittest.TestCase):
    """The page of web/."""

    page: ClassVar[Page]
    server: ClassVar[http.server.ThreadingHTTPServer]
    base: ClassVar[str]

    @classmethod
    def setUpClass(cls) -> None:
        path = browser.found()
        if path is None:
            return
        cls.server = http.server.ThreadingHTTPServer(("127.0.0.1", 0), functools.partial(Quiet, directory=str(WEB)))
        threading.Thread(target=cls.server.serve_forever, daemon=True).start()
        cls.base = f"http://127.0.0.1:{cls.server.server_port}/"
        cls.page = Page(path)

    @classmethod
    def tearDownClass(cls) -> None:
        if hasattr(cls, "page"):
            cls.page.close()
            cls.server.shutdown()
            cls.server.server_close()

    def setUp(self) -> None:
        if not hasattr(self, "page"):
            self.skipTest("chromium is not there")
        self.page.visit(self.base)

    def tearDown(self) -> None:
        self.assertEqual(self.page.told, [])
        self.assertEqual([it for it in self.page.asked if not it.startswith((self.base, "about:", "data:"))], [])

    def shown(self) -> str:
        """Returns the report, as the page shows it: the lines of the program."""
        return str(self.page.value(SHOWN))

    def put(self, text: str) -> None:
        """Types a whole text in place of the existing one."""
        self.page.value("document.getElementById('text').select(); document.getElementById('text').focus()")
        self.page.types(text)
        self.settle()

    def settle(self) -> None:
        """Waits until the typed text is checked."""
        self.page.wait("!document.getElementById('summary').hasAttribute('aria-busy')")

    def test_it_opens_with_a_report(self) -> None:
        self.assertEqual(self.shown(), (ROOT / "examples" / "ages.txt").read_text(encoding="utf-8"))
        marked = self.page.value("[...document.querySelectorAll('mark')].map(it => it.textContent)")
        self.assertEqual(marked, ["ages.get(name)", "age + 1"])

    def test_the_first_answer_comes_soon(self) -> None:
        spent: List[float] = []
        while len(spent) < OPENINGS and min(spent, default=FIRST_ANSWER) >= FIRST_ANSWER:
            self.page.visit(self.base)
            spent.append(self.page.value("performance.getEntriesByName('answered')[0].startTime"))
        print(f"first answer after {min(spent):.0f} ms")
        self.assertLess(min(spent), FIRST_ANSWER)

    def test_each_example_has_the_report_of_the_program(self) -> None:
        names = self.page.value("[...document.querySelectorAll('#example option')].length")
        self.assertEqual(names, len(EXAMPLES))
        texts = json.loads((WEB / "texts.json").read_text(encoding="utf-8"))["examples"]
        for number, it in enumerate(texts):
            self.page.value("document.getElementById('example').value = %d;"
                            "document.getElementById('example').dispatchEvent(new Event('change'))" % number)
            status, out, err = program(ROOT / "examples" / f"{it['name']}.py")
            wanted = out.decode() if status < 2 else 2 * err.decode()
            self.assertEqual(self.shown(), wanted, it["name"])

    def test_a_module_is_typed_and_mended(self) -> None:
        self.put("")
        for line in ("from __future__ import annotations", "def main():", "print(1 + \"a\")"):
            self.page.types(line)
            self.page.press("Enter", 13)
        self.page.press("Backspace", 8)
        for _ in range(3):
            self.page.press("Backspace", 8)
        self.page.types("main()")
        self.settle()
        self.assertEqual(self.page.value("document.getElementById('text').value"),
                         "from __future__ import annotations\ndef main():\n    print(1 + \"a\")\nmain()")
        self.assertEqual(self.shown(), "3:11 E13 operator\nerrors 1, dynamic 0\n")
        self.assertIn("Annotate", self.advice_after("a, b", "def f(a, b):\n    return a + b\n"))
        self.put("from __future__ import annotations\ndef main():\n    print(1 + 2)\nmain()\n")
        self.assertEqual(self.shown(), "errors 0, dynamic 0\n")

    def advice_after(self, name: str, function: str) -> str:
        """Returns the advice at the caret for the first finding of a module with a function; the finding is reached by
        F8."""
        self.put(f"from __future__ import annotations\n{function}def main():\n    print(1)\nmain()\n")
        self.page.value("document.getElementById('text').setSelectionRange(0, 0)")
        self.page.press("F8", 119)
        return str(self.page.value("document.getElementById('advice').textContent"))

    def test_advice_of_a_case(self) -> None:
        said = self.advice_after("sorted", "def f(a: list[int]) -> int:\n    return max(a)\n")
        self.assertIn("`max` is a built-in of Python that the profile leaves out".replace("`", ""), said)

    def hint(self, line: int, column: int) -> str:
        """What is said beside the pointer over a character; nothing where nothing is said."""
        return self.hint_at(self.page.value(MIDDLE % (line, column)))

    def hint_at(self, point: List[float]) -> str:
        """What is said beside the pointer at a point of the window."""
        self.page.ask("Input.dispatchMouseEvent", type="mouseMoved", x=point[0], y=point[1])
        return str(self.page.value(HINT))

    def types(self, line: int, columns: Iterable[int]) -> List[str]:
        """What is said of types at the characters of a line."""
        return [self.hint(line, column).partition("Type of ")[2] for column in columns]

    def test_a_pointer_over_a_place_is_told_what_the_code_means(self) -> None:
        said = self.hint(4, 20)
        for words in ("4:12 E12 flow", "A value that does not fit where it goes.", "Test for the values that do not fit",
                      "Type of ages.get(name): int | None"):
            self.assertIn(words, said)

    def test_a_pointer_over_an_expression_is_told_its_type(self) -> None:
        """That of the smallest one around the character; also behind the last character of one."""
        # `return ages.get(name)`, and nothing behind it
        ages, call, name = "ages: dict[str, int]", "ages.get(name): int | None", "name: str"
        self.assertEqual(self.types(4, range(5, 29)), 7 * [""] + 5 * [ages] + 4 * [call] + 5 * [name] + 3 * [""])
        # `= {"Ada": 36, "`
        both, key, value = '{"Ada": 36, "Bob": 41}: dict[str, int]', '"Ada": str', "36: int"
        self.assertEqual(self.types(10, range(10, 24)), 2 * [""] + [both] + 6 * [key] + [both] + 3 * [value] + [both])
        self.assertEqual([self.hint(1, 8), self.hint(2, 1)], ["", ""])

    def test_a_pointer_over_a_bound_name_is_told_its_types(self) -> None:
        """Its declared type, and its current one after the binding if that is another; also behind its last character."""
        # `def age_of(ages: dict[str, int]`
        function, parameter = "age_of: int", "ages: dict[str, int]"
        self.assertEqual(self.types(3, (4, 5, 11, 12, 16, 17)), ["", function, function, parameter, parameter, ""])
        self.put("from __future__ import annotations\ndef main():\n    found: int | None = 1\nmain()\n")
        self.assertEqual(self.types(3, (4, 5, 10, 11)), ["", *(2 * ["found: int | None = int"]), ""])

    def test_types_are_those_of_the_present_text(self) -> None:
        text = "from __future__ import annotations\ndef main():\n    print(\"\U0001f40d\u00e9\")\n    print(1 < 2)\nmain()\n"
        self.put(text)
        self.assertEqual(self.types(4, (4, 5, 11, 12, 13)), ["", "print(1 < 2): None", "1: int", "1: int", "1 < 2: bool"])
        for part in (0.25, 0.75):
            self.assertEqual(self.hint_at(self.page.value(SNAKE % part)), "Type of \"\U0001f40d\u00e9\": str")
        self.put(text.replace("1 < 2", f"[{30 * '1, '}1]"))
        self.assertEqual(self.hint(4, 11), f"Type of [{19 * '1, '}1,…: list[int]")
        self.put("import os\n")
        self.assertEqual(self.hint(1, 9), "")

    def test_keys_go_from_finding_to_finding(self) -> None:
        self.page.value("document.getElementById('text').focus(); document.getElementById('text').setSelectionRange(0, 0)")
        chosen = "document.getElementById('text').value.slice(document.getElementById('text').selectionStart," \
                 "document.getElementById('text').selectionEnd)"
        found = []
        for modifiers in (0, 0, 0, 8):
            self.page.press("F8", 119, modifiers)
            found.append(self.page.value(chosen))
        self.assertEqual(found, ["ages.get(name)", "age + 1", "ages.get(name)", "age + 1"])

    def test_text_beyond_the_first_plane(self) -> None:
        self.put("from __future__ import annotations\ndef main():\n    print(\"\U0001f40d\u00e9\", 1 + \"\U0001f40d\")\nmain()\n")
        self.assertEqual(self.shown(), "3:17 E13 operator\nerrors 1, dynamic 0\n")
        self.assertEqual(self.page.value("document.querySelector('mark').textContent"), "1 + \"\U0001f40d\"")

    def test_a_refusal(self) -> None:
        self.put("import os\n")
        self.assertEqual(self.shown(), 2 * program("/dev/stdin", input=b"import os\n")[2].decode())
        self.assertIn("import math", self.page.value("document.querySelector('#findings details').textContent"))

    def test_a_link_holds_the_text(self) -> None:
        text = "from __future__ import annotations\n# \u00e9\U0001f40d\ndef main():\n    print(1 - \"a\")\nmain()\n"
        self.put(text)
        self.page.value("document.getElementById('link').click()")
        self.page.wait("location.hash.startsWith('#text=')")
        address = self.page.value("location.href")
        self.page.visit(address)
        self.page.wait("document.querySelectorAll('mark').length === 1")
        self.assertEqual(self.page.value("document.getElementById('text').value"), text)
        self.assertFalse([it for it in self.page.asked if "text=" in it.partition("#")[0]])
        self.page.visit(f"{self.base}#text=broken")
        self.assertEqual(self.shown(), (ROOT / "examples" / "ages.txt").read_text(encoding="utf-8"))

    def test_narrow_dark_and_light(self) -> None:
        colours = []
        for scheme in ("light", "dark"):
            self.page.visit(self.base, 360, scheme)
            self.assertEqual(self.page.value("document.documentElement.scrollWidth"), 360)
            colours.append(self.page.value("getComputedStyle(document.body).backgroundColor"))
        self.assertEqual(len(set(colours)), 2)
        self.page.value("document.getElementById('theme').click()")
        self.assertEqual(self.page.value("getComputedStyle(document.body).backgroundColor"), colours[0])

    def test_no_request_leaves(self) -> None:
        self.put("from __future__ import annotations\ndef main():\n    print(1)\nmain()\n")
        self.assertTrue(any(it.endswith("pycheck.wasm") for it in self.page.asked))
        for file in WEB.iterdir():
            if file.suffix in (".html", ".css", ".mjs"):
                self.assertNotRegex(file.read_text(encoding="utf-8"), r"https?://|url\(|@import", file.name)
