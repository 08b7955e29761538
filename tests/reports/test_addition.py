"""The additions of the language server of the command, `--server`, to diagnostics, and that each message is passed on
otherwise: the open bracket, the refusals that are guessed, places that follow from an error, and sessions that change,
end or break."""
from __future__ import annotations

import json
import os
import re
import subprocess
import sys
import threading
from typing import Any, Dict, List, Optional, Tuple

from sessions import ENDS, INITIALIZED, SECONDS, SessionTest, frame, messages_in
from support import CLEAN, COMMAND, ERROR, HEADER, REFUSED, ROOT

from pycheck_all import codes, findings, positions, shown
from pycheck_all.session import Document
from pycheck_all.source import Text

Message = Dict[str, Any]
# A refusal L5 in line 4, whose open bracket stands behind a character of two bytes and one of four; and a refusal behind
BRACKET = HEADER + 'def main():\n    print("é", "\U0001f600", (1], 2)\n    x = 1\n    x += 1\n\nmain()\n'
OPEN = {"utf-8": 24, "utf-16": 21, "utf-32": 20}
ACCEPTED: Message = {"publishDiagnostics": {"relatedInformation": True}}
PULLS: Message = {"diagnostic": {}}
# The encoding that an editor offers, what it says of published diagnostics, and of pulled ones
CLIENTS: List[Tuple[str, Message, Message]] = [
    ("utf-16", ACCEPTED, {}),
    ("utf-16", ACCEPTED, PULLS),
    ("utf-8", ACCEPTED, {}),
    ("utf-8", ACCEPTED, PULLS),
    ("utf-16", {}, {}),
    ("utf-8", {"publishDiagnostics": {}}, PULLS),
]
SAID = "the bracket that is open"
GUESSED = "guessed, as if the refusals before were mended: "
# An error in line 4, and a dynamic place that follows from it, behind a character of two bytes and one of four
FOLLOWING = HEADER + 'def f(a: int):\n    print("é", "\U0001f600", a.cost + 1)\n\ndef main():\n    f(1)\n\nmain()\n'
TOLD = "int has no attribute cost. And at 4:21 A2, since its type is unknown."


class Additions(SessionTest):
    """Sessions over texts that are refused."""

    def pull(self, number: int, name: str) -> Message:
        """Returns the request for the diagnostics of a file of the project."""
        params = {"textDocument": {"uri": self.uri(name)}}
        return {"jsonrpc": "2.0", "id": number, "method": "textDocument/diagnostic", "params": params}

    def changed(self, name: str, version: int, text: str) -> Message:
        """Returns the notification that a file has another text."""
        params = {"textDocument": {"uri": self.uri(name), "version": version}, "contentChanges": [{"text": text}]}
        return {"jsonrpc": "2.0", "method": "textDocument/didChange", "params": params}

    def replies(self, *messages: Any, capabilities: Any = None, **changed: str) -> List[Message]:
        """Returns the replies to some messages, for an editor with these capabilities."""
        status, output, error = self.ran(self.whole(*messages, capabilities=capabilities), **changed)
        self.assertEqual((status, error), (0, ""))
        return messages_in(output)

    def listed(self, name: str, text: str, capabilities: Any = None) -> List[List[Message]]:
        """Returns the diagnostics that are published for a text, and those that are pulled; either may be missing."""
        self.write(name, text)
        found = self.replies(self.opened(name), self.pull(5, name), capabilities=capabilities)
        published = [it["params"]["diagnostics"] for it in found if it.get("method") == "textDocument/publishDiagnostics"]
        return published + [it["result"]["items"] for it in found if it.get("id") == 5]

    def span(self, line: int, start: int, end: int) -> Message:
        """Returns a range in a line."""
        return {"start": {"line": line, "character": start}, "end": {"line": line, "character": end}}

    def test_the_open_bracket(self) -> None:
        for encoding, document, pulls in CLIENTS:
            offered = {"general": {"positionEncodings": [encoding]}, "textDocument": {**document, **pulls}}
            at, lists = OPEN[encoding], 1 if pulls else 2
            related = [{"location": {"uri": self.uri("a.py"), "range": self.span(3, at, at + 1)}, "message": SAID}]
            wanted = related if document is ACCEPTED else None
            with self.subTest(encoding, document=document, pulls=pulls):
                found = self.listed("a.py", BRACKET, offered)
                self.assertEqual([it[0].get("relatedInformation") for it in found], [wanted] * lists)
                self.assertEqual([it[0]["range"] for it in found], [self.span(3, at + 2, at + 3)] * lists)

    def test_the_open_bracket_in_utf_32(self) -> None:
        shown = {"code": "L5", "message": "..", "range": self.span(3, 22, 23), "severity": 1, "source": "pycheck"}
        begun = {"jsonrpc": "2.0", "id": 1, "result": {"capabilities": {"positionEncoding": "utf-32"}}}
        self.write("a.py", BRACKET)
        params = {"uri": self.uri("a.py"), "version": 1, "diagnostics": [shown]}
        published = {"jsonrpc": "2.0", "method": "textDocument/publishDiagnostics", "params": params}
        given = frame(self.begun("", {"textDocument": ACCEPTED})) + frame(self.opened("a.py"))
        found = messages_in(self.stand_in(given, frame(begun) + frame(published)))[1]["params"]["diagnostics"]
        range_found = found[0]["relatedInformation"][0]["location"]["range"]
        self.assertEqual(range_found, self.span(3, OPEN["utf-32"], OPEN["utf-32"] + 1))
        self.assertEqual([it["range"] for it in found[1:]], [self.span(5, 6, 8)])

    def test_units(self) -> None:
        text = 'x = "é\U0001f600"'.encode()
        found = [positions.units(text, it) for it in (positions.UTF_8, positions.UTF_16, positions.UTF_32)]
        self.assertEqual(found, [12, 9, 8])

    def test_an_open_bracket_that_is_not_closed(self) -> None:
        for text, line, at in ((HEADER + "def main():\n    print([1, 2)\n\nmain()\n", 3, 10), (CLEAN + "print((1)\n", 6, 5)):
            found = self.listed("a.py", text, {"textDocument": ACCEPTED})
            for diagnostics in found:
                place = diagnostics[0]["relatedInformation"][0]["location"]["range"]
                self.assertEqual((diagnostics[0]["code"], place), ("L5", self.span(line, at, at + 1)))

    def test_other_refusals_have_no_bracket(self) -> None:
        for diagnostics in self.listed("a.py", REFUSED, {"textDocument": ACCEPTED}):
            self.assertNotIn("relatedInformation", diagnostics[0])

    def test_refusals_that_are_guessed(self) -> None:
        text = BRACKET.replace("x += 1", "x += 1\n    y = [it for it in 'é\U0001f600'] + x ** 2") + "lambda: 1\n"
        found = self.listed("a.py", text)
        told = json.loads(self.check("--all-refusals", "--output", "json", "a.py").output)["files"][0]
        self.assertGreater(len(told["guides"]), 2)
        for diagnostics in found:
            self.assertEqual([(it["code"], it["source"]) for it in diagnostics[:1]], [("L5", "pycheck")])
            rows = told["guides"]
            self.assertEqual([it["code"] for it in diagnostics[1:]], [it["code"] for it in rows])
            for shown, row in zip(diagnostics[1:], rows):
                self.assertEqual((shown["severity"], shown["source"]), (3, "pycheck-all"))
                self.assertTrue(shown["message"].startswith(GUESSED) and shown["message"].endswith(row["instead"]))
                self.assertEqual(shown["range"]["start"], self.units(text, row["start"]))
                self.assertEqual(shown["range"]["end"], self.units(text, row["end"]))

    def units(self, text: str, point: Message) -> Message:
        """Returns a point of the form `json` as a position in UTF-16."""
        before = text.split("\n")[point["line"] - 1][: point["column"] - 1]
        return {"line": point["line"] - 1, "character": len(before.encode("utf-16-le")) // 2}

    def test_guessed_refusals_link_to_their_entries(self) -> None:
        self.write("a.py", BRACKET)
        for page, wanted in (("https://a.b/c", "https://a.b/c#n2-excluded-operator"), ("", "#n2-excluded-operator"),
                             (None, None), (3, None)):
            begun = self.begun()
            begun["params"]["initializationOptions"] = {"codesPage": page}
            given = b"".join(map(frame, [begun, INITIALIZED, self.opened("a.py"), *ENDS]))
            found = messages_in(self.ran(given)[1])[1]["params"]["diagnostics"]
            with self.subTest(page):
                self.assertEqual([it["code"] for it in found], ["L5", "N2"])
                self.assertEqual([it.get("codeDescription") for it in found[1:]], [wanted and {"href": wanted}])
                self.assertEqual("codeDescription" in found[0], wanted is not None)

    def test_anchors_are_those_of_the_server(self) -> None:
        anchors = (ROOT / "crates" / "pc_documents" / "specs" / "Anchors.antt").read_text(encoding="utf-8")
        wanted = dict(re.findall(r'^refusal_anchor_of (\w+) = codes "([^"]+)"$', anchors, re.MULTILINE))
        self.assertGreater(len(wanted), 20)
        self.assertEqual({code: codes.anchor_of(code) for code in wanted}, wanted)

    def test_at_most_a_hundred_are_guessed(self) -> None:
        text = Text((HEADER + "def main():\n    x = 1\n" + "    x += 1\n" * 150 + "\nmain()\n").encode())
        found = [it for it in range(len(text.data)) if text.data.startswith(b"+=", it)]
        kinds = [findings.REFUSED] + [findings.GUIDE] * 149
        file = findings.Checked(
            "a.py", [findings.Finding(kind, "N2", text.token(at)) for kind, at in zip(kinds, found)], text
        )
        diagnostics = [{"code": "N2", "range": self.span(4, 6, 8), "severity": 1}]
        self.assertTrue(shown.Client(Document("", 1, text.data), "utf-16", True).extend(diagnostics, file))
        self.assertEqual([it["severity"] for it in diagnostics], [1] + [3] * 100)

    def test_fewer_are_guessed_in_a_long_text(self) -> None:
        text = HEADER + "def main():\n    x = 1\n" + ("    x += 1\n" * 9 + f"    # {'.' * 100_000}\n") * 7 + "\nmain()\n"
        found = self.listed("a.py", text, {"textDocument": PULLS})
        self.assertEqual([(it["code"], it["severity"]) for it in found[0]], [("N2", 1)] + [("N2", 3)] * 13)

    def test_texts_that_are_not_refused_have_nothing_more(self) -> None:
        self.write("a.py", CLEAN)
        self.write("b.py", ERROR)
        self.write("c.py", REFUSED)
        opened = [self.opened("a.py"), self.opened("b.py"), self.opened("c.py", "java")]
        given = self.whole(*opened, self.pull(5, "b.py"), self.pull(6, "c.py"), self.pull(7, "none.py"))
        self.assertEqual(self.ran(given), (0, self.alone(given), ""))

    def test_places_that_follow_from_an_error(self) -> None:
        for encoding, document, pulls in CLIENTS:
            offered = {"general": {"positionEncodings": [encoding]}, "textDocument": {**document, **pulls}}
            before = len(('    print("é", "\U0001f600", ').encode("utf-16-le")) // 2 + (3 if encoding == "utf-8" else 0)
            place = {"uri": self.uri("a.py"), "range": self.span(3, before, before + 10)}
            related = [{"location": place, "message": "A2: cannot tell whether Any + int is defined"}]
            error = {"code": "E15", "message": TOLD, "range": self.span(3, before, before + 6), "severity": 1,
                     "source": "pycheck"}
            wanted = {**error, "relatedInformation": related} if document is ACCEPTED else error
            with self.subTest(encoding, document=document, pulls=pulls):
                self.assertEqual(self.listed("a.py", FOLLOWING, offered), [[wanted]] * (1 if pulls else 2))

    def test_what_else_the_error_is_related_to(self) -> None:
        text = HEADER + "def h():\n    fee = 1\n    print(fee)\n\ndef f():\n    print(fee{})\n\ndef main():\n    f()\n\nmain()\n"
        for diagnostics in self.listed("a.py", text.format(" + 1" + " + 1" * 9), {"textDocument": ACCEPTED}):
            self.assertEqual([it["code"] for it in diagnostics], ["E02"])
            places = ", ".join(["8:11 A2"] * 8)
            self.assertTrue(diagnostics[0]["message"].endswith(f". And at {places}, 2 more, since its type is unknown."))
            said = [it["message"] for it in diagnostics[0]["relatedInformation"]]
            self.assertEqual(said, ["see here"] + ["A2: cannot tell whether Any + int is defined"] * 10)
            self.assertEqual(diagnostics[0]["relatedInformation"][0]["location"]["range"], self.span(3, 4, 7))

    def test_lists_that_stay_as_they_are(self) -> None:
        many = HEADER + "def f(a: int):\n" + "    print(a.cost + 1)\n" * 600 + "\ndef main():\n    f(1)\n\nmain()\n"
        main = "\n\ndef main():\n    f(1)\n\nmain()\n"
        local = HEADER + "def f(a: int):\n    x = a.cost\n    print(x + 1)" + main
        apart = HEADER + "def f(a):\n    x: int = \"a\"\n    print(a + x)" + main
        for name, text in (("many.py", many), ("local.py", local), ("apart.py", apart)):
            self.write(name, text)
            given = self.whole(self.opened(name), self.pull(5, name), capabilities={"textDocument": ACCEPTED})
            with self.subTest(name):
                self.assertIn(b'"A2"', self.alone(given))
                self.assertEqual(self.ran(given), (0, self.alone(given), ""))

    def test_diagnostics_that_are_not_understood(self) -> None:
        self.write("a.py", FOLLOWING)
        given = frame(self.begun("", {"textDocument": ACCEPTED})) + frame(self.opened("a.py"))
        error = {"code": "E15", "message": "..", "range": self.span(3, 20, 26), "severity": 1, "source": "pycheck"}
        place = {**error, "code": "A2", "range": self.span(3, 20, 30)}
        begun = {"jsonrpc": "2.0", "id": 1, "result": {"capabilities": {}}}
        odd: List[Any] = [3, None, {}, {**error, "code": 5}, {**error, "code": "other"}, {**error, "range": [1]},
                          {**error, "range": self.span(99, 0, 1)}, {**error, "range": self.span(3, 26, 20)},
                          {**error, "range": self.span(3, 0, 999)}, {**error, "range": self.span(3, -1, 2)},
                          {**error, "range": self.span(3, 0, 17)}, {**error, "message": 1}]
        for it in odd:
            params = {"uri": self.uri("a.py"), "version": 1, "diagnostics": [error, place, it]}
            published = {"jsonrpc": "2.0", "method": "textDocument/publishDiagnostics", "params": params}
            with self.subTest(it):
                answered = frame(begun) + frame(published)
                self.assertEqual(self.stand_in(given, answered), answered)

    def test_places_that_follow_in_a_document_that_changes(self) -> None:
        self.write("a.py", FOLLOWING)
        talk = Talk(self)
        talk.send(self.begun(), INITIALIZED, self.opened("a.py"))
        self.assertEqual(talk.published(), ["E15"])
        talk.send(self.changed("a.py", 2, FOLLOWING.replace("a.cost", "a")))
        self.assertEqual(talk.published(), [])
        talk.send(self.changed("a.py", 7, FOLLOWING + "\n"))
        shown_last = talk.until("method", "textDocument/publishDiagnostics")["params"]
        self.assertEqual((shown_last["version"], [it["message"] for it in shown_last["diagnostics"]]), (7, [TOLD]))
        # An older version changes nothing, and a range makes the text unknown
        talk.send(self.changed("a.py", 6, CLEAN), self.pull(5, "a.py"))
        self.assertEqual([it["code"] for it in talk.reply(5)["result"]["items"]], ["E15"])
        ranged = self.changed("a.py", 8, CLEAN)
        ranged["params"]["contentChanges"][0]["range"] = self.span(0, 0, 0)
        talk.send(ranged)
        self.assertEqual(talk.published(), [None])
        self.assertEqual(talk.ends(), 0)

    def test_bytes_of_positions(self) -> None:
        text = Text('a = 1\nb = "é\U0001f600"\n'.encode())
        for encoding in (positions.UTF_8, positions.UTF_16, positions.UTF_32):
            starts = [0, 1, 6, 10, 11, 13, 17, 18, 19]
            for byte in starts:
                at = positions.position_of(text, text.point(byte), encoding)
                self.assertEqual(positions.byte_at(text, at, encoding), byte)
            for line, character in ((0, 7), (1, 14), (-1, 0), (0, -1), (3, 0)):
                self.assertIsNone(positions.byte_at(text, positions.Position(line, character), encoding))
        self.assertIsNone(positions.byte_at(text, positions.Position(1, 7), positions.UTF_16))

    def alone(self, given: bytes) -> bytes:
        """Returns the output of the server itself for an input."""
        return subprocess.run([self.server], input=given, capture_output=True, timeout=120).stdout

    def test_what_is_left_out_has_nothing(self) -> None:
        self.write("pyproject.toml", '[tool.pycheck]\ncore = ["core"]\n')
        self.write("core/a.py", BRACKET)
        self.write("web.py", BRACKET)
        found = self.replies(self.opened("core/a.py"), self.opened("web.py"), self.pull(5, "web.py"))
        codes = [len(it["params"]["diagnostics"]) for it in found if "method" in it]
        self.assertEqual((codes, found[2]["result"]["items"]), ([2], []))

    def test_a_document_that_changes(self) -> None:
        talk = Talk(self)
        talk.send(self.begun(), INITIALIZED, self.opened("a.py"))
        self.assertEqual(talk.published(), ["E13"])
        talk.send(self.changed("a.py", 2, BRACKET))
        self.assertEqual(talk.published(), ["L5", "N2"])
        talk.send(self.changed("a.py", 3, REFUSED.replace("total += 1", "total += 1\n    total -= 1")))
        self.assertEqual(talk.published(), ["N2", "N2"])
        # An older version changes nothing, and a range makes the text unknown
        talk.send(self.changed("a.py", 2, CLEAN), self.pull(5, "a.py"))
        self.assertEqual(len(talk.reply(5)["result"]["items"]), 2)
        ranged = self.changed("a.py", 4, CLEAN)
        ranged["params"]["contentChanges"][0]["range"] = self.span(0, 0, 0)
        talk.send(ranged)
        self.assertEqual(talk.published(), [None])
        talk.send(self.changed("a.py", 5, CLEAN))
        self.assertEqual(talk.published(), [])
        talk.send(b"{", self.pull(6, "a.py"))
        self.assertEqual(len(talk.reply(6)["result"]["items"]), 1)
        talk.send(self.changed("a.py", 6, BRACKET))
        self.assertEqual(talk.published(), ["L5", "N2"])
        self.assertEqual(talk.ends(), 0)

    def test_a_stale_text_has_nothing_more(self) -> None:
        talk = Talk(self, PYCHECK=self.program('case "$file" in *module.py) sleep 1;; esac\nreal "$@"'))
        many = HEADER + "def main():\n    x = 1\n" + "    x += 1\n" * 90 + "\nmain()\n"
        talk.send(self.begun(), INITIALIZED)
        self.write("a.py", many)
        talk.send(self.opened("a.py"), self.changed("a.py", 2, CLEAN))
        self.assertEqual([len(talk.published() or []), len(talk.published() or [])], [1, 0])
        self.assertEqual(talk.ends(), 0)

    def test_messages_that_are_cut(self) -> None:
        self.write("a.py", BRACKET)
        given = frame(self.begun()) + frame(self.opened("a.py"))
        whole = self.alone(given)
        for cut in (whole[:-1], whole[: len(whole) // 2], b"Content-Length: 9\r\n", b"nothing at all",
                    b"Content-Length: 4\r\n\r\n{]}}" + b" " * 100_000):
            with self.subTest(cut[-40:]):
                self.assertEqual(self.stand_in(given, cut), cut)

    def test_long_answers_pass_as_they_came(self) -> None:
        long = b"Content-Length: %d\r\n\r\n" % (20 << 20) + b"[" * (20 << 20)
        self.assertEqual(self.stand_in(frame(self.begun()), long + frame({"id": 1})), long + frame({"id": 1}))

    def stand_in(self, given: bytes, answered: bytes, status: int = 0) -> bytes:
        """Returns the output for an input, where a server reads it to its end and then answers these bytes."""
        self.write("answered", answered)
        path = self.write("server", f'#!/bin/sh\ncat >/dev/null\ncat "{self.folder}/answered"\nexit {status}\n')
        path.chmod(0o755)
        found = self.ran(given, PYCHECK_SERVER=str(path))
        self.assertEqual((found[0], found[2]), (status, ""))
        return found[1]

    def test_a_server_that_ends(self) -> None:
        self.assertEqual(self.stand_in(b"", frame({"id": 1}), 7), frame({"id": 1}))
        # What the server left behind holds its output open, and nobody waits for that
        path = self.write("server", "#!/bin/sh\nsleep 300 &\necho $! >pid\necho ended\nexit 5\n")
        path.chmod(0o755)
        reads, writes = os.pipe()
        words = [sys.executable, str(COMMAND), "--server"]
        variables = {**os.environ, "PYCHECK_SERVER": str(path)}
        with open(self.folder / "out", "wb") as out:
            process = subprocess.Popen(words, stdin=reads, stdout=out, env=variables, cwd=self.folder)
            self.assertEqual(process.wait(120), 5)
        os.close(reads)
        os.close(writes)
        os.kill(int((self.folder / "pid").read_text()), 9)
        self.assertEqual((self.folder / "out").read_bytes(), b"ended\n")

    def test_an_editor_that_ends(self) -> None:
        talk = Talk(self)
        talk.send(self.begun(), INITIALIZED)
        self.assertEqual(talk.reply(1)["id"], 1)
        talk.stdout.close()
        talk.send(self.opened("a.py"), self.pull(5, "a.py"), *ENDS)
        talk.stdin.close()
        self.assertNotEqual(talk.process.wait(120), None)


class Talk:
    """A session in which each answer is awaited."""

    def __init__(self, test: SessionTest, **changed: str) -> None:
        self.test = test
        words = [sys.executable, str(COMMAND), "--server"]
        variables = {**os.environ, "PYCHECK_SERVER": test.server, **changed}
        process = subprocess.Popen(words, stdin=subprocess.PIPE, stdout=subprocess.PIPE, env=variables)
        test.addCleanup(self.close)
        assert process.stdin is not None and process.stdout is not None
        self.process, self.stdin, self.stdout = process, process.stdin, process.stdout
        # If an answer does not come, the output ends
        self.limit = threading.Timer(SECONDS, process.kill)
        self.limit.start()

    def close(self) -> None:
        """Ends the session if it goes on, as after a failure."""
        self.limit.cancel()
        self.process.kill()
        self.process.wait()
        for file in (self.stdin, self.stdout):
            try:
                file.close()
            except OSError:
                pass

    def send(self, *messages: Any) -> None:
        """Sends some messages."""
        for it in messages:
            self.stdin.write(frame(it))
        self.stdin.flush()

    def next(self) -> Message:
        """Returns the next message of the server."""
        length = 0
        for line in iter(self.stdout.readline, b"\r\n"):
            self.test.assertTrue(line, "the server has ended")
            length = int(line.partition(b": ")[2])
        found: Message = json.loads(self.stdout.read(length))
        return found

    def published(self) -> List[Optional[str]]:
        """Returns the codes of the diagnostics that are published next."""
        return [it.get("code") for it in self.until("method", "textDocument/publishDiagnostics")["params"]["diagnostics"]]

    def reply(self, number: int) -> Message:
        """Returns the reply to a request."""
        return self.until("id", number)

    def until(self, name: str, value: Any) -> Message:
        """Returns the next message with this member."""
        found = self.next()
        while found.get(name) != value:
            found = self.next()
        return found

    def ends(self) -> int:
        """Ends the session. Returns the exit status."""
        self.send(*ENDS)
        self.stdin.close()
        return self.process.wait(120)
