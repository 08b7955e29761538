"""The messages that the tests of the language server send to it, and the comparison of its replies."""
import json
import os
import re
import resource
import subprocess
from typing import Any, Dict, List, Optional, Sequence, Tuple

ROOT = os.path.join(os.path.dirname(os.path.abspath(__file__)), os.pardir, os.pardir)
URI = "file:///module.py"
SECONDS = 600  # how long a session may take
Message = Dict[str, Any]

AGES = """from __future__ import annotations

def age_of(ages: dict[str, int], name: str) -> int:
    return ages.get(name)

def next_year(age):
    return age + 1

def main():
    ages = {"Ada": 36, "Bob": 41}
    print(next_year(age_of(ages, "Ada")))

main()
"""

CLEAN = """from __future__ import annotations

def main():
    print("hello")

main()
"""

FLOW = """from __future__ import annotations

def increase(n: int) -> int:
    return n + 1

def step(value) -> int:
    return increase(value)

def main():
    print(step(3))

main()
"""

ASTRAL = """from __future__ import annotations

def main():
    print("\u00e9\U0001f600", "\U0001f600" + 1)

main()
"""


class Failure(Exception):
    """A session went otherwise than it should; the text says how."""


def texts_of(path: str, function: str) -> Dict[str, str]:
    """Returns the text for each code in a function of the crate of texts, by the code."""
    with open(os.path.join(ROOT, "crates", "pc_code_texts", "src", path), encoding="utf-8") as source:
        text = source.read()
    body = text.split(f"pub fn {function}(", 1)[1].split("\n}\n", 1)[0]
    return dict(re.findall(r'Code::([A-Z]\d+) =>\s+\{?\s*"([^"]*)"', body))


MEANINGS = {**texts_of("findings.rt", "meaning"), **texts_of("refusals.rt", "refusal_meaning")}


def frame(message: Any) -> bytes:
    """Returns a message with its header; bytes are framed as they are."""
    body = message if isinstance(message, bytes) else json.dumps(message).encode()
    return b"Content-Length: %d\r\n\r\n" % len(body) + body


def request(number: Any, method: str, params: Optional[Any] = None) -> Message:
    """Returns a request with an identifier."""
    message = {"jsonrpc": "2.0", "id": number, "method": method}
    return message if params is None else {**message, "params": params}


def notification(method: str, params: Optional[Any] = None) -> Message:
    """Returns a notification."""
    message = {"jsonrpc": "2.0", "method": method}
    return message if params is None else {**message, "params": params}


def initialize(encodings: Optional[List[str]] = None, options: Optional[Message] = None,
               pulls: bool = False, related: Any = None) -> Message:
    """Returns the request that begins a session; the client may say that it pulls diagnostics, and whether it accepts
    related information."""
    capabilities: Message = {} if encodings is None else {"general": {"positionEncodings": encodings}}
    if pulls or related is not None:
        capabilities["textDocument"] = {}
    if pulls:
        capabilities["textDocument"]["diagnostic"] = {"dynamicRegistration": False}
    if related is not None:
        capabilities["textDocument"]["publishDiagnostics"] = {"relatedInformation": related}
    params: Message = {"processId": 1, "rootUri": None, "capabilities": capabilities}
    if options is not None:
        params["initializationOptions"] = options
    return request(1, "initialize", params)


def did_open(text: str, version: int = 1, uri: str = URI, language: str = "python") -> Message:
    """Returns the notification that a document is open."""
    document = {"uri": uri, "languageId": language, "version": version, "text": text}
    return notification("textDocument/didOpen", {"textDocument": document})


def did_change(text: str, version: int, uri: str = URI) -> Message:
    """Returns the notification that a document has a new text."""
    params = {"textDocument": {"uri": uri, "version": version}, "contentChanges": [{"text": text}]}
    return notification("textDocument/didChange", params)


def did_close(uri: str = URI) -> Message:
    """Returns the notification that a document is closed."""
    return notification("textDocument/didClose", {"textDocument": {"uri": uri}})


def at(line: int, character: int, uri: str = URI) -> Message:
    """Returns the parameters of a request at a position, from 0."""
    return {"textDocument": {"uri": uri}, "position": {"line": line, "character": character}}


SHUTDOWN = request("end", "shutdown")
EXIT = notification("exit")


def read_frames(output: bytes) -> List[Any]:
    """Returns the messages in the bytes that the server wrote; fails if they are framed otherwise than the protocol
    says."""
    messages = []
    while output:
        header = re.match(rb"Content-Length: (\d+)\r\n\r\n", output)
        if header is None:
            raise Failure(f"no header at {output[:60]!r}")
        end = header.end() + int(header.group(1))
        if end > len(output):
            raise Failure("a message is cut off")
        messages.append(json.loads(output[header.end():end].decode("utf-8")))
        output = output[end:]
    return messages


class Server:
    """Runs the program on whole inputs."""

    def __init__(self, program: str, most: Optional[int] = None) -> None:
        self.program = program
        self.most = most  # the most bytes of memory that it may take, if there is such a limit

    def run(self, given: bytes, words: Optional[List[str]] = None) -> Tuple[int, bytes]:
        """Returns the exit status and the output for an input."""
        done = subprocess.run([self.program] + (words or []), input=given, stdout=subprocess.PIPE,
                              stderr=subprocess.DEVNULL, timeout=SECONDS, preexec_fn=self.bound)
        return done.returncode, done.stdout

    def bound(self) -> None:
        """Limits the memory that this process may take for data, if there is a limit."""
        if self.most is not None:
            resource.setrlimit(resource.RLIMIT_DATA, (self.most, self.most))

    def replies(self, messages: List[Any], status: int = 0) -> List[Any]:
        """Returns the replies to messages; the server has to end with this status."""
        found, output = self.run(b"".join(frame(message) for message in messages))
        same("exit status", status, found)
        return read_frames(output)

    def replies_within(self, messages: List[Any], begun: Optional[Message] = None) -> List[Any]:
        """Returns the replies to messages of a session that begins and ends as it should, without those of the two
        ends."""
        replies = self.replies([begun or initialize(), notification("initialized", {})] + messages + [SHUTDOWN, EXIT])
        same("first identifier", 1, replies[0].get("id"))
        same("last reply", {"jsonrpc": "2.0", "id": "end", "result": None}, replies[-1])
        return replies[1:-1]


def same(what: str, wanted: Any, found: Any) -> None:
    """Fails if the found value is not the expected one."""
    if wanted != found or type(wanted) is not type(found):
        raise Failure(f"{what}: wanted {wanted!r}, found {found!r}")


def span(line: int, start: int, end: int) -> Message:
    """Returns a range within a line, from 0."""
    return {"start": {"line": line, "character": start}, "end": {"line": line, "character": end}}


def diagnostic(code: str, place: Message, sentence: Optional[str] = None, others: Sequence[Message] = ()) -> Message:
    """Returns a diagnostic, whose message is the sentence of its detail, or the meaning of the code, with related
    information for other places."""
    found = {"code": code, "message": MEANINGS[code] if sentence is None else sentence, "range": place,
             "source": "pycheck", "severity": 2 if code.startswith("A") else 1}
    if others:
        found["relatedInformation"] = [{"location": {"uri": URI, "range": other}, "message": "see here"}
                                       for other in others]
    return found


def symbol(kind: int, name: str, place: Message, chosen: Message, parts: Sequence[Message] = ()) -> Message:
    """Returns a symbol of a document, with its parts."""
    return {"kind": kind, "name": name, "range": place, "selectionRange": chosen, "children": list(parts)}


def note(message: str) -> Message:
    """Returns a diagnostic about a whole text, at its first character."""
    return {"message": message, "range": span(0, 0, 1), "source": "pycheck", "severity": 2}


def published(diagnostics: List[Message], version: Optional[int] = None, uri: str = URI) -> Message:
    """Returns the notification of the diagnostics of a document."""
    params: Message = {"uri": uri, "diagnostics": diagnostics}
    if version is not None:
        params["version"] = version
    return notification("textDocument/publishDiagnostics", params)


def error(number: Any, code: int, reply: Any) -> None:
    """Fails if a reply is not this error of the protocol with this identifier."""
    same("identifier", number, reply.get("id"))
    same("error", code, reply.get("error", {}).get("code"))
    if "result" in reply or not reply["error"].get("message"):
        raise Failure(f"an error with a result or without a text: {reply!r}")


def logged(word: str, reply: Any) -> None:
    """Fails if a reply is not a line for the log with this word."""
    same("method", "window/logMessage", reply.get("method"))
    if word not in reply["params"]["message"]:
        raise Failure(f"no {word!r} in {reply!r}")


UNKNOWN = [note("not checked: the text of this document is not known until it changes")]
AGES_SAYS = "cannot return int | None from age_of, which returns int"
AGES_FOUND = [diagnostic("E12", span(3, 11, 25), AGES_SAYS),
              diagnostic("A2", span(6, 11, 18), "cannot tell whether Any + int is defined")]
