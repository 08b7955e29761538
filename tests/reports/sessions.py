"""Sessions of an editor with the language server of the command, `--server`, over files of the test's folder."""
from __future__ import annotations

import json
import os
import subprocess
import sys
import unittest
from typing import Any, Dict, List, Sequence, Tuple

from support import COMMAND, ERROR, Test

from pycheck_all import program

# How long a session may take
SECONDS = 240
INITIALIZED = {"jsonrpc": "2.0", "method": "initialized", "params": {}}
ENDS = [{"jsonrpc": "2.0", "id": 2, "method": "shutdown"}, {"jsonrpc": "2.0", "method": "exit"}]


def frame(message: Any) -> bytes:
    """Returns a message with its header."""
    body = message if isinstance(message, bytes) else json.dumps(message).encode()
    return b"Content-Length: %d\r\n\r\n" % len(body) + body


def messages_in(output: bytes) -> List[Dict[str, Any]]:
    """Returns the messages that were written."""
    found = []
    while output:
        head, _, rest = output.partition(b"\r\n\r\n")
        length = int(head.partition(b": ")[2])
        found.append(json.loads(rest[:length]))
        output = rest[length:]
    return found


class SessionTest(Test):
    """Sessions in a folder."""

    def setUp(self) -> None:
        super().setUp()
        try:
            self.server = program.chosen("", "pycheck_server", "PYCHECK_SERVER")
        except program.NoProgram as fault:
            raise unittest.SkipTest(str(fault)) from None

    def uri(self, name: str) -> str:
        """Returns the URI of a file of the project."""
        return "file://" + str(self.folder / name).replace("prices", "pri%63es")

    def opened(self, name: str, language: str = "python") -> Dict[str, Any]:
        """Returns the notification that a file of the project is open."""
        path = self.folder / name
        text = path.read_text(encoding="utf-8") if path.exists() else ERROR
        document = {"uri": self.uri(name), "languageId": language, "version": 1, "text": text}
        return {"jsonrpc": "2.0", "method": "textDocument/didOpen", "params": {"textDocument": document}}

    def begun(self, root: str = "", capabilities: Any = None) -> Dict[str, Any]:
        """Returns the request that begins a session, with a folder of the project and what the editor can do."""
        root_uri = f"file://{self.folder / root}"
        params = {"processId": None, "rootUri": root_uri, "capabilities": capabilities or {}}
        return {"jsonrpc": "2.0", "id": 1, "method": "initialize", "params": params}

    def ran(self, given: bytes, words: Sequence[str] = (), **changed: str) -> Tuple[int, bytes, str]:
        """Returns the exit status and the outputs for an input, with some variables changed."""
        done = subprocess.run(
            [sys.executable, str(COMMAND), "--server", *words], input=given, capture_output=True, timeout=SECONDS,
            cwd="/", env={**os.environ, "PYCHECK_SERVER": self.server, **changed},
        )
        return done.returncode, done.stdout, done.stderr.decode()

    def whole(self, *messages: Any, root: str = "", capabilities: Any = None) -> bytes:
        """Returns the input of a session that begins and ends as it should, with some messages."""
        parts = [self.begun(root, capabilities), INITIALIZED, *messages, *ENDS]
        return b"".join(map(frame, parts))

    def session(self, *messages: Any, words: Sequence[str] = (), root: str = "") -> List[Dict[str, Any]]:
        """Returns the replies to some messages, in a session that begins and ends as it should."""
        status, output, _ = self.ran(self.whole(*messages, root=root), words)
        self.assertEqual(status, 0)
        return messages_in(output)
