"""The language server of this command. It starts `pycheck_server`, passes each message of the editor on to it, and each
of its answers on to the editor.

If the settings of its project leave a document out, it says that the document is not Python, so that the server checks
the core alone. To the answers it adds what this command tells beside the program: the advice for the case in hovers,
the open bracket, and the refusals that are guessed after the first. Everything else is passed on unchanged, also
messages that are not understood."""
from __future__ import annotations

import os
import subprocess
import sys
import threading
import urllib.parse
from typing import Any, Callable, List, Optional, Sequence, Tuple

from . import program, scope, settings, texts, wire
from .additions import FromServer
from .files import Source
from .session import Session, member

SERVER, VARIABLE = "pycheck_server", "PYCHECK_SERVER"
ONLY_MARKED = "--only-marked"
# The language that a document has for the server if it is left out
OTHER = "not-of-the-core"
OF_SIGNALS = 128


def serve(words: Sequence[str]) -> int:
    """Runs the server with these words until it ends, and returns its exit status."""
    marked = ONLY_MARKED in words
    path = program.chosen("", SERVER, VARIABLE)
    given = [it for it in words if it != ONLY_MARKED]
    process = subprocess.Popen([path, *given], stdin=subprocess.PIPE, stdout=subprocess.PIPE)
    assert process.stdin is not None and process.stdout is not None
    session = Session()
    to_server = wire.Relay(FromEditor(Documents(marked), session), process.stdin.fileno())
    to_editor = wire.Relay(FromServer(session, log), 1)
    has_ended, ends = os.pipe()
    output = wire.OutputOf(process.stdout.fileno(), has_ended)
    # If the server ends first, do not wait for the client
    started(to_server, wire.Input(0), process.stdin.close)
    answering = started(to_editor, output, process.stdout.close)
    status = process.wait()
    os.close(ends)
    answering.join()
    return status if status >= 0 else OF_SIGNALS - status


def started(relay: wire.Relay, source: wire.Input, close: Callable[[], None]) -> threading.Thread:
    """Has a thread of its own pass the messages of one side on, and returns it."""
    thread = threading.Thread(target=relay.run, args=(source, close), daemon=True)
    thread.start()
    return thread


class FromEditor:
    """Hears what the editor says, and hides the documents that are left out from the server."""

    def __init__(self, documents: "Documents", session: Session) -> None:
        self.documents = documents
        self.session = session
        self.begun = False

    def changes(self, message: Any) -> bool:
        """Hears a message. Returns whether it opens a document that is left out, and was changed."""
        is_first, self.begun = not self.begun, True
        method, params = member(message, "method"), member(message, "params")
        if method == "initialize":
            told = self.documents.begin(params)
            if told and is_first:
                # The server has nothing to write yet
                tell(told)
        hidden = method == "textDocument/didOpen" and self.documents.hide(params)
        self.session.hear(message)
        return hidden

    def misses(self) -> None:
        """Hears that a message is passed on that was not read."""
        self.begun = True
        self.session.miss()


def tell(text: str) -> None:
    """Makes the editor show an error, before the server answers anything."""
    params = {"type": 1, "message": f"pycheck: {text}"}
    wire.write(1, wire.framed({"jsonrpc": "2.0", "method": "window/showMessage", "params": params}))


def log(text: str) -> None:
    """Writes a line to standard error, which editors keep as the log of the server."""
    try:
        print(texts.line(f"{SERVER}: {text}"), file=sys.stderr, flush=True)
    except (OSError, AttributeError):
        pass


class Documents:
    """Decides which documents are checked. With `marked`, a project without a core has only those checked that begin
    with the mark."""

    def __init__(self, marked: bool) -> None:
        self.marked = marked
        self.roots: List[str] = []

    def begin(self, params: Any) -> str:
        """Remembers the folders that the editor has open. Returns what is wrong with their settings; empty if nothing
        is."""
        given = params if isinstance(params, dict) else {}
        listed = given.get("workspaceFolders")
        folders = [it.get("uri") for it in listed if isinstance(it, dict)] if isinstance(listed, list) else []
        paths = [path_of(it) for it in folders or [given.get("rootUri")]]
        self.roots = [os.path.abspath(it) for it in paths if it]
        for root in self.roots:
            _, told = self.settings_of(root)
            if told:
                return told
        return ""

    def settings_of(self, folder: str) -> Tuple[Optional[settings.Settings], str]:
        """Returns the settings for a folder, and why they could not be read."""
        try:
            return settings.of_folders(settings.folders(folder, self.roots)), ""
        except settings.NoSettings as fault:
            return None, str(fault)

    def hide(self, params: Any) -> bool:
        """Changes the message that opens a document that is left out: its language is then no Python. Returns whether
        it is left out."""
        document = params.get("textDocument") if isinstance(params, dict) else None
        if not isinstance(document, dict) or document.get("languageId") != "python":
            return False
        path = path_of(document.get("uri"))
        if path is None or not self.is_left(path, document.get("text")):
            return False
        document["languageId"] = OTHER
        return True

    def is_left(self, path: str, text: Any) -> bool:
        """Whether a document is left out; no document is if the settings cannot be read."""
        used, told = self.settings_of(os.path.dirname(path))
        if told:
            log(told)
            return False
        if used is not None:
            scope.real_folder.cache_clear()
            core = [os.path.join(used.folder, it) for it in used.core]
            if scope.Scope(core, False, used.exclude, used.folder).leaving(Source(path, path)):
                return True
            if core:
                return False
        first = text[: scope.LONGEST_MARK].encode("utf-8", "replace") if isinstance(text, str) else b""
        return self.marked and not scope.MARK.match(first)


def path_of(uri: Any) -> Optional[str]:
    """Returns the path of a file on this machine that a URI names; None if it names something else."""
    try:
        parts = urllib.parse.urlsplit(uri) if isinstance(uri, str) else None
    except ValueError:
        return None
    if parts is None or parts.scheme != "file" or parts.netloc not in ("", "localhost") or parts.path[:1] != "/":
        return None
    path = os.fsdecode(urllib.parse.unquote_to_bytes(parts.path))
    return None if "\0" in path else os.path.normpath(path)
