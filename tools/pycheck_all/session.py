"""The session of an editor with its server, as far as additions to the answers need it: the open documents with their
texts, the requests without a reply, and what was agreed on at the beginning.

Two threads use it: one hears what the editor says, the other what the server answers."""
from __future__ import annotations

import collections
import json
import threading
from typing import Any, Deque, Dict, NamedTuple, Optional

from . import positions
from .files import LIMIT

INITIALIZE, HOVER, PULL = "initialize", "textDocument/hover", "textDocument/diagnostic"
PYTHON = "python"
# How many requests without a reply are kept at most
MOST_ASKED = 1000


class Document(NamedTuple):
    """An open document in Python. Its text is not known if it is None; a text that is too long is cut off."""

    uri: str
    version: Optional[int]
    text: Optional[bytes]


class Asked(NamedTuple):
    """A request without a reply: its method and parameters, and the document that it names, as it was then."""

    method: str
    params: Dict[str, Any]
    document: Optional[Document]


class Session:
    """A session. Messages may have any form; what is not understood changes nothing, or makes texts unknown."""

    def __init__(self) -> None:
        self.encoding = positions.UTF_16
        self.related = False
        self.page: Optional[str] = None
        self._lock = threading.Lock()
        self._documents: Dict[str, Document] = {}
        self._asked: Deque["tuple[str, Asked]"] = collections.deque(maxlen=MOST_ASKED)

    def hear(self, message: Any) -> None:
        """Hears a message of the editor, as it is passed on."""
        method, params = member(message, "method"), member(message, "params")
        key = key_of(message)
        with self._lock:
            if method == "textDocument/didOpen":
                self._open(member(params, "textDocument"))
            elif method == "textDocument/didChange":
                self._change(member(params, "textDocument"), member(params, "contentChanges"))
            elif method == "textDocument/didClose":
                self._documents.pop(uri_of(params), None)
            elif method in (INITIALIZE, HOVER, PULL) and key and isinstance(params, dict):
                self._asked.append((key, Asked(method, params, self._documents.get(uri_of(params)))))

    def miss(self) -> None:
        """Hears that the server was sent something that was not read here: it may have changed each text."""
        with self._lock:
            self._documents = {uri: it._replace(text=None) for uri, it in self._documents.items()}

    def answered(self, message: Any) -> Optional[Asked]:
        """Returns the request to which a message of the server is the reply, and forgets it; None if there is none."""
        key = key_of(message)
        with self._lock:
            at = next((at for at, (own, _) in enumerate(self._asked) if own == key), None)
            if at is None or not key:
                return None
            asked = self._asked[at][1]
            del self._asked[at]
        return asked

    def begin(self, asked: Asked, result: Any) -> None:
        """Hears that the server accepted the request that begins a session."""
        encoding = member(member(result, "capabilities"), "positionEncoding")
        if encoding in (positions.UTF_8, positions.UTF_16, positions.UTF_32):
            self.encoding = encoding
        wanted = member(member(asked.params.get("capabilities"), "textDocument"), "publishDiagnostics")
        self.related = member(wanted, "relatedInformation") is True
        page = member(asked.params.get("initializationOptions"), "codesPage")
        self.page = page if isinstance(page, str) else None

    def published(self, params: Any) -> Optional[Document]:
        """Returns the document of published diagnostics; None if it has another version by now."""
        uri = member(params, "uri")
        with self._lock:
            document = self._documents.get(uri) if isinstance(uri, str) else None
        return document if document and document.version == member(params, "version") else None

    def is_current(self, document: Document) -> bool:
        """Whether a document is open, and not changed since."""
        with self._lock:
            return self._documents.get(document.uri) is document

    def _open(self, given: Any) -> None:
        uri, language = member(given, "uri"), member(given, "languageId")
        if isinstance(uri, str):
            self._documents.pop(uri, None)
            if language in (None, PYTHON):
                self._documents[uri] = Document(uri, version_of(given), encoded(member(given, "text")))

    def _change(self, given: Any, changes: Any) -> None:
        uri, version = member(given, "uri"), version_of(given)
        known = self._documents.get(uri) if isinstance(uri, str) else None
        if known is None or (version is not None and known.version is not None and version < known.version):
            return
        text = known.text
        if not isinstance(changes, list):
            text = None
        elif changes:
            # Each change of the list gives a whole text, so the last one counts
            text = encoded(member(changes[-1], "text")) if member(changes[-1], "range") is None else None
        self._documents[known.uri] = Document(known.uri, version, text)


def member(value: Any, name: str) -> Any:
    """Returns a member of an object; None if it has none, or if the value is no object."""
    return value.get(name) if isinstance(value, dict) else None


def uri_of(params: Any) -> str:
    """Returns the URI of the document that parameters name; empty if they name none."""
    uri = member(member(params, "textDocument"), "uri")
    return uri if isinstance(uri, str) else ""


def version_of(document: Any) -> Optional[int]:
    """Returns the version that a message gives a document; None if it gives none."""
    version = member(document, "version")
    return version if isinstance(version, int) and not isinstance(version, bool) else None


def key_of(message: Any) -> str:
    """Returns a text that tells an identifier from others; empty if the message has none that comes back as it is."""
    identifier = member(message, "id")
    return json.dumps(identifier) if type(identifier) in (int, str) else ""


def encoded(text: Any) -> Optional[bytes]:
    """Returns the bytes of a text, at most as many as are checked; None if it has none."""
    try:
        return text[:LIMIT].encode()[:LIMIT] if isinstance(text, str) else None
    except UnicodeEncodeError:
        return None
