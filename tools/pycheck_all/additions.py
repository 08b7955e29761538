"""The additions of this command to the answers of the server: the advice in hovers, what is known of the diagnostics of
a refused text, and dynamic places at the error from which they follow. With any trouble an answer is passed on as it
came."""
from __future__ import annotations

from typing import Any, Callable, Optional

from . import gathered, hovers, shown
from .asking import Checker
from .session import INITIALIZE, PULL, Asked, Document, Session, member

PUBLISHED = "textDocument/publishDiagnostics"


class FromServer:
    """Hears what the server answers, and adds to it. `tell` is told what goes wrong."""

    def __init__(self, session: Session, tell: Callable[[str], None]) -> None:
        self.session = session
        self.tell = tell
        self.checker = Checker(tell)

    def changes(self, message: Any) -> bool:
        """Hears a message. Returns whether something was added to it."""
        try:
            return self._adds(message)
        except Exception as fault:
            # The answer itself has to reach the editor in any case
            self.tell(f"nothing is added to an answer: {type(fault).__name__}: {fault}")
            return False

    def misses(self) -> None:
        """Hears that a message is passed on that was not read."""

    def _adds(self, message: Any) -> bool:
        params = member(message, "params")
        if member(message, "method") == PUBLISHED:
            return self._shows(member(params, "diagnostics"), self.session.published(params))
        asked = self.session.answered(message) if member(message, "method") is None else None
        result = member(message, "result")
        if asked is None or result is None:
            return False
        if asked.method == INITIALIZE:
            self.session.begin(asked, result)
            return False
        if asked.method == PULL:
            return self._shows(member(result, "items"), asked.document)
        return self._advises(result, asked)

    def _shows(self, diagnostics: Any, document: Optional[Document]) -> bool:
        """Changes the diagnostics of a document, unless it has changed since. Returns whether they were changed."""
        if document is None or document.text is None or not self.session.is_current(document):
            return False
        session = self.session
        client = shown.Client(document, session.encoding, session.related, session.page)
        refused = shown.refusal_alone(diagnostics)
        if refused is None:
            return gathered.gather(diagnostics, client)
        known = document
        file = self.checker.checked(document.text, True, lambda: session.is_current(known))
        return file is not None and client.extend(refused, file)

    def _advises(self, result: Any, asked: Asked) -> bool:
        """Adds to the result of a hover. Returns whether anything was added."""
        document = asked.document
        if document is None or document.text is None:
            return False
        file = self.checker.checked(document.text, False, lambda: True)
        position = member(asked.params, "position")
        return file is not None and hovers.advise(result, position, file, self.session.encoding)
