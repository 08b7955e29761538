"""Additions to the diagnostics of a refused text: the open bracket of its refusal, and the further refusals that this
command guesses."""
from __future__ import annotations

from typing import Any, Dict, List, Optional

from . import codes
from .findings import GUIDE, REFUSED, Checked, Finding
from .messages import message_of
from .positions import range_of
from .refusals import LIMIT
from .session import Document, member
from .source import Place

SOURCE = "pycheck-all"
INFORMATION = 3
BRACKET = "the bracket that is open"
GUESSED = "guessed, as if the refusals before were mended"
# The kinds of codes that are no refusals
OF_REPORTS = ("E", "A")


class Client:
    """The document whose diagnostics are shown, and what its editor agreed to. `page` is its page of the codes; None if
    it named none."""

    def __init__(self, document: Document, encoding: str, related: bool, page: Optional[str] = None) -> None:
        self.document = document
        self.encoding = encoding
        self.related = related
        self.page = page

    def extend(self, diagnostics: List[Any], file: Checked) -> bool:
        """Adds to the diagnostics of a refused text, given its result. Returns whether anything was added."""
        refusal = next((it for it in file.findings if it.kind == REFUSED), None)
        if refusal is None or not self.tells(diagnostics[0], file, refusal):
            return False
        related = self.opened(file, refusal)
        if related:
            diagnostics[0]["relatedInformation"] = related
        guides = [it for it in file.findings if it.kind == GUIDE][:LIMIT]
        diagnostics += [self.guessed(file, it) for it in guides]
        return bool(related or guides)

    def tells(self, diagnostic: Any, file: Checked, refusal: Finding) -> bool:
        """Whether a diagnostic tells this refusal, at its place."""
        start = member(member(diagnostic, "range"), "start")
        wanted = range_of(file.text, refusal.place, self.encoding)["start"]
        return bool(member(diagnostic, "code") == refusal.code and start == wanted)

    def opened(self, file: Checked, finding: Finding) -> List[Dict[str, Any]]:
        """Returns the related information about the open bracket of a refusal; empty if there is no such bracket, or if
        the editor does not accept it."""
        if finding.opened is None or not self.related:
            return []
        return [{"location": self.location(file, finding.opened), "message": BRACKET}]

    def location(self, file: Checked, place: Place) -> Dict[str, Any]:
        """Returns a place as a location in the document."""
        return {"uri": self.document.uri, "range": range_of(file.text, place, self.encoding)}

    def guessed(self, file: Checked, guide: Finding) -> Dict[str, Any]:
        """Returns the diagnostic of a further refusal."""
        made: Dict[str, Any] = {
            "code": guide.code,
            "message": f"{GUESSED}: {message_of(file, guide)}",
            "range": range_of(file.text, guide.place, self.encoding),
            "severity": INFORMATION,
            "source": SOURCE,
        }
        related, anchor = self.opened(file, guide), codes.anchor_of(guide.code)
        if related:
            made["relatedInformation"] = related
        if self.page is not None and anchor:
            made["codeDescription"] = {"href": f"{self.page}#{anchor}"}
        return made


def refusal_alone(diagnostics: Any) -> Optional[List[Any]]:
    """Returns diagnostics if they are those of a refused text: a refusal alone."""
    if not isinstance(diagnostics, list) or len(diagnostics) != 1:
        return None
    code = member(diagnostics[0], "code")
    return diagnostics if isinstance(code, str) and code[:1] not in OF_REPORTS else None
