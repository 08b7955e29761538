"""Names that several types, functions or definitions of the crates have.

A place is the module of a type or of a function, or the file of a definition, as CRATE/specs/FILE.antt.
"""
from __future__ import annotations

from typing import Dict, NamedTuple, Tuple


class Group(NamedTuple):
    """Names that may be in so many places, and why."""

    reason: str
    names: Dict[str, int]


GROUPS: Tuple[Group, ...] = (
    Group("one law, of several kinds of things", {
        "OneRefusal": 2, "RefusalsWithin": 2, "findings_are_listed": 2, "one_refusal": 2, "refusals_within": 2,
    }),
    Group("one law, over any checker and over the proved one", {
        "replies_are_determined": 2, "sessions_are_written": 2, "sessions_go_on": 2, "sessions_stay_in_step": 2,
    }),
    Group("one meaning, in the program and in tables of tests, or in several crates of tests", {
        "fault_text": 3, "judge": 6, "meaning_text": 2, "module_text": 2, "report_text": 2,
    }),
    Group("one meaning, of the words of a check and of those of a run", {
        "Asked": 3, "are_plain": 2, "argument_value": 2, "asked": 2, "asks_for_help": 2, "command_line": 2, "faults": 2, "is_mistaken": 2,
        "plainly_asked": 2,
    }),
    Group("one meaning, of a module and of each example", {
        "end": 6, "events": 6, "f": 2, "findings": 7, "int_or_none": 2, "main": 4, "program": 7,
    }),
    Group("one meaning, of any run and of a plain one", {"act": 3, "comes": 2, "enter": 2, "look": 2, "◌>>=◌": 2}),
    Group("one meaning, of several machines: what reads words or tokens, the layout, the walk, a run, a session", {
        "State": 3, "Step": 3, "after": 3, "context_of": 2, "outcome_of": 2, "start": 2,
        "state_of": 2, "step": 4,
    }),
    Group("one meaning, in the program and in its rules", {
        "DeclaredTypes": 2, "DetailedFinding": 2, "Entries": 2, "Env": 2, "Globals": 2, "Infix": 2, "Keywords": 2, "Lead": 2, "Link": 2, "Prefix": 2, "Walk": 2,
        "body_context_in": 2, "declared_type": 2, "enter_main": 2, "eval_all": 2, "eval_call": 2, "eval_iterable": 2,
        "eval_keywords": 2, "grouped": 2, "join_all": 2, "join_env": 2, "known_type": 2, "misfit": 2, "nowhere": 2,
        "scope_findings": 2, "second_code": 2, "symbols_of": 2,
    }),
    Group("one form of the syntax, as it is spelled, and as it is read or means something", {
        "Annotation": 2, "Callee": 2, "IsName": 2, "IsString": 2, "Items": 2, "Operand": 2, "Suite": 2,
    }),
    Group("one meaning, in types or scopes and in runs", {
        "assign": 2, "base_number": 2, "callee_in": 2, "callee_of_method": 2, "entries_in": 2, "keywords_in": 2,
        "locals_of": 2, "method_of": 2,
    }),
    Group("one meaning, of findings and of what is told beside them", {
        "Called": 2, "clashes_with": 2, "early_at": 2, "unreached_in_branches": 2,
    }),
    Group("one meaning, in reports and in editors", {"flow_text": 2, "said_by": 2, "shown_flow": 2, "texts_of": 5}),
    Group("one meaning, of checks, of sessions, of runs and of the library", {
        "IsBegun": 2, "IsExplainedAs": 2, "IsFaultShown": 2, "IsListed": 2, "IsOutput": 2, "IsReported": 2,
        "IsWritten": 2, "WhenRefused": 2, "most_read": 2, "status": 3, "status_of": 3,
    }),
    Group("one definition, stated in two crates of which neither stands on the other", {"anns_of_list": 2, "place_cmp": 2}),
    Group("one question, of several kinds of things", {
        "IsFault": 2, "IsLabel": 2, "IsOneMore": 2, "IsRead": 4, "IsSpelled": 2, "Lists": 2,
         "is_among": 3, "is_before": 2, "is_blank": 2, "is_number": 2,
        "is_same": 4,
    }),
    Group("one part or property, of several kinds of things", {
        "base_at": 2, "characters": 2, "class_of": 2, "code_of": 2, "column_of": 2, "field_name": 2, "finding_in": 2,
        "function_name": 2, "function_of": 3, "kind_number": 2, "method_name": 2, "module_in": 2, "module_of": 2,
        "names_of": 2, "number_of": 3, "parameter_name": 2, "position_in": 2, "text_of": 2, "type_of": 2,
        "types_in": 2, "types_of": 2,
    }),
    Group("one operation, on several kinds of things", {
        "at_text": 2, "first_named": 3, "join_or_object": 2, "put": 2, "texts_in": 2, "type_condition": 2,
        "write_whole": 2,
    }),
)
