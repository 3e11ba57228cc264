"""The code action that puts in the proof that was found."""

from __future__ import annotations

from typing import Any, Dict, List, Optional

from .rpc import Json
from .view import View


def code_actions(view: View, place: int, context: Any) -> Json:
    """Puts the proof that was found for the goal at the place behind its command, or in the place of a wrong one."""
    number = view.last_command(place)
    if number is None or not _wants_fixes(context):
        return []
    suggestion = _suggestion(view, number)
    if suggestion is not None and not _is_closed(view, number):
        stop = view.span(number).stop
        return [_action(view, f"Insert the proof that was found: {suggestion}", stop, stop, f" {suggestion}")]
    if number > 0 and view.cut.meaning(number) == "by" and _has_error(view, number):
        suggestion = _suggestion(view, number - 1)
        if suggestion is not None:
            span = view.span(number)
            title = f"Replace by the proof that was found: {suggestion}"
            return [_action(view, title, span.start, span.stop, suggestion)]
    return []


def _wants_fixes(context: Any) -> bool:
    only = context.get("only") if isinstance(context, dict) else None
    return not isinstance(only, list) or "quickfix" in only or "" in only


def _suggestion(view: View, number: int) -> Optional[str]:
    """The proof that was found behind the command."""
    return next((report.text for report in view.reports(number) if report.kind == "suggest"), None)


def _is_closed(view: View, number: int) -> bool:
    """Whether a proof that is right follows already."""
    behind = number + 1
    return behind < len(view.cut) and view.cut.meaning(behind) in ("by", "proof") and not _has_error(view, behind)


def _has_error(view: View, number: int) -> bool:
    return any(report.kind == "error" for report in view.reports(number))


def _action(view: View, title: str, start: int, stop: int, text: str) -> Dict[str, Any]:
    edits: List[Json] = [{"range": view.range(start, stop), "newText": text}]
    return {"title": title, "kind": "quickfix", "isPreferred": True, "edit": {"changes": {view.uri: edits}}}
