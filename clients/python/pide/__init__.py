"""A client of the engine's program: sessions, checks of files. It is tested, and nothing of it is proved.

docs/CLIENTS.md tells how it is used and what its answers mean, docs/FORMATS.md what stands on the wire. What the
package has by name is imported when it is first asked for, so that a command starts fast and can be interrupted.
"""

TYPE_CHECKING = False
if TYPE_CHECKING:
    from .errors import PideError, ProgramError, ProtocolFault, Refusal, RefusedError, UsageError
    from .messages import Change, Close, Insert, Perspective, Remove, opened
    from .replies import Reported, Snapshot
    from .reports import Report
    from .session import Session, find_program

__version__ = "0.1"

__all__ = [
    "Change",
    "Close",
    "Insert",
    "Perspective",
    "PideError",
    "ProgramError",
    "ProtocolFault",
    "Refusal",
    "RefusedError",
    "Remove",
    "Report",
    "Reported",
    "Session",
    "Snapshot",
    "UsageError",
    "find_program",
    "opened",
]

_MODULES = ("errors", "messages", "replies", "reports", "session")


def __getattr__(name: str) -> object:
    """The name from the module that has it."""
    if name in __all__:
        from importlib import import_module

        for module in map(import_module, (f"{__name__}.{module}" for module in _MODULES)):
            if name in vars(module):
                return globals().setdefault(name, vars(module)[name])
    raise AttributeError(f"module {__name__!r} has no attribute {name!r}")
