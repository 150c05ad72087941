"""The faults that a user can cause. Each message is one sentence that says where and what to do."""
from __future__ import annotations


class PebbleToolsError(Exception):
    """What a user can cause: the command line prints it without a traceback."""


class KernelError(PebbleToolsError):
    """A kernel that cannot be planned: too many values, a name that is too long. `place` is the statement's, `file:line`, if it is known."""

    def __init__(self, message: str, place: str = ''):
        super().__init__(f'{place}: {message}' if place else message)
        self.message, self.place = message, place


class SourceError(PebbleToolsError):
    """A C text or a Python function that is refused. `place` is `file`, `file:line` or `file:line:column`; `excerpt` is the line with a caret,
    if it is known."""

    def __init__(self, message: str, place: str = '', excerpt: str = ''):
        super().__init__(f'{place}: {message}' if place else message)
        self.message, self.place, self.excerpt = message, place, excerpt


class ProgramError(PebbleToolsError):
    """The planner ended with a status that is no result."""

    def __init__(self, message: str, status: int = 0):
        super().__init__(message)
        self.status = status
