"""Runs Newspeak within limits, in this process.

    >>> import nspk
    >>> answer = nspk.run("Hello.ns", {"Hello.ns": open("examples/Hello.ns").read()}, steps=1000)
    >>> answer.status, answer.out, answer.report
    (<Status.DONE: 0>, b'Hello\\n', '=> object Hello')

A call reads and writes no file: it sees the files that it is handed, by name, and gives what it would write. Threads may call at
the same time, and run side by side.
"""
from ._library import Answer, Malformed, Status, call, check, load, run
from .program import Counters, Ended, Handle, Program, Refused

__all__ = ["Answer", "Counters", "Ended", "Handle", "Malformed", "Program", "Refused", "Status", "call", "check", "load", "run"]
