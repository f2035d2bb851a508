"""Removes the table of functions of a WebAssembly module, into which nothing is put.

usage: sections.py MODULE TO

Some hosts refuse a table with 64-bit indices, even an empty one.
"""
import sys

HEADER = 8
TABLE, ELEMENTS = 4, 9


def number(data, at):
    """The number that begins there, seven bits a byte, and where it ends."""
    value = shift = 0
    while True:
        byte = data[at]
        at += 1
        value |= (byte & 127) << shift
        shift += 7
        if byte < 128:
            return value, at


def sections(data):
    """The kind of each section, and its bytes."""
    at = HEADER
    while at < len(data):
        size, start = number(data, at + 1)
        yield data[at], data[at:start + size]
        at = start + size


def main():
    module, to = sys.argv[1:]
    with open(module, "rb") as file:
        data = file.read()
    found = list(sections(data))
    if any(kind == ELEMENTS for kind, _ in found):
        sys.exit("sections.py: functions stand in the module's table")
    with open(to, "wb") as file:
        file.write(data[:HEADER] + b"".join(section for kind, section in found if kind != TABLE))


main()
