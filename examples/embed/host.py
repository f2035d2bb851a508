"""Carries out a command of nspk inside of this process.

usage: host.py WORD .. [--files FILE ..]

The module nspk must be installed, or python/ on PYTHONPATH and NSPK_LIBRARY the path of libnspk.so.
"""
import sys

import nspk


def main() -> int:
    words = sys.argv[1:]
    at = words.index("--files") if "--files" in words else len(words)
    files = {}
    for name in words[at + 1:]:
        with open(name, "rb") as file:
            files[name] = file.read()
    answer = nspk.call(words[:at], files)
    sys.stdout.buffer.write(answer.out)
    sys.stdout.flush()
    sys.stderr.buffer.write(answer.err)
    return answer.status


sys.exit(main())
