#!/usr/bin/env python3
"""Plays the transcripts of OTP (crates/otp_parity/data) by the package, and compares what the tree orders, to the byte.

usage: transcripts.py FOLDER     (of the package; OTP_SHARED_LIBRARY names the library)
"""

from __future__ import annotations

import glob
import os
import sys
from typing import List

sys.path.insert(0, sys.argv[1])

from otp_supervision import Call, ChildSpec, Note, Reason, Restart, Tree, TreeRefused, Type

DATA = os.path.join(os.path.dirname(os.path.abspath(__file__)), "..", "..", "crates", "otp_parity", "data")
NOTES = {"up": Note.UP, "ignore": Note.IGNORED, "fail": Note.FAILED, "exit": Note.EXIT}
BY_ID = {"restart": Call.RESTART_CHILD, "delete": Call.DELETE_CHILD, "get": Call.GET_CHILDSPEC, "terminate": Call.TERMINATE_CHILD}
ALONE = {"start": Call.START_DYNAMIC, "which": Call.WHICH_CHILDREN, "count": Call.COUNT_CHILDREN}


def tell(tree: Tree, now: int, words: List[str]) -> None:
    """Tells what a line says, at this reading."""
    verb, rest = words[0], words[1:]
    if verb in NOTES:
        tree.note(now, 0, NOTES[verb], int(rest[0]), *map(Reason.parse, rest[1:]))
    elif verb == "stop":
        tree.stop(now)
    elif verb == "terminate" and rest[0].startswith("#"):
        tree.call(now, 0, Call.TERMINATE_PROCESS, number=int(rest[0][1:]))
    elif verb == "start" and rest:
        id, start, restart, significant, shutdown, kind = rest
        tree.start_child(now, 0, ChildSpec(id, start, Restart[restart.upper()], significant == "true", shutdown, Type[kind.upper()]))
    elif verb in BY_ID:
        tree.call(now, 0, BY_ID[verb], rest[0])
    else:
        tree.call(now, 0, ALONE[verb])


def play(text: str, lines: str) -> str:
    try:
        tree = Tree(text)
    except TreeRefused as why:
        return f"tree refused: E{why.code}"
    now, printed = 0, [str(order) for order in iter(tree.next_order, None)]
    for line in filter(None, lines.splitlines()):
        words = line.split(" ")
        if words[0] == "at":
            now = int(words[1])
            tree.tick(now)
        else:
            tell(tree, now, words)
        printed += [str(order) for order in iter(tree.next_order, None)]
    return "\n".join(printed)


def main() -> int:
    played = 0
    for path in sorted(glob.glob(f"{DATA}/*.txt")):
        with open(path, encoding="utf-8") as file:
            for one in file.read().split("\n== ")[1:]:
                name, _, text = one.split("\n", 2)
                tree, rest = text.split("-- lines\n")
                lines, wanted = rest.split("-- orders\n")
                found = play(tree, lines)
                if found.strip("\n") != wanted.strip("\n"):
                    print(f"{name}\n{tree}\n{lines}\nwanted:\n{wanted}\nfound:\n{found}", file=sys.stderr)
                    return 1
                played += 1
    print(f"Python: {played} transcripts of OTP were played")
    return 0 if played > 1500 else 1


sys.exit(main())
