#!/usr/bin/env python3
"""Asks the second judge about the examples and compares stored answers.

judge/expected/answers has the words of each call behind `$`, then what is
put, and behind `=` the exit status. Names of files are those from the top of
the repository. `stored_answers.py --write` stores the present answers.
"""

from __future__ import annotations

import os
import sys

import evjudge

TOP = os.path.join(os.path.dirname(os.path.abspath(__file__)), os.pardir)
ANSWERS = os.path.join("judge", "expected", "answers")


def block_of(words: str) -> str:
    """The words of a call, its answer and its status."""
    status, text = evjudge.answer(words.split())
    return f"$ {words}\n{text}= {status}\n"


def main() -> int:
    os.chdir(TOP)
    with open(ANSWERS, encoding="ascii") as file:
        stored = file.read()
    calls = [x[2:] for x in stored.splitlines() if x.startswith("$ ")]
    blocks = [block_of(words) for words in calls]
    if sys.argv[1:] == ["--write"]:
        with open(ANSWERS, "w", encoding="ascii") as file:
            file.write("".join(blocks))
        return 0
    if stored == "".join(blocks):
        print(f"the second judge: {len(calls)} stored answers stand")
        return 0
    for block in blocks:
        if block not in stored:
            print(f"the second judge now answers:\n{block}", end="")
    return 1


if __name__ == "__main__":
    sys.exit(main())
