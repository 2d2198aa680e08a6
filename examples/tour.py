#!/usr/bin/env python3
"""Runs the commands of docs/TOUR.md as a reader would, at the top of the repository, and says where one shows something else.

In a block of the page that begins with `$ ` each such line is a command, and the lines below it, up to the next one or the end of the
block, are what it shows: standard output and standard error as they come. The built program is run in the place of `./nmz`, which would
build it where a source is newer.

Call it as: examples/tour.py          compares; the status is 1 where something differs
            examples/tour.py --write  puts into the page what the commands show now"""
import subprocess
import sys
from pathlib import Path

TOP = Path(__file__).resolve().parent.parent
PAGE = TOP / "docs" / "TOUR.md"
SCRIPT, PROGRAM = "./nmz ", "crates/nmz/out/nmz "
FENCE, PROMPT = "```", "$ "


def shown(command):
    """The lines that the command shows."""
    words = ["sh", "-c", command.replace(SCRIPT, PROGRAM)]
    run = subprocess.run(words, cwd=TOP, stdin=subprocess.DEVNULL, stdout=subprocess.PIPE, stderr=subprocess.STDOUT)
    return run.stdout.decode().splitlines()


def run_page(lines):
    """The lines of the page with what its commands show now."""
    result, runs = [], False
    for place, line in enumerate(lines):
        if line == FENCE:
            runs = not runs and lines[place + 1].startswith(PROMPT)
        if not runs or line == FENCE:
            result.append(line)
        elif line.startswith(PROMPT):
            result += [line, *shown(line.removeprefix(PROMPT))]
    return result


def first_difference(told, now):
    """The number of the first line that differs, counted from 1, with both texts of it."""
    for place in range(max(len(told), len(now))):
        pair = [lines[place] if place < len(lines) else "(nothing)" for lines in (told, now)]
        if pair[0] != pair[1]:
            return place + 1, *pair
    return None


def main():
    if not (TOP / PROGRAM.strip()).exists():
        print("the tour: skipped, the program is not built: ./nmz examples/first builds it")
        return 0
    told = PAGE.read_text().splitlines()
    now = run_page(told)
    if "--write" in sys.argv[1:]:
        PAGE.write_text("\n".join(now) + "\n")
        return 0
    difference = first_difference(told, now)
    if difference is None:
        print("the tour: each command shows what the page says")
        return 0
    print("docs/TOUR.md line {}: the page says\n    {}\nand the command shows\n    {}".format(*difference))
    return 1


sys.exit(main())
