#!/usr/bin/env python3
"""Counts the instructions that a program takes for a line of a script, by callgrind, as the difference of two lengths.

usage: bench/lines.py PROGRAM SCRIPT FIRST SECOND [WORD ..]

Runs PROGRAM with the words (by default `run`) on the first FIRST and on the first SECOND lines of SCRIPT, and prints the
difference of the instructions by that of the lines: what stands in the first lines, as the pages of a session, counts
for nothing. It does not depend on what else the machine does.
"""
import re
import subprocess
import sys
import tempfile


def instructions(program, words, text):
    with tempfile.NamedTemporaryFile() as script, tempfile.NamedTemporaryFile() as profile:
        script.write(text)
        script.flush()
        with open(script.name, "rb") as lines:
            run = subprocess.run(
                ["valgrind", "--tool=callgrind", f"--callgrind-out-file={profile.name}", program, *words],
                stdin=lines, stdout=subprocess.DEVNULL, stderr=subprocess.PIPE)
        found = re.search(rb"Collected : (\d+)", run.stderr)
        if not found:
            sys.exit(run.stderr.decode())
        return int(found.group(1))


def main():
    if len(sys.argv) < 5:
        sys.exit(__doc__)
    program, script, first, second = sys.argv[1], sys.argv[2], int(sys.argv[3]), int(sys.argv[4])
    words = sys.argv[5:] or ["run"]
    with open(script, "rb") as text:
        lines = text.read().splitlines(keepends=True)
    if not first < second <= len(lines):
        sys.exit(f"{script} has {len(lines)} lines")
    less = instructions(program, words, b"".join(lines[:first]))
    more = instructions(program, words, b"".join(lines[:second]))
    print(round((more - less) / (second - first)))


main()
