"""Instructions and time of the works of pe_bench: python3 instructions.py PE_BENCH [NAME..].

For each name of a line or an answer it prints the instructions of one line, as the difference of two counts
under valgrind, and the nanoseconds of one line, as the least user time of five runs. Every name is one of
`crates/pe_bench/src/reading.rt` or `crates/pe_bench/src/writing.rt`, or `input` or `consume`, which are measured
on pages of 16 and 256 frames, flat and deep, with what one more frame costs, or `messages`, `store`, `statuses`,
`walk` or `prompts`, which are measured on each of the sizes below; without names it takes all of them.
"""
import os
import re
import subprocess
import sys

HERE = os.path.dirname(os.path.abspath(__file__))
SOURCES = {"read": "reading.rt", "write": "writing.rt"}
FEW, MORE = 200, 1200
SIZES = (16, 256)
ENTRIES = (1, 1_000, 8_192, 65_536)
# Live statuses; pairs and the statuses of each; pages and the pending prompts of each.
SIZED = [("statuses", str(live)) for live in (1_024, 16_384)]
SIZED += [("walk", "1", "16384"), ("walk", "64", "256")]
SIZED += [("prompts", str(pages), str(pending)) for pending in (1, 256) for pages in (1, 16, 64)]


def names(work):
    """The names that stand in the source of this work, in its order."""
    path = os.path.join(HERE, "..", "crates", "pe_bench", "src", SOURCES[work])
    with open(path) as source:
        return re.findall(r'(?:\(\s*|name == )"([a-z-]+)"', source.read())


def instructions(program, work, count):
    """The instructions of a run of the work, named by its words."""
    words = ["valgrind", "--tool=callgrind", "--callgrind-out-file=/dev/null", program, *work, str(count)]
    said = subprocess.run(words, capture_output=True, text=True, check=True).stderr
    return int(re.search(r"Collected : (\d+)", said).group(1))


def seconds(program, work, count):
    """The user time of a run."""
    child = subprocess.Popen([program, *work, str(count)], stdout=subprocess.DEVNULL)
    _, status, used = os.wait4(child.pid, 0)
    child.returncode = status
    if status != 0:
        sys.exit(f"{' '.join(work)} ended with {status}")
    return used.ru_utime


def measured(program, *work):
    """The instructions and the nanoseconds of a line or a call."""
    few, more = (instructions(program, work, count) for count in (FEW, MORE))
    line = (more - few) / (MORE - FEW)
    count = min(800_000, int(1_000_000_000 / line))
    least = min(seconds(program, work, count) for _ in range(5))
    return line, 1e9 * least / count


def measured_at_once(program, entries):
    """The instructions and the nanoseconds of an entry that lapses with all others, and is set again."""
    few, more = (instructions(program, ("store", "lapse-all", str(entries)), count) for count in (1, 3))
    count = 655_360 // entries
    least = min(seconds(program, ("store", "lapse-all", str(entries)), count) for _ in range(5))
    return (more - few) / (2 * entries), 1e9 * least / (count * entries)


def store(program):
    """What the uses of a store cost."""
    for use in ("set", "find", "lapse", "lapse-all"):
        for entries in ENTRIES:
            if use == "lapse-all":
                one, nanoseconds = measured_at_once(program, entries)
            else:
                one, nanoseconds = measured(program, "store", use, str(entries))
            print(f"store {use} {entries}: {one:,.0f} instructions, {nanoseconds:,.0f} ns", flush=True)


def main():
    program, wanted = sys.argv[1], sys.argv[2:]
    for work in SOURCES:
        for name in names(work):
            if not wanted or name in wanted:
                line, nanoseconds = measured(program, work, name)
                print(f"{work} {name}: {line:,.0f} instructions, {nanoseconds:,.0f} ns", flush=True)
    for call in ("input", "consume"):
        for shape in ("flat", "deep"):
            if wanted and call not in wanted:
                continue
            calls = {}
            for size in SIZES:
                calls[size], nanoseconds = measured(program, call, shape, str(size))
                print(f"{call} {shape} {size}: {calls[size]:,.0f} instructions, {nanoseconds:,.0f} ns", flush=True)
            smaller, larger = SIZES
            more = (calls[larger] - calls[smaller]) / (larger - smaller)
            print(f"{call} {shape}: {calls[smaller] / smaller:,.1f} a frame of {smaller}, {more:,.1f} each more", flush=True)
    if not wanted or "messages" in wanted:
        for pages in (1, 16, 64):
            for waiting in (1, 256):
                message, nanoseconds = measured(program, "post", str(pages), str(waiting))
                print(f"post {pages} {waiting}: {message:,.0f} instructions, {nanoseconds:,.0f} ns", flush=True)
    if not wanted or "store" in wanted:
        store(program)
    for work in SIZED:
        if not wanted or work[0] in wanted:
            call, nanoseconds = measured(program, *work)
            print(f"{' '.join(work)}: {call:,.0f} instructions, {nanoseconds:,.0f} ns", flush=True)


main()
