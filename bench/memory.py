"""Lets each allocation of a run fail in turn, and says what came of it.

    python3 bench/memory.py PROGRAM SCRIPT [WORD ..]

The run is made by a malloc before the C library's that fails once (bench/fail_alloc.c, built by gcc). Wanted is that
each run ends with status 5, or as it ends with ample memory, and that what it wrote is a front of the whole text, and
the whole text where the status is the usual one.
"""

import os
import subprocess
import sys
import tempfile
from pathlib import Path

WANTING = 5


def run(program, words, script, shim, failing, count):
    """Runs the program with the allocation of this number failing, and gives its status and what it wrote."""
    with open(script, "rb") as source:
        done = subprocess.run(
            [program, *words],
            stdin=source,
            stdout=subprocess.PIPE,
            env={**os.environ, "LD_PRELOAD": str(shim), "FAIL_ALLOC": str(failing), "COUNT_ALLOC": str(count)},
            check=False,
        )
    return done.returncode, done.stdout


def main():
    program, script, *words = sys.argv[1:]
    words = words or ["run"]
    with tempfile.TemporaryDirectory() as folder:
        shim, count = Path(folder, "fail_alloc.so"), Path(folder, "count")
        source = Path(__file__).with_name("fail_alloc.c")
        subprocess.run(["gcc", "-O2", "-shared", "-fPIC", "-o", shim, source, "-ldl"], check=True)
        usual, text = run(program, words, script, shim, 0, count)
        allocations = int(count.read_text())
        wanting = wrong = 0
        for failing in range(1, allocations + 1):
            status, wrote = run(program, words, script, shim, failing, count)
            wanting += status == WANTING
            as_due = text.startswith(wrote) if status == WANTING else (status, wrote) == (usual, text)
            if not as_due:
                wrong += 1
                print(f"allocation {failing}: status {status}, {len(wrote)} bytes")
        print(f"{allocations} allocations: {wanting} runs end with {WANTING}, {allocations - wanting - wrong} as usual, {wrong} otherwise")
        return 1 if wrong else 0


if __name__ == "__main__":
    sys.exit(main())
