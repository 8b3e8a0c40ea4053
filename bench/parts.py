"""How the program of crates/parts_bench is built and run, for the measurements beside this file."""
import os
import re
import subprocess
import sys

CRATE = f"{os.path.dirname(os.path.dirname(os.path.realpath(__file__)))}/crates/parts_bench"
PROGRAM = f"{CRATE}/out/parts_bench"


def build(*words):
    """Builds the program, which proves it, and runs it once with these words."""
    built = subprocess.run(["rt", "run", "--", *words], cwd=CRATE, capture_output=True, text=True)
    if built.returncode != 0:
        sys.exit(f"{os.path.basename(sys.argv[0])}: not built:\n{built.stdout[-2000:]}{built.stderr[-2000:]}")


def numbers(work, first, second):
    """The numbers in each line that a piece of work prints."""
    said = subprocess.run([PROGRAM, work, str(first), str(second)], check=True, capture_output=True, text=True).stdout
    return [[int(it) for it in re.findall(r"\d+", line)] for line in said.splitlines()]
