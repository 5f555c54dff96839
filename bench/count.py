"""Instructions a sample of each contestant, by valgrind's callgrind: `count.py PROGRAM FOLDER` writes FOLDER/counts.csv.

Only what runs inside the program's function `counted` is counted. Without valgrind there is no file and no table of the report.
"""

import re
import shutil
import subprocess
import sys
from pathlib import Path

SYSTEMS = (1, 2, 3, 4)


def contestants(program):
    listed = subprocess.run([program, "--list"], check=True, capture_output=True, text=True).stdout
    return [line.split(",") for line in listed.splitlines()]


def instructions_a_sample(program, number, system):
    command = ["valgrind", "--tool=callgrind", "--callgrind-out-file=/dev/null", "--toggle-collect=counted"]
    done = subprocess.run([*command, program, "--count", number, str(system)], check=True, capture_output=True, text=True)
    collected = re.search(r"Collected : (\d+)", done.stderr)
    return int(collected[1]) / int(done.stdout)


def main(program, folder):
    out = Path(folder) / "counts.csv"
    out.unlink(missing_ok=True)
    if not shutil.which("valgrind"):
        print("instructions are not counted: there is no valgrind")
        return
    lines = ["system,way,name,instructions"]
    print("\ninstructions a sample, rows of 1920")
    for number, way, name in contestants(program):
        for system in SYSTEMS:
            each = instructions_a_sample(program, number, system)
            print(f"{system:<8}{way:<16}{name:<26}{each:8.1f}", flush=True)
            lines.append(f"{system},{way},{name},{each:.6g}")
    out.write_text("\n".join(lines) + "\n")


if __name__ == "__main__":
    main(*sys.argv[1:])
