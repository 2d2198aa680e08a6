#!/usr/bin/env python3
"""What a run costs as its output grows, for three families: the cone over a square of side n (--Make n), the solutions of
nx + (n + 1)y = (n + 2)z + (n + 3)u, and the n x n magic squares. The table `bench/times.txt` has for each file and mode the number of
elements of its Hilbert basis and the processor seconds, as the least of three runs; `docs/pictures/times.svg` is drawn from it. A run that takes more than SECONDS of the processor is ended, and its row says so.

Call it as: bench/times.py            draws the picture from the table
            bench/times.py --check    says whether the picture is another; the status is then 1
            bench/times.py --measure  makes the table anew, with the built program, and draws"""
import os
import platform
import resource
import subprocess
import sys
import tempfile
from datetime import date
from math import log10
from pathlib import Path

TOP = Path(__file__).resolve().parent.parent
PROGRAM, TABLE, PICTURE = TOP / "crates/nmz/out/nmz", TOP / "bench/times.txt", TOP / "docs/pictures/times.svg"
SIZES = {"square": [10, 20, 40, 60, 80, 100, 120, 150], "knapsack": [5, 10, 20, 30, 40, 60, 80], "magic": [3, 4, 5]}
COLOURS = {"square": "#d00000", "knapsack": "#0040d0", "magic": "#008040"}
SECONDS = 20
WIDTH, HEIGHT, EDGE = 560, 400, 60


def square_sums(n):
    """The forms that are 0 at a magic square: each row, column and diagonal less the first row."""
    lines = [[n * row + column for column in range(n)] for row in range(n)] + [[n * row + column for row in range(n)] for column in range(n)]
    lines += [[n * place + place for place in range(n)], [n * place + n - 1 - place for place in range(n)]]
    return [[int(place in lines[0]) - int(place in line) for place in range(n * n)] for line in lines[1:]]


def input_of(family, n):
    """The text of a file of a family, with no text where --Make makes it."""
    if family == "square":
        return None
    rows = square_sums(n) if family == "magic" else [[n, n + 1, -n - 2, -n - 3]]
    return "\n".join([f"amb_space {len(rows[0])}", f"equations {len(rows)}", *(" ".join(map(str, row)) for row in rows)]) + "\n"


def bounded():
    resource.setrlimit(resource.RLIMIT_CPU, (SECONDS, SECONDS))


def run_once(folder, words):
    """The processor seconds of a run, and the first line that it prints, none where it was ended."""
    with open(folder / "printed", "w") as printed:
        process = subprocess.Popen([PROGRAM, *words, "p"], cwd=folder, stdout=printed, preexec_fn=bounded)
        used = os.wait4(process.pid, 0)[2]
    return used.ru_utime + used.ru_stime, (folder / "printed").read_text().split("\n")[0]


def measured(folder, family, n, mode):
    """A row of the table."""
    text = input_of(family, n)
    if text is not None:
        (folder / "p.in").write_text(text)
    words = [f"--{mode}Mode", *(["--Make", str(n)] if text is None else [])]
    runs = [run_once(folder, words)]
    if runs[0][1] != "done":
        return f"{family} {n} {mode.lower()} - - {runs[0][1] or f'more than {SECONDS} s'}"
    runs += [run_once(folder, words) for _ in range(2)]
    heading = next(line for line in (folder / "p.out").read_text().split("\n") if "Hilbert basis elements" in line)
    return f"{family} {n} {mode.lower()} {heading.split()[0]} {min(seconds for seconds, _ in runs):.4f} done"


def machine():
    models = [line.split(":")[1].strip() for line in Path("/proc/cpuinfo").read_text().split("\n") if line.startswith("model name")]
    return f"{models[0] if models else platform.machine()}, {os.cpu_count()} processors"


def measure():
    rows = [f"# {date.today()}, {machine()}", "# family n mode elements seconds status"]
    with tempfile.TemporaryDirectory() as folder:
        for family, sizes in SIZES.items():
            rows += [measured(Path(folder), family, n, mode) for mode in ("Primal", "Dual") for n in sizes]
    TABLE.write_text("\n".join(rows) + "\n")


def place(elements, seconds):
    """Where a run stands: both scales are logarithmic, from 1 to 100,000 elements and from 1 millisecond to 100 seconds."""
    x = EDGE + (WIDTH - 2 * EDGE) * log10(elements) / 5
    y = HEIGHT - EDGE - (HEIGHT - 2 * EDGE) * (log10(max(seconds, 0.001)) + 3) / 5
    return f"{x:.1f}", f"{y:.1f}"


def axes():
    """The lines of the powers of ten, with their numbers."""
    style = 'font-size="11" font-family="sans-serif"'
    for power in range(6):
        x, y = place(10**power, 0.001)[0], place(1, 10.0 ** (power - 3))[1]
        yield f'<line x1="{x}" y1="{EDGE}" x2="{x}" y2="{HEIGHT - EDGE}" stroke="#e0e0e0"/>'
        yield f'<line x1="{EDGE}" y1="{y}" x2="{WIDTH - EDGE}" y2="{y}" stroke="#e0e0e0"/>'
        yield f'<text x="{x}" y="{HEIGHT - EDGE + 16}" text-anchor="middle" {style}>{10**power}</text>'
        yield f'<text x="{EDGE - 6}" y="{y}" dy="4" text-anchor="end" {style}>{10.0 ** (power - 3):g} s</text>'
    yield f'<text x="{WIDTH // 2}" y="{HEIGHT - 20}" text-anchor="middle" {style}>elements of the Hilbert basis</text>'


def drawn():
    """The picture of the table: a line for each family and mode, which is dashed in dual mode."""
    rows = [line.split() for line in TABLE.read_text().split("\n") if line and not line.startswith("#")]
    lines = [f'<svg xmlns="http://www.w3.org/2000/svg" width="{WIDTH}" height="{HEIGHT}" viewBox="0 0 {WIDTH} {HEIGHT}">',
             f'<rect width="{WIDTH}" height="{HEIGHT}" fill="white"/>', *axes()]
    for number, (family, colour) in enumerate(COLOURS.items()):
        for mode, dash in (("primal", ""), ("dual", ' stroke-dasharray="5 4"')):
            at = [place(int(row[3]), float(row[4])) for row in rows if row[0] == family and row[2] == mode and row[5] == "done"]
            lines.append(f'<polyline points="{" ".join(map(",".join, at))}" fill="none" stroke="{colour}" stroke-width="1.5"{dash}/>')
            lines += [f'<circle cx="{x}" cy="{y}" r="3" fill="{colour}"/>' for x, y in at]
        lines.append(f'<text x="{EDGE + 12}" y="{EDGE + 18 + 16 * number}" font-size="12" font-family="sans-serif" fill="{colour}">{family}</text>')
    lines.append(f'<text x="{EDGE + 12}" y="{EDGE + 66}" font-size="11" font-family="sans-serif">dashed: dual mode</text>')
    return "\n".join([*lines, "</svg>"]) + "\n"


def main(words):
    if words == ["--check"]:
        same = PICTURE.exists() and PICTURE.read_text() == drawn()
        print(f"picture times: {'as' if same else 'not as'} bench/times.py draws it")
        return int(not same)
    if words == ["--measure"]:
        measure()
    PICTURE.write_text(drawn())
    return 0


sys.exit(main(sys.argv[1:]))
