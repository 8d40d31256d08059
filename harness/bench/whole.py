"""Plans of 10^3 to 10^6 cells, from their files to their windows: the program that WILFNUSK names and nearest.py, in turns. Prints a table of the
medians. Stops unless both write the same windows, byte by byte."""
import argparse
import datetime
import math
import os
import random
import statistics
import subprocess
import sys
import tempfile
import time
from pathlib import Path

HERE = Path(__file__).parent
# Targets, times and seconds between two times: ten minutes, or a year in a thousand samples.
SIZES = [(10, 100, 600), (100, 100, 600), (100, 1000, 600), (1000, 1000, 600), (19, 52_560, 600), (1000, 1000, 31_536)]
# Rolls, and a tolerance below half the gap between two of them, so that there are both kinds of windows.
ROLLS = [(24, 5), (72, 1.7)]


def write_plan(folder, targets, times, step, rolls, tolerance):
    """Targets over the whole sky, the Sun on its circle, an observer in low orbit; the same for the same numbers."""
    folder.mkdir()
    draw = random.Random(1)
    (folder / "plan.toml").write_text(f'targets = "targets.csv"\nephemeris = "ephemeris.csv"\nrolls = {rolls}\ntolerance = {tolerance}\n')
    with open(folder / "targets.csv", "w") as out:
        out.write("name,ra,dec\n")
        for i in range(targets):
            out.write(f"T{i},{draw.uniform(0, 360):.6f},{math.degrees(math.asin(draw.uniform(-1, 1))):.6f}\n")
    start, tilt = datetime.datetime(2026, 1, 1), math.radians(23.44)
    with open(folder / "ephemeris.csv", "w") as out:
        out.write("time,sun_x,sun_y,sun_z,observer_x,observer_y,observer_z\n")
        for j in range(times):
            year, orbit = 4.9 + 2 * math.pi * j * step / 31_557_600, 2 * math.pi * j * step / 5760
            sun = [1.496e8 * x for x in (math.cos(year), math.sin(year) * math.cos(tilt), math.sin(year) * math.sin(tilt))]
            observer = [6928 * x for x in (math.cos(orbit), math.sin(orbit) * 0.88, math.sin(orbit) * 0.47)]
            clock = (start + datetime.timedelta(seconds=step * j)).strftime("%Y-%m-%dT%H:%M:%SZ")
            out.write(clock + "".join(f",{x:.3f}" for x in sun + observer) + "\n")


def timed(words):
    """The seconds that a command takes, and what it says."""
    begun = time.perf_counter()
    ended = subprocess.run(words, capture_output=True, text=True)
    taken = time.perf_counter() - begun
    if ended.returncode != 0:
        sys.exit(f"{words}: status {ended.returncode}\n{ended.stderr}")
    return taken, ended.stderr


def compared(folder, turns):
    """The medians of both sides, how many windows there are, and what nearest.py says of ties."""
    plan, ours, theirs = folder / "plan.toml", folder / "ours.csv", folder / "theirs.csv"
    sides = {
        "program": [os.environ["WILFNUSK"], "sweep", plan, "--quiet", "--csv", ours],
        "numpy": ["/usr/bin/python3", HERE / "nearest.py", plan, theirs],
    }
    taken = {side: [] for side in sides}
    for _ in range(turns):
        for journal in folder.glob("plan.journal*"):
            journal.unlink()
        for side, words in sides.items():
            seconds, said = timed(words)
            taken[side].append(seconds)
        if ours.read_bytes() != theirs.read_bytes():
            sys.exit(f"{folder}: the windows differ. {said}")
    return statistics.median(taken["program"]), statistics.median(taken["numpy"]), ours.read_text().count("\n") - 1, said.strip()


def main():
    parser = argparse.ArgumentParser(prog="harness/bench/whole", description=__doc__)
    parser.add_argument("--turns", type=int, default=11, help="how often each command is timed [11]")
    parser.add_argument("--only", default="", metavar="TEXT", help="only the plans whose row has this text, such as 52,560 or n = 72")
    parser.add_argument("--folder", help="where the plans are written [a folder for temporary files]")
    words = parser.parse_args()
    print("| plan | windows | program | numpy | ratio |\n|---|---|---|---|---|")
    with tempfile.TemporaryDirectory(dir=words.folder) as base:
        for targets, times, step in SIZES:
            for rolls, tolerance in ROLLS:
                row = f"{targets:,} × {times:,}, a time each {step:,} s, n = {rolls}"
                if words.only not in row:
                    continue
                folder = Path(base) / f"{targets}-{times}-{step}-{rolls}"
                write_plan(folder, targets, times, step, rolls, tolerance)
                program, numpy, windows, ties = compared(folder, words.turns)
                print(f"| {row} | {windows:,} | {program:.3f} s | {numpy:.3f} s | {program / numpy:.2f} |", flush=True)
                if ties:
                    print(f"|   {ties} | | | | |")


main()
