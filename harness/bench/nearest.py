"""From a plan's files to its windows with numpy: each cell goes by the even step of the roll that is nearest to its optimal one. In place of the
program's sweep it is what its whole command is timed against; nothing here is checked, refused or kept.

    nearest.py PLAN.toml WINDOWS.csv

Only of plans with a panel along y, no configured roll, one tolerance, targets by ra and dec, and times in whole seconds that end with Z.
"""
import sys
import tomllib
from pathlib import Path

import numpy as np


def mask_of(plan, folder):
    """Names, times, which cells are violated, and how many lie within 1e-9 degrees of the tolerance."""
    targets = np.loadtxt(folder / plan["targets"], delimiter=",", skiprows=1, dtype=str, ndmin=2)
    numbers = np.loadtxt(folder / plan["ephemeris"], delimiter=",", skiprows=1, usecols=range(1, 7), ndmin=2)
    times = np.loadtxt(folder / plan["ephemeris"], delimiter=",", skiprows=1, usecols=0, dtype="U19", ndmin=1).astype("datetime64[s]")
    ra, dec = np.radians(targets[:, 1:3].astype(float)).T
    sun = numbers[:, :3] - numbers[:, 3:]
    east = np.stack([-np.sin(ra), np.cos(ra), np.zeros_like(ra)], 1)
    north = np.stack([-np.sin(dec) * np.cos(ra), -np.sin(dec) * np.sin(ra), np.cos(dec)], 1)
    roll = np.degrees(np.arctan2(north @ sun.T, east @ sun.T))
    step = 360 / plan["rolls"]
    distance = np.abs(roll - step * np.rint(roll / step))
    ties = np.count_nonzero(np.abs(distance - plan["tolerance"]) < 1e-9)
    return targets[:, 0], times, distance > plan["tolerance"], ties


def write(path, names, times, violated):
    """Both kinds of windows, by target and first sample. A clear sample that stands alone is in no window, unless it is the last."""
    text = [t + ".000000000Z" for t in np.datetime_as_string(times)]
    seconds, last = times.astype(np.int64), len(times) - 1
    with open(path, "w") as out:
        out.write(HEAD)
        for i, (name, row) in enumerate(zip(names, violated)):
            ends = np.flatnonzero(np.diff(row))
            first, upto = np.concatenate([[0], ends + 1]), np.concatenate([ends, [last]])
            kind = row[first]
            keep = kind | (first < upto) | (upto == last)
            columns = zip(kind[keep].tolist(), first[keep].tolist(), upto[keep].tolist(), (seconds[upto] - seconds[first])[keep].tolist())
            lines = [line(i, name, k, a, b, text, s, b == last) for k, a, b, s in columns]
            out.write("".join(lines))


HEAD = "target,kind,first_sample,last_sample,start,end,seconds,severity_deg,data_end,target_number\n"


def line(i, name, violated, first, last, text, seconds, at_end):
    kind = "violated" if violated else "visible"
    return f"{name},{kind},{first},{last},{text[first]},{text[last]},{seconds},0,{'true' if at_end else 'false'},{i + 1}\n"


if __name__ == "__main__":
    plan_path, csv = map(Path, sys.argv[1:])
    plan = tomllib.loads(plan_path.read_text())
    names, times, violated, ties = mask_of(plan, plan_path.parent)
    write(csv, names, times, violated)
    if ties:
        print(f"{ties} cells lie within 1e-9 degrees of the tolerance", file=sys.stderr)
