#!/usr/bin/env python3
"""Measures the program robocopy over folders of this host, against cp and rsync in the same run.

bench/host.py                               all shapes, over the built program crates/robocopy/out/robocopy
bench/host.py --shape small                 one shape; may be given several times
bench/host.py --scale 0.01                  a hundredth of the files, or of their bytes, to try whether all goes well
bench/host.py --folder FOLDER               in a folder of this file system; in the temporary folder without it
ROBOCOPY='COMMAND ..' bench/host.py         another command in place of the built program

For each command of a shape it prints the least time by the clock of all runs, the processor time of that run, the greatest
peak of memory of all runs, and how many times robocopy's time is that of each other command. A table in markdown comes last,
with the goals. The commands of a shape take turns, so that a slow moment of the machine meets all of them, and the file system
is synced before each. What they read was written a moment before, so that it comes from memory for all of them.

robocopy makes durable what it copied; of the others cp with a sync behind it and rsync with --fsync do. Its time is that of
the calls on the folders and on their tables together with the decisions on them; bench/site_texts.py shows what decisions cost
over trees in memory. Without lines for files and folders (/NFL /NDL) nothing but the summary is printed.

The exit statuses are looked at, and each copy of the first turn is compared with the source. The exit status is 1 where a goal
is missed, and another status or another tree than the wanted one ends the script.

The program has to be built: ./run --build robocopy. Needed besides are cp and find, and rsync 3.2.4 or later, which has --fsync
(apt-get install rsync); without rsync its rows are left out. At full size 6 GB of disk are needed, and are given back. The
peak of a command is that of its largest process, and at least that of this script, since a process that is started counts the
memory of the one that starts it.
"""
import argparse
import filecmp
import os
import random
import resource
import shlex
import shutil
import subprocess
import sys
import tempfile
import time
from collections import namedtuple
from pathlib import Path

PROGRAM = Path(__file__).resolve().parent.parent / "crates" / "robocopy" / "out" / "robocopy"
MB = 1_000_000
PIECE = 1 << 20
FILES_OF_FOLDER = 100

# The source and the target of robocopy, and the target of rsync where the same target is used again, since times that one of
# them keeps are no times to the other
SOURCE, TARGET, OTHER_TARGET = "s", "t", "u"
BESIDE = (".rct", ".rct-wal", ".rcr")

# What is measured: what its source has, what is done before each run, the commands, and how many times the time of one of them
# robocopy's may be
Shape = namedtuple("Shape", "about source before commands goals")

# A command: how it is named, its words, the exit status that is wanted, and whether its target is then compared
Command = namedtuple("Command", "name words status compared")

Run = namedtuple("Run", "clock processor peak")
Row = namedtuple("Row", "shape command clock processor peak times goal")


# What a source has


def make_small(folder, scale):
    """20,000 files of 1 KiB, a hundred in a folder."""
    make_files(folder, round(20_000 * scale), 1024)


def make_large(folder, scale):
    """4 files of 256 MB."""
    os.mkdir(folder)
    for number in range(4):
        bytes_of = random.Random(number)
        with open(folder / f"f{number}", "wb") as out:
            left = round(256 * MB * scale)
            while left > 0:
                left -= out.write(bytes_of.randbytes(min(PIECE, left)))


def make_many(folder, scale):
    """100,000 entries: folders with 99 files of 16 bytes each."""
    make_files(folder, round(100_000 * scale), 16, entries_of_folder=1)


def make_files(folder, entries, size, entries_of_folder=0):
    """Folders of a hundred entries, of which the folder itself may be one; all others are files of so many bytes."""
    os.mkdir(folder)
    for number in range(max(1, entries // FILES_OF_FOLDER)):
        bytes_of = random.Random(number)
        inner = folder / f"d{number:04}"
        os.mkdir(inner)
        for file in range(FILES_OF_FOLDER - entries_of_folder):
            (inner / f"f{file:02}").write_bytes(bytes_of.randbytes(size))


# What is done before each run, in the folder of all


def without_target():
    """As it is where a root was never mirrored: no target and no tables."""
    remove_tree(TARGET)
    without_tables()


def without_tables():
    for root in (SOURCE, TARGET):
        for end in BESIDE:
            Path(root + end).unlink(missing_ok=True)


def as_it_is():
    pass


def with_one_change():
    """A file has a byte more."""
    with open(Path(SOURCE) / "d0000" / "f00", "ab") as out:
        out.write(b"+")


def remove_tree(name):
    if os.path.lexists(name):
        shutil.rmtree(name)


# Shapes and commands

SYNCED_CP = f"cp -a {SOURCE} {TARGET} && sync -f {TARGET}"


def robocopy(status, *words):
    name = " ".join(["robocopy s t /MIR", *words])
    return Command(name, ["ROBOCOPY", SOURCE, TARGET, "/MIR", *words, "/NFL", "/NDL"], status, None)


def rsync(name, target, *words):
    return Command(f"rsync -a --delete{name}", ["rsync", "-a", "--delete", *words, f"{SOURCE}/", target], 0, None)


COPIES = [
    robocopy(1)._replace(compared=TARGET),
    Command("cp -a", ["cp", "-a", SOURCE, TARGET], 0, TARGET),
    Command("cp -a, sync", ["sh", "-c", SYNCED_CP], 0, TARGET),
    rsync("", TARGET)._replace(compared=TARGET),
    rsync(" --fsync", TARGET, "--fsync")._replace(compared=TARGET),
]
FIND = Command("find", ["find", SOURCE, TARGET, "-printf", "%s %p\\n"], 0, None)
LISTINGS = [robocopy(0, "/L"), rsync(" -n", OTHER_TARGET, "-n"), FIND]
RERUNS = [rsync("", OTHER_TARGET), rsync(" --fsync", OTHER_TARGET, "--fsync")]

SHAPES = {
    "small": Shape(
        "20,000 files of 1 KiB, nothing on the target, no tables",
        make_small,
        without_target,
        COPIES,
        {"rsync -a --delete --fsync": 3.0},
    ),
    "large": Shape(
        "4 files of 256 MB, nothing on the target, no tables", make_large, without_target, COPIES, {"cp -a, sync": 1.2}
    ),
    "first": Shape(
        "a listing of 100,000 entries, which the target has too, without tables", make_many, without_tables, LISTINGS, {}
    ),
    "listing": Shape("the same listing with tables", make_many, as_it_is, LISTINGS, {}),
    "same": Shape(
        "nothing changed in 100,000 entries",
        make_many,
        as_it_is,
        [robocopy(0), *RERUNS],
        {"rsync -a --delete": 2.0},
    ),
    "one": Shape(
        "one file changed in 100,000 entries",
        make_many,
        with_one_change,
        [robocopy(1)._replace(compared=TARGET)] + [one._replace(compared=OTHER_TARGET) for one in RERUNS],
        {},
    ),
}


# Runs


def run(program, command):
    """Runs a command, behind a sync of all that was written before."""
    words = [*program, *command.words[1:]] if command.words[0] == "ROBOCOPY" else command.words
    os.sync()
    began = time.monotonic()
    process = subprocess.Popen(words, stdin=subprocess.DEVNULL, stdout=subprocess.DEVNULL)
    _, status, usage = os.wait4(process.pid, 0)
    clock = time.monotonic() - began
    process.returncode = os.waitstatus_to_exitcode(status)
    if process.returncode != command.status:
        sys.exit(f"{command.name} ended with {process.returncode}, wanted was {command.status}")
    return Run(clock, usage.ru_utime + usage.ru_stime, usage.ru_maxrss * 1024)


def is_same(one, other):
    """Whether two folders have the same names and bytes. They are gone through folder by folder, so that this script stays
    small."""
    names = sorted(os.listdir(one))
    if names != sorted(os.listdir(other)):
        return False
    for name in names:
        here, there = os.path.join(one, name), os.path.join(other, name)
        if os.path.isdir(here) != os.path.isdir(there):
            return False
        if not (is_same(here, there) if os.path.isdir(here) else filecmp.cmp(here, there, shallow=False)):
            return False
    filecmp.clear_cache()
    return True


def measure(program, name, commands, runs):
    """The rows of a shape, robocopy's first."""
    shape = SHAPES[name]
    taken = {command.name: [] for command in commands}
    for turn in range(runs):
        for command in commands:
            shape.before()
            taken[command.name].append(run(program, command))
            if turn == 0 and command.compared and not is_same(SOURCE, command.compared):
                sys.exit(f"{name}: {command.name} left another tree than the source's")
    rows = []
    for command in commands:
        best = min(taken[command.name])
        peak = max(one.peak for one in taken[command.name])
        times = rows[0].clock / best.clock if rows else None
        row = Row(name, command.name, best.clock, best.processor, peak, times, shape.goals.get(command.name))
        rows.append(row)
        print(f"    {said(row)}", flush=True)
    return rows


def said(row):
    times = "" if row.times is None else f"; robocopy took {row.times:.2f} times this{beyond(row)}"
    return (
        f"{row.command}: {row.clock:.2f} s by the clock, {row.processor:.2f} s of the processor,"
        f" peak {row.peak / MB:.0f} MB{times}"
    )


def is_missed(row):
    return row.goal is not None and row.times > row.goal


def beyond(row):
    return f" (more than {row.goal})" if is_missed(row) else ""


def print_table(rows):
    print()
    print("| Shape | Command | Time, s | Processor, s | Peak, MB | robocopy's time over this | Goal |")
    print("|---|---|---|---|---|---|---|")
    for row in rows:
        times = "" if row.times is None else f"{row.times:.2f}"
        goal = "" if row.goal is None else f"{row.goal}{', missed' if is_missed(row) else ''}"
        print(
            f"| {row.shape} | `{row.command}` | {row.clock:.2f} | {row.processor:.2f} | {row.peak / MB:.0f}"
            f" | {times} | {goal} |"
        )
    print()
    for name in dict.fromkeys(row.shape for row in rows):
        print(f"- `{name}`: {SHAPES[name].about}")


def file_system(folder):
    """The kind of the file system that a folder lies on."""
    with open("/proc/mounts") as mounts:
        points = [line.split()[1:3] for line in mounts]
    real = os.path.realpath(folder)
    above = [(point, kind) for point, kind in points if os.path.commonpath([point, real]) == point]
    return max(above, key=lambda one: len(one[0]))[1]


def options():
    args = argparse.ArgumentParser(description=__doc__, formatter_class=argparse.RawDescriptionHelpFormatter)
    args.add_argument("--shape", action="append", choices=SHAPES, help="a shape; all without it")
    args.add_argument("--scale", type=float, default=1.0, help="the size, 1 for the full one")
    args.add_argument("--runs", type=int, default=3, help="how many runs of each command, 3 without it")
    args.add_argument("--folder", help="where the trees are made for the time of the runs")
    found = args.parse_args()
    if found.scale <= 0 or found.runs < 1:
        args.error("--scale has to be above 0, and --runs at least 1")
    return found


def command_of_program():
    named = os.environ.get("ROBOCOPY")
    if named:
        return shlex.split(named)
    if not PROGRAM.exists():
        sys.exit(f"{PROGRAM} is not built: ./run --build robocopy")
    return [str(PROGRAM)]


def present(commands):
    """The commands that this host has."""
    return [command for command in commands if command.words[0] == "ROBOCOPY" or shutil.which(command.words[0])]


def make_source(program, shape, scale, commands):
    """Makes the source in place of the one before, and each target that is used again. robocopy's is made by cp: files of one
    size that are new to both tables are the same to it."""
    for root in (SOURCE, TARGET, OTHER_TARGET):
        remove_tree(root)
    without_tables()
    shape.source(Path(SOURCE), scale)
    if shape.before is not without_target:
        run(program, Command("cp -a", ["cp", "-a", SOURCE, TARGET], 0, None))
        run(program, robocopy(0))
        if any(OTHER_TARGET in command.words for command in commands):
            run(program, rsync("", OTHER_TARGET))


def main():
    asked = options()
    program = command_of_program()
    if not shutil.which("rsync"):
        print("rsync is not here: its rows are left out")
    own = resource.getrusage(resource.RUSAGE_SELF).ru_maxrss * 1024
    rows = []
    with tempfile.TemporaryDirectory(dir=asked.folder) as folder:
        print(
            f"in {folder} ({file_system(folder)}), {os.cpu_count()} processors, load {os.getloadavg()[0]:.1f};"
            f" this script itself has {own / MB:.0f} MB",
            flush=True,
        )
        before = os.getcwd()
        os.chdir(folder)
        made = None
        for name in asked.shape or SHAPES:
            shape = SHAPES[name]
            print(f"{name}: {shape.about}", flush=True)
            commands = present(shape.commands)
            if made is not shape.source:
                make_source(program, shape, asked.scale, commands)
                made = shape.source
            rows += measure(program, name, commands, asked.runs)
        os.chdir(before)
    print_table(rows)
    return 1 if any(map(is_missed, rows)) else 0


if __name__ == "__main__":
    sys.exit(main())
