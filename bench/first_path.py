#!/usr/bin/env python3
"""Measures the program drill on site texts: its time and its memory as they grow.

bench/first_path.py [SHAPE ..]    these shapes, or all of them, each once and then at double size

For each text it prints the least processor time of eleven runs of drill, that time over the one at half the size, and the
peak memory: over the text's size, and for each entry that the two trees have together, at the start or in the end, where
they have more. The runs of both sizes take turns, so that a slow moment of the machine meets both. The program has to be
built: ./run --build drill
"""
import argparse
import hashlib
import os
import subprocess
import sys
import tempfile
from collections import namedtuple
from pathlib import Path

PROGRAM = Path(__file__).resolve().parent.parent / "crates" / "drill" / "out" / "drill"
MOMENT = "133485408000000000"
BEFORE = "133485407990000000"
MB = 1_000_000
RUNS = 11

# what is measured: how many files of which size the source has, what the target has beside them, in which folder of the
# source a file stands, by its number, and the switches. What is purged the target has in place of the source
Shape = namedtuple("Shape", "about files size beside folder words", defaults=(lambda number: (), ("/S",)))


def by_hundreds(number):
    return (f"d{number // 100:06}",)


SHAPES = {
    "short": Shape("files of 1 KiB, nothing on the target", 10_000, 1024, None),
    "empty": Shape("files without bytes, nothing on the target", 40_000, 0, None),
    "standing": Shape("files of 1 KiB, each older and longer on the target", 10_000, 1024, "standing"),
    "before": Shape("files without bytes before as many extras", 40_000, 0, "g{:08}"),
    "between": Shape("files without bytes between as many extras", 40_000, 0, "f{:08}x"),
    "long": Shape("few files of 5 MB, nothing on the target", 5, 5 * MB, None),
    "folders": Shape(
        "files without bytes, a hundred in each folder, nothing on the target",
        20_000,
        0,
        None,
        by_hundreds,
    ),
    "deep": Shape(
        "files without bytes in one folder below 58 others, nothing on the target",
        20_000,
        0,
        None,
        lambda number: ("a",) * 59,
    ),
    "purged": Shape(
        "files without bytes, a hundred in each folder, on the target alone, under /MIR",
        20_000,
        0,
        "purged",
        by_hundreds,
        ("/MIR",),
    ),
    "moved": Shape(
        "files without bytes, a hundred in each folder, nothing on the target, under /MOVE /E",
        20_000,
        0,
        None,
        by_hundreds,
        ("/MOVE", "/E"),
    ),
}


def content(seed, size):
    """That many bytes, which differ from seed to seed."""
    return hashlib.shake_128(str(seed).encode()).digest(size)


def file_line(name, written, data):
    return "\t".join(["F", name, "A", MOMENT, written, "-", "-", "-", str(len(data)), data.hex() or "-"]) + "\n"


def folder_line(names):
    return "\t".join(["D", "\\".join(names), "-", MOMENT, MOMENT, "-", "-", "-"]) + "\n"


def folders_and_files(shape, files):
    """The files by their numbers, each behind the folders that come before it."""
    for number in range(files):
        yield from map(folder_line, new_folders(shape, number))
        yield source_line(number, shape)


def has_extras(shape):
    """Whether the target has entries that the source has not."""
    return shape.beside not in (None, "standing")


def source_line(number, shape, letter="f"):
    path = "\\".join([*shape.folder(number), f"{letter}{number:08}"])
    return file_line(path, MOMENT, content(number, shape.size))


def new_folders(shape, number):
    """The folders that come before a file, and before no file in front of it."""
    known = shape.folder(number - 1) if number > 0 else ()
    names = shape.folder(number)
    return [names[:count] for count in range(1, len(names) + 1) if names[:count] != known[:count]]


def folder_count(shape, files):
    return sum(len(new_folders(shape, number)) for number in range(files))


def target_lines(shape, files):
    """What the target has at the start."""
    if shape.beside == "purged":
        return folders_and_files(shape, files)
    if shape.beside == "standing":
        return (file_line(f"F{number:08}", BEFORE, content(-number - 1, shape.size + 10)) for number in range(files))
    if shape.beside:
        return (file_line(shape.beside.format(number), MOMENT, b"") for number in range(files))
    return iter(())


def wanted_lines(shape, files):
    """What the target has at the end: the source's files, under the spelling that stood, and what was beside them."""
    if shape.beside == "purged":
        return
    letter = "F" if shape.beside == "standing" else "f"
    extras = target_lines(shape, files) if has_extras(shape) else iter(())
    for number in range(files):
        yield from map(folder_line, new_folders(shape, number))
        yield source_line(number, shape, letter)
        if shape.beside == SHAPES["between"].beside:
            yield next(extras)
    yield from extras


def write_site(path, shape, files):
    with open(path, "w", newline="\n") as out:
        out.write(f"SITE\t1\nMOMENT\t{MOMENT}\nSOURCE\n")
        if shape.beside != "purged":
            out.writelines(folders_and_files(shape, files))
        out.write("TARGET\n")
        out.writelines(target_lines(shape, files))
        out.write("RECORD\t-\nEND\n")


def drill(text, shape, files):
    """Runs drill over a site text, and gives its seconds and its peak memory in bytes."""
    with open(text, "rb") as site, tempfile.TemporaryFile() as out:
        program = subprocess.Popen([PROGRAM, "SRC", "DST", *shape.words], stdin=site, stdout=out)
        _, status, usage = os.wait4(program.pid, 0)
        seconds = usage.ru_utime + usage.ru_stime
        program.returncode = os.waitstatus_to_exitcode(status)
        wanted = (0 if shape.beside == "purged" else 1) + (2 if has_extras(shape) else 0)
        if program.returncode != wanted:
            sys.exit(f"drill ended with {program.returncode}")
        check_output(out, shape, files)
    return seconds, usage.ru_maxrss * 1024


def check_output(out, shape, files):
    """Looks whether the target at the end is what it has to be, and a source that was moved is empty. It goes line by line:
    a process that is started counts the memory of the one that starts it as its own peak."""
    out.seek(0)
    before = None
    for line in out:
        if line == b"TARGET\n":
            break
        before = line
    if "/MOVE" in shape.words and before != b"SOURCE\n":
        sys.exit("the source keeps what was moved")
    for wanted in wanted_lines(shape, files):
        if out.readline() != wanted.encode():
            sys.exit("the target is not the one that the rules define")
    if out.read() != b"RECORD\t-\nEND\n":
        sys.exit("the output does not end behind the target")


def measure(shape, folder):
    sizes = [shape.files, 2 * shape.files]
    texts = [Path(folder) / f"site{files}" for files in sizes]
    for text, files in zip(texts, sizes):
        write_site(text, shape, files)
    turns = [[drill(text, shape, files) for text, files in zip(texts, sizes)] for _ in range(RUNS)]
    before = None
    for text, files, runs in zip(texts, sizes, zip(*turns)):
        seconds = min(run[0] for run in runs)
        peak = max(run[1] for run in runs)
        ratio = "" if before is None else f", {seconds / before:.2f} times the time before"
        size = text.stat().st_size
        sides = 1 if shape.beside == "purged" or "/MOVE" in shape.words else 2
        extras = files if has_extras(shape) and shape.beside != "purged" else 0
        entries = sides * (files + folder_count(shape, files)) + extras
        print(
            f"    {files:,} files: {size / MB:.1f} MB, {seconds:.2f} s{ratio}; peak {peak / MB:.0f} MB,"
            f" {peak / size:.2f} of the text, {peak / entries:,.0f} bytes an entry",
            flush=True,
        )
        before = seconds


def main():
    args = argparse.ArgumentParser(description=__doc__, formatter_class=argparse.RawDescriptionHelpFormatter)
    args.add_argument("shapes", nargs="*", metavar="SHAPE", help=", ".join(SHAPES))
    options = args.parse_args()
    unknown = [name for name in options.shapes if name not in SHAPES]
    if unknown:
        args.error(f"no such shape: {unknown[0]}")
    if not PROGRAM.exists():
        sys.exit(f"{PROGRAM} is not built")
    with tempfile.TemporaryDirectory() as folder:
        for name in options.shapes or SHAPES:
            print(f"{name}: {SHAPES[name].about}", flush=True)
            measure(SHAPES[name], folder)


if __name__ == "__main__":
    main()
