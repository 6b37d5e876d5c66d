#!/usr/bin/env python3
"""Measures the program drill over large site texts of four shapes, each at one size and at double that size.

bench/site_texts.py [PROGRAM]               all shapes, over the built program crates/drill/out/drill or another one
bench/site_texts.py --shape deep            one shape; may be given several times
bench/site_texts.py --scale 0.001           texts of a thousandth of the size, to try whether they are accepted
bench/site_texts.py --scale 0.001 './run --try drill'

For each text it prints the least processor time of the runs and that time over the one at half the size, which is wanted
to be at most 2.3; the time by the clock of the same run; and the peak resident memory of all runs, over the text's size
and over the bytes and entries that both trees have in the end. A table in markdown comes last. The runs of both sizes take
turns, so that a slow moment of the machine meets both. Each output is compared with what the rules define. The exit status
is 1 where a time grew more than it should, or an output was another one.

The program has to be built: ./run --build drill. At full size about 1 GB of disk is needed in the temporary folder, which
is emptied.
"""
import argparse
import hashlib
import os
import shlex
import subprocess
import sys
import tempfile
import time
from collections import namedtuple
from pathlib import Path

PROGRAM = Path(__file__).resolve().parent.parent / "crates" / "drill" / "out" / "drill"
MOMENT = "133485408000000000"
HEAD = f"SITE\t1\nMOMENT\t{MOMENT}\nSOURCE\n".encode()
BETWEEN = b"TARGET\n"
END = b"RECORD\t-\nEND\n"
INPUT_MAX = 268_435_456
SIZE_MAX = 268_435_456
MB = 1_000_000
PIECE = 1 << 20
WANTED_RATIO = 2.3

LISTING = ("SRC", "DST", "/E", "/L", "/NFL", "/NDL")
MIRROR = ("SRC", "DST", "/MIR", "/NFL", "/NDL")
WORDS = {"listing": LISTING, "mirror": MIRROR}

# what is measured: the source's entries, as lines, by a number; that number at the smaller size; and how many entries and
# bytes a source of that number has. The target is empty
Shape = namedtuple("Shape", "about lines number counts")


def file_line(path, size, content):
    return f"F\t{path}\tA\t{MOMENT}\t{MOMENT}\t-\t-\t-\t{size}\t{content}\n".encode()


def directory_line(path):
    return f"D\t{path}\t-\t{MOMENT}\t{MOMENT}\t-\t-\t-\n".encode()


# Contents spelled in full: files of 50,000 bytes, 100,000 digits each

CONTENT = 50_000


def full_lines(files):
    for number in range(files):
        content = hashlib.shake_128(str(number).encode()).digest(CONTENT)
        yield file_line(f"f{number:07}", CONTENT, content.hex())


# Many directories, in blocks of a hundred entries: of ten blocks one is a chain of 50 directories with 49 files in the
# last, and nine have nine directories with ten files each

BLOCK = 100
CHAIN = 50


def tree_lines(entries):
    for number in range(max(1, entries // BLOCK)):
        top = f"b{number:05}"
        yield directory_line(top)
        yield from chain_lines(top) if number % 10 == 0 else broad_lines(top)


def chain_lines(top):
    path = top
    for _ in range(CHAIN):
        path += "\\c"
        yield directory_line(path)
    for number in range(BLOCK - 1 - CHAIN):
        yield file_line(f"{path}\\f{number:02}", 0, "-")


def broad_lines(top):
    for folder in range(9):
        yield directory_line(f"{top}\\s{folder}")
        for number in range(10):
            yield file_line(f"{top}\\s{folder}\\f{number}", 0, "-")


# Files without bytes in one directory


def flat_lines(files):
    yield directory_line("d")
    for number in range(files):
        yield file_line(f"d\\f{number:07}", 0, "-")


# One file of one repeated byte


def repeated_lines(size):
    yield file_line("zeros", size, "*00")


SHAPES = {
    "full": Shape("files of 50,000 bytes, spelled in full", full_lines, 500, lambda n: (n, n * CONTENT)),
    "tree": Shape(
        "files without bytes in many directories, one block in ten 52 names deep",
        tree_lines,
        50_000,
        lambda n: (max(1, n // BLOCK) * BLOCK, 0),
    ),
    "flat": Shape("files without bytes in one directory", flat_lines, 50_000, lambda n: (n + 1, 0)),
    "repeated": Shape("one file of one repeated byte, spelled as *00", repeated_lines, 100 * MB, lambda n: (1, n)),
}

Text = namedtuple("Text", "path size entries_at entries_end number")
Row = namedtuple("Row", "shape words number text_bytes entries site_bytes seconds clock ratio peak")


def write_text(path, shape, number):
    """Makes the site text of a shape in a file, piece by piece."""
    with open(path, "wb") as out:
        out.write(HEAD)
        out.writelines(shape.lines(number))
        end = out.tell()
        out.write(BETWEEN + END)
        size = out.tell()
    if size > INPUT_MAX:
        sys.exit(f"a text of {size:,} bytes is longer than an input may be, {INPUT_MAX:,}: take a smaller --scale")
    return Text(path, size, len(HEAD), end, number)


# What is compared goes piece by piece: a process that is started counts the memory of the one that starts it as its own
# peak, so this one stays small


def is_next(out, text, start, end):
    """Whether the output goes on with these bytes of the text."""
    with open(text.path, "rb") as site:
        site.seek(start)
        left = end - start
        while left > 0:
            piece = site.read(min(PIECE, left))
            if out.read(len(piece)) != piece:
                return False
            left -= len(piece)
    return True


def is_wanted(out, text, words):
    """Whether the output is a report, the status 1 and the site text of the end: under a listing that of the start, and
    else with the source's entries on the target too."""
    out.seek(0)
    while True:
        line = out.readline(PIECE)
        if not line or line.startswith(b"ERROR"):
            return False
        if line.startswith(b"STATUS\t"):
            break
    if line != b"STATUS\t1\n" or not is_next(out, text, 0, text.entries_end):
        return False
    if words == "mirror":
        if out.read(len(BETWEEN)) != BETWEEN or not is_next(out, text, text.entries_at, text.entries_end):
            return False
        return out.read() == END
    return out.read() == BETWEEN + END


def run(program, text, words, folder):
    """Runs the program over a text: its processor seconds, its seconds by the clock and its peak memory in bytes."""
    with open(text.path, "rb") as site, tempfile.TemporaryFile(dir=folder) as out:
        began = time.monotonic()
        process = subprocess.Popen([*program, *WORDS[words]], stdin=site, stdout=out)
        _, status, usage = os.wait4(process.pid, 0)
        clock = time.monotonic() - began
        process.returncode = os.waitstatus_to_exitcode(status)
        if process.returncode != 1:
            out.seek(0)
            begin = out.read(200).decode(errors="replace")
            sys.exit(f"the program ended with {process.returncode}; its output begins with\n{begin}")
        if not is_wanted(out, text, words):
            sys.exit(f"the output under {' '.join(WORDS[words])} is not the one that the rules define")
    return usage.ru_utime + usage.ru_stime, clock, usage.ru_maxrss * 1024


def measure(program, name, words, texts, runs, folder):
    """The rows of one shape under these words, one for each size."""
    turns = [[run(program, text, words, folder) for text in texts] for _ in range(runs)]
    rows = []
    for text, taken in zip(texts, zip(*turns)):
        seconds, clock, _ = min(taken)
        peak = max(one[2] for one in taken)
        ratio = seconds / rows[-1].seconds if rows and rows[-1].seconds > 0 else None
        entries, bytes_of_side = SHAPES[name].counts(text.number)
        sides = 2 if words == "mirror" else 1
        row = Row(name, words, text.number, text.size, entries * sides, bytes_of_side * sides, seconds, clock, ratio, peak)
        rows.append(row)
        print(f"    {words}: {said(row)}", flush=True)
    return rows


def said(row):
    growth = "" if row.ratio is None else f", {row.ratio:.2f} times the time before{too_much(row)}"
    of_site = f", {row.peak / row.site_bytes:.2f} of the site's bytes" if row.site_bytes else ""
    return (
        f"text {row.text_bytes / MB:.1f} MB, {row.entries:,} entries, {row.seconds:.2f} s of the processor,"
        f" {row.clock:.2f} s by the clock{growth}; peak {row.peak / MB:.0f} MB,"
        f" {row.peak / row.text_bytes:.2f} of the text{of_site}, {row.peak / row.entries:,.0f} bytes an entry"
    )


def is_too_much(row):
    return row.ratio is not None and row.ratio > WANTED_RATIO


def too_much(row):
    return f" (more than {WANTED_RATIO})" if is_too_much(row) else ""


def print_table(rows):
    print()
    print("| Shape | Words | Text, MB | Entries in the end | Bytes in the end, MB | Time, s | Peak, MB | Peak / text | Time at double size |")
    print("|---|---|---|---|---|---|---|---|---|")
    for row in rows:
        ratio = "" if row.ratio is None else f"{row.ratio:.2f}{too_much(row)}"
        print(
            f"| {row.shape} | {row.words} | {row.text_bytes / MB:.1f} | {row.entries:,} | {row.site_bytes / MB:.1f}"
            f" | {row.seconds:.2f} | {row.peak / MB:.0f} | {row.peak / row.text_bytes:.2f} | {ratio} |"
        )
    print()
    for name in dict.fromkeys(row.shape for row in rows):
        print(f"- `{name}`: {SHAPES[name].about}; the target is empty at the start")
    for words in dict.fromkeys(row.words for row in rows):
        print(f"- {words}: `{' '.join(WORDS[words])}`")


def options():
    args = argparse.ArgumentParser(description=__doc__, formatter_class=argparse.RawDescriptionHelpFormatter)
    args.add_argument("program", nargs="?", metavar="PROGRAM", help="the program, or a command of several words")
    args.add_argument("--shape", action="append", choices=SHAPES, help="a shape; all without it")
    args.add_argument("--words", action="append", choices=WORDS, help="a listing or a mirror; both without it")
    args.add_argument("--scale", type=float, default=1.0, help="the size, 1 for the full one")
    args.add_argument("--runs", type=int, default=3, help="how many runs of each text, 3 without it")
    args.add_argument("--folder", help="where the texts are made for the time of the runs")
    found = args.parse_args()
    if found.scale <= 0 or found.runs < 1:
        args.error("--scale has to be above 0, and --runs at least 1")
    return found


def numbers_of(shape, scale):
    """Both sizes: the one given, and double that."""
    number = max(1, round(shape.number * scale))
    return number, 2 * number


def main():
    asked = options()
    program = shlex.split(asked.program) if asked.program else [str(PROGRAM)]
    if not asked.program and not PROGRAM.exists():
        sys.exit(f"{PROGRAM} is not built: ./run --build drill")
    rows = []
    with tempfile.TemporaryDirectory(dir=asked.folder) as folder:
        for name in asked.shape or SHAPES:
            shape = SHAPES[name]
            numbers = numbers_of(shape, asked.scale)
            if shape.counts(numbers[1])[1] > SIZE_MAX and name == "repeated":
                sys.exit(f"{name}: a file has at most {SIZE_MAX:,} bytes: take a smaller --scale")
            print(f"{name}: {shape.about}", flush=True)
            texts = [write_text(Path(folder) / f"site{number}", shape, number) for number in numbers]
            for words in asked.words or WORDS:
                rows += measure(program, name, words, texts, asked.runs, folder)
            for text in texts:
                text.path.unlink()
    print_table(rows)
    return 1 if any(map(is_too_much, rows)) else 0


if __name__ == "__main__":
    sys.exit(main())
