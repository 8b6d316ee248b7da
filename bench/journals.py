#!/usr/bin/env python3
"""Compares what the log makes of files with what `tools/journal` reads in them.

Files of random bytes, journals, and journals with a few bytes changed, cut off or put in are opened and read by the program of
crates/log_bench. For each, its answer must be that of `tools/journal` for the file before, with all payloads, and the file must
then hold what docs/FORMAT.md says: the front that ends with the closing gate, a new journal, or, where it is refused, what it held.

The status is 0 where all agree; else the files that don't are named and kept, and it is 1.
"""

import argparse
import functools
import importlib.machinery
import importlib.util
import io
import os
import random
import struct
import subprocess
import sys
import tempfile
from collections import Counter
from pathlib import Path

TOP = Path(__file__).resolve().parents[1]
PROGRAM = TOP / "crates/log_bench/out/log_bench"
IN_MEMORY = Path("/dev/shm")
AT_ONCE = 1_000
NEW_JOURNAL = b"MJSPOOL1\0"


def journal_tool():
    """The module `tools/journal`."""
    sys.dont_write_bytecode = True
    loader = importlib.machinery.SourceFileLoader("journal", str(TOP / "tools/journal"))
    module = importlib.util.module_from_spec(importlib.util.spec_from_loader("journal", loader))
    loader.exec_module(module)
    return module


def sum_of(payload):
    """The number that the program gives for the bytes of a payload."""
    return functools.reduce(lambda total, byte: (31 * total + byte) % (1 << 32), payload, 0)


def expected(journal, content):
    """What the program must print for a file, and what the file must hold then."""
    if len(content) <= journal.EMPTY:
        return f"0 {len(NEW_JOURNAL)}", NEW_JOURNAL
    if not content.startswith(journal.MAGIC):
        return "NotAJournal", content
    payloads = []
    try:
        for place, _, length, _ in journal.frames(io.BytesIO(content), len(content)):
            if length is None:
                shown = [f"{len(payload)}:{sum_of(payload)}" for payload in payloads]
                return " ".join([str(len(payloads)), *shown, str(place + 1)]), content[: place + 1]
            payloads.append(content[place + 5 : place + 5 + length])
    except journal.Damaged:
        return f"Damaged {{ number: {len(payloads)} }}", content


# ---- Files


def frame(draw, payload):
    return bytes([draw.choice((1, 1, 1, 2, 255))]) + struct.pack("<I", len(payload)) + payload


def whole_journal(draw):
    frames = [frame(draw, draw.randbytes(draw.choice((0, 1, 2, 5, 40, 300)))) for _ in range(draw.randrange(6))]
    behind = draw.randbytes(draw.choice((0, 0, 1, 3, 30)))
    return b"MJSPOOL1" + b"".join(frames) + b"\0" + behind


def changed(draw, content):
    """The journal with one thing changed."""
    at = draw.randrange(len(content))
    lengths = (0, 1, len(content) - at, len(content) - at - 5, len(content) - at - 6, 1 << 27, (1 << 27) + 1, 0xFFFFFFFF)
    return draw.choice((
        content[:at],
        content[:at] + draw.randbytes(1) + content[at + 1 :],
        content[:at] + draw.randbytes(draw.randrange(1, 6)) + content[at:],
        content[:at] + b"\1" + struct.pack("<I", max(draw.choice(lengths), 0)) + content[at + 5 :],
        content[:at] + content[at + draw.randrange(1, 6) :],
    ))


def any_file(draw):
    kind = draw.randrange(8)
    if kind == 0:
        return draw.randbytes(draw.randrange(40))
    if kind == 1:
        return b"MJSPOOL1" + bytes(draw.choice((0, 1, 2, 5)) for _ in range(draw.randrange(60)))
    content = whole_journal(draw)
    for _ in range(draw.choice((0, 1, 1, 2, 3))):
        content = changed(draw, content) or b"\1"
    return content


# ---- Runs


def kind_of(line):
    """The kind of an answer: opened, or how it was refused."""
    word = line.split()[0]
    return "opened" if word.isdigit() else word


def disagreeing(program, folder, contents, wanted):
    """The files of these contents on which the program doesn't agree with what is wanted, each with what is wrong."""
    paths = [folder / str(number) for number in range(len(contents))]
    for path, content in zip(paths, contents):
        path.write_bytes(content)
    done = subprocess.run([program, "read", *paths], stdout=subprocess.PIPE, check=False)
    says = done.stdout.decode().splitlines()
    if done.returncode != 0 or len(says) != len(paths):
        return [(contents[-1], f"status {done.returncode}, {len(says)} lines for {len(paths)} files")]
    wrong = []
    for path, content, said, (line, left) in zip(paths, contents, says, wanted):
        if said != line:
            wrong.append((content, f"the program says '{said}', and `tools/journal` '{line}'"))
        elif path.read_bytes() != left:
            wrong.append((content, f"'{line}', but the file holds something else then"))
    return wrong


def keep(wrong):
    """Writes the files that don't agree where they stay."""
    folder = Path(tempfile.mkdtemp(prefix="journals-"))
    for number, (content, reason) in enumerate(wrong):
        path = folder / f"wrong-{number}"
        path.write_bytes(content)
        print(f"{path}: {reason}")


def main():
    parser = argparse.ArgumentParser(description=__doc__, formatter_class=argparse.RawDescriptionHelpFormatter)
    parser.add_argument("--files", type=int, default=100_000, metavar="N", help="how many files (default 100000)")
    parser.add_argument("--seed", type=int, default=1, help="what the draws begin with (default 1)")
    parser.add_argument("--program", type=Path, default=PROGRAM, metavar="PATH",
                        help="the built program (default: that of crates/log_bench)")
    given = parser.parse_args()
    if not os.access(given.program, os.X_OK):
        parser.error(f"no program at {given.program}")
    journal, draw = journal_tool(), random.Random(given.seed)
    answers = Counter()
    with tempfile.TemporaryDirectory(prefix="journals-", dir=IN_MEMORY if IN_MEMORY.is_dir() else None) as folder:
        for first in range(0, given.files, AT_ONCE):
            contents = [any_file(draw) for _ in range(min(AT_ONCE, given.files - first))]
            wanted = [expected(journal, content) for content in contents]
            wrong = disagreeing(given.program.resolve(), Path(folder), contents, wanted)
            if wrong:
                keep(wrong)
                sys.exit(1)
            answers.update(kind_of(line) for line, _ in wanted)
    print(f"{given.files:,} files agree: " + ", ".join(f"{count:,} {kind}" for kind, count in sorted(answers.items())))


if __name__ == "__main__":
    main()
