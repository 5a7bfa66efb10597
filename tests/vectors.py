#!/usr/bin/env python3
"""Makes data/ and stdout of the crates vectors_texts, vectors_tables, vectors_cells, vectors_sequences, vectors_prescribed
and vectors_averages.

    python3 tests/vectors.py VECTORS SEQUENCES PRESCRIBED AVERAGES CRATES

VECTORS is the folder of cases with outcomes by other hands: texts.jsonl, tables.txt, cells.txt and slow.txt, with its
outcome in README.md. SEQUENCES is the file of those for limits in any sequence, s13.txt, PRESCRIBED that of those for a
set with just so many, s1.txt, AVERAGES that of those for the average use of a group, s14.txt. CRATES is the folder of the
crates. Each data file starts with the number of cases; crates/cases says how a case is written. What is expected comes
from these files alone: no program of this repository is run.
"""

import json
import pathlib
import re
import struct
import sys


def lines(path):
    return path.read_text(encoding="ascii").removesuffix("\n").split("\n")


def number(n):
    """A number of seven digits and a line feed."""
    if not 0 <= n <= 9999999:
        raise ValueError(n)
    return b"%07d\n" % n


def case(content):
    return number(len(content)) + content


def numbers(text):
    """A list of numbers as a case: as it stands, with a line feed; the empty list is no byte."""
    return case(text.encode("ascii") + b"\n" if text else b"")


def values(line):
    """The values of `key=value key=value ..`, by key."""
    return dict(word.split("=", 1) for word in line.split(" "))


def outcome(line, *keys):
    """The outcome at the end of a line, under one of these keys."""
    return next(f"{key}={values(line)[key]}" for key in keys if key in values(line))


def is_read(output):
    """Whether reading accepts the text: only then there are sizes, or refusals 7 and 8."""
    return not re.match(r"refused=[1-6],", output)


def text_line(output):
    return output.replace("\n", ";") + ("same" if is_read(output) else "") + "\n"


def slow(vectors):
    """The text that takes many rounds, and its output."""
    said = (vectors / "README.md").read_text()
    refusal = re.search(r"`slow\.txt`.*`(refused=\d+,\d+,\d+)`", said).group(1)
    return (vectors / "slow.txt").read_bytes(), refusal + "\n"


def texts(vectors):
    objects = map(json.loads, lines(vectors / "texts.jsonl"))
    found = [(o["text"].encode("latin-1"), o["output"]) for o in objects] + [slow(vectors)]
    return [case(text) for text, _ in found], [text_line(output) for _, output in found]


def tables(vectors):
    found = lines(vectors / "tables.txt")
    return [numbers(values(x)["table"]) for x in found], [outcome(x, "accepted", "refused") + ";same\n" for x in found]


def cells(vectors):
    found = lines(vectors / "cells.txt")
    data = [numbers(values(x)["table"]) + numbers(values(x)["cells"]) for x in found]
    return data, [outcome(x, "broken", "refused") + "\n" for x in found]


def asked(path):
    """Each line's input, by key, and its answer with `;` behind each part."""
    found = [x.split(" -> ") for x in lines(path)]
    return [values(given) for given, _ in found], [answer.replace(" ", ";") + ";\n" for _, answer in found]


def sequences(path):
    given, answers = asked(path)
    return [numbers(x["table"]) for x in given], answers


def prescribed(path):
    given, answers = asked(path)
    return [numbers(x["table"]) + numbers(f"{x['set']},{x['wanted']},{x['space']}") for x in given], answers


def bits(answer):
    """The bits of a float alone; its decimal must be the shortest that reads back as these."""
    if not answer.startswith("float="):
        return answer
    decimal, hexadecimal = re.fullmatch(r"float=(.*);bits=([0-9a-f]{16});\n", answer).groups()
    x = struct.unpack(">d", bytes.fromhex(hexadecimal))[0]
    if repr(x) != decimal:
        raise ValueError(answer)
    return f"bits={hexadecimal};\n"


def averages(path):
    given, answers = asked(path)
    return [numbers(x["table"]) + numbers(x["set"]) for x in given], [bits(x) for x in answers]


def main():
    vectors, limits, sizes, uses, crates = map(pathlib.Path, sys.argv[1:])
    made = {"texts": texts(vectors), "tables": tables(vectors), "cells": cells(vectors)}
    made |= {"sequences": sequences(limits), "prescribed": prescribed(sizes), "averages": averages(uses)}
    for name, (data, expected) in made.items():
        crate = crates / f"vectors_{name}"
        (crate / "data").mkdir(parents=True, exist_ok=True)
        (crate / "data" / name).write_bytes(number(len(data)) + b"".join(data))
        (crate / "stdout").write_text("".join(expected))
        print(f"{crate.name}: {len(data)} cases")


if __name__ == "__main__":
    main()
