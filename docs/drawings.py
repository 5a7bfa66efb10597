#!/usr/bin/env python3
"""Draws docs/sample.svg from examples/sample.txt and docs/crates.svg from crates.txt.

    python3 docs/drawings.py

It needs Python's standard library and the commands dot and tred of graphviz.
"""
import re
import subprocess
from pathlib import Path

ROOT = Path(__file__).resolve().parent.parent
TEXT = 'fontname="Helvetica" fontsize=11'


def draw(lines, name):
    """Lays a graph out and writes it, without the comments in which dot names itself."""
    done = subprocess.run(["dot", "-Tsvg"], input="\n".join(lines), capture_output=True, text=True, check=True)
    (ROOT / "docs" / name).write_text(re.sub(r"<!--.*?-->\n?", "", done.stdout, flags=re.DOTALL))


# ---- a diagram in the notation of ORM

def type_node(number, values):
    """An object type, with ! where it is independent: its sizes, and its values or its supertype."""
    low, high, first, last, above, independent = values
    name = f"type {number}" + " !" * independent
    values = f"values {first} to {last}" if above == 0 else f"within type {above}"
    return f'type{number} [shape=box style=rounded margin="0.15,0.08" label="{name}\\n{low} to {high} members\\n{values}"];'


def pred_node(number, head, roles, groups):
    """A predicate: a box for each role, and above them a row for each group, with its frequency at its roles."""
    rows = ""
    for group, (least, most) in enumerate(groups, 1):
        rows += "<tr>" + "".join(f'<td border="0">{least}..{most}</td>' if role[2] == group else '<td border="0"></td>' for role in roles) + "</tr>"
    boxes = "".join(f'<td port="r{i}" width="58" height="28">role {i}</td>' for i in range(1, len(roles) + 1))
    below = f'<td border="0" colspan="{len(roles)}">predicate {number}, {head[0]} to {head[1]} rows</td>'
    table = f'<table border="0" cellborder="1" cellspacing="0" cellpadding="2">{rows}<tr>{boxes}</tr><tr>{below}</tr></table>'
    return f"pred{number} [shape=plain label=<{table}>];"


def sample():
    """Types and predicates from left to right; a predicate's last role is joined to its right, the others to its left."""
    lines = [line.split("=") for line in (ROOT / "examples" / "sample.txt").read_text().split()]
    lines = [(key, [int(value) for value in values.split(",")]) for key, values in lines]
    types = [values for key, values in lines if key == "type"]
    out = ["digraph sample {", f"rankdir=LR; nodesep=0.4; ranksep=0.9; node [{TEXT}]; edge [arrowsize=0.8];"]
    out += [type_node(number, values) for number, values in enumerate(types, 1)]
    at = number = 0
    while at < len(lines):
        key, head = lines[at]
        at += 1
        if key != "pred":
            continue
        number += 1
        roles = [values for _, values in lines[at:at + head[2]]]
        groups = [values for _, values in lines[at + head[2]:at + head[2] + head[3]]]
        out.append(pred_node(number, head, roles, groups))
        for i, (player, mandatory, _) in enumerate(roles, 1):
            dot = "dot" if mandatory else "none"
            if i < len(roles):
                out.append(f"type{player} -> pred{number}:r{i}:w [dir=back arrowtail={dot}];")
            else:
                out.append(f"pred{number}:r{i}:e -> type{player} [arrowhead={dot}];")
    draw(out + ["}"], "sample.svg")


# ---- the crates

def groups_of_crates():
    """The groups of crates.txt: the comment above each, as far as its first stop, and its crates with what they stand on."""
    found = []
    for line in (ROOT / "crates.txt").read_text().splitlines():
        if line.startswith("#"):
            found.append((re.split("[,;:.]", line[1:].strip())[0], {}))
        elif line:
            name, below = line.split(":")
            name = name.split()[0]  # without the kind of library
            found[-1][1][name] = below.split()
    return found


def reduced(edges):
    """The edges that do not follow from others."""
    graph = "digraph {" + ";".join(f"{a}->{b}" for a, b in edges) + "}"
    done = subprocess.run(["tred"], input=graph, capture_output=True, text=True, check=True)
    return re.findall(r"(\w+) -> (\w+)", done.stdout)


def crates():
    """A crate stands above those that it names; an arrow that follows from others is left out."""
    groups = groups_of_crates()
    names = [name for _, group in groups for name in group]
    below = {name: [other for other in group[name] if other in names] for _, group in groups for name in group}

    def layer(name):
        return 1 + max(map(layer, below[name]), default=0)

    out = ["digraph crates {", f"newrank=true; ranksep=0.4; nodesep=0.18; graph [{TEXT}]; edge [color=\"#888888\" arrowsize=0.6];"]
    out.append(f'node [shape=box style="rounded,filled" fillcolor=white height=0.3 margin="0.09,0.04" {TEXT}];')
    for number, (title, group) in enumerate(groups):
        out.append(f'subgraph cluster{number} {{ label="{title}"; labeljust=l; style="rounded,filled"; color="#dddddd"; fillcolor="#f4f4f4";')
        out.append("; ".join(group) + "}")
    for rank in sorted(set(map(layer, names))):
        out.append("{rank=same; " + "; ".join(name for name in names if layer(name) == rank) + "}")
    out += [f"{a} -> {b};" for a, b in reduced([(name, other) for name in names for other in below[name]])]
    draw(out + ["}"], "crates.svg")


if __name__ == "__main__":
    sample()
    crates()
