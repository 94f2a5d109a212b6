#!/usr/bin/env python3
"""Makes table.md and chart.svg of the results.csv, processes.csv and against.csv in a directory, and prints the table.

    report.py DIRECTORY [DOCUMENT]

A document gets what stands in the directory's table.md and counts.md, each between <!-- its name --> and <!-- end -->."""

import csv
import math
import re
import statistics
import sys
import textwrap
from pathlib import Path

OURS, SAME, PORTABLE = "tulvekas", "same in C", "portable C"
AES, AES_MASKED = "AES-256-GCM", "AES-256-GCM masked"
MIB, PAGES = 1048576, 1000


def read(path):
    """What is said of the run, the peers in order, and {(task, size): {peer: (best, median)}}."""
    said, rows, peers = {}, {}, []
    with open(path) as f:
        lines = f.read().splitlines()
    for line in lines:
        if line.startswith("# "):
            name, _, value = line[2:].partition(": ")
            said[name] = value
    for line in csv.DictReader(line for line in lines if not line.startswith("#")):
        peer = line["peer"]
        if peer not in peers:
            peers.append(peer)
        row = rows.setdefault((line["task"], int(line["size"])), {})
        row[peer] = float(line["best ns"]), float(line["median ns"])
    return said, peers, rows


def read_processes(path):
    """{(task, size): {peer: [best of each process]}}; nothing where there is no such file."""
    rows = {}
    if path.exists():
        with open(path) as f:
            for line in csv.DictReader(f):
                rows.setdefault((line["task"], int(line["size"])), {}).setdefault(line["peer"], []).append(float(line["best ns"]))
    return rows


def read_against(path):
    """What the earlier build is called, and {(task, size): (ns before, ns, instructions before, instructions)}; nothing where there is no such file."""
    name, rows = None, {}
    if path.exists():
        first, _, *lines = path.read_text().splitlines()
        name = first.partition(": ")[2]
        for task, size, *figures in csv.reader(lines):
            rows[(task, int(size))] = tuple(map(float, figures))
    return name, rows


def ratios(row, above, below):
    """Of each process, from the smallest."""
    return sorted(a / b for a, b in zip(row[above], row[below]))


def label(row):
    task, size = row
    if task == "start":
        return "start"
    if task in ("trace", "resume"):
        return f"{task}, {size:,} blocks"
    what, _, call = task.partition("_")
    if what == "page":
        return f"{call}, {size:,} bytes, 22 of data"
    if what == "file":
        return f"{call} in a file, {size:,} pages"
    return f"{task}, {size:,} bytes"


def time(ns):
    for unit, scale in (("ms", 1e6), ("µs", 1e3)):
        if ns >= scale:
            return f"{ns / scale:.3g} {unit}" if ns < 1000 * scale else f"{ns / scale:.0f} {unit}"
    return f"{ns:.3g} ns"


def times(x):
    return f"{x:.0f}" if x >= 20 else f"{x:.1f}" if x >= 9.95 else f"{x:.2f}"


def markdown(head, body):
    yield "| " + " | ".join(head) + " |"
    yield "|---" + "|---:" * (len(head) - 1) + "|"
    for line in body:
        yield "| " + " | ".join(line) + " |"
    yield ""


def goals(rows, processes, against):
    """What was asked, the figure, and whether it is reached; figures that are missing are left out."""
    def ratio(row, above, below):
        at = rows[row]
        return at[above][0] / at[below][0] if above in at and below in at else None

    def block(row):
        return against[row][3] / (MIB / 16) if row in against else None

    def long(row):
        return against[row][1] / against[row][0] if row in against else None

    def many(row):
        return against[row][3] / against[row][2] if row in against else None

    keystream, seal = ("keystream", MIB), ("seal", MIB)
    asked = [
        ("keystream of 1 MiB as fast as the portable C", ratio(keystream, PORTABLE, OURS), "at least", 3),
        ("sealing 1 MiB as fast as the portable C", ratio(seal, PORTABLE, OURS), "at least", 45),
        ("sealing 1 MiB as fast as OpenSSL's AES-256-GCM, masked", ratio(seal, AES_MASKED, OURS), "at least", 2.5),
        ("keystream of 1 MiB takes as long as the same algorithms in C", ratio(keystream, OURS, SAME), "at most", 1.15),
        ("sealing 1 MiB takes as long as the same algorithms in C", ratio(seal, OURS, SAME), "at most", 1.15),
        ("keystream, instructions a block", block(keystream), "at most", 240),
        ("sealing, instructions a block (375 wanted)", block(seal), "at most", 430),
        ("a page of 64 bytes takes as long as before", long(("seal", 64)), "at most", 0.75),
        ("a page of 474 bytes takes as long as before", long(("seal", 474)), "at most", 0.75),
        ("a start takes as long as before", long(("start", 0)), "at most", 0.6),
        ("trace of 65,538 blocks takes as many instructions as before", many(("trace", 65538)), "at most", 1),
        ("resuming after 65,538 blocks takes as many instructions as before", many(("resume", 65538)), "at most", 1),
    ]
    if keystream in processes:
        median = statistics.median(ratios(processes[keystream], PORTABLE, OURS))
        asked[0] = "keystream of 1 MiB as fast as the portable C, median of processes", median, "at least", 3
    for what, figure, bound, limit in asked:
        if figure is not None:
            shown = round(figure, 3)
            reached = shown >= limit if bound == "at least" else shown <= limit
            yield what, figure, f"{bound} {limit:g}", "yes" if reached else "no"


def each(processes):
    """The ratios in process after process."""
    for task, what in (("keystream", "Keystream of 1 MiB"), ("seal", "Sealing 1 MiB")):
        row = processes.get((task, MIB), {})
        for peer, how, above, below in ((PORTABLE, "how many times as fast as the portable C", PORTABLE, OURS),
                                        (SAME, "how many times as long as the same algorithms in C", OURS, SAME)):
            if peer in row:
                found = ratios(row, above, below)
                shown = ", ".join(f"{r:.2f}" for r in found)
                yield from textwrap.wrap(f"{what} in {len(found)} processes, {how}: {shown}; the median {statistics.median(found):.2f}.", 140)
                yield ""


def in_a_file(peers, rows):
    """What a page file adds to the whole-page calls."""
    lines = []
    for call, what in (("seal", "sealing"), ("open", "opening")):
        whole, inside = rows.get(("page_" + call, 474), {}), rows.get(("file_" + call, PAGES), {})
        for peer in peers:
            if peer in whole and peer in inside:
                adds = inside[peer][0] - whole[peer][0]
                each = f"{adds / PAGES:.2g} ns" if call == "open" else "-"
                lines.append([f"{what}, {peer}", time(whole[peer][0]), time(inside[peer][0]), time(adds), each])
    if lines:
        yield f"A page of 474 bytes in the middle of a file of {PAGES:,} pages, beside the whole-page call on the same text and the same 22 bytes of data, in"
        yield "one run. What the file adds is time outside cipher and hash; opening looks at every page of the file:"
        yield ""
        yield from markdown(["", "whole page", "in the file", "the file adds", "for each of its pages"], lines)


def beside(name, against):
    """The library beside the earlier build."""
    if not against:
        return
    yield f"The library beside {name}, in one process, in alternating rounds, and the instructions of a call of both:"
    yield ""
    yield from markdown(["", "before", "now", "now over before", "instructions before", "now"], [
        [label(row), time(old), time(new), f"{new / old:.2f}", f"{count:,.0f}", f"{now:,.0f}"] for row, (old, new, count, now) in against.items()])


def compared(rows):
    """The rows that more than one implementation has."""
    return [row for row in rows if len(rows[row]) > 1]


def table(said, peers, rows, processes, name, against):
    shown = compared(rows)
    yield "How long a call takes, best of " + said["rounds"] + " rounds:"
    yield ""
    yield from markdown([""] + peers, [[label(row)] + [time(rows[row][p][0]) if p in rows[row] else "-" for p in peers] for row in rows])
    yield "How many times as fast as the peer the proved library is; below 1 the peer is faster:"
    yield ""
    others = [p for p in peers if p != OURS]
    yield from markdown([""] + others, [
        [label(row)] + [times(rows[row][p][0] / rows[row][OURS][0]) if p in rows[row] else "-" for p in others] for row in shown])
    yield "MiB a second at 1 MiB:"
    yield ""
    yield from markdown([""] + peers, [
        [task] + [f"{1e9 / rows[(task, MIB)][p][0]:.0f}" if p in rows[(task, MIB)] else "-" for p in peers] for task in ("keystream", "seal")])
    yield from in_a_file(peers, rows)
    yield from beside(name, against)
    yield "What was asked:"
    yield ""
    yield from markdown(["", "figure", "asked", "reached"], [
        [what, f"{figure:.3f}" if figure < 10 else f"{figure:.1f}", asked, reached] for what, figure, asked, reached in goals(rows, processes, against)])
    yield from each(processes)
    spread = sorted(median / best for row in rows.values() for best, median in row.values())
    yield f"All calls of the library ran on a thread with a stack of 64 KiB and wrote {said['stack'].split()[0]} bytes of it."
    yield ""
    yield f"The run had the processor for {said['processor share']} of the time that it measured. Over all figures the median round took"
    yield f"{spread[len(spread) // 2]:.2f} times the best, at worst {spread[-1]:.2f}. (Below 99% other programs ran, and the long calls look slower than they are.)"
    yield ""
    yield "Run on: " + "; ".join(f"{name} {said[name]}" for name in ("processor", "gcc", "rustc", "OpenSSL") if name in said) + "."
    if "masked" in said:
        longer = rows[("seal", MIB)][AES_MASKED][0] / rows[("seal", MIB)][AES][0]
        yield f"Masked: `{said['masked']}`, in a second process that takes its turn in each round."
        yield f"Sealing 1 MiB by AES-256-GCM takes {times(longer)} times as long under it" + ("." if longer > 1.5 else ": the mask does not work here.")


COLOURS = ["#4477aa", "#66ccee", "#228833", "#ee6677", "#ccbb44", "#aa3377", "#bbbbbb"]


def chart(peers, rows):
    """For each row a bar for each peer: the peer's time over ours, on a logarithmic axis around 1."""
    others = [p for p in peers if p != OURS]
    colour = dict(zip(others, COLOURS))
    shown = compared(rows)
    bar, gap, left, width, top = 11, 12, 190, 640, 96
    powers = [math.log2(rows[r][p][0] / rows[r][OURS][0]) for r in shown for p in others if p in rows[r]]
    low, high = math.floor(min(powers) - 0.3), math.ceil(max(powers) + 0.3)

    def x(ratio):
        return left + (math.log2(ratio) - low) / (high - low) * width

    middle = x(1)
    y, bars = top, []
    for row in shown:
        mine = rows[row][OURS][0]
        there = [p for p in others if p in rows[row]]
        height = bar * len(there)
        bars.append(f'<text x="{left - 10}" y="{y + height / 2 + 1:.1f}" text-anchor="end">{label(row)}</text>')
        bars.append(f'<text x="{left - 10}" y="{y + height / 2 + 14:.1f}" text-anchor="end" class="small">{time(mine)}</text>')
        for i, p in enumerate(there):
            ratio = rows[row][p][0] / mine
            at, to = sorted((middle, x(ratio)))
            bars.append(f'<rect x="{at:.1f}" y="{y + bar * i}" width="{to - at:.1f}" height="{bar - 1}" fill="{colour[p]}"/>')
            anchor, shift = ("start", 4) if ratio >= 1 else ("end", -4)
            bars.append(f'<text x="{x(ratio) + shift:.1f}" y="{y + bar * i + 9}" text-anchor="{anchor}" class="small">{times(ratio)}</text>')
        y += max(height, 2 * bar) + gap
    total = left + width + 40
    yield f'<svg xmlns="http://www.w3.org/2000/svg" viewBox="0 0 {total} {y + 30}" width="{total}" height="{y + 30}" font-family="sans-serif" font-size="12">'
    yield "<style>.small { font-size: 10px; fill: #444 }</style>"
    yield f'<rect width="{total}" height="{y + 30}" fill="white"/>'
    yield '<text x="20" y="24" font-size="15">How many times as fast as each peer the proved library is</text>'
    yield '<text x="20" y="42" class="small">the peer\'s time over ours, logarithmic; left of 1 the peer is faster; below each row, the time of ours</text>'
    at = 20
    for p in others:
        yield f'<rect x="{at:.0f}" y="56" width="10" height="10" fill="{colour[p]}"/><text x="{at + 14:.0f}" y="65" class="small">{p}</text>'
        at += 32 + 5.6 * len(p)
    for power in range(low, high + 1):
        tick = x(2.0 ** power)
        yield f'<line x1="{tick:.1f}" y1="{top - 8}" x2="{tick:.1f}" y2="{y}" stroke="{"#222" if power == 0 else "#ddd"}"/>'
        name = str(2 ** power) if power >= 0 else f"1/{2 ** -power}"
        yield f'<text x="{tick:.1f}" y="{y + 16}" text-anchor="middle" class="small">{name}</text>'
    yield from bars
    yield "</svg>"


def main():
    results = Path(sys.argv[1])
    said, peers, rows = read(results / "results.csv")
    text = "\n".join(table(said, peers, rows, read_processes(results / "processes.csv"), *read_against(results / "against.csv"))) + "\n"
    (results / "table.md").write_text(text)
    (results / "chart.svg").write_text("\n".join(chart(peers, rows)) + "\n")
    print(text, end="")
    for document in map(Path, sys.argv[2:]):
        whole = document.read_text()
        for name in ("table.md", "counts.md"):
            part = (results / name).read_text().strip()
            whole = re.sub(rf"(<!-- {re.escape(name)} -->\n).*?(<!-- end -->)", lambda at: f"{at[1]}\n{part}\n\n{at[2]}", whole, flags=re.S)
        document.write_text(whole)


main()
