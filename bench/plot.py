#!/usr/bin/env python3
"""Draws docs/rates.svg from the bench program's table: the rates of sealing and opening frames, proved beside `second`.

  cargo run --release --manifest-path bench/Cargo.toml | bench/plot.py
"""
import pathlib
import re
import sys

ROW = re.compile(r"frame: (\d+) octets (sealed|opened)(?:, size 1)? +([\d.]+) ns +([\d.]+) ns")
COLOURS = {"proved": "#1f5fa8", "second": "#9aa5b1"}
WIDTH, HEIGHT, LEFT, TOP, BOTTOM = 680, 340, 62, 52, 272
BAR, STEP = 36, 20  # a bar's width in pixels, and the distance of the grid's lines in MB/s

rates = {}  # MB/s of body, by the work and the body's length
for length, work, *times in (row.groups() for row in map(ROW.match, sys.stdin) if row):
    rates[work, int(length)] = [int(length) * 1000 / float(ns) for ns in times]
if not rates:
    sys.exit("no rows of frames in the table")
top = STEP * (1 + int(max(map(max, rates.values())) / STEP))
parts = []


def text(x, y, words, size=12, anchor="middle", more=""):
    parts.append(f'<text x="{x:.1f}" y="{y:.1f}" font-size="{size}" text-anchor="{anchor}"{more}>{words}</text>')


def height(rate):
    return (BOTTOM - TOP) * rate / top


for rate in range(0, top + 1, STEP):
    y = BOTTOM - height(rate)
    parts.append(f'<path d="M{LEFT} {y:.1f}H{WIDTH - 16}" stroke="{"#444" if rate == 0 else "#ddd"}"/>')
    text(LEFT - 8, y + 4, rate, anchor="end")
text(20, (TOP + BOTTOM) / 2, "MB/s of body", more=f' transform="rotate(-90 20 {(TOP + BOTTOM) / 2})"')

order = sorted(rates, key=lambda group: (group[0] != "sealed", group[1]))
for place, (work, length) in enumerate(order):
    middle = LEFT + (WIDTH - 16 - LEFT) * (place + 0.5) / len(order)
    for x, colour, rate in zip((middle - BAR - 1, middle + 1), COLOURS.values(), rates[work, length]):
        parts.append(f'<rect x="{x:.1f}" y="{BOTTOM - height(rate):.1f}" width="{BAR}" height="{height(rate):.1f}" fill="{colour}"/>')
        text(x + BAR / 2, BOTTOM - height(rate) - 5, f"{rate:.0f}")
    text(middle, BOTTOM + 18, f"{length:,} {work}")
text((LEFT + WIDTH) / 2, BOTTOM + 40, "octets of body, and the work")
text(LEFT, 24, "Frames sealed and opened, the key expanded for each", size=15, anchor="start")
for x, (name, colour) in zip((WIDTH - 170, WIDTH - 86), COLOURS.items()):
    parts.append(f'<rect x="{x}" y="14" width="12" height="12" fill="{colour}"/>')
    text(x + 18, 24, name, anchor="start")

size = f'width="{WIDTH}" height="{HEIGHT}"'
head = f'<svg xmlns="http://www.w3.org/2000/svg" viewBox="0 0 {WIDTH} {HEIGHT}" {size} font-family="sans-serif" fill="#222">'
background = f'<rect {size} fill="#fff"/>'
drawing = pathlib.Path(__file__).resolve().parent.parent / "docs/rates.svg"
drawing.write_text("\n".join([head, background, *parts, "</svg>"]) + "\n")
