#!/usr/bin/env python3
"""Pictures of the client in a real browser, headless: where each text of each picture stands, at two widths and in two fonts, and what the error bars say.

usage: tests/tools/pictures.py [FOLDER]    (BROWSER=FILE is another than `chromium`; it has Chromium's words)
- Each picture is XML, names nothing that a browser would fetch, and is ASCII.
- Each text is within the view box, and no two texts stand on one another, by the browser's own boxes.
- Each error bar's ends, read by the axis' ticks alone, are the interval's.
Kept in FOLDER are the pictures, and a picture of them all at each width on a light and on a dark ground, to look at. It ends with status 1 where one differs.
"""
import json
import os
import re
import subprocess
import sys
import tempfile
from pathlib import Path
from urllib.parse import unquote
from xml.etree import ElementTree

sys.path.insert(0, f"{os.path.dirname(os.path.abspath(__file__))}/../lib")
from places import TOP  # noqa: E402

sys.path.insert(0, f"{TOP}/clients/python")
from hitchseason import grids, pictures  # noqa: E402

SVG = "{http://www.w3.org/2000/svg}"
WIDTHS, FONTS, GROUNDS = [600, 1400], ["sans-serif", "DejaVu Sans"], {"light": "white", "dark": "#111"}
LONG = "How many persons there are in each of the <areas> of the survey & of the register beside it, of all ages, in 2026"
ODD = ["<b>&\"c\"'", "Ærø", "東京都千代田区丸の内一丁目二番三号地", "Москва", "القاهرة", "e\u0301cole", "😀😀", "&amp;", "\uffff"]
SCRIPT = """
const found = {};
for (const [name, text] of Object.entries(PICTURES)) for (const width of WIDTHS) for (const font of FONTS) {
  const drawn = document.importNode(new DOMParser().parseFromString(text, "image/svg+xml").documentElement, true);
  drawn.setAttribute("width", width);
  drawn.setAttribute("font-family", font);
  drawn.removeAttribute("height");
  document.body.append(drawn);
  const ground = drawn.getBoundingClientRect(), box = drawn.viewBox.baseVal, scale = box.width / ground.width;
  found[`${name}, ${width} px, ${font}`] = {size: [box.width, box.height], boxes: [...drawn.querySelectorAll("text")].filter(one => one.textContent).map(one => {
    const at = one.getBoundingClientRect();
    return [one.textContent, (at.left - ground.left) * scale, (at.top - ground.top) * scale, (at.right - ground.left) * scale, (at.bottom - ground.top) * scale];
  })};
  drawn.remove();
}
document.body.textContent = "FOUND" + encodeURIComponent(JSON.stringify(found)) + "END";
"""


def wave(names, size, margin):
    """Bars of which some are below 0, each with its margin."""
    values = [size * (number * 7 % 13 - 3) // 10 for number in range(len(names))]
    return [(name, value, value - margin, value + margin) for name, value in zip(names, values)]


def histograms():
    yield "one", wave(["only"], 1000, 6), "areas"
    yield "few", wave(["north", "south", "east", "west", "capital"], 300, 60), LONG
    yield "zero", [("none", 0, -6, 6), ("some", 1, -5, 7)], "areas"
    yield "below", [("a", -30, -36, -24), ("b", -3, -9, 3)], "areas"
    yield "great", wave(["north", "south", "east", "west"], 10**15, 10**13), "income"
    yield "great and many", wave([f"c{number}" for number in range(20)], 10**9, 10**6), "income"
    yield "long", wave(["employment_in_agriculture_forestry_fishing_and_aquaculture_total", "a", "W" * 64], 900, 300), "work"
    yield "odd", wave(ODD, 500, 100), "places"
    yield "bands", wave([f"from_{number}_to_{number + 4}" for number in range(0, 60, 5)], 400, 300), "ages"
    yield "capitals", wave([f"WMW{number}" for number in range(14)], 400, 30), "codes"
    yield "45", wave([f"group_{number}" for number in range(45)], 90, 60), "groups"
    yield "250", wave([f"municipality_number_{number}" for number in range(250)], 900, 60), "municipalities"


def grids_of():
    """Cross tables: few cells and many, with totals and without, numbers of one digit and of many, long names and odd ones."""
    def cells(rows, columns, size, margin):
        found = {(row, column): size * (7 * x + 5 * y - 3) // 40 for x, row in enumerate(rows) for y, column in enumerate(columns)}
        return {cell: (value, value - margin, value + margin) for cell, value in found.items()}

    def with_totals(rows, columns, size, margin):
        found = cells(rows, columns, size, margin)
        totals = {(row, None): (size * 9, 0, size * 18) for row in rows} | {(None, column): (size * 3, 0, size * 6) for column in columns}
        return grids.Table(found, {**totals, (None, None): (size * 40, 0, size * 80)})

    ages = ["under_18", "from_18", "from_40", "from_65", "unknown"]
    yield "cross table", with_totals(["f", "m", "unknown"], ages, 100, 6), "group"
    yield "cross table of one", grids.Table(cells(["f"], ["only"], 1000, 6)), "group"
    yield "cross table of great numbers", with_totals(["f", "m"], [f"c{number}" for number in range(12)], 10**12, 10**6), "income"
    yield "cross table of many", with_totals([f"municipality_number_{number}" for number in range(40)], [f"g{number}" for number in range(30)], 50, 30), LONG
    yield "cross table of odd names", grids.Table(cells(ODD, ODD, 500, 100)), "places"
    yield "cross table of long names", with_totals(["W" * 64, "a"], ["employment_in_agriculture_forestry_fishing_total", "b"], 500, 100), "work"


def budgets():
    yield "budget of one", points([0]), "labour: epsilon spent"
    yield "budget of few", points([0, 5 * 10**5, 5979364]), "labour: epsilon spent"
    yield "budget nearly spent", points([0, 10**7, 19_200_000]), "labour: epsilon spent"
    yield "budget spent", points([0, 10**7, 2 * 10**7, 2 * 10**7]), LONG
    yield "budget of many", points([5000 * number for number in range(3000)]), "labour: epsilon spent"
    yield "budget without times", [(None, number, 20) for number in range(9)], "labour: epsilon spent"
    yield "budget at most", [(None, 0, 10**18), (None, 123456789012345678, 10**18)], "labour: epsilon spent"
    yield "budget anew", points([0, 19_900_000]) + [("2026-03-01T00:00:00Z", 0, 10**7), ("2026-03-02T00:00:00Z", 9_900_000, 10**7)], "labour: epsilon spent"


def points(spent):
    return [(f"2026-01-{1 + number // 1440 % 28:02}T{number // 60 % 24:02}:{number % 60:02}:00Z", one, 2 * 10**7) for number, one in enumerate(spent)]


def browsed(room, name, *words):
    """What the browser writes of a page; its own files are in ROOM."""
    line = [os.environ.get("BROWSER", "chromium"), "--headless", "--no-sandbox", "--disable-gpu", "--hide-scrollbars", f"--user-data-dir={room}/browser"]
    return subprocess.run([*line, *words, Path(name).as_uri()], stdout=subprocess.PIPE, stderr=subprocess.DEVNULL, check=True, timeout=300).stdout.decode()


def boxes(room, drawn):
    """By picture and width: the view box's size, and each text with its box."""
    with open(f"{room}/boxes.html", "w") as file:
        said = json.dumps(drawn).replace("</", "<\\/")
        file.write(f"<!doctype html><meta charset=utf-8><body><script>const PICTURES = {said}, WIDTHS = {WIDTHS}, FONTS = {FONTS};{SCRIPT}</script>")
    found = re.search("FOUND(.*?)END", browsed(room, f"{room}/boxes.html", "--dump-dom").partition("<body>")[2])
    if not found:
        raise SystemExit("tests/tools/pictures.py: the browser found no boxes")
    return json.loads(unquote(found[1]))


def faults_of_boxes(size, texts):
    for number, (text, left, top, right, bottom) in enumerate(texts):
        if left < 0 or top < 0 or right > size[0] or bottom > size[1]:
            yield f"`{text}` isn't within the picture: {left:.0f} {top:.0f} {right:.0f} {bottom:.0f} of {size}"
        for other, other_left, other_top, other_right, other_bottom in texts[:number]:
            # The boxes of two lines may touch, as fonts have room above and below.
            if min(right, other_right) - max(left, other_left) > 1 and min(bottom, other_bottom) - max(top, other_top) > 1:
                yield f"`{text}` stands on `{other}`"


def faults_of_xml(svg):
    ElementTree.fromstring(svg)
    if not svg.isascii():
        yield "it isn't ASCII"
    if re.search(r"href|url\(|@import|<image|<script|://", svg.replace('xmlns="http://www.w3.org/2000/svg"', "", 1)):
        yield "it would fetch something"


def faults_of_bars(svg, bars):
    """Ends of error bars by the ticks: 4 px below a tick's line stands its number. An end below the axis is at its beginning."""
    parts = list(ElementTree.fromstring(svg))
    ticks = {}
    for line, text in zip(parts, parts[1:]):
        if line.tag == f"{SVG}line" and text.tag == f"{SVG}text" and text.get("text-anchor") == "end" and "transform" not in text.attrib:
            ticks[float(line.get("y1"))] = int(text.text.replace("\u2009", "").replace("\u2212", "-"))
    (low_y, low), (high_y, high) = max(ticks.items()), min(ticks.items())
    stems = [one for one in parts if one.tag == f"{SVG}line" and one.get("x1") == one.get("x2")]
    if len(stems) != len(bars):
        yield f"{len(stems)} error bars of {len(bars)}"
    for stem, (key, _, *ends) in zip(stems, bars):
        ends = [max(low, end) for end in ends]
        read = sorted(low + (low_y - float(stem.get(y))) * (high - low) / (low_y - high_y) for y in ("y1", "y2"))
        # A place is written to a tenth.
        if any(abs(end - one) > 0.11 * (high - low) / (low_y - high_y) for end, one in zip(ends, read)):
            yield f"`{key}`: {read} is read of {ends}"


def main():
    with tempfile.TemporaryDirectory() as room:
        drawn, faults = {}, []
        for name, bars, title in histograms():
            drawn[name] = pictures.histogram_svg(bars, title, "95", "0.05")
            faults += [f"{name}: {fault}" for fault in faults_of_bars(drawn[name], bars)]
        for name, table, title in grids_of():
            drawn[name] = grids.grid_svg(table, title, "95", "0.05")
        for name, found, title in budgets():
            drawn[name] = pictures.budget_svg(found, title)
        faults += [f"{name}: {fault}" for name, svg in drawn.items() for fault in faults_of_xml(svg)]
        texts = 0
        for name, one in boxes(room, drawn).items():
            texts += len(one["boxes"])
            faults += [f"{name}: {fault}" for fault in faults_of_boxes(one["size"], one["boxes"])]
        if len(sys.argv) > 1:
            keep(os.path.abspath(sys.argv[1]), room, drawn)
    print("\n".join([*faults, f"{len(drawn)} pictures at {len(WIDTHS)} widths in {len(FONTS)} fonts, {texts} boxes of texts: {len(faults)} faults"]))
    return 1 if faults else 0


def keep(folder, room, drawn):
    os.makedirs(folder, exist_ok=True)
    for name, svg in drawn.items():
        with open(f"{folder}/{name}.svg", "w") as file:
            file.write(svg)
    for width in WIDTHS:
        high = sum(float(ElementTree.fromstring(svg).get("height")) for svg in drawn.values()) * width / pictures.WIDTH + 8 * len(drawn)
        for name, ground in GROUNDS.items():
            shown = "".join(f'<img src="{one}.svg" style="display: block; width: {width}px; margin: 8px">' for one in drawn)
            with open(f"{folder}/shown.html", "w") as file:
                file.write(f'<!doctype html><body style="margin: 0; background: {ground}">{shown}')
            browsed(room, f"{folder}/shown.html", f"--window-size={width + 16},{int(high) + 8}", f"--screenshot={folder}/{name}_{width}.png")


sys.exit(main())
