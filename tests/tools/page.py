#!/usr/bin/env python3
"""The page of tools/watch: its figures by the program's audit and by the records, what must not be on it, and how it looks in a headless browser.

usage: tests/tools/page.py [--shots FOLDER]    (PROGRAM=FILE tries another build than tools/build's; --shots keeps the pictures)
Needs Debian's chromium. Journals are made by the program, with asks of all rows and of parts by three analysts, grants, numbers that are lost, exhausted
or open, one owner without any ask, one that is shut and one whose journal is none. On the page

- are budget, spent and what is left of each owner as `audit` and the grants have them, and sums by analyst and by partition that make up what is spent;
- is no row, no answer, no key of a part, and no digest of a program; no script, and no address of anything else;
- at two widths, in light and in dark, nothing is cut off or wider than its place, texts have a contrast of 4.5 to 1 at least, and colours differ.

It ends with status 1 where one differs, and with 2 where there is no browser.
"""
import html
import json
import os
import re
import shutil
import subprocess
import sys
import tempfile
from collections import Counter

sys.path.insert(0, f"{os.path.dirname(os.path.abspath(__file__))}/../lib")
import places  # noqa: E402,F401
from served import PROGRAM, TOP, Room, Wrong, need_program
from journal import WHOLE, Reservation, Settlement, ONE, appended  # noqa: E402
from page import units  # noqa: E402

BROWSERS = ("chromium", "chromium-browser", "google-chrome")
ANALYSTS = ("ann", "bob", "an_analyst_with_32_letters_in_it")
TOWNS = (b"Quellenheim", b"Zwiesel")
# What a browser finds: texts wider or higher than their place, the width of all, and the least contrast of a text.
LOOK = """<script>
const wide = [], light = c => { const [r, g, b] = c.match(/[\\d.]+/g).map(Number).map(v => v / 255).map(v => v <= 0.03928 ? v / 12.92 :
  ((v + 0.055) / 1.055) ** 2.4); return 0.2126 * r + 0.7152 * g + 0.0722 * b; };
const behind = e => { for (; e; e = e.parentElement) { const c = getComputedStyle(e).backgroundColor; if (!/, 0\\)$|transparent/.test(c)) return c; }
  return 'rgb(255, 255, 255)'; };
let least = 21, texts = 0;
for (const e of document.querySelectorAll('body, body *')) {
  if (e.closest('svg') || e.tagName === 'SCRIPT') continue;
  const box = e.getBoundingClientRect();
  if (e.scrollWidth > e.clientWidth + 1 && getComputedStyle(e).display !== 'inline') wide.push(e.tagName + ' ' + e.textContent.slice(0, 40));
  if (box.right > innerWidth + 0.5 || box.left < -0.5) wide.push('beyond ' + e.tagName + ' ' + e.textContent.slice(0, 40));
  if ([...e.childNodes].some(n => n.nodeType === 3 && n.textContent.trim())) {
    texts += 1;
    const [a, b] = [light(getComputedStyle(e).color), light(behind(e))];
    least = Math.min(least, (Math.max(a, b) + 0.05) / (Math.min(a, b) + 0.05));
  }
}
parent.postMessage(JSON.stringify({wide, least, texts, width: innerWidth, page: document.documentElement.scrollWidth, back: behind(document.body)}), '*');
</script>"""
# A window of a browser has a least width, and what is shown within a page hasn't.
AROUND = """<title></title><iframe src="inner.html" width="{width}" height="900" style="border: 0"></iframe>
<script>onmessage = event => document.title = event.data</script>"""


def must(what, found, wanted=True):
    if found != wanted:
        raise Wrong(f"{what}: {found!r}, wanted {wanted!r}")


def made(folder):
    """A room of five owners, with what the program answered and what was put behind it."""
    people = b"town,age\n" + b"".join(b"%s,%d\n" % (TOWNS[age % 2], age) for age in range(70, 90))
    room = Room(folder, 4, capacity=2**17, budget=20 * 10**6, people=people, analysts=ANALYSTS)
    lines = []
    for place, analyst in enumerate(ANALYSTS):
        lines += [f"hello {analyst}"]
        for turn in range(12):
            owner = room.names[turn % 2]
            lines.append(f"ask {owner} 0.{1 + place}{turn:02} size people")
            lines.append(f"askpart {owner} area {'AB'[turn % 2]} 0.05{turn:02} sum[0,100] (map (fn (p : text * num) => let (t, a) = p in a) people)")
    ran = subprocess.run([PROGRAM, "run", "catalog.json", "key"], cwd=folder, input="\n".join(lines).encode(), capture_output=True, check=True)
    for amount in (2_500_000, 10**12):
        subprocess.run([PROGRAM, "grant", "catalog.json", "key", "census", str(amount)], cwd=folder, capture_output=True, check=True)
    book = room.book(0)
    more = []
    for outcome in (2, 3, 0, 0, 3):
        one = Reservation(len(book.reserved), WHOLE, 10_000, 1, 1, 10_000, 1, ONE)
        must("a reservation", book.add(one))
        more.append(one)
        if outcome:
            more.append(book.settlement(one.number, outcome))
            must("a settlement", book.add(more[-1]))
    with open(f"{folder}/journals/0.bud", "r+b") as file:
        file.write(appended(room.journal(0), room.catalog["owners"][0]["capacity"], more))
    with open(f"{folder}/journals/3.bud", "r+b") as file:
        file.write(b"\0")
    os.mkdir(f"{folder}/shut")
    open(f"{folder}/shut/labour", "w").close()
    return room, [line.split(" ")[2] for line in ran.stdout.decode().splitlines() if line.startswith("answer")]


def written(folder):
    subprocess.run([f"{TOP}/tools/snapshot", "copy"], cwd=folder, check=True)
    words = [f"{TOP}/tools/watch", "catalog.json", "copy", "--shut", "shut", "--page", "page.html"]
    ran = subprocess.run(words, cwd=folder, capture_output=True, text=True)
    must(f"tools/watch, of a journal that is none: {ran.stderr}", (ran.returncode, ran.stdout, "journal schools uninitialised" in ran.stderr), (1, "", True))
    must("what is left beside the page", [name for name in os.listdir(folder) if "part" in name], [])
    with open(f"{folder}/page.html", encoding="utf-8") as file:
        return file.read()


# What it says.


def text_of(section):
    return re.sub(r"\s+", " ", html.unescape(re.sub("<[^>]*>", " ", section)))


def sums_of(section, title):
    found = re.search(f"<h3>{title}[^<]*</h3><ul>(.*?)</ul>", section)
    return dict(re.findall(r"<span>([^<]*)</span><b>([^<]*)</b>", found[1])) if found else {}


def judge(room, text, answers):
    sections = dict(zip(room.names, re.findall("<section>.*?</section>", text, re.S)))
    must("owners", len(sections), len(room.names))
    for order, name in enumerate(room.names[:3]):
        book, section = room.book(order), sections[name]
        said, left = text_of(section), book.budget - book.spent
        for due in (f"{units(left)} left", f"{units(book.spent)} of {units(book.budget)} spent", f"{name} "):
            must(f"`{due}` is said of {name} in {said}", due in said)
        taken = Counter()
        for one in book.reserved:
            taken[ANALYSTS[one.analyst]] += one.taken - (book.settled[one.number].returned if one.number in book.settled else 0)
        must(f"by analyst, of {name}", sums_of(section, "Spent by analyst"), {who: units(amount) for who, amount in taken.items() if amount})
        parts = sums_of(section, "Spent by partition")
        must(f"by partition, of {name}", sum(round(float(one) * 10**6) for one in parts.values()), book.spent)
        must(f"the budget of {name} on its last grant", (f"budget {units(book.budget)}" in said) == bool(book.grants))
    counted = len(room.book(0).reserved)
    numbers = {"exhausted": f"{counted - 5}", "lost": f"{counted - 4}, {counted - 1}", "open": f"{counted - 3} to {counted - 2}"}
    for what, due in numbers.items():
        must(f"the numbers that are {what}", re.search(f"{what}: [a-z, ]* ([0-9, to]*[0-9])", text_of(sections["census"]))[1], due)
    must("an owner that is shut", ["labour is shut" in text_of(sections[name]) for name in room.names], [False, True, False, False])
    must("a journal that is none", "The copy is no journal of this owner." in sections["schools"])
    line = re.search(r'<path d="([^"]*)"', sections["census"])[1]
    must("the line's ends", (line.split(" ")[0][0], line.split("L")[-1].split(" ")[0]), ("M", "100.000"))
    nothing_private(text, answers)


def nothing_private(text, answers):
    """No answer, row, key or program, and nothing that is loaded."""
    shown = text_of(text.split("</style>")[1])
    for what in (*map(bytes.decode, TOWNS), "size people", "age", ONE.hex(), "http", "src=", "<script", "url("):
        must(f"`{what}` on the page", what in (text if not what.isalpha() else shown.replace("page", "")), False)
    found = set(re.findall(r"(?<![\d.,])\d{3,}(?![\d.,])", shown))
    must("answers on the page", found & {one for one in answers if len(one) > 3}, set())
    must("the page's own text", "default-src 'none'" in text)


# How it looks.


def looked(browser, folder, text, width, dark, shots):
    """What a browser finds at a width, in light or dark."""
    scheme = f"--blink-settings=preferredColorScheme={0 if dark else 1}"
    words = [browser, "--headless", "--no-sandbox", "--disable-gpu", "--hide-scrollbars", scheme, f"--user-data-dir={folder}/browser"]
    with open(f"{folder}/tried.html", "w", encoding="utf-8") as file:
        file.write(AROUND.format(width=width))
    with open(f"{folder}/inner.html", "w", encoding="utf-8") as file:
        file.write(re.sub("<meta http-equiv[^>]*>", "", text).replace("</body>", f"{LOOK}</body>"))
    if shots:
        os.makedirs(shots, exist_ok=True)
        picture = f"{os.path.abspath(shots)}/{width}-{'dark' if dark else 'light'}.png"
        shot = [*words, f"--window-size={width},2600", f"--screenshot={picture}", f"file://{folder}/page.html"]
        subprocess.run(shot, capture_output=True, timeout=120, check=True)
    words += ["--window-size=1400,1000", "--virtual-time-budget=5000", "--dump-dom", f"file://{folder}/tried.html"]
    ran = subprocess.run(words, capture_output=True, text=True, timeout=120)
    title = re.search("<title>(.*?)</title>", ran.stdout, re.S)
    if not title or not title[1].startswith("{"):
        raise Wrong(f"the browser ended with {ran.returncode} and {ran.stdout[:200]} {ran.stderr[-500:]}")
    return json.loads(html.unescape(title[1]))


def judge_looks(browser, folder, text, shots):
    backs, tried = {}, 0
    for width in (1280, 390):
        for dark in (False, True):
            found = looked(browser, folder, text, width, dark, shots)
            must(f"cut off or too wide at {width}", (found["wide"], found["width"], found["page"] <= width), ([], width, True))
            must(f"contrast at {width}, {'dark' if dark else 'light'}: {found['least']:.1f}", found["least"] >= 4.5)
            must("texts", found["texts"] > 60)
            backs.setdefault(dark, found["back"])
            tried += 1
    must(f"colours {backs}", backs[False] != backs[True])
    return tried


def main():
    if sys.argv[1:] == ["--help"]:
        print(__doc__.strip())
        return
    shots = sys.argv[2] if sys.argv[1:2] == ["--shots"] and len(sys.argv) == 3 else None
    browser = next(filter(None, map(shutil.which, BROWSERS)), None)
    if browser is None:
        print("there is no browser: apt-get install -y chromium", file=sys.stderr)
        sys.exit(2)
    need_program()
    try:
        with tempfile.TemporaryDirectory() as folder:
            room, answers = made(folder)
            text = written(folder)
            judge(room, text, answers)
            tried = judge_looks(browser, folder, text, shots)
    except Wrong as fault:
        print(f"tests/tools/page.py: {fault}")
        sys.exit(1)
    print(f"a page with the figures of the records and nothing private; {tried} looks by a browser")


if __name__ == "__main__":
    main()
