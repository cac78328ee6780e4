"""Pages of `merging`: their rows are what `host.py` computes of the host file, and the cursor in a browser stands on them."""
import json
import re
import subprocess
from pathlib import Path

from host import Refused, Replay, document_of
from html_page import check, compare_frame, part

TOP = Path(__file__).resolve().parent.parent
COUNTERS = ["pages_shared", "pages_sharing", "pages_unshared", "pages_volatile", "full_scans", "ksm_zero_pages", "stable_node_chains",
            "stable_node_dups", "frames_free"]
DRAWN = {"frames_free": 'stroke="#777777"', "pages_shared": 'stroke="#1b7837"', "pages_sharing": 'stroke="#2166ac" stroke-dasharray="9 3"',
         "ksm_zero_pages": 'stroke="#762a83" stroke-dasharray="2 5"', "pages_volatile": 'stroke="#b2182b" stroke-dasharray="6 6"',
         "pages_unshared": 'stroke="#c06000" stroke-dasharray="3 9"'}
SVG = """<svg xmlns="http://www.w3.org/2000/svg" viewBox="0 0 960 400" font-family="sans-serif" font-size="13" role="img" \
aria-label="The counters over the events">
<rect class="ground" width="960" height="400" fill="white"/>"""
EVIL = "<img src=x onerror=document.title=1>"
MAPS = "tenants = 2\nframes = 16\nevent = [\n" + "".join(
    f'  {{ do = "map", tenant = {tenant}, value_size = 8, entries = 1 }},\n' for tenant in (0, 1))


def example(name):
    return (TOP / "examples" / name).read_text()


def many_events():
    """More events than a page has rows, and visits between them."""
    lines = [f'  {{ do = "update", tenant = {at % 2}, map = 0, key = 0, value = "{at // 40 % 3:02x}00000000000000" }},\n' for at in range(4300)]
    return MAPS + "".join(line + '  { do = "visit", count = 2 },\n' * (at % 43 == 0) for at, line in enumerate(lines)) + "]\n"


FILES = {
    "counters.toml": example("counters.toml"),
    "refused.toml": example("refused.toml"),
    "totals.toml": example("totals.toml"),
    "none.toml": "tenants = 1\nframes = 2\n",
    "visits.toml": MAPS + '  { do = "visit", count = 0 },\n  { do = "visit", count = 1000 },\n  { do = "visit" },\n]\n',
    "many.toml": many_events(),
    EVIL: MAPS + "]\n",
}


def steps_of(document):
    """Each step of a replay: its event, how many visits of how many are made, its reply, and the counters after it."""
    replay = Replay({**document, "event": []})
    host = replay.host
    counters = lambda: [host.counters()[name] for name in COUNTERS]
    yield "", None, [], counters()
    for number, event in enumerate(document.get("event", [])):
        words, lines = dict(event), len(replay.lines)
        does = words.pop("do")
        if does == "visit":
            count = words.get("count", replay.pages_to_scan)
            each = max(1, -(-count // 256))
            for made in range(1, count + 1):
                host.visit()
                if made % each == 0 or made == count:
                    yield str(number), (made, count), [], counters()
            if count == 0:
                yield str(number), (0, 0), [], counters()
            continue
        try:
            getattr(replay, f"do_{does}")(**words)
        except Refused as refused:
            replay.lines.append((f"tenant {event['tenant']} " if "tenant" in event else "") + refused.line)
        yield str(number), None, [] if does == "counters" else replay.lines[lines:], counters()


def words_of(event, visits):
    """How a page names an event."""
    said = [event["do"]]
    for key, value in event.items():
        digits = len(value) // 2 if key in ("hex", "value", "context") and isinstance(value, str) else None
        if key == "do" or key == "mergeable" and value:
            continue
        if digits == 0:
            value = "of no bytes"
        elif digits and digits > 16:
            value = f"{value[:32].lower()}.. of {digits} bytes"
        said.append(f"{key} {str(value).lower()}")
    return ", ".join(said) + (": {} of {}".format(*visits) if visits else "")


def wanted_rows(document):
    """The rows of a page: of more than 4,096 steps each one in a power of 2, and the last."""
    steps = list(steps_of(document))
    stride = 1
    while -(-len(steps) // stride) > 4096:
        stride *= 2
    kept = steps[::stride] + ([] if (len(steps) - 1) % stride == 0 else steps[-1:])
    events = document.get("event", [])
    return [[event, words_of(events[int(event)], visits) if event else "before the first event", "".join(it[:96] for it in said), *map(str, now)]
            for event, visits, said, now in kept], stride


def keys_in_order(event):
    """An event with its keys in the order in which a page names them. A step without a count is one step."""
    order = ["do", "option", "tenant", "map", "program", "key", "value_size", "entries", "mergeable", "hex", "context", "value", "count"]
    event = {"count": 1, **event} if event["do"] == "step" else event
    return {key: event[key] for key in order if key in event}


def ordered(document):
    return {**document, "event": list(map(keys_in_order, document.get("event", [])))}


def rows_in(page):
    body = part(r"<tbody>\n(.*?)</table>", page)
    return [row.replace("<br>", "").split("<td>")[1:] for row in body.splitlines()]


def compare_page(program, name, text, folder):
    """Writes the page of a host file, and compares it. Answers its path."""
    (folder / name).write_text(text)
    page = subprocess.run([program, name], cwd=folder, capture_output=True, text=True, check=True).stdout
    compare_frame(name, page)
    document = ordered(document_of(text))
    wanted, stride = wanted_rows(document)
    found = rows_in(page)
    check(len(found) == len(wanted), name, f"{len(found)} rows, and {len(wanted)} are wanted")
    for at, (row, want) in enumerate(zip(found, wanted)):
        if not check(row == want, name, f"row {at}", row, want):
            break
    check((f"one in {stride} has a row" in page) == (stride > 1), name, "how many rows are left out")
    picture = subprocess.run([program, name, "--svg"], cwd=folder, capture_output=True, text=True, check=True).stdout
    check(picture in page, name, "the picture alone is another one")
    check(picture == picture_of(wanted, len(document["event"])), name, "another picture")
    if name == "counters.toml":
        check(picture == (TOP / "docs/counters.svg").read_text(), name, "docs/counters.svg is another picture")
    check(len(page) < 1 << 20, name, f"{len(page)} bytes")
    path = folder / f"merging-{len(list(folder.glob('merging-*')))}.html"
    path.write_text(page)
    return path, wanted


def picture_of(rows, events):
    """The picture of some rows: a line for each counter that is drawn, which turns at each point at which the counter changes."""
    numbers = {counter: [int(row[3 + COUNTERS.index(counter)]) for row in rows] for counter in DRAWN}
    most = max(1, *map(max, numbers.values()))
    x = lambda at: 60 + at * 880 // max(1, len(rows) - 1)
    y = lambda number: 320 - number * 300 // most
    lines = [f"<path class=\"axis\" d=\"M60 20V320H940\" fill=\"none\" stroke=\"black\"/>",
             f"<text x=\"52\" y=\"25\" text-anchor=\"end\">{most}</text>", "<text x=\"52\" y=\"325\" text-anchor=\"end\">0</text>",
             f"<text x=\"940\" y=\"338\" text-anchor=\"end\">{events} event{'s' if events != 1 else ''}</text>"]
    for place, (counter, values) in enumerate(numbers.items()):
        turns = [(at, number) for at, (before, number) in enumerate(zip(values, values[1:]), 1) if number != before]
        path = f"M60 {y(values[0])}" + "".join(f"H{x(at)}V{y(number)}" for at, number in turns) + "H940"
        left, below = 60 + place % 3 * 220, 360 + place // 3 * 22
        lines += [f'<path class="line {counter}" d="{it}" fill="none" stroke-width="2" {DRAWN[counter]}/>' for it in (path, f"M{left} {below}h40")]
        lines.append(f'<text x="{left + 50}" y="{below + 5}">{counter}</text>')
    return "\n".join([SVG, *lines, "</svg>\n"])


def shown(browser):
    """What the cursor stands on: the name of the event, its reply, and each counter without its change."""
    return browser.run("""[document.querySelector('h2').textContent, document.querySelector('.reply').textContent,
        ...[...document.querySelectorAll('#now dd')].map(it => it.firstChild.textContent)]""")


def wanted_shown(row):
    event, words, said, *now = row
    return [f"event {event}: {words}" if event else words, said, *now]


def try_cursor(browser, name, rows):
    """Keys and the mouse lead to the points that they should."""
    last = len(rows) - 1

    def stands_on(at, *words):
        found = shown(browser)
        found[1] = found[1].replace("\n", "")
        check(found == wanted_shown(rows[at]), name, *words, found, wanted_shown(rows[at]))
        marked = browser.run("[...document.querySelectorAll('tbody tr')].findIndex(row => row.className === 'current')")
        check(marked == at, name, *words, "marks row", marked, at)

    stands_on(0, "at first")
    for at, key in enumerate(["ArrowRight", "ArrowRight", "ArrowLeft"]):
        browser.press(key)
        stands_on(min(last, (1, 2, 1)[at] if last >= 2 else (1, 1, 0)[at]), key)
    browser.run("document.getElementById('figure').focus()")
    browser.press("End")
    stands_on(last, "End")
    browser.press("ArrowRight")
    stands_on(last, "after the end")
    browser.press("Home")
    stands_on(0, "Home")
    changes = [at for at in range(1, last + 1) if rows[at][3:] != rows[at - 1][3:]]
    browser.press("n")
    stands_on(changes[0] if changes else last, "n")
    for share in (0, 0.25, 1):
        x = browser.run("(() => { const box = document.querySelector('svg').getBoundingClientRect(); return [box.left, box.width, box.top]; })()")
        browser.call("Input.dispatchMouseEvent", type="mouseMoved", x=x[0] + x[1] * (60 + 880 * share) / 960, y=x[2] + 60)
        browser.wait_frames()
        at = browser.run("[...document.querySelectorAll('tbody tr')].findIndex(row => row.className === 'current')")
        check(abs(at - share * last) <= max(1, last / 400), name, "the mouse leads to", at, share * last)
        stands_on(at, "the mouse")
    if last < 20:
        browser.run("document.querySelector('tbody tr').scrollIntoView({ block: 'center' })")
        browser.wait_frames()
        browser.point("tbody tr:first-child td:nth-child(2)", is_click=True)
        stands_on(0, "a click on the first row")


def show(browser, name, path, rows, pictures=None):
    """Looks at a page in light, dark and narrow windows, and moves its cursor."""
    for is_dark, width in ((False, 1360), (True, 1360), (False, 400)):
        browser.open(path, width=width, is_dark=is_dark)
        background = browser.run("getComputedStyle(document.documentElement).backgroundColor")
        check((background != "rgb(255, 255, 255)") == is_dark, name, "the colours aren't those that are asked for", background)
        check(not browser.run("document.documentElement.scrollWidth > innerWidth"), name, f"it is wider than {width}")
        if pictures:
            browser.picture(pictures / f"merging-{re.sub(r'[^a-z].*', '', name) or 'breakout'}-{'dark' if is_dark else 'light'}-{width}.png")
    browser.open(path)
    check(browser.run("document.getElementById('name').textContent") == name, name, "another name is shown")
    check(browser.run("document.title") == f"merging: {name}", name, "another title is shown")
    check(browser.run("document.images.length + document.scripts.length") == 1, name, "what came from outside became an element")
    try_cursor(browser, name, rows)
    for complaint in browser.complaints():
        check(False, name, complaint)
