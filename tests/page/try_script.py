#!/usr/bin/python3
"""Opens pages in a browser without a window: the page's own script runs under its policy and a stranger's doesn't; each column of numbers
sorts both ways, and a key that reaches its head shows the hint; the filter hides and shows; a pointer and keys tell the steps of a strip,
and choose a span, which the numbers are then of; the time of day stands in the head, if moments are those of a clock; what is asked for
stands in the address, and a link to a hidden row shows it. If the page has places, their columns sort, too, and a click on a place shows
its tasks.

Usage: try_script.py PAGE [PAGE ..]

It wants `chromium`. Sorting is seen in a copy without the policy, since the copy has a script more, which clicks and looks.
"""
import os
import re
import subprocess
import sys
import tempfile

FLAGS = ["--headless=new", "--no-sandbox", "--disable-gpu", "--disable-dev-shm-usage", "--virtual-time-budget=3000", "--dump-dom"]
STRANGER = '<main><script>document.title = "stranger"</script><p id="q" style="color:red" onclick="1">'
POLICY = r'<meta http-equiv="Content-Security-Policy"[^>]*>'
CLICKS = """<script>{
const rows = () => [...document.querySelectorAll("#table tbody tr")];
const column = (i) => rows().map((row) => BigInt(row.cells[i].dataset.v));
const rises = (xs) => xs.every((x, i) => i === 0 || xs[i - 1] <= x), falls = (xs) => xs.every((x, i) => i === 0 || xs[i - 1] >= x);
const heads = [...document.querySelectorAll("#table thead th")], all = rows().length, seen = [];
for (let i = 3; i < heads.length; i++) {
  const button = heads[i].querySelector("button");
  button.click();
  seen.push(falls(column(i)) && heads[i].getAttribute("aria-sort") === "descending");
  button.click();
  seen.push(rises(column(i)) && heads[i].getAttribute("aria-sort") === "ascending");
  seen.push(document.querySelectorAll("[aria-sort]").length === 1 && rows().length === all);
}
const facts = document.querySelector(".facts b").textContent, shown = document.getElementById("shown").textContent;
seen.push(shown === (all < Number(facts.replace(/[^0-9]/g, "")) ? all + " of " + facts + " tasks have rows" : ""));
const only = document.getElementById("only"), filter = document.getElementById("filter");
const type = (word) => { filter.value = word; filter.dispatchEvent(new Event("input")); };
only.click();
seen.push(rows().every((row) => row.hidden === (row.dataset.odd !== "1")));
only.click();
type("no such name");
seen.push(rows().every((row) => row.hidden));
type("");
seen.push(rows().every((row) => !row.hidden));
const row = rows()[0], strip = row.querySelector("svg.strip"), step = document.getElementById("step"), box = strip.getBoundingClientRect();
const press = (key) => document.activeElement.dispatchEvent(new KeyboardEvent("keydown", { key, bubbles: true }));
strip.dispatchEvent(new PointerEvent("pointermove", { clientX: box.right - 1, clientY: box.top + 1 }));
seen.push(!step.hidden && step.textContent.includes(": " + row.querySelector(".name").textContent + ": busy "));
document.querySelector('svg[tabindex="0"]').focus();
press("End");
seen.push(!step.hidden && / tasks waited(, [0-9.]+ for .*)*$/.test(step.textContent));
press("ArrowDown");
seen.push(document.activeElement === strip && / wakes?(, .* of its own)?$/.test(step.textContent));
press("Escape");
seen.push(step.hidden && document.querySelectorAll(".at").length === 0);
heads[3].querySelector("button").focus();
seen.push(!step.hidden && step.textContent === heads[3].title);
heads[3].querySelector("button").blur();
seen.push(step.hidden);
seen.push(rows().every((row) => row.querySelector("a.own-link").getAttribute("href") === "#" + row.id));
document.title = seen.every((x) => x) + " " + seen.length;
}</script></body>"""


# What an address asks for: names with a letter, sorted by busy time, longest first; then the link to a row that this hides.
ASKED = "?name=-&sort=-3"
LINKS = """<script>{
const rows = () => [...document.querySelectorAll("#table tbody tr")];
const hides = (row) => !row.querySelector("th").textContent.includes("-");
const busy = rows().map((row) => BigInt(row.cells[3].dataset.v));
const seen = [rows().every((row) => row.hidden === hides(row)), rows().some(hides), busy.every((x, i) => i === 0 || busy[i - 1] >= x)];
document.getElementById("filter").dispatchEvent(new Event("input"));
const kept = new URLSearchParams(location.search);
seen.push(kept.get("name") === "-", kept.get("sort") === "-3");
addEventListener("hashchange", () => setTimeout(() => {
  seen.push(rows().every((row) => !row.hidden));
  document.title = seen.every((x) => x) + " " + seen;
}, 100));
location.hash = rows().find(hides).id;
}</script></body>"""


# Places as an address has them: by how long they waited, longest first. Then a click on one.
PLACES = "?places=-10"
SITES = """<script>{
const rows = () => [...document.querySelectorAll("#sites tbody tr")], column = (i) => rows().map((row) => BigInt(row.cells[i].dataset.v));
const heads = [...document.querySelectorAll("#sites thead th")], all = rows().length;
const falls = (xs) => xs.every((x, i) => i === 0 || xs[i - 1] >= x), seen = [falls(column(10))];
for (let i = 0; i < heads.length; i++) {
  heads[i].querySelector("button").click();
  seen.push(falls(column(i)) && rows().length === all && new URLSearchParams(location.search).get("places") === "-" + i);
}
const place = rows().find((row) => row.querySelector("a")), at = / at (.*:[0-9]+:[0-9]+)/.exec(place.cells[0].textContent)[1];
place.querySelector("a").click();
const tasks = [...document.querySelectorAll("#table tbody tr")];
seen.push(new URLSearchParams(location.search).get("name") === at, location.hash === "#tasks");
seen.push(tasks.every((row) => row.hidden !== row.querySelector("th").textContent.includes(at)));
document.title = seen.every((x) => x) + " " + seen;
}</script></body>"""


# A span as an address has it: the right half. Then all of the page, by pointer, and the last two steps, by keys.
SPAN = "?span=HALF-WIDE"
SPANS = """<script>{
const total = document.querySelector("svg.total"), box = total.getBoundingClientRect(), seen = [];
const rows = () => [...document.querySelectorAll("#table tbody tr")], numbers = (i) => rows().map((row) => Number(row.cells[i].dataset.v));
const texts = () => rows().map((row) => row.outerHTML).sort().join(""), said = () => document.getElementById("span").textContent;
const told = (row, n, from, to) => {
  const steps = row.querySelector("svg[data-steps]").dataset.steps.split(";").slice(0, -1).map((step) => step.split(",").map(Number));
  return steps.reduce((sum, step, i) => {
    const end = i + 1 < steps.length ? steps[i + 1][0] : WIDE, share = Math.max(0, Math.min(end, to) - Math.max(step[0], from)) / (end - step[0]);
    return sum + share * step[n] * (n < 3 ? (end - step[0]) * (Math.floor(document.getElementById("table").dataset.v / 1000) + 1) / 1000 : 1);
  }, 0);
};
const fits = (from, to) => rows().every((row) => [[3, 1], [4, 2], [7, 3], [8, 4]].every(([i, n]) => Math.abs(Number(row.cells[i].dataset.v) - told(row, n, from, to)) <= 1));
seen.push(fits(HALF, WIDE), said().startsWith("Busy, waiting, wakes and own: from "));
document.querySelector("#span button").click();
const whole = texts(), wakes = numbers(7), busy = numbers(3), watched = Number(document.getElementById("table").dataset.v);
seen.push(said() === "", !location.search.includes("span"), document.querySelectorAll(".span").length === 0);
const pointer = (type, x) => total.dispatchEvent(new PointerEvent(type, { clientX: x, clientY: box.top + 1, bubbles: true }));
pointer("pointerdown", box.left + 1);
pointer("pointerup", box.right - 1);
const steps = total.dataset.steps.split(";").slice(0, -1).map((step) => Number(step.split(",")[0]));
seen.push(fits(steps[0], WIDE), numbers(7).every((n, i) => steps[0] > 0 || n === wakes[i]));
seen.push(steps[0] > 0 || numbers(3).every((n, i) => Math.abs(n - busy[i]) <= watched / 500));
total.focus();
const press = (key, shiftKey) => total.dispatchEvent(new KeyboardEvent("keydown", { key, shiftKey, bubbles: true }));
press("End", false);
press("ArrowLeft", true);
const from = steps[Math.max(0, steps.length - 2)];
seen.push(fits(from, WIDE), new URLSearchParams(location.search).get("span") === from + "-WIDE", document.querySelectorAll(".span").length === 1);
press("Escape", false);
seen.push(texts() === whole, !location.search.includes("span"));
document.title = seen.every((x) => x) + " " + seen;
}</script></body>"""


def opened(html, asked=""):
    """The document as the browser has it once its scripts ran."""
    with tempfile.TemporaryDirectory() as folder:
        page = os.path.join(folder, "page.html")
        with open(page, "w", encoding="utf-8") as file:
            file.write(html)
        command = ["chromium", *FLAGS, f"--user-data-dir={folder}/profile", f"file://{page}{asked}"]
        return subprocess.run(command, capture_output=True, text=True, timeout=120, check=True).stdout


def try_page(path):
    with open(path, encoding="utf-8") as file:
        text = file.read()
    assert '<body class="live">' in opened(text), "the page's script didn't run under its policy"
    strange = text.replace("<main>", STRANGER, 1)
    assert strange != text and "<title>stranger" not in opened(strange), "a stranger's script ran under the policy"
    clicked = opened(re.sub(POLICY, "", text).replace("</body>", CLICKS))
    seen = re.search("<title>(.*?)</title>", clicked).group(1)
    assert seen.startswith("true "), seen
    day = opened(re.sub('( lines? over <b data-v=")[0-9]+', r"\g<1>1764528123500000000", text))
    assert ", until 2025-11-30 18:42:03 UTC, " in day and " ago</p>" in day, "the time of day of the last line"
    assert not re.search(", until [0-9]", opened(text)), "a time of day where moments are of no clock"
    links = (PLACES, SITES) if 'id="sites"' in text else (ASKED, LINKS)
    wide = re.search('class="total" viewBox="0 0 ([0-9]+) ', text)[1]
    in_page = [it.replace("HALF", str(int(wide) // 2)).replace("WIDE", wide) for it in (SPAN, SPANS)]
    for words, script in (links, in_page):
        asked = opened(re.sub(POLICY, "", text).replace("</body>", script), words)
        seen = re.search("<title>(.*?)</title>", asked).group(1)
        assert seen.startswith("true "), f"the address {words}, and a click: {seen}"


for page in sys.argv[1:]:
    try_page(page)
