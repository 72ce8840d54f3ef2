#!/usr/bin/env python3
"""Opens the page of tools/timeline.py in a browser and checks it there: tools/check_timeline.py REPORT [PICTURE.png]

Wants headless Chromium (a package of Debian), so it isn't part of the gate. A copy of the page gets a script behind it that puts the pointer on cycles, folds and bands, a hundred of
each at most, spread over the page, hides the fetches, and writes down what the page then shows. Each is compared with the report: the line under the pointer has to be that of its
cycle, that of a band what its attempt comes to, and no fetch may be left to be seen. A picture of the page is taken where a name for it is given.
"""

import html
import json
import os
import re
import shutil
import subprocess
import sys
import tempfile
import time

HERE = os.path.dirname(os.path.abspath(__file__))
MARGIN = 1.5  # pixels from a band's left edge, where none of its cycles lies

POINTER = """
<pre id="shown"></pre>
<script>
window.addEventListener("load", function () {
  const shown = {cycles: {}, folds: {}, bands: {}};
  function at(element, dx) {
    element.scrollIntoView({block: "center"});
    const box = element.getBoundingClientRect(), x = dx === null ? box.x + box.width / 2 : box.x + dx, y = box.y + Math.min(box.height / 2, 200);
    document.getElementById("line").textContent = "";
    document.elementFromPoint(x, y).dispatchEvent(new MouseEvent("mousemove", {bubbles: true, clientX: x, clientY: y}));
    return document.getElementById("line").textContent;
  }
  function some(what) {
    const all = Array.from(document.querySelectorAll(what)), step = Math.ceil(all.length / 100);
    return all.filter(function (it, k) { return k % step === 0; });
  }
  some("[data-cycle]").forEach(function (it) { shown.cycles[it.dataset.cycle] = at(it, null); });
  some("[data-first]").forEach(function (it) { shown.folds[it.dataset.first + "-" + it.dataset.last] = at(it, null); });
  some("[data-attempt]").forEach(function (it) { shown.bands[it.dataset.attempt] = at(it, MARGIN); });
  shown.attempts = document.querySelectorAll("[data-attempt]").length;
  document.getElementById("fetches").click();
  shown.fetches = Array.from(document.querySelectorAll(".fetch")).filter(function (it) { return it.getBoundingClientRect().height > 0; }).length;
  document.getElementById("shown").textContent = JSON.stringify(shown);
});
</script>
</body>""".replace("MARGIN", str(MARGIN))


def browser():
    found = next((it for it in ("chromium", "chromium-browser", "google-chrome") if shutil.which(it)), None)
    if found is None:
        sys.exit("check_timeline.py: there is no Chromium")
    return [found, "--headless", "--no-sandbox", "--disable-gpu", "--hide-scrollbars", "--window-size=1400,1000"]


def shown_by(page, folder):
    """What the page shows under the pointer."""
    path = os.path.join(folder, "pointed.html")
    with open(path, "w", encoding="utf-8") as file:
        file.write(page.replace("</body>", POINTER))
    ended = subprocess.run([*browser(), "--virtual-time-budget=60000", "--dump-dom", f"file://{path}"], capture_output=True, text=True, timeout=300)
    text = re.search(r'<pre id="shown">(.*?)</pre>', ended.stdout, re.S)
    if not text or not text[1]:
        sys.exit(f"check_timeline.py: the browser ran no script: {ended.stderr[-400:]}")
    return json.loads(html.unescape(text[1]))


def main():
    report = sys.argv[1]
    with open(report, encoding="ascii") as file:
        lines = [line for line in file.read().splitlines() if line.startswith("c ")]
    page = subprocess.run([sys.executable, f"{HERE}/timeline.py", report], capture_output=True, text=True, check=True).stdout
    told = json.loads(re.search(r'<script type="application/json" id="attempts">(.*?)</script>', page, re.S)[1])
    with tempfile.TemporaryDirectory() as folder:
        begun = time.monotonic()
        shown = shown_by(page, folder)
        took = time.monotonic() - begun
        if len(sys.argv) > 2:
            with open(f"{folder}/page.html", "w", encoding="utf-8") as file:
                file.write(page)
            subprocess.run([*browser(), f"--screenshot={os.path.abspath(sys.argv[2])}", f"file://{folder}/page.html"], capture_output=True, timeout=300, check=True)
    wrong = [f"cycle {k}: {text}" for k, text in shown["cycles"].items() if text != f"{k}: {lines[int(k)]}"]
    for ends, text in shown["folds"].items():
        first, last = map(int, ends.split("-"))
        own = re.match(rf"{first} to {last}, processor (\d+): ", text)
        counts = {role: int(count) for count, role in re.findall(r"(\d+) (\w+)(?:,|$)", text[own.end() :])} if own else None
        roles = [line.split(" ")[5] for line in lines[first : last + 1] if own and line.split(" ")[1] == own[1]]
        if counts != {role: roles.count(role) for role in set(roles)}:
            wrong.append(f"fold {ends}: {text}")
    wrong += [f"band {k}: {text}" for k, text in shown["bands"].items() if text != told[int(k)]]
    if shown["attempts"] != len(told):
        wrong.append(f"{len(told)} attempts and {shown['attempts']} bands")
    if shown["fetches"]:
        wrong.append(f"{shown['fetches']} fetches are seen where they are hidden")
    if not shown["cycles"]:
        wrong.append("no cycle was pointed at")
    print(*(f"WRONG: {it}" for it in wrong), sep="\n", end="\n" if wrong else "")
    print(f"timeline: {len(shown['cycles'])} cycles, {len(shown['folds'])} folds, {len(shown['bands'])} bands pointed at in {took:.1f} s with the browser's start, {len(wrong)} wrong")
    sys.exit(1 if wrong else 0)


if __name__ == "__main__":
    main()
