"""Reads a page of `chart --html`, and tries its script in Chromium, if that is installed."""
import json
import os
import re
import shutil
import subprocess

CHROMIUM = shutil.which("chromium")
# What is tried in the page: zoom so many times, scroll, click the first bar; then what the page shows is written into it.
TRIAL = """<script>
const times_clicked = %d;
for (let at = 0; at < times_clicked; at += 1) line.querySelectorAll('button')[1].click();
frame.scrollLeft = frame.scrollWidth / 2;
const first_bar = [...bars.children].find(it => titleOf(it));
if (first_bar) first_bar.dispatchEvent(new MouseEvent('click', {bubbles: true}));
const said = document.createElement('pre');
said.id = 'said';
said.textContent = JSON.stringify({
  zoom, most: Math.max(1, 100 / scale), width: Number(plot.getAttribute('width')), wide, line: told.textContent,
  lit: [...bars.querySelectorAll('.lit')].filter(it => titleOf(it)).map(it => titleOf(it).textContent),
  names: [...names.querySelectorAll('text')].map(it => it.textContent),
  beside: names.getBoundingClientRect().left - frame.getBoundingClientRect().left,
});
document.body.append(said);
</script>
"""


def parts_of(page, picture):
    """What stands before and behind the picture in a page. Raises ValueError if the page does not have it once."""
    head, *more = page.split(picture)
    if len(more) != 1:
        raise ValueError(f"the page has the picture {len(more)} times")
    return head, more[0]


def browse(words, path):
    words = [CHROMIUM, "--headless", "--no-sandbox", "--disable-gpu", "--window-size=1200,800", *words, f"file://{path}"]
    return subprocess.run(words, capture_output=True, timeout=120).stdout.decode()


def try_page(page, zooms, folder):
    """What the page shows after so many zooms and a click, and the bytes of its screenshot."""
    path, shot = os.path.join(folder, "page.html"), os.path.join(folder, "shot.png")
    with open(path, "wb") as file:
        file.write(page.replace(b"</body>", (TRIAL % zooms).encode() + b"</body>"))
    said = re.search(r'<pre id="said">(.*?)</pre>', browse(["--dump-dom"], path), re.S)
    if not said:
        raise ValueError("the script of the page fails")
    browse([f"--screenshot={shot}"], path)
    with open(shot, "rb") as file:
        return json.loads(said[1].replace("&gt;", ">").replace("&lt;", "<").replace("&amp;", "&")), file.read()


def flaw_of_page(shown, zooms, bars, labels):
    """What of a page is wrong after so many zooms and a click on its first bar, or None."""
    wanted = min(2.0**zooms, shown["most"])
    if abs(shown["zoom"] - wanted) > 1e-6 or abs(shown["width"] - shown["wide"] * wanted) > 1:
        return f"zoom {shown['zoom']} and width {shown['width']} of {shown['wide']}, and {wanted} is wanted"
    if shown["names"] != labels or abs(shown["beside"]) > 1:
        return f"names {shown['names']} at {shown['beside']}"
    sheet = bars[0].title.split(" ")[0].rpartition(".")[0] if bars else None
    lit = [it.title for it in bars if it.title.split(" ")[0].rpartition(".")[0] == sheet]
    if shown["lit"] != lit:
        return f"lit are {shown['lit']}, and the bars of {sheet} are {lit}"
    return None if not bars or f"[{sheet}]" in shown["line"] else f"the line says {shown['line']}"
