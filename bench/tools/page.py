"""Tries a page of `draw --page` in a browser.

    python3 bench/tools/page.py PAGE.html [CHROMIUM] [SHOT.png]

PAGE.html is what `draw --page` wrote of a run or a trace, and CHROMIUM a program that behaves as
headless Chromium does; if it is left out, the one that this machine has. The pointer is put on a
cell, and arrow keys are pressed; what the page then says is compared with the rows in it, which are
read here anew. Prints a line for each try, and ends with 1 if one fails. A picture of the page,
after the last key, is written to SHOT.png if that is named. If there is no Chromium, a line says
so, and the status is 0.
"""

import html
import pathlib
import re
import shutil
import subprocess
import sys
import tempfile

ROWS = re.compile("<pre id='rows' hidden>\n(.*?)</pre>", re.DOTALL)
SAID = re.compile('<pre id="said">(.*?)</pre>', re.DOTALL)

# Puts the pointer on the cells of a node in a configuration, and presses keys.
ACTS = """
<script>
const front = 'node %d, configuration %d';
for (const group of document.querySelectorAll('g')) {
  const title = group.querySelector('title');
  const told = title ? title.textContent : '';
  if (told.startsWith(front) && /^[:,]/.test(told.slice(front.length)))
    group.dispatchEvent(new PointerEvent('pointerover', { bubbles: true }));
}
for (const key of %s)
  document.dispatchEvent(new KeyboardEvent('keydown', { key, cancelable: true }));
</script>
"""


def lines_of(rows):
    """What the rows say of each configuration and node, as the page is to show it."""
    said = {}
    for line in rows.splitlines():
        words = line.split(" ")
        if words[0] == "row":
            for node, word in enumerate(words[2:]):
                said.setdefault((int(words[1]), node), []).append(word)
        if words[0] == "at":
            rest = " ".join(words[4:]).replace(" votes", "\n    hears votes", 1)
            rest = rest.replace(" left said", "\n    hears left said", 1)
            said.setdefault((int(words[1]), int(words[3])), []).append(rest)
    return said


def run(chromium, page, words):
    command = [chromium, "--headless", "--no-sandbox", "--disable-gpu", *words, page.as_uri()]
    return subprocess.run(command, capture_output=True, text=True, timeout=60)


def said_after(chromium, text, acts, folder, shot):
    """What a page says after some acts."""
    page = folder / "page.html"
    page.write_text(text.replace("</body>", acts + "</body>"))
    if shot:
        run(chromium, page, [f"--screenshot={shot}", "--window-size=1000,700"])
    found = SAID.search(run(chromium, page, ["--dump-dom"]).stdout)
    return html.unescape(found.group(1)) if found else "nothing"


def tries(said):
    """A cell to begin with, keys, and the cell at which these end."""
    columns = sorted({t for t, _ in said})
    nodes = sorted({node for _, node in said})
    t, node = columns[0], nodes[0]
    later, other = columns[min(1, len(columns) - 1)], nodes[min(1, len(nodes) - 1)]
    yield (t, node), [], (t, node)
    yield (t, node), ["ArrowRight"], (later, node)
    yield (t, node), ["ArrowRight", "ArrowLeft"], (t, node)
    yield (t, node), ["ArrowLeft", "ArrowUp"], (t, node)
    yield (columns[-1], nodes[-1]), ["ArrowRight", "ArrowDown"], (columns[-1], nodes[-1])
    yield (t, node), ["ArrowDown", "ArrowRight"], (later, other)


def found():
    """The Chromium of this machine, or None."""
    names = ("chromium", "chromium-browser", "google-chrome", "chrome", "headless_shell")
    return next((it for it in names if shutil.which(it)), None)


def main():
    if len(sys.argv) < 2:
        sys.exit(__doc__)
    text = pathlib.Path(sys.argv[1]).read_text()
    chromium = sys.argv[2] if len(sys.argv) > 2 else found()
    if chromium is None:
        print("page: not tried: there is no Chromium here")
        return 0
    shot = pathlib.Path(sys.argv[3]).resolve() if len(sys.argv) > 3 else None
    said = lines_of(ROWS.search(text).group(1))
    failed = 0
    with tempfile.TemporaryDirectory() as folder:
        for (t, node), keys, (last, end) in tries(said):
            wanted = "\n".join([f"configuration {last}, node {end}", *said[last, end]])
            acts = ACTS % (node, t, keys)
            got = said_after(chromium, text, acts, pathlib.Path(folder), shot)
            same = got == wanted
            failed += not same
            print(f"configuration {t} node {node} {' '.join(keys)}", "ok" if same else repr(got))
    return 1 if failed or not said else 0


if __name__ == "__main__":
    sys.exit(main())
