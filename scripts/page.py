#!/usr/bin/env python3
"""Reads a page that `oershow --html` wrote in headless Chromium: that it has each part of the walk, and that a click marks its octets.

usage: page.py OERSHOW

Needs the program `chromium`. The messages are the rows of crates/oershow/stdin. What is expected is taken from the trees that OERSHOW
prints of them: where each part begins and ends, and where a message is refused. The exit status is 0 if the page shows the same.
"""
import html
import json
import pathlib
import re
import subprocess
import sys
import tempfile

top = pathlib.Path(__file__).resolve().parent.parent
crate = top / "crates/oershow"
LINE = re.compile(r" *(\d+) +(\d+|\?) +\S.*")
END = re.compile(r"refused at octet (\d+), in .*|\d+ of \d+ octets")
# Clicks at each part and at each octet, twice, since the second click takes the mark away.
CLICKS = """<script>
const found = [...document.querySelectorAll("section")].map((section) => {
  const octets = [...section.querySelectorAll(".octet")], parts = [...section.querySelectorAll(".part")];
  const on = (list) => list.flatMap((it, at) => (it.classList.contains("on") ? [at] : []));
  const clicked = (it, list) => { it.click(); const at = on(list); it.click(); return at; };
  return {
    parts: parts.map((it) => clicked(it, octets)),
    octets: octets.map((it) => clicked(it, parts)),
    refused: octets.findIndex((it) => it.classList.contains("refused")),
    left: on(octets).length + on(parts).length,
  };
});
const pre = document.createElement("pre");
pre.id = "found";
pre.textContent = JSON.stringify(found);
document.body.append(pre);
</script>
"""


def expected(tree, count):
    """What a page shows of a message of so many octets, by its tree."""
    parts, refused = [], -1
    for line in tree:
        if end := END.fullmatch(line):
            refused = int(end[1]) if end[1] else -1
        elif part := LINE.fullmatch(line):
            start = int(part[1])
            parts.append(list(range(start, count if part[2] == "?" else start + int(part[2]))))
    places = count + 1 if refused == count else count
    inner = [[number for number, part in enumerate(parts) if at in part][-1:] for at in range(places)]
    return {"parts": parts, "octets": inner, "refused": refused, "left": 0}


def main(program):
    program = str(pathlib.Path(program).resolve())
    table = str(crate / "data/letters.table")
    rows = [it for it in (crate / "stdin").read_text(encoding="utf-8").splitlines() if not it.startswith("--")]
    wanted = []
    for row in rows:
        tree = subprocess.run([program, table, "-"], input=row + "\n", capture_output=True, text=True, check=True).stdout.splitlines()
        wanted.append(expected(tree, len(re.sub(r"[ :]", "", row.partition(" ")[2])) // 2))
    with tempfile.TemporaryDirectory() as folder:
        page = pathlib.Path(folder) / "page.html"
        subprocess.run([program, "--html", str(page), table, "-"], input="\n".join(rows) + "\n", text=True, check=True)
        text = page.read_text(encoding="utf-8")
        page.write_text(text.replace("</body>", CLICKS + "</body>"), encoding="utf-8")
        words = ["chromium", "--headless", "--no-sandbox", "--disable-gpu", f"--user-data-dir={folder}/user", "--dump-dom", page.as_uri()]
        shown = subprocess.run(words, capture_output=True, text=True, check=True, timeout=120).stdout
    if re.search(r"(src|href|url)\s*[=(]", text):
        return "the page names another file"
    found = json.loads(html.unescape(re.search(r'<pre id="found">(.*?)</pre>', shown, re.S)[1]))
    if len(found) != len(wanted):
        return f"the page has {len(found)} messages of {len(wanted)}"
    for row, one, other in zip(rows, found, wanted):
        if one != other:
            return f"{row}: the page shows {one}, and the tree says {other}"
    print(f"{len(rows)} messages, {sum(len(it['parts']) for it in wanted)} parts, {sum(len(it['octets']) for it in wanted)} octets: each as the tree says")
    return 0


if __name__ == "__main__":
    if len(sys.argv) != 2:
        sys.exit(__doc__)
    sys.exit(main(sys.argv[1]))
