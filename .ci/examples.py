"""Whether the program says of each example what the documents say that it does.

Two kinds of places are read. In README.md the rows of the tour: words, what they show, and the report. In docs/LANGUAGE.md each module that stands
there as a block of lines: behind it, `cdle build NAME` and the report, each between backquotes. Each is run in a folder of its own."""
import re
import shutil
import subprocess
import sys
import tempfile
from pathlib import Path

TOP = Path(__file__).resolve().parent.parent
PROGRAM = TOP / "crates/cdle/out/cdle"


def tour():
    """The words and the report of each row of the tour."""
    text = (TOP / "README.md").read_text()
    part = text.split("## A tour of the examples", 1)[1].split("\n## ", 1)[0]
    return re.findall(r"^\| `([^`]+)` \|.*\| `([^`]+)` \|$", part, re.M)


def modules():
    """The name, the text and the report of each module that stands in the description of the language."""
    text = (TOP / "docs/LANGUAGE.md").read_text()
    found = []
    for block in re.finditer(r"(?:^    .*\n|^\n)+", text, re.M):
        lines = re.sub(r"^    ", "", block.group(), flags=re.M).strip("\n")
        name = re.match(r"module (\w+)\.", lines)
        if name is None:
            continue
        told = re.match(r"`cdle build (\w+)` says `([^`]+)`", text[block.end():])
        if told is None or told.group(1) != name.group(1):
            sys.exit(f"docs/LANGUAGE.md does not say what is said of the module {name.group(1)}")
        found.append((name.group(1), lines + "\n", told.group(2)))
    return found


def said(folder, words):
    ended = subprocess.run([str(PROGRAM), *words.split()], cwd=folder, capture_output=True, text=True)
    return ended.stdout


def main():
    rows = tour()
    texts = modules()
    if not rows or not texts:
        sys.exit("no examples are found in the documents")
    failed = 0
    for words, report in rows:
        with tempfile.TemporaryDirectory() as folder:
            shutil.copytree(TOP / "examples", folder, dirs_exist_ok=True)
            got = said(folder, words)
        if got != report + "\n":
            failed += 1
            print(f"README.md: `cdle {words}` says {got!r}, not {report!r}")
    for name, text, report in texts:
        with tempfile.TemporaryDirectory() as folder:
            (Path(folder) / f"{name}.cdle").write_text(text)
            got = said(folder, f"build {name}")
        if got != report + "\n":
            failed += 1
            print(f"docs/LANGUAGE.md: `cdle build {name}` says {got!r}, not {report!r}")
    print(f"examples: {len(rows) + len(texts) - failed} passed, {failed} failed")
    sys.exit(failed != 0)


main()
