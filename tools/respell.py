#!/usr/bin/env python3
"""Brings the repository's own names to the spelling of today's Rattle: python3 tools/respell.py, once, at the top, after port.py.

tools/respell.txt has a line for each name: the old spelling and the new one. A type is in camel case with no dash; a word is
in snake case; in a lemma's name a dash stays only between two names. Names of src/ (functions, types, fields), strings,
inputs and outputs keep their spelling; comments are left as they are. The crate `bytes`, whose name is a library of Rattle's
now, becomes `codec`; and std's AllByRecursion stands under its own name, since std's All is another definition."""
import pathlib
import re
import subprocess

top = pathlib.Path(__file__).resolve().parent.parent
WORD = re.compile(r"[A-Za-z][\w'⊎ℕ]*(?:-[\w'⊎ℕ+*]+)*")
names = dict(line.split() for line in (top / "tools/respell.txt").read_text().splitlines())


def respelled(code):
    return WORD.sub(lambda m: names.get(m.group(0), m.group(0)), code)


def unaliased(text, comment):
    """The text with AllByRecursion under its own name."""
    alias = "AllByRecursion as All"
    if alias not in text:
        return text
    lines = []
    for line in text.replace(alias, "AllByRecursion").split("\n"):
        at = re.search(comment, line)
        end = 0 if re.match(r"\s*(ghost )?use ", line) else at.start() if at else len(line)
        lines.append(re.sub(r"(?<![\w'-])All(?![\w'-])", "AllByRecursion", line[:end]) + line[end:])
    return "\n".join(lines)


def line_of(line, comment):
    """The line with its names respelled, but for its comment."""
    at = re.search(comment, line)
    end = at.start() if at else len(line)
    return respelled(line[:end]) + line[end:]


def moved(text):
    text = re.sub(r"\bRattle\.bytes\.", "Rattle.codec.", text)
    # two that port.py leaves in the clauses of calls that take several `&mut`
    text = re.sub(r"(?<=labels)\.entry\.now\b", ".old", text)
    text = re.sub(r"(?<=labels)\.exit\.now\b", ".new", text)
    return re.sub(r"(?<![\w:])bytes::", "codec::", text)


for path in sorted(top.glob("crates/**/*")):
    if path.suffix not in (".antt", ".rt", ".edit") or "out" in path.parts:
        continue
    comment = r"(^|\s)--(\s|$)" if path.suffix == ".antt" else r"(^|\s)//"
    text = path.read_text()
    if path.suffix != ".edit":
        text = unaliased("\n".join(line_of(line, comment) for line in text.split("\n")), comment)
    path.write_text(moved(text))

for old, new in [("crates/bytes", "crates/codec"), ("planted/bytes.txt", "planted/codec.txt")]:
    if (top / old).exists():
        subprocess.run(["git", "mv", old, new], cwd=top, check=True)
crates = top / "crates.txt"
crates.write_text(re.sub(r"\bbytes\b", "codec", crates.read_text()))
