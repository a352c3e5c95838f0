"""Plants bugs one at a time and says which the prover refuses: python3 planted/try.py [--write] CRATE [NAME ..].

planted/CRATE.txt holds the bugs, in blocks of four lines (name:, file:, old:, new:) with a blank line between; `old` stands
once in the file. For each it prints its name, whether it is refused or PROVED, and the place of the first error.
With --write the crate's section of docs/PLANTED.md is brought up to date; a bug that was not tried keeps its outcome.

The bugs are planted in a copy of the repository outside it. What out/ has of the crate and of those it builds on is copied
too, so that each try only proves again what the bug touches: after `rt check` in the crate's folder a try takes seconds."""
import pathlib
import re
import shutil
import subprocess
import sys
import tempfile
import time

top = pathlib.Path(__file__).resolve().parent.parent
page = top / "docs/PLANTED.md"
HEAD = "| bug | was | becomes | outcome | in the gate |\n|---|---|---|---|---|\n"


def bugs(crate):
    """The bugs of a crate, each a dict of name, file, old and new."""
    for block in re.split(r"\n\n+", (top / f"planted/{crate}.txt").read_text().strip()):
        yield dict(line.split(": ", 1) if ": " in line else (line.rstrip(":"), "") for line in block.split("\n"))


def entries():
    """The lines of crates.txt: the crate, those it builds on, and the line. A static library has a word more before the colon."""
    for line in (top / "crates.txt").read_text().splitlines():
        name, colon, rest = line.split("#")[0].partition(":")
        if colon:
            yield name.split()[0], rest.split(), line


def below(crate):
    """The crates that a crate builds on, itself among them."""
    deps = {name: rest for name, rest, _ in entries()}
    found, todo = set(), [crate]
    while todo:
        name = todo.pop()
        if name not in found:
            found.add(name)
            todo += deps.get(name, [])
    return found


def copied(crate, copy):
    """Copies the sources, and what is proved already of the crate and of those below it."""
    wanted = below(crate)
    # a line without its crate would be refused
    (copy / "crates.txt").write_text("".join(line + "\n" for name, _, line in entries() if name in wanted))
    for name in wanted:
        if (top / "crates" / name).is_dir():
            shutil.copytree(top / "crates" / name, copy / "crates" / name, ignore=shutil.ignore_patterns("must-fail"))


def checked(crate, copy):
    """Whether the crate in the copy is proved: True, False, or None where the compiler refuses it; and what was said."""
    run = subprocess.run(["rt", "check"], cwd=copy / "crates" / crate, capture_output=True, text=True)
    said = run.stdout + run.stderr
    # a line for each crate that was checked, this one's last
    verdicts = re.findall(r"^logic=(\S+)", said, re.M)
    if run.returncode == 0 and verdicts and verdicts[-1] == "proved":
        return True, said
    if run.returncode == 1 and verdicts and verdicts[-1] == "not-proved":
        return False, said
    return None, said


def first_error(said, folder):
    """The place of the first error, seen from the crate's folder."""
    at = re.search(r"^([^ \n]+:\d+:\d+): error", said, re.M) or re.search(r"^note: ([^ \n]+:\d+:\d+):", said, re.M)
    return at.group(1).replace(f"{folder}/", "").removeprefix("./") if at else "no place"


def tried(bug, crate, copy):
    """What became of a bug: an outcome for the table ('' for a bad edit), and a line to print."""
    folder = copy / "crates" / crate
    file = folder / bug["file"]
    text = file.read_text()
    if text.count(bug["old"]) != 1:
        return "", f"BAD EDIT: its old text stands {text.count(bug['old'])} times in {bug['file']}"
    file.write_text(text.replace(bug["old"], bug["new"]))
    began = time.time()
    proved, said = checked(crate, copy)
    took = f"({time.time() - began:.0f} s)"
    file.write_text(text)
    if proved is None:
        start = "\n    ".join([line for line in said.splitlines() if "error" in line][:3] or said.splitlines()[-3:])
        return "", f"BAD EDIT: the compiler refuses it {took}\n    {start}"
    if proved:
        return "**proved**", f"PROVED: the contracts do not see it {took}"
    place = first_error(said, folder)
    return f"refused, {place.split(':')[0]}", f"refused, first at {place} {took}"


def code(text):
    return "`" + text.replace("|", "\\|") + "`" if text else "(nothing)"


def in_gate(crate, bug):
    """Whether the gate tries the bug: an edit of its name stands in must-fail, and is the same."""
    edit = top / f"crates/{crate}/must-fail/{bug['name']}.edit"
    if not edit.exists():
        return False
    if edit.read_text() != "".join(f"{key}: {bug[key]}\n" for key in ["file", "old", "new"]):
        sys.exit(f"{edit.relative_to(top)} is not the bug of that name in planted/{crate}.txt")
    return True


def section(crate, outcomes, old):
    """The crate's section, with the outcomes of this run, and those of the old section for bugs that stand as they stood."""
    rows = ""
    for bug in bugs(crate):
        start = f"| {bug['name']} | {code(bug['old'])} | {code(bug['new'])} | "
        outcome = outcomes.get(bug["name"])
        if outcome is None:
            kept = [line for line in old.splitlines() if line.startswith(start)]
            outcome = kept[0][len(start):].split(" | ")[0].strip() if kept else ""
        rows += f"{start}{outcome} | {'yes' if in_gate(crate, bug) else ''} |\n"
    return f"## {crate}\n\n{HEAD}{rows}"


def write_page(crate, outcomes):
    """Puts the crate's section where its name belongs in the alphabet."""
    front, *parts = re.split(r"^(?=## )", page.read_text(), flags=re.M)
    sections = {part.split("\n")[0][3:]: part.rstrip("\n") + "\n" for part in parts}
    sections[crate] = section(crate, outcomes, sections.get(crate, ""))
    page.write_text(front + "\n".join(sections[name] for name in sorted(sections)))


def main():
    words = [word for word in sys.argv[1:] if word != "--write"]
    if not words:
        sys.exit(__doc__)
    crate, only = words[0], set(words[1:])
    for bug in bugs(crate):
        in_gate(crate, bug)
    outcomes, bad = {}, 0
    with tempfile.TemporaryDirectory() as scratch:
        copy = pathlib.Path(scratch).resolve()
        copied(crate, copy)
        proved, said = checked(crate, copy)
        if not proved:
            sys.exit(f"{crate} is not proved as it stands:\n{said[-2000:]}")
        for bug in bugs(crate):
            if not only or bug["name"] in only:
                outcome, line = tried(bug, crate, copy)
                if outcome:
                    outcomes[bug["name"]] = outcome
                else:
                    bad += 1
                print(f"{crate}/{bug['name']}: {line}", flush=True)
    if "--write" in sys.argv:
        write_page(crate, outcomes)
    refused = sum(outcome.startswith("refused") for outcome in outcomes.values())
    print(f"{crate}: {refused} refused, {len(outcomes) - refused} proved, {bad} bad edits")
    sys.exit(0 if refused == len(outcomes) and bad == 0 else 1)


main()
