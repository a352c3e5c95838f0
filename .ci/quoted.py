"""Holds the code that docs/KINDS.md quotes to the crate that the gate proves."""
import pathlib
import sys

top = pathlib.Path(__file__).resolve().parent.parent
page = (top / "docs/KINDS.md").read_text()
for name in ["crates/dome/src/lib.rt", "crates/dome/specs/Dome.antt"]:
    if (top / name).read_text() not in page:
        sys.exit(f"docs/KINDS.md does not quote {name} as it stands: copy the file into the page")
print("docs/KINDS.md quotes crate dome as it stands")
