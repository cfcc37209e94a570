#!/usr/bin/env python3
# Writes the table of planted bugs in docs/PROMISES.md anew from the crates' must-fail/ folders and the logs of gate runs:
# tools/edits_table.py LOG.. . A log has a line for each edit that was tried, with the first thing that the prover said; a line of
# the table whose edit was not tried stays.
import pathlib
import re
import sys

LAYERS = [
    ("dates", "dates"), ("coded", "search"), ("calendars", "calendars"), ("text", "text"), ("holidays", "closed days"),
    ("terms", "terms"), ("day_table", "day table"), ("power", "power"), ("wheat", "wheat"), ("single_month", "one month"), ("products", "products"),
    ("amounts", "amounts"), ("ledger", "ledger"), ("book", "book"), ("figures", "figures"),
    ("history", "history"), ("journal", "journal"), ("rows", "sheet rows"), ("sheet", "sheet"), ("day_sheet", "day sheet"),
    ("iso", "a life"), ("questions", "a life"), ("life", "a life"), ("reckoning", "a life"), ("setup", "a life"),
    ("telling", "walkthrough"), ("walkthrough_money", "walkthrough"),
]
top = pathlib.Path(__file__).resolve().parent.parent


def cell(text):
    return "`" + re.sub(r"\s+", " ", text.strip()).replace("|", r"\|") + "`"


def refusals(log):
    """What was not proved, by crate and edit."""
    said = {}
    for line in log.read_text(errors="replace").splitlines():
        found = re.match(r"rt: must-fail (\S+?)/(\S+?)\.edit: refused, as it must be: (.*)", line)
        if found:
            place = re.search(r"((?:src|proofs)/\S+?\.(?:rt|antt))", found[3])
            goal = re.search(r"\(`([^`]+)`\)|error: `([^`]+)`", found[3])
            where = f"`{place[1]}`" if place else "?"
            what = f": `{goal[1] or goal[2]}`" if goal else ""
            said[found[1], found[2]] = where + what
    return said


page = top / "docs" / "PROMISES.md"
text = page.read_text()
stood = {line.rsplit(" | ", 1)[0]: line for line in text.splitlines() if line.startswith("| ")}
said = {}
for log in sys.argv[1:]:
    said |= refusals(pathlib.Path(log))
rows = []
for crate, layer in LAYERS:
    for edit in sorted((top / "crates" / crate / "must-fail").glob("*.edit")):
        lines = edit.read_text().splitlines()
        old = [line[5:] for line in lines if line.startswith("old: ")]
        new = [line[5:] for line in lines if line.startswith("new: ")]
        change = ", ".join(f"{cell(a)} → {cell(b)}" for a, b in zip(old, new))
        row = f"| {layer} | {edit.stem.replace('_', ' ')} | {change}"
        refused = said.get((crate, edit.stem), "not in the logs")
        rows.append(stood[row] if row in stood and (crate, edit.stem) not in said else f"{row} | {refused} |")
head = text[: text.index("| Layer | Bug | Edit |")]
page.write_text(head + "| Layer | Bug | Edit | Not proved |\n| --- | --- | --- | --- |\n" + "\n".join(rows) + "\n")
print(len(rows), "edits")
