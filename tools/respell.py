#!/usr/bin/env python3
"""Spells the project's own names in specs/, proofs/, clauses, must-fail edits and pages as today's Rattle does: words in snake
case, types and facts in camel case. Run once, right after the port. Names of the kit's library, and names that the check makes
from the code, stay. Prints each place where two names would fall together, and then writes nothing."""

import pathlib
import re
import sys

ROOT = pathlib.Path(__file__).resolve().parent.parent
CRATES = sorted(path for path in (ROOT / "crates").iterdir() if (path / "src").is_dir())
OWN_CRATES = {path.name for path in CRATES}
TOKEN = re.compile(r"[^\s(){}.;,@\"«»`|\[\]]+")
USE = re.compile(r"\buse ([^\s;{]+?)(?:\.\{([^}]*)\})?(?=[;\s])")
DECLARED = re.compile(r"^\s*(?:(?:abbrev|unfoldable|pub|data|record)\s+)*([^\s(){};.,\"]+)(?:\s*\{[^{}]*\}|\s*\([^()]*\))* :(?!=)", re.M)
MADE = re.compile(r"\.(?:Statement|Tie|Goals|Given)$|\.specs\.declared\b")

# Where the plain spelling is already the name of a field, a variant or a variable of the code.
APART = {
    "Bad-frame": "IsBadFrame",
}


def respelled(name):
    if name in APART:
        return APART[name]
    parts = name.split("-")
    if re.match(r"[A-Z][a-z0-9]+$", parts[0]) and parts[0] not in ("Ws",):
        return "".join(part[:1].upper() + part[1:] for part in parts)
    return "_".join(parts)


def has_dash(token):
    return re.search(r"(?<=\w|')-(?=\w)", token) and not token.startswith("-")


def items(block):
    for item in block.split(","):
        words = item.split()
        if words:
            yield words[-1]
            yield words[0]


def borrowed(text):
    """The names that a file takes from the kit's library, or from what the check makes of the code."""
    names = set()
    for path, block in USE.findall(text):
        steps = path.split(".")
        own = steps[0] == "Rattle" and len(steps) > 1 and steps[1] in OWN_CRATES
        if not own or MADE.search(path):
            names.update(items(block or steps[-1]))
    return names


def turn(text, own, kept, everything):
    """The text with its own names respelled: behind a dot only names that the project declares, elsewhere all."""
    out, last = [], 0
    for found in TOKEN.finditer(text):
        token = found.group()
        if not has_dash(token):
            continue
        behind_dot = text[found.start() - 1 : found.start()] == "." and found.start() > 0
        head = re.search(r"([^\s(){}.;,]+)\.$", text[max(0, found.start() - 40) : found.start()])
        if behind_dot and head and head.group(1) in ("tie", "goal", "L"):
            continue
        if token in kept and not behind_dot:
            continue
        if token in own or (everything and not behind_dot):
            out += [text[last : found.start()], respelled(token)]
            last = found.end()
    return "".join(out) + text[last:]


def comment_start(line):
    found = re.search(r"(?<![^\s(){};,])--(?=\s|$)", line)
    return found.start() if found else len(line)


def turn_antt(text, own):
    kept = borrowed(text)
    lines = []
    for line in text.split("\n"):
        at = comment_start(line)
        spans = re.sub(r"`[^`]*`", lambda span: turn(span.group(), own, set(), False), line[at:])
        lines.append(turn(line[:at], own, kept, True) + spans)
    return "\n".join(lines)


CLAUSE = re.compile(r"ghost use [^;]*;|(?<=\n)    (?:requires|ensures)\b[^\n]*(?:\n        [^\n]*)*|ghost \w+: \{[^}]*\}")


def turn_rt(text, own):
    return CLAUSE.sub(lambda found: turn(found.group(), own, borrowed(text), False), text)


def texts():
    for crate in CRATES:
        for folder in ("specs", "proofs"):
            yield from sorted((crate / folder).rglob("*.antt"))


def main():
    own = set()
    for path in texts():
        text = path.read_text()
        own |= {name for name in DECLARED.findall(text) if has_dash(name)} - borrowed(text)
    written, faults = {}, []
    for path in texts():
        text = path.read_text()
        new = turn_antt(text, own)
        written[path] = new
        here = {}
        for token in set(TOKEN.findall(text)):
            kept = token in borrowed(text) or not has_dash(token)
            here.setdefault(token if kept else respelled(token), set()).add(token)
        faults += [f"{path.relative_to(ROOT)}: {sorted(olds)}" for olds in here.values() if len(olds) > 1]
    for crate in CRATES:
        for path in sorted((crate / "src").rglob("*.rt")):
            written[path] = turn_rt(path.read_text(), own)
        for path in sorted(crate.glob("must-fail/*.edit")):
            text = path.read_text()
            written[path] = "\n".join(turn(line, own, set(), False) if line[:4] in ("old:", "new:") else line for line in text.split("\n"))
    for path in [ROOT / "README.md", *sorted((ROOT / "docs").glob("*.md"))]:
        written[path] = re.sub(r"`[^`\n]*`", lambda span: turn(span.group(), own, set(), False), path.read_text())
    if faults and "--force" not in sys.argv:
        print("\n".join(faults))
        return 1
    if "--check" not in sys.argv:
        for path, text in written.items():
            path.write_text(text)
    return 0


if __name__ == "__main__":
    sys.exit(main())
