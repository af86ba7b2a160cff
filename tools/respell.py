#!/usr/bin/env python3
"""Brings the repository's own definitions, fields, constructors and lemmas to snake case, after the port.py of the kit.

usage: python3 tools/respell.py [--list]     at the top of the repository, once; --list prints each old name with the new one and changes nothing

Names that the files of specs/ and proofs/ declare (answers of proof files and names of types aside) are changed wherever they are cited: in .antt files,
in clauses and `ghost use` lines of .rt files, in must-fail edits and those of evidence/, and between back-ticks of comments and pages. Names of the kit, and names that
Rattle makes, stay.
"""

import glob
import re
import sys

KINDS = r"abbrev|unfoldable|opaque|pub|private"
NAME = r"[^\s(){}\[\],;.:@\"⌜⌝=λ→]+"
DECLARED = re.compile(rf"^(\s*)((?:(?:{KINDS})\s+)*)({NAME}(?:\s+{NAME})*)\s+:\s")
TYPE = re.compile(rf"^\s*(?:(?:{KINDS})\s+)*(?:data|record)\s+(?:(?:{KINDS})\s+)*({NAME})")
TOKEN = re.compile(r"[\w+'μ⊎≡×₀-₉ₛ\u2080-\u2089-]+")
NOT_NAMES = {"let", "use", "module", "data", "record", "in", "if", "then", "else", "where", "elim", "rw", "at", "|", "ghost", "mod", "open"}
# Two names that would fall together: the lemma of the two gets `_lem`, as the kit spells a lemma that would have its function's name. The fields of the
# record of shortcuts get `_breaks`, the word of their types.
BREAKS = ["children-left", "freed-in-between", "frees-nothing", "held-at-ceiling", "named-as-dead", "names-stay", "one-hold-for-both"]


def antt():
    return sorted(p for part in ("specs", "proofs") for p in glob.glob(f"crates/*/{part}/**/*.antt", recursive=True))


def read(path):
    with open(path, encoding="utf-8") as f:
        return f.read()


def declared():
    """The names that files of specs/ and proofs/ declare, each with the files that do."""
    found = {}
    for path in antt():
        if path.endswith("Proof.antt"):
            continue
        for line in read(path).split("\n"):
            text = line.split("--")[0] if "--" in line else line
            of_type = TYPE.match(text)
            if of_type:
                continue
            m = DECLARED.match(text + " ")
            if not m:
                continue
            names = m.group(3).split()
            if names[0] in NOT_NAMES:
                continue
            for name in names:
                found.setdefault(name, set()).add(path)
    return found


def imported():
    """The names that are imported from the kit, in any file."""
    own = {p.split("/")[1] for p in glob.glob("crates/*/src")}
    found = set()
    for path in antt() + glob.glob("crates/*/src/**/*.rt", recursive=True):
        for m in re.finditer(r"\buse\s+([\w.+-]+?)\.\{([^}]*)\}", read(path)):
            parts = m.group(1).split(".")
            if parts[0] == "Rattle" and parts[1] in own:
                continue
            for item in m.group(2).split(","):
                found.add(item.split(" as ")[0].strip())
    return found


def snake(word):
    word = re.sub(r"(?<=[a-z0-9])([A-Z])(?=[a-z]|$|-|_)", lambda m: "_" + m.group(1).lower(), word)
    word = re.sub(r"(?<=[a-z0-9])([A-Z])", lambda m: "_" + m.group(1).lower(), word)
    return word.replace("-", "_")


def new_name(name):
    if name in BREAKS:
        return snake(name) + "_breaks"
    if re.match(r"^[A-Z][A-Za-z0-9]*$", name) or not re.match(r"^[\w'-]+$", name):
        return name
    head = name.split("-")[0]
    if head[:1].isupper():
        rest = name[len(head) + 1 :]
        if rest[:1].isupper():
            return head + rest
        return snake(head.lower() + "-" + rest)
    return snake(name)


def renaming():
    names = declared()
    kit = imported()
    table = {}
    for name in sorted(names):
        to = new_name(name)
        if to != name and name not in kit:
            table[name] = to
    camel = {to for name, to in table.items() if "-" not in name}
    for name, to in table.items():
        if "-" in name and (to in camel or to in names):
            table[name] = to + "_lem"
    return table, names, kit


def lemmas(table, names):
    """Lemmas that have the new name of a definition already: for each file that declares or imports one, what changes there."""
    camel = {to for name, to in table.items() if "-" not in name}
    found = {}
    for name in sorted(camel & set(names)):
        for path in sorted(names[name]):
            if "/specs/" in path:
                raise SystemExit(f"{path} declares {name}, the new name of another definition")
            crate, module = re.match(r"crates/(\w+)/proofs/(.*)\.antt$", path).groups()
            whole = f"Rattle.{crate}.proofs." + module.replace("/", ".")
            for file in antt():
                listed = [m.group(1) for m in re.finditer(rf"\buse\s+{re.escape(whole)}\.\{{([^}}]*)\}}", read(file))]
                if file == path or any(name in [i.strip() for i in items.split(",")] for items in listed):
                    found.setdefault(file, {})[name] = name + "_lem"
    return found


def turned(table, text):
    return TOKEN.sub(lambda m: table.get(m.group(0), m.group(0)), text)


def turned_here(here, text):
    """As `turned`, but for a field, a path of a module and what is imported from elsewhere, which keep their names."""
    return re.sub(r"(?<![\w.'-])[\w']+(?![\w'.-])", lambda m: here.get(m.group(0), m.group(0)), text)


def quoted(table, text):
    return re.sub(r"`[^`\n]+`", lambda m: turned(table, m.group(0)), text)


def turn_antt(table, text):
    lines = []
    for line in text.split("\n"):
        at = re.search(r"(^|\s)--(\s|$)", line)
        if at:
            lines.append(turned(table, line[: at.start()]) + quoted(table, line[at.start() :]))
        else:
            lines.append(turned(table, line))
    return "\n".join(lines)


def turn_rt(table, text):
    lines = []
    for line in text.split("\n"):
        at = line.find("//")
        code, comment = (line, "") if at < 0 else (line[:at], line[at:])
        if '"' not in code or code.lstrip().startswith(("requires", "ensures", "ghost")):
            code = turned(table, code)
        lines.append(code + quoted(table, comment))
    return "\n".join(lines)


def turn_edit(table, text):
    return "\n".join(turned(table, line) if line.startswith(("old:", "new:")) else line for line in text.split("\n"))


def main():
    table, names, _ = renaming()
    if "--list" in sys.argv:
        for name in sorted(table):
            print(name, table[name])
        return
    for path, here in lemmas(table, names).items():
        before = read(path)
        with open(path, "w", encoding="utf-8") as f:
            f.write(turned_here(here, before))
    turns = [(antt(), turn_antt), (glob.glob("crates/*/src/**/*.rt", recursive=True), turn_rt)]
    turns.append((glob.glob("crates/*/must-fail/*.edit") + glob.glob("evidence/*/*.edit"), turn_edit))
    turns.append((["README.md"] + glob.glob("docs/*.md") + glob.glob("evidence/*.md"), quoted))
    for paths, turn in turns:
        for path in paths:
            before = read(path)
            after = turn(table, before)
            if after != before:
                with open(path, "w", encoding="utf-8") as f:
                    f.write(after)
    print(f"{len(table)} names respelt")


if __name__ == "__main__":
    main()
