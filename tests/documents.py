#!/usr/bin/env python3
"""Whether the documents are true of the repository, as far as a program can tell. `tests/documents.sh` runs it, once for each test: given the test's name it
prints what offends, a line each, and nothing where all is well. docs/CHANGES.md, docs/DESIGN-PASS.md, docs/LOOK-BACK.md and docs/PORT.md are history: only their links are looked at. Standard library only."""
import os
import re
import subprocess
import sys
import tempfile
from collections import Counter, defaultdict

from dependencies import differences, listed

ROOT = os.path.dirname(os.path.dirname(os.path.abspath(__file__)))
HISTORY = {"docs/CHANGES.md", "docs/DESIGN-PASS.md", "docs/LOOK-BACK.md", "docs/PORT.md"}
# Names of the kit: nothing here can say whether they exist.
KIT = {"arrayvec", "io", "lib", "libc", "memchr", "os", "std"}


def path(*parts):
    return os.path.join(ROOT, *parts)


def text_of(name):
    # Lines of a session may have any byte.
    with open(path(name), encoding="utf-8", errors="surrogateescape", newline="\n") as file:
        return file.read()


def lines_of(name):
    lines = text_of(name).split("\n")
    return lines[:-1] if lines[-1] == "" else lines


def folder(*parts):
    return sorted(os.listdir(path(*parts))) if os.path.isdir(path(*parts)) else []


def files_below(*parts):
    for here, folders, names in os.walk(path(*parts)):
        folders[:] = [one for one in folders if one not in (".git", "target", "out")]
        for name in names:
            yield os.path.relpath(os.path.join(here, name), ROOT)


# What is there.


class Module:
    """The names that a file defines, and for each of its types the fields, constructors, functions or constants."""

    def __init__(self):
        self.names, self.parts = set(), defaultdict(set)


# `pub record Name (p : P) : Type 0 where`, `abbrev pub name : Type`, and inside a type `  pub one two : Type`.
LOGIC_TYPE = re.compile(r"( *)(?:pub )?(?:record|data) ([^\s:(){}]+)")
LOGIC_NAME = re.compile(r"( {0,4})(?:(?:abbrev|unfoldable|pub) )*([^\s:=(){}|→.]+(?: [^\s:=(){}|→.]+)*) :(?: |$)")


def read_logic(name, module):
    owner, indent = None, 0
    for line in lines_of(name):
        made, named = LOGIC_TYPE.match(line), LOGIC_NAME.match(line)
        if made:
            owner, indent = made.group(2), len(made.group(1))
            module.names.add(owner)
        elif named and not line.lstrip().startswith("--"):
            names = named.group(2).split(" ")
            if len(named.group(1)) <= indent:
                owner, indent = None, 0
            if owner:
                module.parts[owner].update(names)
            module.names.update(names)


CODE_NAME = re.compile(r"( *)(?:pub(?:\(crate\))? )?(?:extern \"C\" |final )?(fn|struct|enum|trait|const|static|type|mod) (\w+)")
CODE_PART = re.compile(r" +(?:pub )?(\w+)(?:[:,({]| \{| = |$)")
CODE_TYPE = re.compile(r"impl(?:<[^>]*>)? (?:\w+(?:<[^>]*>)? for )?(\w+)")


def read_code(name, module):
    owner = None
    for line in lines_of(name):
        line = re.sub(r"#\[[^\]]*\] *", "", line)
        opened, made = CODE_TYPE.match(line), CODE_NAME.match(line)
        if opened:
            owner = opened.group(1)
        elif made:
            module.names.add(made.group(3))
            if made.group(1) and owner:
                module.parts[owner].add(made.group(3))
            elif made.group(2) in ("struct", "enum"):
                owner = made.group(3)
        elif line.startswith("}"):
            owner = None
        elif owner and CODE_PART.match(line):
            module.parts[owner].add(CODE_PART.match(line).group(1))


class Repository:
    def __init__(self):
        self.crates = list(listed(ROOT))
        self.logic, self.code, self.proved = defaultdict(Module), defaultdict(Module), set()
        for crate in self.crates:
            self.read_crate(crate)
        self.edits = {f"{crate}/must-fail/{name[:-5]}" for crate in self.crates
                      for name in folder("crates", crate, "must-fail") if name.endswith(".edit")}
        self.edits |= {f"evidence/{crate}/{name[:-5]}" for crate in folder("evidence")
                       for name in folder("evidence", crate) if name.endswith(".edit")}
        self.bare = self.bare_names()

    def read_crate(self, crate):
        for sort in ("specs", "proofs"):
            for name in files_below("crates", crate, sort):
                if name.endswith(".antt"):
                    read_logic(name, self.logic[crate, sort, os.path.basename(name)[:-5]])
        self.proved |= {(crate, name) for name in folder("crates", crate, "proofs") if os.path.isdir(path("crates", crate, "proofs", name))}
        for name in files_below("crates", crate, "src"):
            if name.endswith(".rt"):
                read_code(name, self.code[crate, os.path.basename(name)[:-3]])

    def bare_names(self):
        """What a single word may name: a definition, a file, a crate, an edit, a list of the reference, a word of the header."""
        names = set(self.crates) | KIT | {"reference"} | {name.rsplit("/", 1)[1] for name in self.edits}
        names |= {key[-1] for key in list(self.logic) + list(self.code)}
        names |= {os.path.basename(name).rsplit(".", 1)[0] for name in files_below("reference", "cases")}
        names |= set(re.findall(r"\w+", text_of("include/row_store.h")))
        for module in list(self.logic.values()) + list(self.code.values()):
            names |= module.names.union(*module.parts.values())
        return names

    def modules(self, crate=None, sort=None, file=None):
        return [module for (c, s, f), module in self.logic.items() if crate in (None, c) and sort in (None, s) and file in (None, f)]

    def sources(self, crate=None, file=None):
        return [module for (c, f), module in self.code.items() if crate in (None, c) and file in (None, f)]


# What the documents cite.


class Citation:
    """A span in backquotes: where it stands, the span before it in the same paragraph or table cell, the text between, and the row's first cell."""

    def __init__(self, place, words, before, between, row):
        self.place, self.words, self.before, self.between, self.row = place, words, before, between, row

    def __str__(self):
        return f"{self.place}: {self.words}"


def documents(history=False):
    return ["README.md", "evidence/README.md"] + [f"docs/{name}" for name in folder("docs") if name.endswith(".md") and (history or f"docs/{name}" not in HISTORY)]


def prose(document):
    """The document's lines, those of examples blank."""
    fenced, listed, lines = False, False, []
    for line in lines_of(document):
        fence = line.startswith("```")
        listed = bool(re.match(r"\s*(?:[-*]|\d+\.) ", line)) or (listed and line.startswith(" "))
        example = line.startswith("    ") and not listed
        lines.append("" if fence or fenced or example else line)
        fenced ^= fence
    return lines


def pieces(document):
    """The table cells, each with the row's first cell, and the paragraphs; with the number of the first line."""
    held, first = [], 0
    for number, line in enumerate(prose(document) + [""], 1):
        table = line.startswith("|")
        if held and (table or not line.strip()):
            yield first, "\n".join(held), ""
            held = []
        if table:
            cells = [cell.strip() for cell in line.strip().strip("|").split("|")]
            yield from ((number, cell, cells[0]) for cell in cells)
        elif line.strip():
            first = first if held else number
            held.append(line)


def citations(document):
    for first, words, row in pieces(document):
        last, end = None, 0
        for found in re.finditer(r"`([^`]+)`", words):
            number = first + words.count("\n", 0, found.start())
            last = Citation(f"{document}:{number}", re.sub(r"\n *", " ", found.group(1)), last, re.sub(r"\n *", " ", words[end:found.start()]), row)
            end = found.end()
            yield last


# Names: `File.name` and what is like it.

NAME = r"[A-Za-z][\w'-]*"
# Words of the language, of a session, of a proof's script and of tools, which name nothing of the repository.
WORDS = set("""OK NO BAD IDLE ACCEPTED _ a b c l r s s' cc rw if use const static return match requires ensures unfoldable omega simp search proved setl setr
returns in_range-requires overflow_add-i loop-i-init loop-i-preserved loop-i-smaller memcpy memset size_t u16 rt stdout check row_ B C U""".split())
EXAMPLES = {"File.name", "p.b", "p.c", "reply.queue", "proofs/FUNCTION", "Answers.antt", "Invariants.antt", "Proof.antt"}
# What an answer or an invariant cites: the facts of its goal by step, and the variables of its loop.
STEP = re.compile(r"[cl](?:\.[\w-]+)+")
# CRATE, NAME and the like stand for any.
PLACEHOLDER = re.compile(r"(?:^|/)[A-Z]{4,}\b")
FILE = re.compile(r"[\w./-]+\.(?:rt|c|h|sh|py|md|txt|list|inputs|outputs|sums|session|edit|rs|awk|svg)")


def crate_before(repository, cited):
    """The crate that is named just before: `crate`: `File.name`, or `crate`, `File.name`; in a table of crates the row's."""
    if cited.before and cited.before.words in repository.crates and cited.between in (": ", ", "):
        return cited.before.words
    row = cited.row.strip("`")
    return row if cited.row == f"`{row}`" and row in repository.crates else None


def is_defined(repository, crate, sort, file, names):
    """A file; a name of it; a part of a type of it; or a part of a type that is named in the place of the file."""
    modules = repository.modules(crate, sort, file)
    if not names:
        return bool(modules)
    if len(names) == 2:
        return any(names[1] in module.parts[names[0]] for module in modules if names[0] in module.parts)
    if any(names[0] in module.names for module in modules):
        return True
    owners = repository.modules(crate, sort) + repository.sources(crate)
    return any(names[0] in module.parts[file] for module in owners if file in module.parts)


def is_code(repository, words):
    """`crate::name`, `crate::module::name`, `module::name`, `Type::name`, `crate::Type::name`."""
    parts = words.split("::")
    crate = parts.pop(0) if parts[0] in repository.crates else None
    if parts[0] in KIT and not crate:
        return True
    if len(parts) == 1:
        return bool(repository.sources(crate, parts[0])) or any(parts[0] in module.names for module in repository.sources(crate))
    if any(parts[1] in module.names for module in repository.sources(crate, parts[0])):
        return True
    return any(parts[1] in module.parts[parts[0]] for module in repository.sources(crate) if parts[0] in module.parts)


def is_logic_path(repository, words, crate):
    """`crate/specs/File.name`, `specs/File`, `proofs/function`; `crates/` may stand before it and `.antt` behind it. None: it is no such path."""
    found = re.fullmatch(rf"(?:crates/)?(?:(\w+)/)?(specs|proofs)(?:/({NAME}))?((?:\.{NAME})*)/?", words)
    if not found:
        return None
    crate, sort, file = found.group(1) or crate, found.group(2), found.group(3)
    names = [name for name in found.group(4).split(".") if name not in ("", "antt")]
    if not file:
        return crate is None or bool(folder("crates", crate, sort))
    if sort == "proofs" and not names and (crate, file) in repository.proved:
        return True
    return is_defined(repository, crate, sort, file, names)


def fault_of_name(repository, cited, lists):
    """`File.name`, behind which a field may stand, or `File.name : Type`; or one word, which in a list is of the file that the list began with."""
    crate, words = crate_before(repository, cited), cited.words
    found = re.fullmatch(rf"({NAME})\.({NAME})(?:\.({NAME}))?(?: (?:\.|: )({NAME}))?", words)
    if found and found.group(1) not in KIT:
        lists[cited] = (crate, found.group(1))
        good = is_defined(repository, crate, None, found.group(1), [name for name in found.groups()[1:3] if name])
        return None if good and (found.group(4) or "Type") in repository.bare | {"Type"} else "no such name"
    word = re.fullmatch(rf"(?:struct |enum )?({NAME})(?:\(.*\)| \{{.*\}})?", words)
    if not word or word.group(1) in WORDS:
        return None
    if cited.before in lists and re.fullmatch(r",| and| to", cited.between.rstrip()) and words not in repository.crates:
        crate, file = lists[cited] = lists[cited.before]
        return None if is_defined(repository, crate, None, file, [word.group(1)]) else f"not in {file}"
    return None if word.group(1) in repository.bare else "no such name"


def names():
    repository = Repository()
    for document in documents():
        lists = {}
        for cited in citations(document):
            words = cited.words
            if words in EXAMPLES or FILE.fullmatch(words) or STEP.fullmatch(words) or "must-fail/" in words or words.startswith("evidence/"):
                continue
            there = is_logic_path(repository, words, crate_before(repository, cited))
            if re.fullmatch(r"\w+(?:::\w+)+(?:\([\w, ]*\))?", words):
                there = is_code(repository, words.split("(")[0])
            wrong = fault_of_name(repository, cited, lists) if there is None else None if there else "no such file or name"
            if wrong:
                yield f"{cited}: {wrong}"


# Edits: `CRATE/must-fail/NAME` and `evidence/CRATE/NAME`.


def edits():
    repository, cited_edits = Repository(), set()
    alone = {edit.rsplit("/", 1)[1] for edit in repository.edits}
    for document in documents():
        for cited in citations(document):
            edit = re.fullmatch(r"(\w+/must-fail/\w+|evidence/\w+/\w+)(?:\.edit)?", cited.words) if not PLACEHOLDER.search(cited.words) else None
            if edit and edit.group(1) not in repository.edits:
                yield f"{cited}: no such edit"
            elif edit and document == "docs/TRACE.md":
                cited_edits.add(edit.group(1))
            elif cited.words in alone and document == "docs/TRACE.md":
                yield f"{cited}: cited without its folder"
    for edit in sorted(repository.edits - cited_edits):
        yield f"{edit}: not cited in docs/TRACE.md"


def why_unfit(edit, crate):
    """Why `rt` could not apply the edit: it calls such an edit bad, and passes. As `rt` reads it, each old text stands once in what the earlier pairs left."""
    name, old, texts, pairs = "", None, {}, 0
    for line in text_of(edit).split("\n"):
        if line.startswith("file: "):
            name = f"crates/{crate}/{line[6:].strip()}"
        elif line.startswith("old: "):
            old = line[5:]
        elif line.startswith("new:"):
            if not name or not old:
                return "a new text without its file or its old text"
            if not os.path.isfile(path(name)):
                return f"there is no {name}"
            text = texts.setdefault(name, text_of(name))
            if text.count(old) != 1:
                return f"{text.count(old)} times in {name}: {old}"
            texts[name] = text.replace(old, line[4:].removeprefix(" "))
            old, pairs = None, pairs + 1
    return None if pairs else "no pair of an old and a new text"


def fits():
    for edit in sorted(Repository().edits):
        name = (f"crates/{edit}" if "/must-fail/" in edit else edit) + ".edit"
        why = why_unfit(name, name.split("/")[1])
        if why:
            yield f"{name}: {why}"


# Counts.

NUMBERS = {name: number for number, name in enumerate("no one two three four five six seven eight nine ten eleven twelve".split())}


def calls_of(name):
    """Of a list for `reference states`: its calls' letters, codes and first operands, and how many stores it has."""
    calls, stores = [], 0
    for line in lines_of(name):
        stores += line.startswith("T ")
        if line[:2] in ("C ", "B ", "U "):
            calls.append((line[0], *line.split(" ", 3)[1:3]))
    return calls, stores


def count_store_cases():
    calls, _ = calls_of("crates/store_cases/stdin")
    letters = Counter(letter for letter, _, _ in calls)
    texts = Counter(letter for letter, code, _ in calls if code in ("10", "11"))
    compared = letters["C"] + letters["B"]
    nil = sum(letter != "U" and code in ("1", "2") and x == "0" for letter, code, x in calls)
    clipped = sum(line[:2] in ("C ", "B ") and line.endswith(" NO 14") for line in lines_of("crates/store_cases/stdout"))
    named, stores = calls_of("reference/cases/gate/named.list")
    yield "docs/TRACE.md", r"`store_cases` makes (\S+) calls, all (\w+) sorts", [len(calls), len({code for _, code, _ in calls})]
    yield "docs/TRACE.md", r"Of these (\S+) are compared with the reference: (\S+) by reply and the whole store afterwards, (\S+) by reply and a checksum", [
        compared, letters["C"], letters["B"]]
    yield "docs/TRACE.md", r"The other (\S+) are calls that document 01 does not decide", [letters["U"]]
    yield "docs/TRACE.md", r"Among those compared are (\S+) reads of nil", [nil]
    yield "docs/TRACE.md", r"In all its lists are (\S+) calls with a text; (\S+) of them", [sum(texts.values()), texts["U"]]
    yield "docs/TRACE.md", r"calls that `store_cases` makes (\S+) get refusal 14", [clipped]
    yield "docs/TRACE.md", r"list `named` has (\S+) calls on (\S+) stores", [len(named), stores]
    yield "docs/ASSUMPTIONS.md", r"are compared with its over (\S+) calls, damaged stores included, (\S+) of them with rule text", [
        compared, texts["C"] + texts["B"]]


def count_session():
    calls, replies = lines_of("crates/session/stdin"), [line.split(" ", 1)[1] for line in lines_of("crates/session/stdout")]
    nil, full, unmade, waiting = 0, 0, 0, 0
    for call, reply in zip(calls, replies):
        reads_nil = call in ("car 0", "cdr 0")
        nil, full, unmade = nil + reads_nil, full + (reads_nil and waiting == 64), unmade + (reads_nil and reply == "NO 1")
        if reply.startswith("OK"):
            waiting = 0 if call.startswith("fresh") else waiting - 1 if call == "step" else waiting + (not reads_nil)
    size, refusals = os.path.getsize(path("crates/session/stdin")), {reply for reply in replies if reply.startswith("NO")}
    rules, given_up = lines_of("crates/rules/stdout"), lines_of("reference/cases/given-up.session")
    yield "docs/TRACE.md", r"program `session` over (\S+) lines that the reference answered \(\S+ and \S+, (\S+) bytes, which take (\w+) reads\)", [
        len(calls), size, -(-size // 65536)]
    yield "docs/TRACE.md", r"ceiling; (\S+) lines read nil, (\S+) of them with 64 packets waiting and (\S+) before a fresh", [nil, full, unmade]
    yield "docs/TRACE.md", r"can get \((\d+), (\d+) to (\d+) and (\d+)\) occur", [
        1, 3, 10, 14] if refusals == {f"NO {number}" for number in (1, 3, 4, 5, 6, 7, 8, 9, 10, 14)} else sorted(refusals)
    yield "docs/TRACE.md", r"lines of `crates/session/stdin` and `crates/rules/stdin` (\S+) and (\S+);", [replies.count("NO 14"), rules.count("NO 14")]
    yield "docs/TRACE.md", r"`crates/rules/stdin` has (\S+) lines", [len(lines_of("crates/rules/stdin"))]
    yield "docs/TRACE.md", r"runs `given-up`, (\S+) lines with the reference's replies", [len(given_up)]
    yield "docs/ASSUMPTIONS.md", r"rule text, (\S+) session lines", [len(calls) + len(given_up)]
    yield "docs/ASSUMPTIONS.md", r"and (\S+) lines of the rules program", [len(rules)]


def count_load():
    loads = []
    for line in lines_of("reference/cases/load.outputs"):
        if line.startswith("== "):
            loads.append((line[3:].replace("\\n", "").split(" "), []))
        else:
            loads[-1][1].append(line)
    good = [(words, lines) for words, lines in loads if lines != ["BAD"]]
    replies = Counter(reply.split(" ", 1)[1] for _, lines in good for reply in lines[3::2])
    refusals = {int(reply[3:]) for _, lines in good for reply in (line.split(" ", 1)[1] for line in lines[1::2]) if reply.startswith("NO")}
    accepted = sum(number for reply, number in replies.items() if reply.startswith("OK"))
    inputs, bad = len(lines_of("reference/cases/load.inputs")), len(loads) - len(good)
    yield "docs/TRACE.md", r"gives the program `load` (\S+) inputs", [inputs]
    yield "docs/TRACE.md", r": (\S+) workloads with (\S+) values of C from 0 to 65,535 and (\S+) seeds", [
        len(good), len({words[1] for words, _ in good}), len({words[0] for words, _ in good})]
    yield "docs/TRACE.md", r"seeds, with (\S+) calls of which (\S+) are\s+accepted, (\S+) idle", [sum(replies.values()), accepted, replies["IDLE"]]
    yield "docs/TRACE.md", r"others refused \((\d+), (\d+), (\d+), (\d+), (\d+) and (\d+) occur", sorted(refusals)
    yield "docs/TRACE.md", r"and (\S+) inputs that are none, of up to 600 bytes; and (\w+) loads of 65,535 calls", [
        bad, len(lines_of("reference/cases/load-long.inputs"))]
    yield "docs/TRACE.md", r"; (\S+) inputs of `tests/load.sh`", [bad]
    yield "docs/ASSUMPTIONS.md", r"the listings of (\S+) inputs of the load program", [inputs]


def count_roster():
    calls = [line for line in lines_of("crates/roster_cases/stdin") if line[:2] in ("R ", "U ")]
    replies = Counter(" ".join(line.split(" ")[4:]) for line in lines_of("crates/roster_cases/stdout") if line[:2] in ("R ", "U "))
    yield "docs/TRACE.md", r"`roster_cases` makes (\S+) calls", [len(calls)]
    yield "docs/TRACE.md", r"at its borders, (\S+) of them 15, (\S+) of them 8", [replies["NO 15"], replies["NO 8"]]
    yield "docs/TRACE.md", r"`roster_cases`: (\S+) calls on such stores", [replies["UNDECIDED"]]
    yield "docs/ASSUMPTIONS.md", r"those of the seat roster over (\S+) calls", [len(calls)]


def count_rest():
    cases = text_of("crates/notation/specs/Cases.antt")
    inside, outside = (len(re.findall(r'"(?:[^"\\]|\\.)*"', re.search(rf"^{name} =\n(.*?)\[\]$", cases, re.M | re.S).group(1)))
                       for name in ("inside", "outsiders"))
    functions = len(re.findall(r"^pub fn ", text_of("crates/store/src/lib.rt"), re.M))
    exported = len(re.findall(r'extern "C" fn row_', text_of("crates/c_store_c/src/lib.rt")))
    worked = len(re.findall(r'^ *"fresh ', text_of("reference/tests/figure_8.rs"), re.M))
    yield "README.md", r"`crates.txt` has the (\S+) crates", [len(listed(ROOT))]
    yield "README.md", r"\| `store` \| the public face: (\w+) calls", [functions - 2]
    yield "README.md", r"\| `c_store_c` \| the (\w+) calls of `c_store` under their names in C", [exported]
    yield "docs/TRACE.md", r"`notation`, `Cases`: (\S+) texts with their trees, (\S+) outside", [inside, outside]
    yield "docs/TRACE.md", r"figure_8.rs` has (\S+) cases worked by hand", [worked]


def counts():
    for count in (count_store_cases, count_session, count_load, count_roster, count_rest):
        for document, pattern, numbers in count():
            found = re.search(pattern, re.sub(r"\n *", " ", text_of(document)))
            if not found:
                yield f"{document}: not found: {pattern}"
                continue
            said = [NUMBERS.get(words.lower(), words.rstrip(".,;").replace(",", "")) for words in found.groups()]
            if [str(number) for number in said] != [str(number) for number in numbers]:
                yield f"{document}: says {', '.join(map(str, said))}, counted {', '.join(map(str, numbers))}: {found.group(0)[:80]}"


# Pictures, links and tables.


def pictures():
    with tempfile.TemporaryDirectory() as work:
        copy = os.path.join(work, "architecture.py")
        with open(copy, "w", encoding="utf-8") as out:
            out.write(text_of("docs/architecture.py"))
        subprocess.run([sys.executable, copy], check=True)
        made = sorted(name for name in os.listdir(work) if name.endswith(".svg"))
        stored = [name for name in folder("docs") if name.endswith(".svg")]
        if made != stored:
            yield f"docs has {', '.join(stored)}, docs/architecture.py draws {', '.join(made)}"
        for name in set(made) & set(stored):
            with open(os.path.join(work, name), encoding="utf-8") as drawn:
                if drawn.read() != text_of(f"docs/{name}"):
                    yield f"docs/{name}: docs/architecture.py draws another"
    repository, drawing = Repository(), text_of("docs/architecture.py")
    for crate in repository.crates:
        if f'd.box("{crate}",' not in drawing:
            yield f"{crate} has no box"
    for words in re.findall(r'"(\w+::\w+)"', drawing):
        if not is_code(repository, words):
            yield f"docs/architecture.py: {words}: no such code"


def anchors(document):
    for line in prose(document):
        if line.startswith("#"):
            heading = line.lstrip("#").strip().lower()
            yield re.sub(r"[^\w\- ]", "", heading).replace(" ", "-")


def faults_of_links(document):
    for found in re.finditer(r"\]\(([^)\s]+)\)", "\n".join(prose(document))):
        target, _, anchor = found.group(1).partition("#")
        if re.match(r"[a-z]+:", target):
            continue
        whole = os.path.normpath(os.path.join(os.path.dirname(document), target)) if target else document
        if not os.path.exists(path(whole)):
            yield f"{document}: the link {found.group(1)} leads nowhere"
        elif anchor and anchor not in anchors(whole):
            yield f"{document}: the link {found.group(1)} has no such heading"


def links():
    everything = list(files_below())
    folders = {name.rsplit("/", depth)[0] for name in everything for depth in range(1, name.count("/") + 1)}
    tops = {name.split("/")[0] for name in folders} | {"evidence"}
    known, crates = set(everything) | folders, Repository().crates
    for document in documents(history=True):
        yield from faults_of_links(document)
    for document in documents():
        for cited in citations(document):
            words = cited.words.split(" ")[0].rstrip("/")
            # What `rt` makes in a folder out/ is not in the repository.
            if PLACEHOLDER.search(words) or "/out/" in words:
                continue
            if words.split("/")[0] in crates:
                words = "crates/" + re.sub(r"\.[^/]*$", "", words)
            above = words.split("/")[0] in tops and "/" in words
            if above and not known & {words, f"{words}.edit", f"{words}.antt"}:
                yield f"{cited}: no such file"
            elif FILE.fullmatch(words) and not above and not any(f"/{name}".endswith(f"/{words}") for name in known) and words not in EXAMPLES:
                yield f"{cited}: no such file"
    for found in re.finditer(r"(?:docs|crates|examples|tests)/[\w./]*\w", text_of("include/row_store.h")):
        if found.group(0) not in known:
            yield f"include/row_store.h: no such file: {found.group(0)}"


def table_after(document, heading):
    """The first cells of the first table behind a heading."""
    rows = text_of(document).split(heading, 1)[1].split("\n|", 1)[1].split("\n\n")[0].split("\n")
    return [row.strip("|").split("|")[0] for row in rows[2:]]


def compare(where, found, wanted):
    for name in sorted(set(wanted) - set(found)):
        yield f"{where}: {name} is missing"
    for name, times in sorted(Counter(found).items()):
        if name not in wanted:
            yield f"{where}: {name} is not there"
        elif times > 1:
            yield f"{where}: {name} has {times} rows"


def tables():
    crates = Repository().crates
    believed = "is what a reader must believe"
    specs = [name[:-5] for name in folder("crates", "machine", "specs") if name.endswith(".antt") and name != "Lib.antt"]
    helpers = re.search(r"\n\n(`.*) hold small helpers", text_of("README.md")).group(1)
    for document, heading in (("README.md", "## The crates, bottom to top"), ("docs/ARCHITECTURE.md", "## Why each part is where it is")):
        yield from compare(document, re.findall(r"`(\w+)`", " ".join(table_after(document, heading))), crates)
    yield from compare("README.md, the files of crates/machine/specs", re.findall(r"`(\w+)`", " ".join(table_after("README.md", believed)) + helpers), specs)
    written = [f"docs/{name}" for name in folder("docs") if name.endswith(".md")] + ["evidence/README.md", "include/row_store.h"]
    yield from compare("README.md, the documents", re.findall(r"`([\w./-]+)`", " ".join(table_after("README.md", "## Documents"))), written)


def dependencies():
    return differences(ROOT)


TESTS = {test.__name__: test for test in (names, edits, fits, counts, pictures, links, tables, dependencies)}

if __name__ == "__main__":
    for offence in TESTS[sys.argv[1]]():
        print(offence)
