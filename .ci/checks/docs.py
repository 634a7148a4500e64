"""Checks the documents of docs/ against the crates. The form of the pages is at the head of docs.sh.

Each failure is one line, the place and the reason. The last line is `N passed, M failed`.
"""
import os
import re
import subprocess
import sys
from pathlib import Path

NAME = r"[^\W\d][\w'-]*"
# Pages that have to be there. Every other page of docs/ is checked too.
PAGES = "DEFINITIONS CLAIMS ARCHITECTURE DECISIONS".split()
LONGEST_SENTENCE = 35

passed = 0
failures = []


def check(holds, place, reason):
    global passed
    if holds:
        passed += 1
    else:
        failures.append(f"{place}: {reason}")


# ---- The crates' sources


def blank(match):
    return re.sub(r"[^\n]", " ", match[0])


def without_text(code):
    """Source with its comments, strings and characters as spaces, so that places and lines stay."""
    return re.sub(r"//[^\n]*|/\*.*?\*/|\bb?r(#*)\".*?\"\1|\"(?:\\.|[^\"\\])*\"|b?'(?:\\.[^']*|[^\\'\n])'", blank, code, flags=re.S)


def closing(code, at):
    """The place after the bracket that closes the one at a place."""
    depth = 0
    for place in range(at, len(code)):
        if code[place] in "({[":
            depth += 1
        elif code[place] in ")}]":
            depth -= 1
            if depth == 0:
                return place + 1
    return len(code)


class Clause:
    def __init__(self, kind, label, text, line):
        self.kind, self.label, self.text, self.line = kind, label, text, line


class Function:
    def __init__(self, name, owner, file, line, public):
        self.name, self.owner, self.file, self.line, self.public = name, owner, file, line, public
        self.clauses, self.is_test = [], False

    @property
    def full_name(self):
        return f"{self.owner}::{self.name}" if self.owner else self.name


class Source:
    """One file of src/: its functions with their clauses, its other items, and what its names come from."""

    def __init__(self, path):
        self.path = path
        self.code = without_text(path.read_text(encoding="utf-8"))
        self.functions = []
        self.items = {}  # a type, trait or constant, and whether it is pub
        self.names = {}  # a name of a clause, and its module and name in specs/
        self.modules = {}  # a name before a point in a clause, and its module
        for line in re.findall(r"\bghost use ([^;]*);", self.code):
            self.read_use(line)
        crate = path.parts[len(path.parts) - path.parts[::-1].index("src") - 2]
        self.is_test = path.name == "tests.rt" or "tests" in path.parts or crate.endswith("_tests")
        self.read_items(0, len(self.code), "", True)

    def read_use(self, line):
        module, _, names = re.sub(r"\s+", " ", line).partition(".{")
        if not names:
            path, _, other = module.partition(" as ")
            self.modules[(other or path.rsplit(".", 1)[-1]).strip()] = path.strip()
            return
        for name in names.rstrip(" }").split(","):
            name, _, other = name.strip().partition(" as ")
            self.names[(other or name).strip()] = (module.strip(), name.strip())

    def line_of(self, at):
        return self.code.count("\n", 0, at) + 1

    def read_items(self, at, end, owner, public):
        word = re.compile(r"(pub(?:\([^)]*\))?\s+)?\b(fn|impl|trait|mod|struct|enum|union|type|const|static)\b|[{;]")
        while found := word.search(self.code, at, end):
            kind, at = found[2], found.end()
            is_pub = bool(found[1]) and "(" not in found[1]
            if found[0] == "{":
                at = closing(self.code, found.start())
            elif kind == "fn":
                at = self.read_function(at, end, owner, public, is_pub)
            elif kind in ("impl", "trait", "mod"):
                begin = re.compile("[{;]").search(self.code, at, end)
                if not begin or begin[0] == ";":
                    continue
                head, last = self.code[at : begin.start()], closing(self.code, begin.start())
                before = self.code[max(0, found.start() - 40) : found.start()]
                if kind == "mod" and "cfg(test)" in before:
                    pass
                elif kind == "mod":
                    self.read_items(begin.end(), last - 1, owner, public)
                elif kind == "trait":
                    name = re.search(NAME, head)[0]
                    self.items[name] = is_pub
                    self.read_items(begin.end(), last - 1, name, "trait")
                else:
                    head = re.sub(r"^\s*<[^{]*?>\s*(?=[A-Z])", "", head.split(" where ")[0])
                    name = re.findall(r"(\w+)\s*(?:<|$)", head.split(" for ")[-1].strip())
                    self.read_items(begin.end(), last - 1, name[0] if name else head.strip(), "trait" if " for " in head else True)
                at = last
            elif kind:
                name = re.compile(NAME).search(self.code, at, end)
                if name and name[0] != "fn":
                    self.items[name[0]] = is_pub

    def read_function(self, at, end, owner, public, is_pub):
        name = re.compile(NAME).search(self.code, at, end)
        made = Function(name[0], owner, self.path, self.line_of(at), is_pub or public == "trait")
        made.is_test = bool(re.search(r"#\[test\]\s*(?:#\[[^\]]*\]\s*)*(?:pub\s+)?fn$", self.code[:at]))
        self.functions.append(made)
        at = name.end()
        mark = re.compile(r"[({\[;]|\b(ensures|requires)\b\*?\s*([a-z_0-9]*)\s*(?=\{)")
        while found := mark.search(self.code, at, end):
            if found[1]:
                begin = self.code.index("{", found.end() - 1) if self.code[found.end() - 1] != "{" else found.end() - 1
                at = closing(self.code, begin)
                made.clauses.append(Clause(found[1], found[2], self.code[begin + 1 : at - 1], self.line_of(found.start())))
            elif found[0] == ";":
                return found.end()
            else:
                at = closing(self.code, found.start())
                word = self.code[: found.start()].split()[-1:]
                if found[0] == "{" and word not in (["decreases"], ["measure"]):
                    return at
        return end

    def definitions_in(self, text):
        """What a clause's text names of specs/: modules and names."""
        for word in re.findall(rf"{NAME}(?:\.{NAME})*", text):
            first, _, rest = word.partition(".")
            if first in self.names:
                yield self.names[first]
            elif first in self.modules and rest:
                yield self.modules[first], rest.split(".")[0]
            elif word.startswith("Rattle."):
                yield tuple(word.rsplit(".", 1))


class Crate:
    def __init__(self, root, name):
        self.name, self.folder = name, root / "crates" / name
        self.sources = [Source(it) for it in sorted(self.folder.glob("src/**/*.rt"))]
        self.functions = [it for source in self.sources for it in source.functions]
        self.edits = {it.name for it in self.folder.glob("edits/*.edit")}
        self.exported = set()
        for source in self.sources:
            if source.path.name == "lib.rt" and source.path.parent.name == "src":
                for names in re.findall(r"\bpub use [\w:]*::(\{[^}]*\}|\w+)", source.code):
                    self.exported.update(re.findall(r"\w+", names))
        self.definitions = {}  # a file of specs/, and its definitions, each constructor with its type
        self.comments = {}  # a file of specs/, and the comments above its definitions
        for file in sorted(self.folder.glob("specs/**/*.antt")):
            name = str(file.relative_to(self.folder))
            self.definitions[name] = definitions_of(file)
            self.comments[name] = comments_of(file, set(self.definitions[name].values()))

    def public_functions(self):
        for source in self.sources:
            if source.is_test:
                continue
            for it in source.functions:
                if it.public and (it.owner or it.name) in self.exported:
                    yield source, it

    def file_of(self, module):
        """The file of specs/ that a module is in, or none: the Rust types of src/ are in no such file."""
        parts = module.split(".")[2:]
        for length in range(len(parts), 0, -1):
            file = "/".join(parts[:length]) + ".antt"
            if file in self.definitions:
                return file
        return None


class Comment:
    """What is above a definition: its words, and what follows `Shown by:`."""

    def __init__(self, line, text):
        self.line = line
        self.words, mark, shown = text.partition("Shown by:")
        self.words, self.shown = self.words.strip(), shown.strip() if mark else None


def comments_of(file, names):
    """The comment directly above the declaration of each name. A comment above `mutual` is that of the first declaration in it."""
    found = {}
    lines = file.read_text(encoding="utf-8").split("\n")
    for at, line in enumerate(lines):
        declared = re.match(rf"(?:  )?(?:(?:abbrev|unfoldable|pub|opaque|total|record|data)\s+)*({NAME})\b", line)
        if not declared or declared[1] not in names or declared[1] in found:
            continue
        first = at
        if lines[at - 1].startswith(("mutual", "abbrev mutual")):
            first -= 1
        last = first
        while first > 0 and lines[first - 1].lstrip().startswith("--"):
            first -= 1
        text = " ".join(it.strip().lstrip("-").strip() for it in lines[first:last])
        found[declared[1]] = Comment(at + 1, text)
    return found


def definitions_of(file):
    found, kind, current = {}, "", ""
    for line in file.read_text(encoding="utf-8").split("\n"):
        line = re.sub(r"--.*", "", line)
        top = re.match(rf"(?:(?:abbrev|unfoldable|pub|opaque|total)\s+)*(?:(mutual|record|data)\b)?\s*(?:pub\s+)?(?:(?:record|data)\s+)?({NAME}|◌?\S*◌\S*)?", line)
        if line[:1].strip():
            kind, current = top[1] or "", top[2] or ""
            if re.match(r"(use|module|mutual)\b", line):
                current = ""
                kind = "module" if line.startswith("module") else kind
            elif current and re.match(rf"(abbrev|unfoldable|pub|opaque|record|data)\b|{NAME}(\s{NAME})*\s*:", line):
                found[current] = current
        elif kind == "module":
            # Definitions of a module with parameters are indented.
            if inner := re.match(rf"\s+(?:(?:abbrev|unfoldable|opaque|pub)\s+)+(?:(?:record|data)\s+)?({NAME})\s", line):
                if "pub field" not in line and not re.match(r"\s+pub \w+ :", line):
                    found[inner[1]] = current = inner[1]
        elif kind == "mutual":
            if inner := re.match(rf"  (?:pub\s+)?(?:(?:record|data)\s+)?({NAME})\s(?:.*\s)?:", line):
                found[inner[1]] = current = inner[1]
            elif name := re.match(rf"    ({NAME}(?: {NAME})*)\s*:", line):
                found.update((it, current) for it in name[1].split() if it not in found)
        elif kind == "data":
            if name := re.match(rf"  ({NAME}(?: {NAME})*)\s*:", line):
                found.update((it, current) for it in name[1].split())
    return found


def crates_of(root):
    names = []
    for line in (root / "crates.txt").read_text(encoding="utf-8").split("\n"):
        if name := re.match(r"\s*([a-z0-9_]+)[^:#]*:", line):
            names.append(name[1])
    return {name: Crate(root, name) for name in names}


# ---- The pages


class Line:
    def __init__(self, page, number, text, part):
        self.page, self.number, self.text, self.part = page, number, text, part

    @property
    def place(self):
        return f"{self.page}:{self.number}"


def lines_of(root, page, crates):
    """Each line outside blocks of code, with the crate of its part. Of docs/DECISIONS.md, only entries that hold today."""
    part, block, holds = None, False, True
    for number, text in enumerate((root / page).read_text(encoding="utf-8").split("\n"), 1):
        if text.startswith("```"):
            check(block == (text.rstrip() == "```"), f"{page}:{number}", "a block of code begins with ``` and a word, and ends with ``` alone")
            block = not block
        elif not block:
            if text.startswith("## "):
                part = text[3:].strip().strip("`")
                part = part if part in crates else None
                holds = page != "docs/DECISIONS.md" or not re.search(r"· (replaced|gone)\b[^·]*$", text)
            if holds:
                yield Line(page, number, text, part)
    check(not block, page, "a block of code does not end")


def cells_of(text):
    cells = re.split(r"(?<!\\)\|", text.strip())
    return [it.strip() for it in cells[1:-1]] if text.startswith("|") else []


# ---- The definitions that public clauses name


def named_definitions(crates):
    """Each definition of specs/ that a public clause names: its crate, file and name, and the first clause that names it."""
    found = {}
    for crate in crates.values():
        for source, function in crate.public_functions():
            for clause in function.clauses:
                for module, name in source.definitions_in(clause.text):
                    owner = crates.get(module.split(".")[1] if module.startswith("Rattle.") else "")
                    file = owner and owner.file_of(module)
                    if file:
                        key = (owner.name, file, owner.definitions[file].get(name, name))
                        found.setdefault(key, f"{crate.name} {function.full_name}: {clause.kind} {clause.label or 'without a label'}")
    return found


def check_definitions(root, crates):
    for (crate, file, name), clause in named_definitions(crates).items():
        comment = crates[crate].comments[file].get(name)
        place = f"crates/{crate}/{file}:{comment.line if comment else 1}"
        check(comment, place, f"{clause} names {name}, which is not declared here")
        if comment:
            check(comment.words, place, f"{name} has no comment directly above it; {clause} names it")
            check(comment.shown, place, f"the comment of {name} has no line `Shown by:`; {clause} names it")
    laws = laws_of(root)
    for crate in crates.values():
        for file, comments in crate.comments.items():
            for name, comment in comments.items():
                if comment.shown is not None:
                    check_shown(root, crates, laws, f"crates/{crate.name}/{file}:{comment.line}", comment.shown, comments)


def laws_of(root):
    """The names of the theorems: functions of src/ that are `pub` and take nothing, and what proofs/ declares at the left edge."""
    laws = set()
    for file in root.glob("crates/*/src/**/*.rt"):
        laws.update(re.findall(r"\bpub (?:ghost )?fn (\w+)\(\)\s*(?:requires|ensures)", file.read_text(encoding="utf-8")))
    for file in root.glob("crates/*/proofs/**/*.antt"):
        laws.update(re.findall(rf"^(?:(?:pub|abbrev|opaque|total)\s+)*({NAME})\s*:", file.read_text(encoding="utf-8"), flags=re.M))
    return laws


SHOWN_TEST = re.compile(r"([a-z0-9_]+) ([\w/]+\.rt): (\w+(?:, \w+)*)$")
SHOWN_ROWS = re.compile(r"tables ([a-z0-9_]+\.rows): (\w+(?:, \w+)*)$")


def tables_in(root, file):
    """The names of the tables of a file of rows; nothing if there is no such file."""
    path = root / "examples" / "tables" / file
    return re.findall(r"^== (\w+), ", path.read_text(encoding="utf-8"), flags=re.M) if path.is_file() else []


def check_shown(root, crates, laws, place, shown, others):
    """What follows `Shown by:`, apart by semicolons. The form is at the head of docs.sh."""
    check(shown.endswith("."), place, "what follows `Shown by:` ends in a full stop")
    for item in shown.rstrip(".").split("; "):
        if found := SHOWN_TEST.match(item):
            crate, file, names = found.groups()
            check(crate in crates, place, f"there is no crate {crate}")
            sources = [it for it in crates[crate].sources if it.path == crates[crate].folder / "src" / file] if crate in crates else []
            check(sources and sources[0].is_test, place, f"{crate} has no file of tests {file}")
            for name in names.split(", ") if sources else ():
                check(any(it.name == name and it.is_test for it in sources[0].functions), place, f"{crate} {file} has no test {name}")
        elif found := SHOWN_ROWS.match(item):
            for name in found[2].split(", "):
                check(name in tables_in(root, found[1]), place, f"examples/tables/{found[1]} has no table {name}")
        elif item.endswith(".edit"):
            check(any(item in it.edits for it in crates.values()), place, f"there is no edit {item}")
        elif item.startswith("law "):
            check(item[4:] in laws, place, f"there is no law {item[4:]}")
        elif item.startswith("as "):
            check(item[3:] in others and others[item[3:]].shown, place, f"the file has no {item[3:]} with a line `Shown by:`")
        elif item.startswith(".ci/checks/"):
            check((root / item).is_file(), place, f"there is no check {item}")
        elif item != "proofs alone":
            check((root / "examples" / f"{item}.http").is_file(), place, f"there is no stored run {item}")


# ---- The names in pages


TICKED = r"`[^`]+`"
PAIR = re.compile(rf"(?:(?<!\w)`?([a-z][a-z0-9_]*)`? )?`([\w/]+\.rt)`(?:: ({TICKED}(?:(?:,| and|, and) (?!`[\w/]+\.rt`){TICKED})*))?")
PATH = re.compile(r"^(crates|docs|examples|bench|bin|specs|proofs|\.ci)/[\w./-]+$")
LINK = re.compile(r"\]\(([^)\s#]+)[^)]*\)")


def check_names(root, crates, line):
    """The file and function pairs, edits and paths that a line names."""
    for cell in cells_of(line.text) or [line.text]:
        crate = None
        for found in PAIR.finditer(cell):
            if found[1] in crates:
                crate = found[1]
            check_pair(crates, line, crate or line.part, found[2], re.findall(r"`([^`]+)`", found[3] or ""))
    for word in re.findall(r"`([^`]+)`", line.text):
        if re.fullmatch(r"[\w-]+\.edit", word):
            check(any(word in it.edits for it in crates.values()), line.place, f"there is no edit {word}")
        elif PATH.match(word):
            check(is_path(root, crates, line, word.rstrip("/")), line.place, f"there is no {word}")
    for link in LINK.findall(line.text):
        if not re.match(r"[a-z]+:", link):
            check((root / line.page).parent.joinpath(link).exists(), line.place, f"there is no {link}")


def is_path(root, crates, line, word):
    if re.match(r"crates/\w+/out\b", word):  # is there after a build
        return True
    if "NAME" in word.split("/"):  # the name of any crate, run or edit
        return any(root.glob("/".join("*" if it == "NAME" else it for it in word.split("/"))))
    if not word.startswith(("specs/", "proofs/")):
        return (root / word).exists()
    within = [crates[line.part]] if line.part else crates.values()
    return any((it.folder / word).exists() for it in [*within, *(it for it in crates.values() if re.search(rf"(?<!\w){it.name}(?!\w)", line.text))])


def check_pair(crates, line, crate, file, names):
    within = [crates[crate]] if crate else list(crates.values())
    sources = [s for c in within for s in c.sources if str(s.path.relative_to(c.folder / "src")).endswith(file) and s.path.name == file.rsplit("/", 1)[-1]]
    where = crate or "any crate"
    check(sources, line.place, f"there is no {file} in {where}")
    for name in names if sources else ():
        last = name.rsplit("::", 1)[-1]
        has = any(last in s.items or any(last == it.name for it in s.functions) or re.search(rf"\b{re.escape(last)}\b\s*[,({{]", s.code) and "::" in name for s in sources)
        owner = name.split("::")[0]
        has = has and ("::" not in name or any(owner in s.items or any(it.owner == owner for it in s.functions) for s in sources))
        check(has, line.place, f"{where} {file} has no {name}")


def printed(root, *words):
    """What a script of bin/ prints; nothing if it does not run."""
    try:
        return subprocess.run([root / "bin" / words[0], *words[1:]], capture_output=True, encoding="utf-8", check=True).stdout
    except (OSError, subprocess.CalledProcessError):
        return ""


def check_example(root):
    """The example of docs/DEFINITIONS.md is what bin/definitions prints."""
    page = "docs/DEFINITIONS.md"
    text = (root / page).read_text(encoding="utf-8") if (root / page).is_file() else ""
    example = re.search(r"```text\n\$ bin/definitions (\w+)\n(.*?)```", text, flags=re.S)
    check(example and example[2] == printed(root, "definitions", example[1]), page, "the example is not what bin/definitions prints")


def check_defined(crates, line):
    """A row of docs/DEFINITIONS.md whose second cell has a crate and a file of specs/: the names of the first cell are in it."""
    cells = cells_of(line.text)
    where = re.match(r"([a-z0-9_]+) `(specs/[\w/]+\.antt)`$", cells[1]) if len(cells) > 1 else None
    check(where or not any("specs/" in it for it in cells[1:2]), line.place, "the second cell is not a crate and a file of specs/ alone")
    for name in re.findall(r"`([^`]+)`", cells[0]) if where else ():
        crate, file = where.groups()
        has = crate in crates and name in crates[crate].definitions.get(file, ())
        check(has, line.place, f"{crate} {file} has no definition {name}")


CODE_NAME = re.compile(r"(?:[A-Z]\w*::)*[A-Za-z]\w*[a-z]\w*$")
# The pages whose names in backticks are those of code, of requests and of their members.
CODE_PAGES = [f"docs/{it}.md" for it in ("ARCHITECTURE", "CLAIMS", "DECISIONS", "THEOREM")]


def check_current_names(line, words_of_repository):
    """Each name in backticks is somewhere outside docs/."""
    for word in re.findall(r"`([^`]+)`", line.text):
        if CODE_NAME.match(word):
            check(set(word.split("::")) <= words_of_repository, line.place, f"nothing is named {word}")


LIST = rf"{TICKED}(?:(?:,| and) {TICKED})*"
RUNS = re.compile(rf"\bruns? ({LIST})")
CLAUSES_OF = re.compile(rf"({LIST}) of ({TICKED}(?:(?:,| and) {TICKED}(?! of))*)")


def check_shown_by(root, crates, line):
    """A line `Shown by` of docs/DECISIONS.md, or a row of its tables: the stored runs, and the clauses of public calls."""
    for part in line.text.split("; ") if line.text.startswith(("Shown by", "|")) else ():
        for name in re.findall(r"`([^`]+)`", " ".join(RUNS.findall(part))):
            check((root / "examples" / f"{name}.http").is_file(), line.place, f"there is no stored run {name}")
        for labels, calls in CLAUSES_OF.findall(part) if re.search(r"\bclauses? `", part) else ():
            for call in re.findall(r"`([^`]+)`", calls):
                made = [it for crate in crates.values() for _, it in crate.public_functions() if call in (it.name, it.full_name)]
                for label in re.findall(r"`([^`]+)`", labels):
                    check(promises(made, label), line.place, f"no public call {call} has a clause {label}")


def promises(functions, label):
    return any(it.label == label and it.kind == "ensures" for function in functions for it in function.clauses)


def words_outside_docs(root):
    words = set()
    for folder in ("crates/*/src", "crates/*/specs", "crates/*/proofs", "crates/*/edits", ".ci", "bin", "bench", "examples"):
        for base in root.glob(folder):
            for file in base.rglob("*"):
                words.add(file.stem)
                if file.is_file() and file.suffix in (".rt", ".antt", ".py", ".sh", ".edit", ".http", ".replies", ".rows", ""):
                    words.update(re.findall(r"\w+", file.read_text(encoding="utf-8", errors="replace")))
    return words


# ---- Sentences


BREAK = re.compile(r"\s*(?:[-*] |\d+\. |(?:Open point|Choice|Why|Cost|Shown by)\s{2,})")


def blocks_of(lines):
    """Text that belongs together: a paragraph, an item of a list, or a line of an entry. No headings and no tables."""
    block, start, last = [], None, 0
    for line in [*lines, None]:
        text = line.text if line else ""
        starts = BREAK.match(text)
        if block and (not text.strip() or starts or text.startswith(("|", "#")) or line.number != last + 1):
            yield start, " ".join(block)
            block = []
        if line and text.strip() and not text.startswith(("|", "#")):
            start = start if block else line
            block.append(text[starts.end() :] if starts else text.strip())
        last = line.number if line else 0


JOINED = str.maketrans({" ": "_", ".": "․", "!": "ǃ", "?": "ʔ"})


def sentences_of(text):
    """The sentences of a block. Code in backticks is one word, and no full stop in it ends a sentence."""
    text = re.sub(r"<!--.*?-->", "", text)
    text = re.sub(r"`[^`]+`", lambda found: found[0].translate(JOINED), text)
    return re.split(r"(?<=[.!?])[\"*)]*\s+(?=[^a-z\s])", text)


def check_sentences(lines):
    for start, text in blocks_of(lines):
        for sentence in sentences_of(text):
            count = len(sentence.split())
            begin = " ".join(sentence.split()[:6]).replace("․", ".")
            check(count <= LONGEST_SENTENCE, start.place, f"a sentence of {count} words, more than {LONGEST_SENTENCE}: {begin} ..")


# ---- docs/ARCHITECTURE.md


# For each kind of thing that "To add" has a list of: one that is there, by the names of its cases in code, and the crates
# where these names mean something else.
SAMPLES = {
    "A kind of pattern test": (r"suffix|Suffix|suffix_ignoring_case|SuffixIgnoringCase", ()),
    "A kind of configuration change": (r"queue_deleted|QueueDeleted", ()),
    "An API call": (r"delete_queue|DeleteQueue", ("rule_table",)),
    "A refusal": (r"HasTargets|has_targets", ()),
}


def naming(crates, names, but):
    """The files that name one of these, outside comments and tests."""
    found = set()
    for crate in crates.values():
        if crate.name in but or crate.name.endswith("_tests"):
            continue
        for file in [*(it.path for it in crate.sources if not it.is_test), *crate.folder.glob("specs/**/*.antt"), *crate.folder.glob("proofs/**/*.antt")]:
            if "tests" in file.parts:
                continue
            text = re.sub(r"--.*|//.*", "", file.read_text(encoding="utf-8"))
            if re.search(rf"\b({names})\b", text):
                found.add(f"{crate.name} {str(file.relative_to(crate.folder)).removeprefix('src/')}")
    return found


def listed_in(lines, crates, kind):
    """The files that the list of a kind names: the crate of an item comes first, and its files follow, in backticks."""
    found, is_kind, crate = set(), False, None
    for line in lines:
        if line.text.startswith(("**", "#")):
            is_kind = line.text.startswith(f"**{kind}")
        if not is_kind:
            continue
        if BREAK.match(line.text):
            crate = None
        for word in re.findall(r"`[^`]+`|\b[a-z][a-z0-9_]*\b", line.text):
            name = word.strip("`")
            if name in crates:
                crate = name
            elif word[0] == "`" and re.fullmatch(r"[\w/]+\.(rt|antt)", name) and crate:
                found.add(f"{crate} {name}")
    return found


def check_architecture(root, crates, lines):
    page = "docs/ARCHITECTURE.md"
    text = (root / page).read_text(encoding="utf-8")
    for crate in crates:
        check(re.search(rf"`{crate}`|\|\s*{crate}\s*\|", text), page, f"crate {crate} of crates.txt is missing")
    layers = printed(root, "layers")
    check(layers and layers in text, page, "the picture of the crates is not what bin/layers prints")
    for kind, (names, but) in SAMPLES.items():
        listed = listed_in(lines, crates, kind)
        check(listed, page, f"there is no list of {kind}")
        for file in sorted(naming(crates, names, but) - listed):
            check(False, page, f"{kind}: the list lacks {file}, which names {names}")


# ---- docs/CLAIMS.md


# The parts of the page that are about no single crate.
OTHER_PARTS = ("Three things that hold for all crates", "Trusted", "Bodies that `rt plant` found")
CALL = r"`[\w:]+`"
CLAIM = re.compile(
    rf"((?:{CALL}(?:, | and |: ))*{CALL}): (?:the )?clauses? (without a label|({TICKED}(?:(?:,| and|, and) {TICKED}(?!:))*))|((?:{CALL}(?:, | and |: ))*{CALL}): the clauses without a label"
)


def check_parts(crates, lines):
    """Each crate but those of tests alone has one part. If the crate has a public `ensures`, its part names a clause."""
    page = "docs/CLAIMS.md"
    heads = [it.part or it.text[3:].strip() for it in lines if it.text.startswith("## ")]
    for name in heads:
        check(name in crates or name in OTHER_PARTS, page, f"the part {name} is of no crate")
    with_claims = {it.part for it in lines if CLAIM.search(it.text)}
    for crate in crates.values():
        count = heads.count(crate.name)
        check(count == 1 or count == 0 and crate.name.endswith("_tests"), page, f"crate {crate.name} has {count} parts")
        has = any(it.kind == "ensures" for _, function in crate.public_functions() for it in function.clauses)
        check(not has or crate.name in with_claims, page, f"no clause of crate {crate.name} is named in its part")


def check_claims(crates, line):
    if not line.part:
        return
    for found in CLAIM.finditer(line.text):
        words = found[1] or found[4]
        labels = re.findall(r"`([^`]+)`", found[3] or "") or [""]
        crate = line.part
        for word in re.findall(r"`([^`]+)`", words):
            if word in crates:
                crate = word
                continue
            check_claim(crates, line, crate, word, labels)


def check_claim(crates, line, crate, call, labels):
    owner, _, name = call.rpartition("::")
    made = [it for _, it in crates[crate].public_functions() if it.name == name and it.owner == owner]
    check(made, line.place, f"{crate} has no public call {call}")
    for label in labels if made else ():
        check(promises(made, label), line.place, f"{crate} {call} promises no clause {label or 'without a label'}")


def main():
    sys.stdout.reconfigure(encoding="utf-8")
    root = Path(sys.argv[1] if len(sys.argv) > 1 else os.curdir).resolve()
    crates = crates_of(root)
    check_definitions(root, crates)
    for page in PAGES:
        check((root / "docs" / f"{page}.md").is_file(), f"docs/{page}.md", "there is no such page")
    check_example(root)
    words = words_outside_docs(root)
    for page in ["README.md", *sorted(f"docs/{it.name}" for it in root.glob("docs/*.md"))]:
        lines = list(lines_of(root, page, crates))
        check_sentences(lines)
        if page == "docs/ARCHITECTURE.md":
            check_architecture(root, crates, lines)
        if page == "docs/CLAIMS.md":
            check_parts(crates, lines)
        for line in lines:
            check_names(root, crates, line)
            if page == "docs/DEFINITIONS.md":
                check_defined(crates, line)
            if page == "docs/CLAIMS.md":
                check_claims(crates, line)
            if page in CODE_PAGES:
                check_current_names(line, words)
            if page == "docs/DECISIONS.md":
                check_shown_by(root, crates, line)
    for line in sorted(set(failures)):
        print(line)
    print(f"{passed} passed, {len(set(failures))} failed")
    return bool(failures)


if __name__ == "__main__":
    sys.exit(main())
