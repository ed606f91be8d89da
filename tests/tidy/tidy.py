#!/usr/bin/env python3
"""Lists what stands in crates/ and is used by nothing, or says of itself what is not so, and fails where there is any.

    python3 tests/tidy/tidy.py [ROOT]

Six lists, each line with its file and place:

- a name that a logic file (.antt) defines and nothing cites: no other definition of its file, no import of another file, no
  contract, and not docs/PROOFS.md (which is how a theorem counts as used: the page says what it is for);
- a name that a logic file imports, or that `ghost use` brings in for contracts, and does not use;
- a function of the code (.rt) that no other function calls, unless it is open to callers of `desk` or `desk_c`;
- a crate that crates.txt lists for a crate whose files never name it;
- a proof of a function whose first line does not name that function, and a comment that gives a position in the code;
- a name in code marks on the page docs/PROOFS.md that stands nowhere in the crates.

It reads words, not meanings: a name counts as cited where the same word stands in a place that could mean it.
"""

import re
import sys
from pathlib import Path

WORD = r"(?:\[\]|[^\s(){}\[\],;.`\"@]+)"
MARKS = r"^(?P<indent> *)(?P<marks>(?:(?:pub|abbrev|unfoldable) )*)"
DECLARED = re.compile(rf"{MARKS}(?:(?:record|data|ruleset) (?P<type>{WORD})|(?P<name>{WORD}) :)(?: |$)")
USE = re.compile(r"^\s*(?:abbrev |unfoldable )?(?P<again>pub )?use (?P<path>[^\s{]+?)(?:\.\{(?P<names>.*)\})?(?: as \S+)?\s*$")
GOAL = re.compile(rf"\s*(?:abbrev )?(?:pub )?{WORD} : goal\.")
PROOFS = ("Proof", "Invariants", "Answers")
OPEN_CRATES = ("desk", "desk_c")


def words(text):
    return re.findall(WORD, text)


def without_comments(text):
    return re.sub(r"(^|\s)--(?:\s.*)?$", r"\1", text, flags=re.M)


class Logic:
    """One logic file: its imports, the names it defines with their own lines, and the words of all other lines."""

    def __init__(self, path, root):
        self.path = path.relative_to(root)
        parts = self.path.parts
        self.crate = parts[1]
        self.module = path.stem
        self.is_proof = parts[2] == "proofs" and len(parts) > 4 and path.stem in PROOFS  # of one function
        text = path.read_text()
        self.text = text
        self.lines = without_comments(text).split("\n")
        self.imports = []  # line number, module path, name, its name here, whether it is handed on
        self.body = []
        for number, line in enumerate(self.lines, 1):
            use = USE.match(line)
            if not use:
                self.body.append((number, line))
            for name in use["names"].split(",") if use and use["names"] else ():
                name, _, here = name.strip().partition(" as ")
                self.imports.append((number, use["path"], name, here or name, bool(use["again"])))
        self.definitions = list(self.defined())

    def defined(self):
        """Each name once: its place, whether it is a field, whether it is open, and the numbers of its own lines."""
        found, record, within, depth = {}, None, None, 0
        for index, (number, line) in enumerate(self.body):
            match = DECLARED.match(line) if depth == 0 else None  # else a part of a record that is written out
            depth += line.count("{") - line.count("}")
            if line.strip() and record is not None and len(line) - len(line.lstrip()) <= record:
                record = None
            name = match and (match["type"] or match["name"])
            if not match or name in found:
                continue
            own, indent = {number}, len(match["indent"])
            if record is not None and within == "data":
                continue  # a constructor is part of its type
            is_field = record is not None
            if match["type"]:
                record, within = indent, line.split(match["type"])[0].split()[-1]
            for later, text in self.body[index + 1:]:
                inner = len(text) - len(text.lstrip())
                if text.strip() and (inner < indent or inner == indent and not re.match(rf"\s*(?:unfolding |{re.escape(name)}(?:\s|$))", text)):
                    break
                own.add(later)
            found[name] = (name, number, is_field, "pub" in match["marks"], own)
        return found.values()

    def cites_inside(self, name, own):
        return any(name in words(line) for number, line in self.body if number not in own)


def names_uncited(files, code, pages):
    """Definitions that nothing cites; a field of a record is cited by `.field` or `field =` anywhere."""
    imported, fields = {}, set()
    for file in files:
        for _, path, name, _, _ in file.imports:
            imported.setdefault(name, set()).add(path.split(".")[-1])
        for _, line in file.body:
            for module, name in re.findall(rf"({WORD})\.({WORD})", line):
                imported.setdefault(name, set()).add(module)
            fields.update(name for pair in re.findall(rf"\.({WORD})|({WORD}) =", line) for name in pair)
    for text in code.values():
        for path, names in re.findall(r"^ghost use ([^{]+)\.\{(.*)\};", text, flags=re.M):
            for name in names.split(","):
                imported.setdefault(name.strip().split(" ")[0], set()).add(path.split(".")[-1])
        for module, name in re.findall(r"\b(?:specs|proofs)::(?:\w+::)*(\w+)::(\w+)", text):  # as tactics are told of them
            imported.setdefault(name, set()).add(module)
        fields.update(re.findall(rf"\.({WORD})", lines_of_contracts(text)))
    for file in files:
        for name, number, is_field, is_open, own in file.definitions:
            proof = file.is_proof and (GOAL.match(file.lines[number - 1]) or re.search("[-_]spec$", name))
            outside = is_open and file.module in imported.get(name, ())
            if proof or outside or name in pages or (is_field and name in fields):
                continue
            if not file.cites_inside(name, own):
                yield f"{file.path}:{number}: nothing cites {name}"


def is_used(name, used):
    """Whether a name stands among words: whole, or an operator such as ◌+◌ by its parts."""
    parts = [part for part in name.split("◌") if part]
    return name in used or ("◌" in name and all(part in used for part in parts))


def lines_of_contracts(text):
    """All contracts of a file of the code, with its ghost fields and members."""
    lines, inside = [], False
    for line in text.split("\n"):
        begins = re.match(r"\s*(?:requires|ensures|ghost (?!use\b))\b", line)
        inside = bool(begins) or (inside and line.strip() not in ("{", ""))
        lines += [line] if inside else []
    return "\n".join(lines)


def imports_unused(files, code):
    for file in files:
        used = set(word for _, line in file.body for word in words(line))
        for number, _, _, here, is_passed_on in file.imports:
            if not is_passed_on and not is_used(here, used):
                yield f"{file.path}:{number}: {here} is imported and not used"
    for path, text in code.items():
        used = set(words(lines_of_contracts(text)))
        for number, line in enumerate(text.split("\n"), 1):
            use = re.match(r"ghost use [^{]+\{(.*)\};", line)
            for name in use[1].split(",") if use else ():
                here = name.strip().partition(" as ")[2] or name.strip()
                if not is_used(here, used):
                    yield f"{path}:{number}: {here} is imported and not used"


def functions_uncalled(code):
    """Functions that only themselves call, or nothing; under another name, too, where they are imported so."""
    bare = {path: re.sub(r"//.*|^\s*(?:ghost |pub )?use .*", "", text, flags=re.M) for path, text in code.items()}
    uses = "\n".join(code.values())
    for path, text in code.items():
        for match in re.finditer(r'^( *)(pub )?(?:const )?(?:extern "C" )?fn ([a-z_0-9]+).*\n(?:(?!\1}).*\n)*', text, flags=re.M):
            name = match[3]
            if name == "main" or (match[2] and path.parts[1] in OPEN_CRATES):
                continue
            names = {name, *re.findall(rf"use [^;]*::{name} as (\w+);", uses)}
            outside = (bare[other] if other != path else bare[path].replace(re.sub(r"//.*", "", match[0]), "", 1) for other in code)
            called = "|".join(names)  # or handed by its name to a method such as `map`
            if not re.search(rf"(?<!fn )\b(?:{called})\b\s*(?:::<[^()]*>)?\(|\.(?:map|map_err|and_then|all|any|filter)\((?:\w+::)*(?:{called})\)", "\n".join(outside)):
                yield f"{path}:{text[:match.start()].count(chr(10)) + 1}: nothing calls {name}"


def crates_unused(root, files, code):
    for number, line in enumerate((root / "crates.txt").read_text().split("\n"), 1):
        if line.startswith("#") or ":" not in line:
            continue
        name, _, needs = line.partition(":")
        text = "".join(code[path] for path in code if path.parts[1] == name)
        text += "".join("\n".join(file.lines) for file in files if file.crate == name)
        for need in needs.split():
            if not re.search(rf"\b{need}::|Rattle\.{need}\.|\buse {need}\b", text):
                yield f"crates.txt:{number}: {name} does not use {need}"


def headers_wrong(files):
    for file in files:
        if file.is_proof:
            name = "::".join([file.crate, *(part.lstrip("+") for part in file.path.parts[3:-1])])
            if not file.text.startswith(f"-- `{name}`"):
                yield f"{file.path}:1: the first line does not name {name}"
        for number, line in enumerate(file.text.split("\n"), 1):
            if re.search(r"--.*\.rt:\d+", line):
                yield f"{file.path}:{number}: a position in the code"


def pages_stale(root, files, code):
    known = {name for file in files for name, *_ in file.definitions} | {file.module for file in files}
    known |= set(re.findall(r"\w+", "\n".join(code.values()))) | {path.name for path in root.glob("crates/*")}
    for number, line in enumerate((root / "docs/PROOFS.md").read_text().split("\n"), 1):
        for word in (word for span in re.findall(r"`([^`]+)`", line) for word in re.split(r"[\s(),;]+|::|\.(?=\w)", span)):
            if word not in known and re.fullmatch(r"[^/?&*.]+", word):
                yield f"docs/PROOFS.md:{number}: there is no {word}"


def untidy(root):
    files = [Logic(path, root) for path in sorted(root.glob("crates/*/**/*.antt")) if "out" not in path.relative_to(root).parts]
    code = {path.relative_to(root): path.read_text() for path in sorted(root.glob("crates/*/src/**/*.rt"))}
    pages = set(words("\n".join(re.findall(r"`([^`\n]+)`", (root / "docs/PROOFS.md").read_text()))))
    yield from names_uncited(files, code, pages)
    yield from imports_unused(files, code)
    yield from functions_uncalled(code)
    yield from crates_unused(root, files, code)
    yield from headers_wrong(files)
    yield from pages_stale(root, files, code)


def main():
    root = Path(sys.argv[1] if len(sys.argv) > 1 else Path(__file__).parents[2]).resolve()
    found = list(untidy(root))
    print("\n".join(found + [f"tidy: {len(found)} found"]))
    sys.exit(1 if found else 0)


if __name__ == "__main__":
    main()
