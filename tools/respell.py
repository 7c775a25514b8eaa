#!/usr/bin/env python3
"""Respells this repository's own names: words are joined by `_`, facts are in camel case.

    python3 tools/respell.py [--list]

Run at the top of the repository. It takes the names that the repository's own .antt files
declare or bind, and the aliases of its `use` lines; it leaves the names of the library, those
that the check makes (`loop-i`, `returns-in-Some`, `c.if-row-self`), and those in KEPT. Functions
of src/, strings, inputs and outputs keep their names, since none of them has a dash. A new name
that stands already in a file where the old one stands is printed, and nothing is written.
"""
import glob
import re
import sys

# Laws that join two operations by a dash, as the library does in the same names.
KEPT = set(
    "add-mul add-neg add-sub add-zero inv-mul inv-zero mod-mul mul-add mul-inv mul-mod mul-one mul-zero "
    "one-mul sub-add sub-zero sum-add sum-zero zero-add zero-mul".split()
)

# Names that would fall together with another one: a function of src/, a word of the library.
OTHERWISE = {"own-head": "head_if_own", "sizes-of": "head_sizes", "bit-xor": "bit_of_xor"}

# Names that a field, a method or a module shares from now on: each is told apart by where it stands.
SHARED = {
    "exactly-one-solution",
    "signatures-find-changes",
    "byte-image",
    "block-length",
    "is-sound",
    "taken-in",
    "code-width",
    "image-length",
}

CRATES = tuple(
    "Rattle." + line.split(":")[0].split()[0] + "." for line in open("crates.txt") if line.strip() and line[0] != "#"
)
TOKEN = re.compile(r"[^\s(){}\[\],;.:\"`@]+")
WORD = r"[^\s(){}\[\],;.:\"`@λ=→]+"
MADE = re.compile(
    r"^(loop|invariant|returns|decreases|if|then|else|in_ok|in_err|in_default|from_residual|"
    r"overflow_\w+|index|index_mut|requires|ensures)-.*|in-[A-Z].*|.*-(requires|preserved|init|test)$"
)


def code_of(line, mark):
    """The line's code, and its comment."""
    at = line.find(mark)
    return (line, "") if at < 0 else (line[:at], line[at:])


def dashed(name):
    return bool(re.search(r"[^-]-[^->]|′", name)) and not name.startswith("-") and name != "->"


def new_spelling(name):
    if name in OTHERWISE:
        return OTHERWISE[name]
    name = name.replace("′", "'")
    if re.match(r"[A-Z]", name):
        return "".join(part[:1].upper() + part[1:] for part in name.split("-"))
    return name.replace("-", "_")


def declared(lines):
    """Names that a file of definitions or lemmas declares or binds, and those that it brings in."""
    own, brought, made = set(), set(), set()
    for line in lines:
        code, _ = code_of(line, "--")
        found = re.match(r"\s*(?:pub\s+)?use\s+(\S+?)\.\{(.*)\}", code)
        if found:
            for part in found.group(2).split(","):
                names = part.strip().split(" as ")
                if not found.group(1).startswith(CRATES):
                    brought.add(names[0])
                if len(names) == 2:
                    own.add(names[1])
            continue
        code = re.sub(r"^(\s*)(?:(?:pub|abbrev|unfoldable|pattern|private)\s+)+", r"\1", code)
        found = re.match(r"\s*(?:record|data)\s+(" + WORD + ")", code)
        if found:
            own.add(found.group(1))
        # a signature, one or more names before a colon
        found = re.match(r"\s*((?:" + WORD + r"\s+)*" + WORD + r")\s*(?:\{[^{}]*\}\s*)?:\s", code)
        if found:
            names = found.group(1).split()
            (made if re.search(r":\s*(goal|rules)\.", code) else own).update(names)
        # binders and names given by let or λ
        for found in re.findall(r"[({]((?:" + WORD + r"\s+)*" + WORD + r")\s*:\s", code):
            own.update(found.split())
        own.update(re.findall(r"\blet\s+(" + WORD + r")\s*[:=]", code))
        for found in re.findall(r"λ\s+((?:" + WORD + r"\s+)*" + WORD + r")\s*\.", code):
            own.update(found.split())
        # the patterns of a clause
        found = re.match(r"\s*([^=]*?)\s=(\s|$)", code)
        if found and not code.lstrip().startswith("let ") and " : " not in found.group(1):
            own.update(TOKEN.findall(found.group(1)))
    return own, brought, made


def main():
    antt = sorted(
        path
        for part in ("specs", "proofs")
        for path in glob.glob(f"crates/*/{part}/**/*.antt", recursive=True)
    )
    source = sorted(glob.glob("crates/*/src/**/*.rt", recursive=True))
    edits = sorted(glob.glob("crates/*/must-fail/*.edit"))
    pages = ["README.md"] + sorted(glob.glob("docs/*.md"))
    texts = {path: open(path, encoding="utf-8").read() for path in antt + source + edits + pages}

    own, brought, made = set(), set(), set()
    for path in antt:
        a, b, c = declared(texts[path].split("\n"))
        own |= a
        brought |= b
        made |= c
    for path in source:
        for found in re.findall(r"ghost use [^;]*;", texts[path]):
            own.update(re.findall(r"\bas ([^\s,}]+)", found))
    names = {n for n in own if dashed(n) and not MADE.match(n)} - made - brought - KEPT
    table = {n: new_spelling(n) for n in names}

    # names that fall together
    clash = False
    spelled = {}
    for name in sorted(table):
        if table[name] in spelled:
            print(f"falls together: {name} and {spelled[table[name]]}")
            clash = True
        spelled[table[name]] = name
    for path in antt + source:
        mark = "--" if path.endswith(".antt") else "//"
        tokens = set()
        for line in texts[path].split("\n"):
            tokens.update(TOKEN.findall(code_of(line, mark)[0]))
        for name in sorted(tokens & set(table)):
            if table[name] in tokens and name not in SHARED:
                print(f"falls together: {name} and {table[name]} in {path}")
                clash = True
    if "--list" in sys.argv:
        for name in sorted(table):
            print(name, table[name])
        return 0
    if clash:
        return 1

    def turn(code):
        return TOKEN.sub(lambda m: table.get(m.group(0), m.group(0)), code)

    def turn_code(code, path):
        """All but what follows `c.`, and in answers `v.` and `w.`: those records the check makes."""
        made_by = r"[cvw]" if path.endswith("Answers.antt") else "c"
        out, last = [], 0
        for m in TOKEN.finditer(code):
            before = code[: m.start()]
            if m.group(0) in table and not re.search(r"(^|[^\w'])" + made_by + r"\.$", before):
                out.append(code[last : m.start()] + table[m.group(0)])
                last = m.end()
        return "".join(out) + code[last:]

    for path, text in texts.items():
        lines = []
        for line in text.split("\n"):
            if path in pages:
                line = re.sub(r"`[^`\n]*`", lambda m: turn(m.group(0)), line)
            else:
                code, comment = code_of(line, "--" if path.endswith(".antt") else "//")
                line = turn_code(code, path) + re.sub(r"`[^`\n]*`", lambda m: turn(m.group(0)), comment)
            lines.append(line)
        new = "\n".join(lines)
        if new != text:
            open(path, "w", encoding="utf-8").write(new)
    return 0


if __name__ == "__main__":
    sys.exit(main())
