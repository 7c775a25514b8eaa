#!/usr/bin/env python3
"""Prints the places in crates/*/src that docs/DESIGN-PASS.md counts, point by point.

    python3 tools/places.py [POINT]

It finds candidates by the look of the code; the page says of each what became of it.
"""
import difflib
import itertools
import pathlib
import re
import sys

ROOT = pathlib.Path(__file__).resolve().parent.parent
FN = re.compile(r"^( *)(?:#\[.*\]\s*)*(?:pub(?:\(crate\))? )?(?:extern \"C\" )?fn (\w+)", re.M)


def files(tests=True):
    for path in sorted((ROOT / "crates").glob("*/src/**/*.rt")):
        if tests or "tests" not in str(path.relative_to(ROOT)):
            yield path, path.read_text()


def name(path):
    return str(path.relative_to(ROOT / "crates")).replace("/src/", ":")


def code(text):
    """The text without comments and without contracts, so that what is left is what runs."""
    text = re.sub(r"//.*", "", text)
    clause = r"^ *(?:ensures|requires|ghost)\b.*?(;?)\n(?: {8,}→.*\n)*"
    return re.sub(clause, r"\1\n", text, flags=re.M)


def functions(text):
    """Each function as (its indent, name, signature, body)."""
    for found in FN.finditer(text):
        indent = found.group(1)
        rest = text[found.start():]
        end = re.search(r"^" + indent + r"(?:\}|\{\})$|^" + indent + r"fn [^{]*;$", rest, re.M)
        whole = rest[: end.end()] if end else rest
        brace = re.search(r"^" + indent + r"\{|\{$", whole, re.M)
        bare = re.search(r"^[^{]*;$", whole, re.M)
        if not brace or bare and bare.start() < brace.start():
            continue
        yield indent, found.group(2), whole[: brace.start()], whole[brace.start():]


def point_1():
    for path, text in files():
        for found in re.finditer(r"^(?:pub )?enum (\w+)\S* \{\n((?:    .*\n)+)\}", text, re.M):
            variants = re.findall(r"^    (\w+)(\(.*\))?,", found.group(2), re.M)
            if len(variants) == 2:
                yield f"{name(path)} enum {found.group(1)} of two cases"
        for found in re.finditer(r"^(?:pub )?const (\w+): (?:usize|u8) = \d+;", text, re.M):
            if re.search(rf"== {found.group(1)}\b|accepted\({found.group(1)}\b", text) or found.group(1) == "DAMAGE":
                yield f"{name(path)} const {found.group(1)}, a number for a kind"
        for _, fn, _, body in functions(code(text)):
            arms = re.findall(r"^ +(?:\d+|[A-Z]\w+::\w+(?:\(.*\))?(?:\n? *\| .*)*) => (?:\(?\d+|of_)", body, re.M)
            if len(arms) >= 2:
                yield f"{name(path)} {fn} matches kinds with numbers"


def tokens(body):
    body = re.sub(r"\b(?:Byte|Counter|byte|counter)\w*", "T", body)
    return re.findall(r"\w+|[^\s\w]", body)


def point_2():
    every = []
    for path, text in files():
        for _, fn, signature, body in functions(code(text)):
            found = tokens(signature.split("(", 1)[-1] + body)
            if len(found) >= 30:
                every.append((f"{name(path)} {fn}", found))
    for (one, left), (two, right) in itertools.combinations(every, 2):
        if min(len(left), len(right)) < 0.7 * max(len(left), len(right)):
            continue
        match = difflib.SequenceMatcher(None, left, right, autojunk=False)
        if match.quick_ratio() >= 0.85 and match.ratio() >= 0.85:
            yield f"{one} ~ {two}"


def point_3():
    for path, text in files():
        for _, fn, _, body in functions(code(text)):
            for found in re.finditer(r"^( *)(?:'\w+: )?for (\w+) in (.*\.\..*) \{\n((?:\1 .*\n|\n)*)", body, re.M):
                variable = found.group(2)
                if re.search(rf"\[{variable}\]|\[[^\]]*\b{variable}\b[^\]]*\]|\.get\({variable}\)|store\([^;]*\b{variable}\b", found.group(4)):
                    yield f"{name(path)} {fn} for {variable} in {found.group(3)}"
            for found in re.finditer(r"^ *(while .*|loop) \{", body, re.M):
                yield f"{name(path)} {fn} {found.group(1)}"
            loop = re.search(r"^ *(?:for|while) ", body, re.M)
            if loop:
                for found in re.finditer(r"^ +(\w+) (?:\+= 1|= \1\.saturating_add\(1\)|\+= \w+);", body[loop.start():], re.M):
                    yield f"{name(path)} {fn} counts {found.group(1)} by hand"


def point_4():
    for path, text in files(False):
        for _, fn, signature, body in functions(code(text)):
            if re.search(r"\bfn (?:\w*number\w*|\w*numbered|equals|sizes_of|value|reduced|carried|of_\w+|word)\(", signature):
                yield f"{name(path)} {fn}"
            elif re.search(r"-> io::Result<\(\)>", signature) and "print" in body and "match" in body:
                yield f"{name(path)} {fn} prints case by case"
        for found in re.finditer(r"^impl (?:fmt::)?(\w+)(?:<.*>)? for (\w+)", text, re.M):
            if found.group(1) in ("Clone", "Copy", "PartialEq", "Eq", "Ord", "PartialOrd", "Default", "Debug"):
                yield f"{name(path)} impl {found.group(1)} for {found.group(2)}"


def parameters(signature):
    inner = signature.split("(", 1)[-1].split(")\n")[0].split(") ->")[0]
    plain = (re.sub(r"&(?:'\w+ )?(?:mut )?", "", p.strip()) for p in re.findall(r"\w+: [^,()]*", inner))
    return frozenset(p for p in plain if not p.startswith("rt: "))


def point_5():
    groups = {}
    premises = {}
    for path, text in files(False):
        here = name(path)
        for _, fn, signature, _ in functions(re.sub(r"//.*", "", text)):
            plain = parameters(re.split(r"\n *(?:where|ensures|requires|ghost)\b", signature)[0])
            for size in () if 'extern "C"' in signature else (2, 3):
                for group in itertools.combinations(sorted(plain), size):
                    groups.setdefault(group, set()).add(f"{here} {fn}")
            for clause in re.findall(r"ensures [^{]*\{ (.*?) \}\n", signature + "\n", re.S):
                for premise in clause.split("→")[:-1]:
                    premise = premise.strip()
                    if premise.count("(") != premise.count(")") or re.match(r"\([\w ]+ : [^()]*\)$|ℕ$", premise):
                        continue
                    premises.setdefault(" ".join(premise.split()), set()).add(f"{here} {fn}")
    shown = []
    for group, users in sorted(groups.items(), key=lambda g: (-len(g[0]), -len(g[1]))):
        if len(users) >= 3 and not any(set(group) < set(big) and len(users - of) < 3 for big, of in shown):
            shown.append((group, users))
            yield f"together in {len(users)}: {', '.join(group)}"
    for premise, users in sorted(premises.items(), key=lambda p: -len(p[1])):
        if len(users) >= 3:
            yield f"premise of {len(users)}: {premise}"


def point_6():
    for path, text in files(False):
        for found in re.finditer(r"^(?:pub )?struct (\w+)\S* \{\n((?:    .*\n)+)\}", text, re.M):
            fields = found.group(2)
            if re.search(r"\b(?:count|rows|size|components|len|card_length): usize", fields) and re.search(r"\[|Vec<", fields):
                yield f"{name(path)} struct {found.group(1)}: arrays with a count beside"
            if len(re.findall(r"\[|Vec<", fields)) >= 2:
                yield f"{name(path)} struct {found.group(1)}: arrays side by side"
        for _, fn, signature, _ in functions(code(text)):
            if re.search(r"&(?:mut )?\[\w+; \d+\]", signature) and re.search(r"\b(?:size|card_length|data_rows|parity_rows|rows|count): usize", signature):
                yield f"{name(path)} {fn}: an array and how much of it is used"


def point_7():
    for path, text in files(False):
        for _, fn, signature, body in functions(code(text)):
            if re.search(r"match (?:step\.call|\(\*self, action\))|== DAMAGE", body):
                yield f"{name(path)} {fn} switches on a step"
            if re.search(r"\b\w+: bool", signature):
                yield f"{name(path)} {fn} takes a switch"


def point_8():
    for crate in sorted((ROOT / "crates").glob("*/proofs")):
        answers = lemmas = lines = 0
        for path in crate.glob("**/*.antt"):
            text = path.read_text()
            lines += text.count("\n")
            if path.name == "Answers.antt":
                answers += len(re.findall(r"^pub [\w-]+ : goal\.", text, re.M))
            elif path.parent == crate:
                lemmas += len(re.findall(r"^ *pub [\w-]+ :", text, re.M))
        yield f"{crate.parent.name}: {answers} answers, {lemmas} lemmas, {lines} lines"


if __name__ == "__main__":
    wanted = sys.argv[1:] or [str(i) for i in range(1, 9)]
    for point in wanted:
        places = list(globals()[f"point_{point}"]())
        print(f"point {point}: {len(places)}")
        for place in places:
            print(f"    {place}")
