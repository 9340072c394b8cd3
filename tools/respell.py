#!/usr/bin/env python3
"""Brings the repository's own definitions and lemmas to today's spelling of names.

usage: tools/respell.py          at the top of the repository, once, after the port's own script
       tools/respell.py --list   prints the new spellings, and writes nothing

A name that specs/ or proofs/ declare is turned where it has a dash or an inner capital: words in
snake case, types, propositions and constructors in camel case. Kept are the names that the check
gives to goals and steps, and every name of src/. Comments keep their text.
"""

import re
import sys
from pathlib import Path

TOKEN = re.compile(r"[^\s(){}\[\].,;:\"«»`]+")
DECLARED = re.compile(r"^(\s*)(?:(?:abbrev|unfoldable|pub|record|data)\s+)*([^\s(){}\[\].,;:\"«»`]+)((?:\s*[({][^(){}]*[)}])*)\s*:\s(.*)$")
GOALS = re.compile(r"\bgoal\.([^\s(){}\[\],;:]+)")
IMPORTS = {".antt": re.compile(r"^use [^{]*\{([^}]*)\}", re.M), ".rt": re.compile(r"^ghost use [^{;]*\{([^}]*)\}", re.M)}
# Where the new spelling is a word of the library that the same proofs cite.
APART = {"bit-or": "bit_of_or", "bit-xor": "bit_of_xor"}


def files():
    return sorted(p for p in Path("crates").rglob("*") if p.suffix in (".antt", ".rt", ".edit") and "out" not in p.parts)


def code_and_comment(line, path):
    """The part of a line that names things, and its comment."""
    if path.suffix == ".antt":
        at = re.search(r"(^|\s)--(\s|$)", line)
    elif path.suffix == ".rt":
        at = re.search(r"(^|\s)//", line)
    else:
        at = None if re.match(r"(old|new): ", line) else re.match("", line)
    return (line, "") if at is None else (line[: at.start()], line[at.start():])


def goal_names(texts):
    """Names that the check gives: goals and what Goals modules export."""
    names = set()
    for text in texts.values():
        names.update(GOALS.findall(text))
        for it in re.findall(r"\.(?:Goals|Given)\.\{([^}]*)\}", text):
            names.update(w.strip() for w in it.split(","))
    return names


def declared(texts):
    """Each declared name with the text after its colon."""
    found = {}
    for path, text in texts.items():
        if path.suffix != ".antt":
            continue
        lines = text.splitlines()
        for i, line in enumerate(lines):
            code, _ = code_and_comment(line, path)
            m = DECLARED.match(code)
            if m:
                kind = m.group(4)
                for more in lines[i + 1:]:
                    if not re.match(r"\s{4,}\S", more) or m.group(1):
                        break
                    kind += " " + more.strip()
                found.setdefault(m.group(2), []).append(kind)
    return found


def is_type(kinds):
    return any(re.search(r"\bType [01]( where)?\s*$|→ (Call|Answer|Entry)\s*$", k.strip()) for k in kinds)


def new_name(name, kinds):
    if name[0].isupper() and is_type(kinds):
        return "".join(part[:1].upper() + part[1:] for part in name.split("-"))
    snake = name.replace("-", "_")
    snake = re.sub(r"(?<=[a-z0-9])([A-Z])", lambda m: "_" + m.group(1).lower(), snake)
    return snake[:1].lower() + snake[1:]


def table(texts):
    goals = goal_names(texts)
    turned = {}
    for name, kinds in declared(texts).items():
        if name in goals or not re.match(r"^[A-Za-z][\w'-]*$", name):
            continue
        if "-" in name or re.match(r"^[a-z]+[A-Z]", name):
            turned[name] = APART.get(name) or new_name(name, kinds)
    return turned


def respelled(text, path, turned):
    out = []
    for line in text.split("\n"):
        code, comment = code_and_comment(line, path)
        out.append(TOKEN.sub(lambda m: turned.get(m.group(0), m.group(0)), code) + comment)
    return "\n".join(out)


def main(argv):
    texts = {p: p.read_text(encoding="utf-8") for p in files()}
    turned = table(texts)
    words = set(declared(texts))
    for path, text in texts.items():
        if path.suffix in IMPORTS:
            words.update(w.strip() for it in IMPORTS[path.suffix].findall(text) for w in it.split(","))
    met = {}
    for old, new in sorted(turned.items()):
        met.setdefault(new, []).append(old)
    together = [f"{', '.join(olds)} and {new}: fall together" for new, olds in met.items() if len(olds) > 1 or new in words]
    if argv == ["--list"]:
        print("\n".join(f"{old} {new}" for old, new in sorted(turned.items())))
        print("\n".join(together), file=sys.stderr)
        return 0
    if together:
        print("\n".join(together), file=sys.stderr)
        return 1
    for path, text in texts.items():
        new = respelled(text, path, turned)
        if new != text:
            path.write_text(new, encoding="utf-8")
    return 0


if __name__ == "__main__":
    raise SystemExit(main(sys.argv[1:]))
