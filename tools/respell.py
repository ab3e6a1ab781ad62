#!/usr/bin/env python3
"""Gives the repository's own definitions and lemmas the spelling of the language's style: types and statements in camel case, everything else in snake case.

usage: python3 tools/respell.py [--list]      at the top of the repository; --list prints the names and changes nothing

It served to bring the repository to a newer Rattle (docs/PORT.md). Names that Rattle makes (goals, steps) keep their dashes; names of functions in src/ are never changed. Where two names would fall together, it says so.
"""

import glob
import re
import sys

WORD = re.compile(r"[^\s(){}\[\],.;:@\"`⌜⌝]+")
DECLARED = re.compile(r"^\s*(?:(?:pub|abbrev|unfoldable|record|data)\s+)*([^\s:.(){}\[\],;]*-[^\s:.(){}\[\],;]*|[a-z]\w*[A-Z]\w*)(?:\s+[({].*?)?\s*:(?!=)")
ALIAS = re.compile(r"\bas ([a-z]+(?:-[a-z]+)+)\b")
MODULE_ALIAS = re.compile(r"^\s*(?:ghost )?use [\w.]+ as ([a-z]+)\b")
FIELD = re.compile(r"^\s+pub\s+([^\s:.(){}]*-[^\s:.(){}]*)\s*:")
LET = re.compile(r"\blet\s+([^\s:.(){}=]*-[^\s:.(){}=]*)\s*[:=]")
GOAL = re.compile(r":\s*(?:goal|need)\.")


def respelled(name):
    parts = [p for p in name.replace("getD", "get_or").split("-") if p]
    if name[0].isupper():
        return "".join(p[0].upper() + p[1:] for p in parts)
    return re.sub(r"[A-Z]", lambda m: "_" + m.group(0).lower(), "_".join(parts)).replace("__", "_")


def texts():
    return sorted(p for e in ("antt", "rt") for p in glob.glob(f"crates/**/*.{e}", recursive=True) if "/out/" not in p)


def collect():
    names, fields, modules = {}, set(), set()
    for path in texts():
        with open(path, encoding="utf-8") as f:
            for number, line in enumerate(f, 1):
                for name in ALIAS.findall(line):
                    names.setdefault(name, []).append(f"{path}:{number}")
                modules.update(MODULE_ALIAS.findall(line))
                if not path.endswith(".antt"):
                    continue
                if line.lstrip().startswith("--"):
                    continue
                code = line.split(" -- ")[0]
                found = [m.group(1) for m in [DECLARED.match(code)] if m and not GOAL.search(code)]
                found += LET.findall(code)
                for name in found:
                    if re.match(r"[^\W\d_]", name) and not name.startswith(("λ", "→")) and not re.search(r"[<>≤=+*∷]", name):
                        names.setdefault(name, []).append(f"{path}:{number}")
                m = FIELD.match(code)
                if m:
                    fields.add(m.group(1))
    return names, fields, modules


def split_comment(path, line):
    mark = "//" if path.endswith(".rt") else "--"
    if line.lstrip().startswith(mark):
        return "", line
    at = line.find(" " + mark + " ")
    return (line, "") if at < 0 else (line[:at], line[at:])


def turn(path, names, fields, modules):
    with open(path, encoding="utf-8") as f:
        lines = f.readlines()

    out = []
    for line in lines:
        code, comment = split_comment(path, line)

        def one(m):
            word = m.group(0)
            if word not in names:
                return word
            if m.start() > 0 and code[m.start() - 1] == ".":
                before = re.search(r"([^\s(){}\[\],.;:]+)\.$", code[: m.start()])
                module = before is not None and (before.group(1) in modules or (before.group(1)[0].isupper() and "." in code[: m.start() - 1]))
                if word not in fields and not module:
                    return word
            return respelled(word)

        out.append(WORD.sub(one, code) + comment)
    with open(path, "w", encoding="utf-8") as f:
        f.writelines(out)


def main():
    names, fields, modules = collect()
    spelled = {}
    for name in sorted(names):
        spelled.setdefault(respelled(name), []).append(name)
    for new, olds in spelled.items():
        if len(olds) > 1:
            print(f"fall together: {new}: {' '.join(olds)}")
    if sys.argv[1:] == ["--list"]:
        for name in sorted(names):
            print(name, respelled(name), names[name][0])
        return
    for path in texts():
        turn(path, names, fields, modules)
    print(f"{len(names)} names")


main()
