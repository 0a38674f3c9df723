#!/usr/bin/env python3
"""Brings this repository's own definitions and lemmas to snake case, once, after port.py has run.

usage: python3 tools/respell.py     at the top of the repository, with everything committed

port.py respells only those names that the library has too. This turns the others: camel case and dashes to snake case, in specs/, proofs/, contracts, must-fail
edits, and between backticks of README.md and docs/. Types, modules, operators, functions of src/ and names that Rattle makes stay as they are. It stops before it
writes where two names would fall together.
"""

import os
import re
import subprocess
import sys

MODIFIERS = r"(?:(?:abbrev|unfoldable|opaque|instance|pub|private|ruleset)\s+)*"
DECLARED = re.compile(r"^ *" + MODIFIERS + r"([^\s:(){}\[\],.;=|λ→◌]+(?: [^\s:(){}\[\],.;=|λ→◌]+)*)\s*:(?!=)(.*)$")
LOCAL = re.compile(r"\blet ([a-z][\w'-]*)\s*[:=]")
TOKEN = re.compile(r"[A-Za-zμ_][\w'₀₁₂→≤]*(?:-[\w'₀₁₂→≤]+)*")
MADE = re.compile(r"^\s*(?:goal|tie)\.")

# where the rule would split a name of the library, or would let a lemma and its function fall together
CHOSEN = {
    "each-getD": "each_get_or",
    "is-nan": "is_nan_lem",
}


def snake(name):
    parts = [p if p[:1].isupper() else re.sub(r"(?<=[a-z0-9])([A-Z])", lambda m: "_" + m.group(1).lower(), p) for p in name.split("-")]
    return CHOSEN.get(name, "_".join(parts))


def spelled(names):
    """Each name with its new spelling. A lemma, which had dashes, gets _lem where it would have its function's name."""
    camel = {snake(n) for n in names if n != n.lower() and "-" not in n}
    plain = {n for n in names if n == n.lower() and "-" not in n}

    def new(n):
        lemma = n not in CHOSEN and (("-" in n and snake(n) in camel | plain) or (n in plain and n in camel))
        return snake(n) + ("_lem" if lemma else "")

    return {n: new(n) for n in names if new(n) != n}


def texts():
    listed = subprocess.run(["git", "ls-files"], capture_output=True, text=True, check=True).stdout.split()
    return {f: open(f, encoding="utf-8").read() for f in listed if turned(f)}


def turned(path):
    if path.startswith("crates/"):
        return path.endswith((".antt", ".rt", ".edit"))
    return path.endswith(".md") and "PORT" not in path


def own_names(files):
    """The names that the repository declares, with those that Rattle makes left out."""
    names = set()
    for path, text in files.items():
        if not path.endswith(".antt"):
            continue
        for line in text.splitlines():
            if line.startswith("use ") or line.lstrip().startswith("--"):
                continue
            m = DECLARED.match(line)
            if m and not MADE.match(m.group(2)) and "statement M" not in m.group(2):
                names.update(m.group(1).split(" "))
            names.update(LOCAL.findall(line))
    return {n for n in names if not n[:1].isupper() and re.match(r"[a-z]", n)}


def functions(files):
    """The functions of src/, as the older Rattle spelled them in what it made for proofs."""
    return {m.replace("_", "-") for path, text in files.items() if path.endswith(".rt") for m in re.findall(r"\bfn (\w+)", text)}


def parts(path, text):
    """A text in parts, each with how names are turned there: all names in code, no name with a dash in a comment, none in prose."""
    if path.endswith(".md"):
        code = re.compile(r"```.*?```|`[^`\n]*`", re.S)
        comment = None
    else:
        code = None
        comment = re.compile(r"(?:--|//)[ \n].*" if path.endswith((".antt", ".rt")) else r"(?!)")
    end, said = 0, []
    for m in (code or comment).finditer(text):
        said += [("code" if comment else "prose", text[end : m.start()]), ("comment" if comment else "code", m.group(0))]
        end = m.end()
    return said + [("code" if comment else "prose", text[end:])]


def turn(path, text, names, made):
    def one(m):
        name = m.group(0)
        if m.string[m.start() - 1 : m.start()] == "." and name in made:
            return name.replace("-", "_")
        return names.get(name, name)

    def comment(m):
        name = m.group(0)
        quoted = m.string[m.start() - 1 : m.start()] == "`"
        return names.get(name, name) if quoted or "-" not in name else name

    how = {"code": lambda t: TOKEN.sub(one, t), "comment": lambda t: TOKEN.sub(comment, t), "prose": lambda t: t}
    return "".join(how[kind](t) for kind, t in parts(path, text))


def fallen_together(own, names):
    turned_to = {}
    for old in own:
        turned_to.setdefault(names.get(old, old), []).append(old)
    return [f"{new}: {' '.join(olds)}" for new, olds in turned_to.items() if len(olds) > 1]


def main():
    files = texts()
    own = own_names(files)
    names = spelled(own)
    said = fallen_together(own, names)
    if said:
        print("\n".join(sorted(said)), file=sys.stderr)
        return 1
    made = functions(files)
    # a page may still say a name as it was before port.py
    pages = {n.replace("_", "-"): n for n in own if "_" in n and n not in names} | names
    for path, text in files.items():
        new = turn(path, text, pages if path.endswith(".md") else names, made)
        if new != text:
            with open(path, "w", encoding="utf-8") as f:
                f.write(new)
    print(f"{len(names)} names turned")
    return 0


if __name__ == "__main__":
    raise SystemExit(main())
