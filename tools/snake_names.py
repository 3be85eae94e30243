#!/usr/bin/env python3
"""Respells this repository's own definitions and lemmas: words in snake case, as the libraries spell theirs.

usage: python3 tools/snake_names.py            at the top of the repository, after the port script: rewrites crates/ in place
       python3 tools/snake_names.py --names    prints old and new names, and rewrites nothing

A definition `firstRefusal` becomes `first_refusal`, and a lemma on it `firstRefusal-known` becomes `first_refusal-known`: there the dash joins two names. In a
lemma's name that no definition begins or ends, the dashes become underscores, `legal-count` becomes `legal_count`. Types and modules keep their capitals, and
names of functions, strings, inputs and outputs stay. A name that would fall together with another is refused.
"""

import os
import re
import sys

# Names that would fall together with a crate, a field or a lemma. The lemmas are those that the port script had put in snake case already. `most-within` is a
# field, and may have a function's name.
CHOSEN = {
    "most-within": "most_within",
    "tableText": "text_of_table",
    "weightedFile": "file_of_weighted",
    "startsFrom": "starts_from_tick",
    "run_holds": "run_holds_lem",
    "copied_runs": "copied_runs_lem",
    "found_first": "found_first_lem",
    "read_answer": "read_answer_lem",
    "no_table": "no_table_lem",
}

MARKS = r"(?:(?:pattern|unfoldable|abbrev|axiom|pub) )*"
DECLARED = re.compile(r"^ *" + MARKS + r"(data |record )?([^\s(){}:;,.\"λ]+)(?: \{[^}:]*\})? :(?= |$)")
# a name of antt: no blank, bracket, comma, semicolon or dot
NAME = re.compile(r"[^\s(){}\[\];,.\"«»λ`:|]+")
COMMENT = re.compile(r"--.*$")


def files(root, endings):
    for folder, dirs, names in os.walk(os.path.join(root, "crates")):
        dirs[:] = sorted(d for d in dirs if d not in ("out", ".git"))
        for f in sorted(names):
            if f.endswith(endings):
                yield os.path.join(folder, f)


def text_of(path):
    with open(path, encoding="utf-8") as f:
        return f.read()


def is_walk(path):
    return "/specs/" not in path and os.path.basename(path) in ("Proof.antt", "Answers.antt", "Invariants.antt")


def declared(root):
    """The names that specs/ and the lemma files of proofs/ declare, outside `where`."""
    found = set()
    for path in files(root, ".antt"):
        if is_walk(path) or os.path.basename(path) == "Lib.antt":
            continue
        for line in text_of(path).split("\n"):
            m = DECLARED.match(line)
            if m and not m.group(1) and not line.startswith("   ") and (not line.startswith(" ") or "pub" in line.split(m.group(2))[0]):
                found.add(m.group(2))
    return found


def snake(word):
    return re.sub(r"(?<=[a-z0-9])([A-Z])", lambda m: "_" + m.group(1).lower(), word)


def respelled(name):
    if name in CHOSEN:
        return CHOSEN[name]
    if re.match(r"[A-Z◌]", name) or not re.match(r"[a-z]", name):
        return name
    words = snake(name)
    if words == name and "→" not in name:
        words = name.replace("-", "_")
    return words.replace("→", "_")


def functions(root):
    """The names of the functions of src/."""
    found = set()
    for path in files(root, ".rt"):
        found.update(re.findall(r"\bfn (\w+)", text_of(path)))
    return found


def mapping(root):
    """Old and new names. A lemma that would have the name of a definition or of a function ends in `_lem`."""
    own = declared(root)
    taken = functions(root) | {respelled(n) for n in own if "-" not in n}
    names = {}
    for n in sorted(own):
        to = respelled(n)
        if to != n:
            names[n] = to + "_lem" if "-" in n and to in taken and n not in CHOSEN else to
    return names


def clashes(root, names):
    """New names that two old ones share, and those that a file uses already beside the old name, but in a path or as a function."""
    said = []
    new = {}
    for old, word in names.items():
        if word in new:
            said.append(f"{old} and {new[word]} would both be {word}")
        new[word] = old
    for path in files(root, (".antt", ".rt")):
        lines = text_of(path).split("\n")
        code = "\n".join(COMMENT.sub("", l) if path.endswith(".antt") else l.split("//")[0] for l in lines)
        tokens = set(NAME.findall(code))
        for old, word in names.items():
            alone = r"(?<![\w.'-])(?<!ensures )" + re.escape(word) + r"(?![\w.'(:<-])"
            if old in tokens and word in tokens and word not in names and re.search(alone, code):
                said.append(f"{os.path.relpath(path, root)}: {word} is in use, and {old} would be it")
    return said


def turned_antt(text, names):
    return NAME.sub(lambda m: names.get(m.group(0), m.group(0)), text)


def turned_rt(text, names):
    """Names in the clauses, the imports and the comments: a name with a dash stands in comments alone, since a clause has none."""
    out = []
    for line in text.split("\n"):
        code, mark, comment = line.partition("//")
        pieces = re.split(r'("(?:[^"\\]|\\.)*")', code)
        for k in range(0, len(pieces), 2):
            pieces[k] = NAME.sub(lambda m: names.get(m.group(0), m.group(0)) if "-" not in m.group(0) else m.group(0), pieces[k])
        out.append("".join(pieces) + mark + NAME.sub(lambda m: names.get(m.group(0), m.group(0)), comment))
    return "\n".join(out)


def main(argv):
    root = os.getcwd()
    names = mapping(root)
    if argv == ["--names"]:
        for old in names:
            print(old, names[old])
        return 0
    said = clashes(root, names)
    if said:
        print("\n".join(said))
        return 1
    for path in files(root, (".antt", ".rt", ".edit")):
        text = text_of(path)
        to = text
        if path.endswith(".rt"):
            to = turned_rt(text, names)
        else:
            to = turned_antt(text, names)
        if to != text:
            with open(path, "w", encoding="utf-8") as f:
                f.write(to)
    print(f"{len(names)} names respelled")
    return 0


if __name__ == "__main__":
    raise SystemExit(main(sys.argv[1:]))
