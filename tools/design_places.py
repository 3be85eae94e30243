#!/usr/bin/env python3
"""The places that docs/DESIGN-PASS.md counts, by its points, in the crates' src/ (point 8: proofs/): tools/design_places.py [-l] [COMMIT]

It goes by text. With -l each place is printed, else only how many there are. With a commit it looks at the crates of that commit, else at those that lie
here."""
import collections
import os
import re
import subprocess
import sys

TOP = os.path.dirname(os.path.dirname(os.path.abspath(__file__)))


def files(commit):
    """The path and the text of each source and proof file."""
    if commit is None:
        for folder, _, names in os.walk(os.path.join(TOP, "crates")):
            if "/out" not in folder:
                for name in sorted(names):
                    if name.endswith((".rt", ".antt")):
                        path = os.path.join(folder, name)
                        yield os.path.relpath(path, TOP), open(path, encoding="utf-8").read()
        return
    listed = subprocess.run(["git", "-C", TOP, "ls-tree", "-r", "--name-only", commit, "crates"], capture_output=True, text=True, check=True)
    for path in listed.stdout.splitlines():
        if path.endswith((".rt", ".antt")):
            shown = subprocess.run(["git", "-C", TOP, "show", f"{commit}:{path}"], capture_output=True, text=True, check=True)
            yield path, shown.stdout


def code_of(text):
    """The text with comments and the contents of strings blanked, and clauses left in."""
    text = re.sub(r"//[^\n]*", "", text)
    return re.sub(r'b?"(?:[^"\\]|\\.)*"', '""', text, flags=re.S)


def functions(text):
    """Each function of a source: its line, its name, its head with the clauses, and its body."""
    for found in re.finditer(r"^( *)(?:pub )?(?:const )?(?:extern \"\" )?fn (\w+)", text, flags=re.M):
        indent = found.group(1)
        start = text.find("\n" + indent + "{", found.start())
        brace = text.find("{\n", found.start())
        first_line = text.find("\n", found.start())
        if brace != -1 and brace < first_line:
            start = brace - 1
        end = text.find("\n" + indent + "}", start + 1)
        if start != -1 and end != -1:
            yield text.count("\n", 0, found.start()) + 1, found.group(2), text[found.start():start], text[start:end]


def shape(body):
    """A body in which each word that is no keyword is the number of its first place."""
    kept = set("fn let mut if else while for in return match as ref self loop break".split())
    numbers = {}
    words = re.findall(r"\w+|[^\w\s]", body)
    return " ".join(w if w in kept or not re.match(r"\w", w) else str(numbers.setdefault(w, len(numbers))) for w in words)


def places(sources):
    """For each point: what is counted, and the places."""
    found = collections.OrderedDict()

    def add(point, path, line, what):
        found.setdefault(point, []).append(f"{path}:{line}: {what}")

    bodies = collections.defaultdict(list)
    facts = collections.defaultdict(list)
    for path, raw in sources:
        if "/src/" not in path:
            continue
        text = code_of(raw)
        for m in re.finditer(r"^(?: *)(?:pub )?enum (\w+)", text, flags=re.M):
            add("1a enums", path, text.count("\n", 0, m.start()) + 1, m.group(1))
        for m in re.finditer(r"(?:pub )?struct (\w+)(?:<[^>]*>)? \{(.*?)\n\}", text, flags=re.S):
            flags = re.findall(r"(\w+): bool", m.group(2)) + re.findall(r"\b(number|line|wrong): ", m.group(2)) + re.findall(r"(answer): ", m.group(2))
            if flags:
                add("1b structs with a flag, a number code or an answer beside a value", path, text.count("\n", 0, m.start()) + 1, m.group(1) + " " + ", ".join(flags))
        for m in re.finditer(r"\b(?:declined|refused|print_refusal)\((?:out, )?\d+", text):
            add("1c refusals by a bare number", path, text.count("\n", 0, m.start()) + 1, m.group(0))
        for m in re.finditer(r"(?:number|line|wrong|due) (?:!=|==) \d+|\d+ < line\b", text):
            add("1d tests of a number code", path, text.count("\n", 0, m.start()) + 1, m.group(0))
        for line, name, head, body in functions(text):
            bodies[shape(body)].append((path, line, name, len(re.findall(r"\w+", body))))
            for m in re.finditer(r"^\s*while\b[^\n]*", body, flags=re.M):
                add("3 while loops", path, line + text.count("\n", 0, 0) + head.count("\n") + body.count("\n", 0, m.start()), f"{name}: {m.group(0).strip()}")
            for clause in re.findall(r"requires (?:\w+ )?\{(.*?)\}(?=\s*(?:requires|ensures|\{|$))", head + "\n{", flags=re.S):
                facts[" ".join(clause.split())].append(f"{path}:{line}: {name}")
            flat = " ".join(head.split())
            if re.search(r"starts: &(?:mut )?\[u32\], ends: &(?:mut )?\[u32\]", flat):
                add("6a run columns as parallel slices", path, line, name)
            if re.search(r"releases: &(?:'a )?\[u32\], deadlines: &(?:'a )?\[u32\]", flat):
                add("6b windows as parallel slices", path, line, name)
            if re.search(r"jobs: \[Job; MAX_TASKS\], count: (?:usize|u32)", flat):
                add("6c jobs as an array with a count beside", path, line, name)
            if re.search(r"columns: RunColumns", flat):
                add("6d runs copied into columns", path, line, name)
            if re.search(r"out: &mut \[u8\], at: usize", flat):
                add("6e a list with a place beside", path, line, name)
            if re.search(r"rows: \[Run; MAX_COPIED\]", flat):
                add("6f an array of runs with a count beside", path, line, name)
            if re.search(r"\b(?:nested|weighted): bool", flat):
                add("7 switches by a flag", path, line, name)
            squeezed = " ".join(body.split())
            if re.fullmatch(r"\{ if (\w+) <=? (\w+) \{ return (?:\1|\2); \} (?:\1|\2)", squeezed) or re.search(r"if (\w+) < (\w+) \{ \1 \} else \{ \2 \}|if (\w+) < (\w+) \{ \4 \} else \{ \3 \}|if (\w+) < (\w+) \{ return 0; \}", squeezed):
                add("4a min, max, saturating_sub by hand", path, line, name)
            if re.search(r"\bfn (?:same|is_same|difference|is_run|same_runs|is_blank|is_digit|digit|long|wide|four_bytes|two_bytes|eight_bytes|copy|copied_count|insert)\b", flat):
                add("4b comparing, copying and converting by hand", path, line, name)
        for m in re.finditer(r"\bas (?:u64|i64|u16|i32)\b", text):
            add("4c widening or changing casts", path, text.count("\n", 0, m.start()) + 1, " ".join(text[max(0, m.start() - 25):m.end()].split()))
    for group in bodies.values():
        if len(group) > 1 and group[0][3] >= 12:
            for path, line, name, _ in group:
                add("2 functions whose text is that of another but for names and numbers", path, line, name)
    for clause, where in facts.items():
        if len(where) > 2 and len(clause.split()) > 2:
            add("5 requires that stand in three or more functions", where[0].split(":")[0], 0, f"{len(where)} times: {clause}")
    return found


def proofs(sources):
    """How many files of answers and invariants there are, and how many lines they have."""
    counts = collections.Counter()
    for path, text in sources:
        if "/proofs/" in path:
            kind = os.path.basename(path) if path.endswith(("Answers.antt", "Invariants.antt")) else "lemmas"
            counts[kind, "files"] += 1
            counts[kind, "lines"] += text.count("\n")
    return counts


def main():
    arguments = sys.argv[1:]
    listed = "-l" in arguments
    commit = next((a for a in arguments if a != "-l"), None)
    sources = list(files(commit))
    for point, where in sorted(places(sources).items()):
        print(f"{len(where):5}  {point}")
        if listed:
            for place in where:
                print(f"         {place}")
    for (kind, what), n in sorted(proofs(sources).items()):
        print(f"{n:5}  8 {kind}: {what}")


main()
