#!/usr/bin/env python3
"""Counts the places of each point of docs/DESIGN-PASS.md in a checkout: python3 tools/places.py [FOLDER] [POINT], with the places of that point."""
import collections
import glob
import os
import re
import sys

ROOT = sys.argv[1] if len(sys.argv) > 1 else "."
SHOWN = sys.argv[2] if len(sys.argv) > 2 else None


def lines_of(pattern):
    """Each source line with its place; comment lines are left out."""
    for path in sorted(glob.glob(os.path.join(ROOT, pattern), recursive=True)):
        with open(path, encoding="utf-8") as text:
            for number, line in enumerate(text, 1):
                if not line.lstrip().startswith(("//", "--")):
                    yield f"{os.path.relpath(path, ROOT)}:{number}", line.rstrip("\n")


SOURCE = list(lines_of("crates/*/src/*.rt"))
FOUND = collections.OrderedDict()


def count(point, what, places):
    FOUND.setdefault(point, []).append((what, places))


def grep(pattern, wanted=lambda line: True):
    return [f"{at}: {line.strip()}" for at, line in SOURCE if re.search(pattern, line) and wanted(line)]


def functions():
    """Each function: place, name, parameters, header (with clauses) and body."""
    for path in sorted(glob.glob(os.path.join(ROOT, "crates/*/src/*.rt"))):
        with open(path, encoding="utf-8") as file:
            rows = ["" if row.lstrip().startswith("//") else row for row in file.read().split("\n")]
        for i, row in enumerate(rows):
            found = re.match(r'( *)(?:pub(?:\(crate\))? )?(?:extern "C" )?fn (\w+)', row)
            if not found:
                continue
            indent, opened = found.group(1), i
            while not (rows[opened] in (indent + "{", indent + "{}") or re.search(r"[^}] \{$|;$|\) \{\}$", rows[opened])):
                opened += 1
            closed = opened
            if rows[opened].endswith("{"):
                while rows[closed] != indent + "}":
                    closed += 1
            head = "\n".join(rows[i: opened + 1])
            arguments = re.search(r"\((.*?)\)\s*(?:->|ensures|requires|\{|;|$)", head, flags=re.S)
            names = re.findall(r"\b\w+: |\bself\b", arguments.group(1)) if arguments else []
            yield f"{os.path.relpath(path, ROOT)}:{i + 1}", found.group(2), names, head, "\n".join(rows[opened + 1: closed])


FUNCTIONS = list(functions())

# 1
plain = []
for i, (at, line) in enumerate(SOURCE):
    if re.match(r"\s*(pub(\(crate\))? )?(enum|struct) ", line):
        above, j = "", i - 1
        while j >= 0 and SOURCE[j][1].startswith("#["):
            above, j = above + SOURCE[j][1], j - 1
        if not all(word in above for word in ("Debug", "PartialEq", "Eq")):
            plain.append(f"{at}: {line.strip()}")
count("1", "types with no derived Debug, PartialEq and Eq", plain)
count("1", "arms that only pass a case on", grep(r"\b((Some|Ok|Err)\((\w+|\(\))\)|None) => (Some|Ok|Err)\(|\b(None|Err\(_\)) => (false|0|text|None)\b"))
count("1", "let-else that turns None or Err into an answer", grep(r"let (Ok|Some)\(.* else \{"))
count("1", "functions that write through a &mut and answer a bool beside", [f"{at}: {name}" for at, name, names, head, body in FUNCTIONS if "-> bool" in head and re.search(r"&mut (self|\[)", head)])
count("1", "functions that give a number for a case", [f"{at}: {name}" for at, name, names, head, body in FUNCTIONS if len(re.findall(r"=> \d+,", body)) > 0])
count("1", "functions that answer a number which says nothing", grep(r"pub fn .*\(\) -> u8"))

# 2
bodies = collections.defaultdict(list)
for at, name, names, head, body in FUNCTIONS:
    shape = body
    for i, word in enumerate(names):
        if word != "self":
            shape = re.sub(rf"\b{word[:-2]}\b", f"p{i}", shape)
    shape = re.sub(r"state|change", "value", re.sub(r"\b(Block|Tally|BankMap)\b", "K", re.sub(r"\b\d+\b", "N", shape)))
    if len(shape.split()) > 2:
        bodies[" ".join(shape.split())].append(f"{at}: {name}")
count("2", "functions whose bodies differ at most in a kind, a number, or state for change", [place for group in bodies.values() if len(group) > 1 for place in group])
forwards = []
for at, name, names, head, body in FUNCTIONS:
    inner = body.strip()
    if re.fullmatch(r"(self\.)?\w+(::<[\w, ]+>)?\([\w, &.]*\)", inner, flags=re.S):
        forwards.append(f"{at}: {name} is {inner}")
count("2", "functions that only hand on to another", forwards)
constants = collections.Counter(re.search(r"const (\w+)", place).group(1) for place in grep(r"^(pub )?const \w+: \w+ = "))
count("2", "constants that stand twice", grep(r"^(pub )?const \w+: \w+ = ", lambda line: constants[re.search(r"const (\w+)", line).group(1)] > 1))
count("2", "matches on the three kinds", grep(r"(BoardKind|Store)::(Block|Blocks)(\(\w+\))? =>|\"block\" =>|Some\(BoardKind::Block\) =>"))

# 3
COUNTED = r"\bfor [a-z]\w* in [^&\[]*\.\."
count("3", "loops that count an index or a number", grep(COUNTED))
count("3", "loops over items, or so many times", grep(r"^\s*for .* in ", lambda line: not re.search(COUNTED, line)))
count("3", "while and loop", grep(r"\bwhile |\bloop \{"))

# 4
count("4", "From, TryFrom, FromStr and Display by hand", grep(r"^\s*impl.* (From<.*>|TryFrom<.*>|FromStr|fmt::Display) for "))
count("4", "functions that print or convert by hand", grep(r"fn (write_\w*(refusal|place|fault)|\w*meaning|verb_named|field_named|kind_of|is)\b"))

# 5
clauses = collections.defaultdict(list)
for at, name, names, head, body in FUNCTIONS:
    for clause in set(re.findall(r"(?:requires|ensures) (?:\w+ )?\{ (.*) \}$", head, flags=re.M)):
        clauses[clause].append(f"{at}: {name}")
count("5", "facts that stand in three or more contracts", [f"{len(group)} times {clause}" for clause, group in clauses.items() if len(group) >= 3])
count("5", "contracts with such a fact", sorted({at for group in clauses.values() if len(group) >= 3 for at in group}))
count("5", "requires", grep(r"^\s*requires "))
count("5", "functions of five or more parameters", [f"{at}: {name} {len(names)}" for at, name, names, head, body in FUNCTIONS if len(names) >= 5])

# 6
fields, within = [], False
for at, line in SOURCE:
    within = line.rstrip().endswith("{") if re.match(r"(pub(\(crate\))? )?struct ", line) else within and line != "}"
    if within and re.search(r": (&('\w+ )?(mut )?\[|Vec<)", line):
        fields.append(f"{at}: {line.strip()}")
count("6", "fields that hold a slice or a vector", fields)
count("6", "answers that are made as text at once", grep(r"-> Result<String, Fault>"))

# 7
count("7", "function pointers, closures taken, dyn", grep(r"\bfn\(|\bFn(Once|Mut)?\(|\bdyn "))
count("7", "matches on a command, a verb, a field or a name", grep(r"^\s*match (kind|verb|command|field|word|part|name)\b"))

# 8
ANSWERS = list(lines_of("crates/*/proofs/**/Answers.antt"))
LEMMAS = [(at, line) for at, line in lines_of("crates/*/proofs/**/*.antt") if not re.search(r"/(Answers|Invariants|Given|Goals)\.antt:", at)]
count("8", "answers", [f"{at}: {line}" for at, line in ANSWERS if re.match(r"(abbrev )?pub \S+ :", line)])
count("8", "lemmas", [f"{at}: {line}" for at, line in LEMMAS if re.match(r"((abbrev )?pub )?[\w'-]+ : ", line)])
count("8", "lines of proofs", [at for at, line in lines_of("crates/*/proofs/**/*.antt") if line.strip()])

for point, rows in FOUND.items():
    for what, places in rows:
        print(f"{point}  {len(places):5d}  {what}")
        if SHOWN == point:
            for place in places:
                print(f"           {place}")
