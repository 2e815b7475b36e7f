#!/usr/bin/env python3
"""Spells the repository's own definitions and lemmas as today's libraries do: words in snake case, types in camel case.

Kept as the record of the port (docs/PORT.md): it was run once, on what port.py of rattle-kit-13f had left, and uses a script of that kit.

usage: respell.py            at the top of the repository, once, after port.py: rewrites .antt and .rt files and pages in place
       respell.py --list     prints the table of names and what it found, and writes nothing

A name is the repository's own if a .antt file of it declares it (definition, lemma, field, constructor, argument, local name). A name that
ends in a type is camel case. A new spelling that some file already uses for something else is reported, and that name stays.
"""
import collections, glob, os, re, subprocess, sys, tempfile

NAME = r"[^\s(){}.;,@\"«»:]+"
KIT = os.path.dirname(subprocess.run(["rt", "doc"], capture_output=True, text=True).stdout.strip())
SNAKE = os.path.join(KIT, "port/notes/2026-11-18-names-are-in-snake-case/snake.py")
MARKS = r"(?:(?:pattern|unfoldable|abbrev|pub|private|axiom)\s+)*"


def files():
    return sorted(glob.glob("crates/*/specs/**/*.antt", recursive=True) + glob.glob("crates/*/proofs/**/*.antt", recursive=True))


def plain(text):
    return re.sub(r"(?m)(^|(?<=\s))--[^\n]*", "", text)


def declared(text):
    """(name, its signature or None) of each definition, lemma, field, constructor and bound variable."""
    lines = plain(text).split("\n")
    for at, line in enumerate(lines):
        m = re.match(rf"(\s*){MARKS}(?:(record|data|instance)\s+)?({NAME})((?:\s*[\{{(][^:]*(?::[^:]*?)?[)\}}])*)\s*:(?!:)(.*)$", line)
        if m and m[3] not in ("use", "let", "module", "where"):
            indent, sig = len(m[1]), m[5]
            for more in lines[at + 1:]:
                if more.strip() and len(more) - len(more.lstrip()) > indent and not re.match(rf"\s*{MARKS}{NAME}\s*:", more):
                    sig += " " + more.strip()
                else:
                    break
            yield m[3], ("TYPE" if m[2] in ("record", "data") else sig.strip())
        for b in re.finditer(rf"[({{]((?:{NAME}\s+)*{NAME})\s*:(?!:)", line):
            for n in b[1].split():
                yield n, None
        for b in re.finditer(rf"λ\s+((?:{NAME}\s+)*{NAME})\s*\.", line):
            for n in b[1].split():
                yield n, None
        for b in re.finditer(rf"\blet\s+({NAME})\s*[:=]", line):
            yield b[1], None
        for b in re.finditer(rf" as ({NAME})[,}}]", line):
            yield b[1], None


def is_type(sig):
    return sig is not None and (sig == "TYPE" or bool(re.search(r"(^|→|\})\s*Type( [\dℓ]+)?\s*(where)?$", sig.split(" = ")[0].strip())))


def camel(name):
    return "".join(p[:1].upper() + p[1:] for p in name.split("-"))


def snake(name):
    name = re.sub(r"(?<=[a-z0-9])([A-Z])(?=[a-z]|$|')", lambda m: "_" + m[1].lower(), name)
    return name.replace("-", "_")


# A lemma that would have the name of a definition or of a Rust function ends in _lem.
GIVEN = {"new-length": "new_length_lem", "number_of_lem": "number_of"}


def main():
    items = set(re.findall(r"\b(?:fn|mod|struct|enum|const) (\w+)", " ".join(open(f).read() for f in glob.glob("crates/*/src/*.rt"))))
    sigs, where, used = collections.defaultdict(set), collections.defaultdict(set), collections.defaultdict(set)
    for f in files() + glob.glob("crates/*/src/*.rt"):
        text = open(f).read()
        for n, s in declared(text) if f.endswith(".antt") else ((b, None) for b in re.findall(rf" as ({NAME})[,}}]", text)):
            sigs[n].add(s); where[n].add(f)
    for f in files() + glob.glob("crates/*/src/*.rt"):
        for w in re.findall(r"[^\s(){}.;,@\"«»]+", plain(open(f).read())):
            used[w].add(f)
    table, kept = {}, []
    for n in sorted(sigs):
        if "-" not in n.strip("-") and not re.search(r"[a-z0-9][A-Z]", n) and "get_d" not in n and n not in GIVEN:
            continue
        if not re.match(r"[A-Za-z]", n) or any(s and s.startswith("goal.") for s in sigs[n]):
            kept.append(n); continue
        types = any(is_type(s) for s in sigs[n])
        if types and not all(s is None or is_type(s) for s in sigs[n]):
            kept.append(n + " (a type and a word)")
        new = camel(n) if types or (n[0].isupper() and "-" not in n) else snake(n)
        if n[0].isupper() and not types:
            head, rest = n.split("-", 1) if "-" in n else (n, "")
            new = head + ("-" + snake(rest) if rest else "")
        if new in items and all("/proofs/" in f for f in where[n]):
            new += "_lem"
        new = re.sub(r"getD|get_d(?![a-z])", "get_or", new)  # as std's own word is now called
        new = GIVEN.get(n, new)
        if new != n:
            table[n] = new
    back = collections.defaultdict(list)
    for a, b in table.items(): back[b].append(a)
    clash = {b: a for b, a in back.items() if len(a) > 1}
    meets = {a: sorted(used[b])[:3] for a, b in table.items() if b in used}
    if "--list" in sys.argv:
        for a, b in table.items(): print(f"{a}\t{b}")
        print("# two names that fall together:", clash)
        print("# new spellings that stand somewhere already:")
        for a, fs in meets.items(): print("#  ", a, "->", table[a], "in", *fs, "declared in", *sorted(where[a])[:2])
        print("# kept:", *kept)
        return
    with tempfile.NamedTemporaryFile("w", suffix=".tsv", delete=False) as t:
        t.write("".join(f"{a}\t{b}\n" for a, b in table.items()))
    subprocess.run([sys.executable, SNAKE, "--table", t.name, "--only", "antt,rt,md", "--move", "--prose", "file", "--skip-behind", "goal,c,w,l,g", "crates", "docs", "README.md"], check=True)
    os.unlink(t.name)
    # the one module with a small letter
    if os.path.isdir("crates/kind/specs/laws"):
        os.rename("crates/kind/specs/laws", "crates/kind/specs/Laws")
        os.rename("crates/kind/specs/laws.antt", "crates/kind/specs/Laws.antt")
        for f in files() + glob.glob("crates/*/src/*.rt"):
            text = open(f).read()
            new = re.sub(r"\bspecs\.laws\b", "specs.Laws", text)
            if f == "crates/kind/specs/Lib.antt":
                new = new.replace("pub mod laws", "pub mod Laws")
            if new != text:
                open(f, "w").write(new)


if __name__ == "__main__":
    main()
