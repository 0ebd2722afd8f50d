#!/usr/bin/env python3
"""Lists the places in crates/*/src that an older form of Rattle left, a heading for each kind.

    python3 tools/places.py            of the files as they stand
    python3 tools/places.py COMMIT     of a commit

It goes by patterns, so a place that it lists may be as it should be: docs/DESIGN-PASS.md says of each what it is.
"""
import re
import subprocess
import sys
from collections import defaultdict


def run(*args):
    return subprocess.run(args, check=True, capture_output=True, text=True).stdout


def sources(commit):
    """The files of crates/*/src, by path, without their tests."""
    if commit:
        names = run("git", "ls-tree", "-r", "--name-only", commit, "crates").split()
    else:
        names = run("git", "ls-files", "-co", "--exclude-standard", "crates").split()
    names = [n for n in names if re.search(r"/src/.*\.rt$", n) and not n.endswith("/tests.rt")]
    read = (lambda n: run("git", "show", f"{commit}:{n}")) if commit else (lambda n: open(n).read())
    return {n: read(n) for n in sorted(set(names))}


def lines(files, pattern):
    """Each line that has the pattern, comments aside."""
    found = []
    for name, text in files.items():
        for number, line in enumerate(text.split("\n"), 1):
            if not line.lstrip().startswith("//") and re.search(pattern, line):
                found.append(f"{name}:{number}: {line.strip()}")
    return found


FUNCTION = re.compile(r"^( *)(?:pub(?:\([a-z]+\))? )?fn (\w+)", re.M)


def functions(files):
    """Each function: file, name, signature with its clauses, body."""
    for name, text in files.items():
        for m in FUNCTION.finditer(text):
            end = re.compile(r"^" + m.group(1) + r"\}", re.M).search(text, m.end())
            one = re.compile(r"^.*\{\}$", re.M).search(text, m.end())
            stop = end.end() if end else len(text)
            whole = text[m.start():stop]
            cut = re.search(r"^" + m.group(1) + r"\{|\{$", whole, re.M)
            if cut:
                yield name, m.group(2), whole[:cut.start()], whole[cut.start():]


def shape(body):
    """The body with every name and literal made alike."""
    body = re.sub(r"//.*", "", body)
    body = re.sub(r'b?"[^"]*"|b?\'[^\']*\'|\b\d[\d_]*\b', "n", body)
    words = {"if", "else", "match", "for", "in", "while", "let", "return", "mut", "None", "Some", "Ok", "Err", "true", "false"}
    return re.sub(r"\b[A-Za-z_]\w*\b", lambda m: m.group(0) if m.group(0) in words else "x", re.sub(r"\s+", " ", body))


def twins(files):
    groups = defaultdict(list)
    for name, fn, _, body in functions(files):
        made = shape(body)
        if len(made.split()) >= 8:
            groups[(name.split("/")[1], made)].append(f"{name}: {fn}")
    return [", ".join(g) for g in groups.values() if len(g) > 1]


def clauses(files):
    """Facts asked for or promised by three functions or more of a crate."""
    groups = defaultdict(set)
    for name, fn, head, _ in functions(files):
        for clause in re.findall(r"(?:requires|ensures)\*?(?: \w+)? \{ (.*) \}", head):
            for fact in re.split(r" × ", clause):
                fact = fact.strip("() ")
                if len(fact) > 14:
                    groups[(name.split("/")[1], fact)].add(fn)
    return [f"{crate}: {fact}: {len(fns)} functions" for (crate, fact), fns in groups.items() if len(fns) > 2]


def together(files):
    """Pairs of parameters that three functions or more of a crate take side by side."""
    groups = defaultdict(set)
    for name, fn, head, _ in functions(files):
        inside = re.search(r"\((.*?)\)\s*(?:->|requires|ensures|where|$)", head, re.S)
        if not inside:
            continue
        params = re.findall(r"(\w+): (&?(?:'\w+ )?(?:mut )?[\w\[\]]+)", inside.group(1))
        for a, b in zip(params, params[1:]):
            groups[(name.split("/")[1], f"{a[0]}: {a[1]}, {b[0]}: {b[1]}")].add(fn)
    return [f"{crate}: ({pair}): {len(fns)} functions" for (crate, pair), fns in groups.items() if len(fns) > 2]


def enums(files):
    found = []
    for name, text in files.items():
        for m in re.finditer(r"enum (\w+)(?:<[^>]*>)? \{\n(.*?)\n\}", text, re.S):
            kinds = [v.strip() for v in re.findall(r"^    (\w+[^,\n]*),", m.group(2), re.M)]
            plain = [k for k in kinds if "(" not in k]
            if len(kinds) == 2 and len(plain) == 1 or any(k in ("Absent", "Unknown", "Nothing") or k.startswith("Un") for k in plain + [k.split("(")[0] for k in kinds]):
                found.append(f"{name}: {m.group(1)}: {', '.join(kinds)}")
    return found


def arrays(files):
    """Structs with an array and a length, or with several arrays."""
    found = []
    for name, text in files.items():
        for m in re.finditer(r"struct (\w+)(?:<[^>]*>)? \{\n(.*?)\n\}", text, re.S):
            held = re.findall(r"^    (?:pub )?(\w+): (?:\[|&'a mut \[)", m.group(2), re.M)
            length = re.search(r"^    (?:pub )?(?:len|count|decided): ", m.group(2), re.M)
            if len(held) > 1 or held and length:
                found.append(f"{name}: {m.group(1)}: {', '.join(held)}{' and a length' if length else ''}")
    return found


def places(files):
    yield "1 own enums that say what Option, Result or another enum says", enums(files)
    yield "1 a flag beside a value", lines(files, r"^\s+(pub )?\w+: bool,")
    yield "1 an Option of an Option", lines(files, r"Option<Option<")
    yield "1 a number or a flag in place of None or Err", lines(files, r"NOBODY|fn (push|add|insert)\b.*-> bool|fn find\b.*-> usize|u16 \+ 1;|-> \(u8, u32\)|^const \w*: u16")
    yield "2 bodies of one shape in a crate", twins(files)
    yield "3 loops over numbers", lines(files, r"for \w+ in \S+\.\.")
    yield "3 loops with a condition, or over a cursor", lines(files, r"\bwhile\b")
    yield "3 loops that only test each item", lines(files, r"for &?\w+ in (text|exports|places)\b")
    yield "4 impls by hand of what can be derived", lines(files, r"^impl.* (Clone|Copy|PartialEq|Eq|PartialOrd|Ord|Default|Debug)\b.* for ")
    yield "4 comparing, converting and printing by hand", lines(files, r"fn (same_\w+|is_same|is_below|equal|number|words|words_of|print_\w+|\w+_given|\w+_or|no_\w+|role|is_optional|missing|header_named|resolution|visibility)\b")
    yield "5 facts in three contracts or more", clauses(files)
    yield "5 parameters that travel together", together(files)
    yield "6 buffers with a length, and parallel arrays", arrays(files)
    yield "6 tables made flat", lines(files, r"\* (NEEDS|EXPORTS|USES)|[a-z] / (NEEDS|EXPORTS|USES)\b")
    yield "6 parts of a text by numbers", lines(files, r"\bSpan\b.*(->|struct)|struct Span")
    yield "7 tables of functions, and steps picked by a number", lines(files, r"\bfn\(|: u8 = \d+; // step|dyn ")


def main():
    files = sources(sys.argv[1] if len(sys.argv) > 1 else None)
    for heading, found in places(files):
        print(f"{heading}: {len(found)}")
        for one in found:
            print(f"    {one}")


if __name__ == "__main__":
    main()
