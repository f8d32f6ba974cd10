#!/usr/bin/env python3
"""Spells this repository's own definitions and lemmas as today's Rattle does: words in snake case, types in camel case.

usage: spell.py            at the top of a repository that the kit's port.py has turned

It reads what specs/ and the lemma files of proofs/ declare and writes the new spelling into the .antt files, into the clauses and `ghost use` items of .rt
files, and into code spans of their comments. Names of Rust items and of what the check makes keep their spelling. A type keeps its capitals, and so does
a symbol of the papers at the head of a name (`M-unaltered`). Where a definition and a lemma would fall together the lemma gets `_lem`. What changed is
written to /tmp/spelled.tsv.
"""
import collections
import glob
import re

NAME = r'[^\s(){}.;,@"«»]+'
SYMBOL = re.compile(r"^((?:Γ+s?|ΓΓs|[A-Z]{1,2})-)(.*)$")
HEAD = re.compile(r"^( *)((?:(?:abbrev|unfoldable|opaque|pub|record|data|ghost) )*)(" + NAME + r")( .*)?$")
# A theorem that the pages name, a call of a list, and two fields: each stands in other files than the definition of its spelling.
KEPT = {"in_order", "working-order", "its-names", "its-rules"}
LEMMAS = {"file-fault"}
NO_NAME = {"use", "mod", "module", "where", "let", "in", "unfolding", "_"}


def declared(text):
    """Each declaration: its name, whether it is a type, and whether it is a definition (and no lemma)."""
    lines = text.split("\n")
    for i, line in enumerate(lines):
        m = HEAD.match(line)
        if not m or m[3] in NO_NAME or line.strip().startswith("--"):
            continue
        indent, words, name = len(m[1]), m[2].split(), m[3]
        signature = line.strip()
        for later in lines[i + 1 :]:
            if not later.strip() or len(later) - len(later.lstrip()) <= indent or later.strip().startswith("--"):
                break
            signature += " " + later.strip()
        depth, colon, equals = 0, None, None
        for k, c in enumerate(signature):
            if c in "([{":
                depth += 1
            elif c in ")]}":
                depth -= 1
            elif depth == 0 and signature.startswith(" : ", k) and colon is None:
                colon = k
            elif depth == 0 and signature.startswith(" = ", k) and equals is None:
                equals = k
        if colon is None or (equals is not None and equals < colon):
            continue
        kind = signature[colon + 3 :].strip()
        is_type = bool({"record", "data"} & set(words)) or re.search(r"(^|→ )Type( \d)?( where)?$", kind) is not None
        yield name, is_type, bool({"abbrev", "unfoldable"} & set(words)) or is_type


def record_fields(text):
    """The fields of the records that a file declares: alone they stand behind a dot."""
    fields, inside = set(), None
    for line in text.split("\n"):
        indent = len(line) - len(line.lstrip())
        if inside is not None and line.strip() and indent <= inside:
            inside = None
        if inside is not None:
            m = re.match(r" +(?:pub )?(" + NAME + r")(?: .*)? : ", line)
            fields |= {m[1]} if m else set()
        elif re.match(r" *(?:pub )?record ", line):
            inside = indent
    return fields


def words(name):
    return re.sub(r"(?<=[a-z0-9])[A-Z]", lambda m: "_" + m[0].lower(), name).replace("-", "_")


def spelled(name, is_type):
    if "◌" in name:
        return words(name)
    if is_type or not re.search(r"[a-z0-9][A-Z]|-", name) or (name[0].isupper() and "-" not in name):
        return name
    m = SYMBOL.match(name)
    return m[1] + words(m[2]) if m else words(name)


def table(files):
    """Old and new spelling. The second table has lemmas whose spelling stood already and meets a definition's."""
    types, definitions, names, fields = set(), set(), set(), set()
    for path in files:
        if re.match(r"crates/[^/]+/(specs|proofs)/[^/]+\.antt$", path):
            fields |= record_fields(files[path])
            for name, is_type, is_definition in declared(files[path]):
                names.add(name)
                types |= {name} if is_type else set()
                definitions |= {name} if is_definition else set()
    new = {name: spelled(name, name in types) for name in names}
    meet = collections.defaultdict(list)
    for name in sorted(names):
        meet[new[name]].append(name)
    turned, there = {}, {}
    for spelling, olds in meet.items():
        for name in olds:
            falls = name not in KEPT and len(olds) > 1 and (name in LEMMAS or name not in definitions and any(o in definitions for o in olds))
            to = spelling + "_lem" if falls else spelling
            if to != name:
                (there if name == spelling else turned)[name] = to
    # `A isIn xs` stands for `◌isIn◌`
    for name, to in list(turned.items()):
        inner = name.strip("◌")
        if name != inner and "◌" not in inner:
            turned[inner] = to.strip("◌")
    return turned, there, fields


def turn_words(text, turned, fields):
    """Every whole word; behind a dot the fields, and what a module's short name stands before, since the check makes names of its own that stand there."""
    short = set(re.findall(r"use Rattle\.\w+\.(?:specs|proofs)\.\w+ as (\w+)", text))

    def turn(m):
        return m[1] + (turned.get(m[2], m[2]) if not m[1] or m[2] in fields or m[1][:-1] in short else m[2])

    return re.sub(r"(\b\w+\.|\.?)(" + NAME + ")", turn, text)


def turn_antt(text, turned, there, fields, own):
    text = turn_words(text, turned, fields)
    for name, to in there.items():
        if name in own:
            text = re.sub(r'(?<![^\s(){};,@"«»])' + re.escape(name) + r'(?![^\s(){}.;,@"«»])(?!\.(?:Statement|Tie|Goals|Given))', to, text)
    return text


def lemmas_at_hand(text, there):
    """Which of these a file declares or imports."""
    own = {name for name, _, _ in declared(text) if name in there}
    for items in re.findall(r"use Rattle\.\w+\.proofs\.\w+\.\{([^}]*)\}", text):
        own |= {i.strip() for i in items.split(",")} & set(there)
    return own


def turn_rt(text, turned, fields):
    """Clauses, `ghost use` items and code spans of comments."""
    out, i = [], 0
    for m in re.finditer(r"//[^\n]*|ghost use [^;]*;|\b(?:requires|ensures|invariant)\b[^{};]*\{", text):
        if m.start() < i:
            continue
        out.append(text[i : m.start()])
        if m[0].startswith("//"):
            out.append(re.sub(r"`[^`\n]*`", lambda s: turn_words(s[0].replace("`", " ` "), turned, fields).replace(" ` ", "`"), m[0]))
            i = m.end()
        elif m[0].startswith("ghost"):
            out.append(turn_words(m[0], turned, fields))
            i = m.end()
        else:
            depth, k = 1, m.end()
            while depth:
                depth += {"{": 1, "}": -1}.get(text[k], 0)
                k += 1
            out.append(m[0] + turn_words(text[m.end() : k], turned, fields))
            i = k
    return "".join(out) + text[i:]


def main():
    files = {}
    for path in sorted(glob.glob("crates/*/**/*.antt", recursive=True) + glob.glob("crates/*/src/*.rt")):
        if "/out/" not in path:
            with open(path, encoding="utf-8") as f:
                files[path] = f.read()
    turned, there, fields = table(files)
    for path, text in files.items():
        new = turn_rt(text, turned, fields) if path.endswith(".rt") else turn_antt(text, turned, there, fields, lemmas_at_hand(text, there))
        if new != text:
            with open(path, "w", encoding="utf-8") as f:
                f.write(new)
    with open("/tmp/spelled.tsv", "w", encoding="utf-8") as f:
        f.writelines(f"{a}\t{b}\n" for a, b in sorted({**turned, **there}.items()))
    print(len(turned) + len(there), "names")


if __name__ == "__main__":
    main()
