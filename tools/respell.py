#!/usr/bin/env python3
"""Spells the repository's own definitions and lemmas as today's Rattle does: words in snake case, types in upper camel case.

usage: tools/respell.py           at the top, once, behind the kit's port.py: turns crates/ and writes tools/respelled.tsv
       tools/respell.py --docs    turns README.md, docs/ and tools/README.md by that table

A dash stays where it joins two names of functions (`length-take`) or stands behind a type (`AllOf-append`); elsewhere it becomes `_`.
What Rattle makes keeps its name (`returns-2`, `loop-i-init`), and so does a name that the kit's libraries declare too.
Functions of src/, exported names, strings, inputs and outputs are not touched.
"""

import collections
import os
import re
import sys

KIT = "/opt/rattle/rattle"
TABLE = "tools/respelled.tsv"
WORD = re.compile(r'[^\s(){}.;,@"«»]+')
DECLARED = re.compile(r'^(\s*)((?:abbrev |unfoldable |pub )*)([^\s:(){}.;,@"«»]+)(?: \{[^}]*\}| \([^)]*\))* :(?: (.*)|)$')
TYPE = re.compile(r"^\s*(?:pub )?(?:data|record)\s+(?:pub )?(\S+)")
QUIET = re.compile(r'"(?:[^"\\\n]|\\.)*"|(?<![^\s(){}.;,@"«»])--[^\n]*')
CLAUSE = re.compile(r"(?:requires|ensures)\s*\*?\s*(?:\w+\s*)?\{|ghost\s*(?:\w+\s*:\s*)?\{")
MADE = re.compile(r"^(?:tie|goal|f|g|code)\.")


def texts(root, end):
    for folder, dirs, files in os.walk(os.path.join(root, "crates") if root == "." else root):
        dirs[:] = sorted(d for d in dirs if d != "out")
        for name in sorted(files):
            if name.endswith(end):
                yield os.path.join(folder, name)


def read(path):
    with open(path, encoding="utf-8") as f:
        return f.read()


def declared(text):
    """Each name that a text declares, with its modifiers and its type."""
    lines = text.split("\n")
    for i, line in enumerate(lines):
        t = TYPE.match(line)
        if t:
            yield t[1], "type", ""
            continue
        m = DECLARED.match(line)
        if not m or line.strip().startswith(("let ", "use ", "pub use ", "--", "|")):
            continue
        said = m[4] or ""
        for more in lines[i + 1 :]:
            deeper = len(more) - len(more.lstrip()) > len(m[1])
            if not more.strip() or not deeper or re.match(r"\s*(unfolding|where|--)", more):
                break
            said += " " + more.strip()
        yield m[3], m[2], said.strip()


def is_fact(said):
    end = re.split(r"→ ", said)[-1]
    return bool(re.search(r"[≡≤<⊥⊎×≢]", end)) or bool(re.match(r"\(*(?:Is)?[A-Z]\w*(?: |$)", end)) and not re.match(r"\(?(?:List|Option|Bool|Piece|Maybe|Result)\b", end)


def snake(word):
    return re.sub(r"(?<=[a-z0-9])([A-Z])", lambda m: "_" + m[1].lower(), word)


def camel(word):
    parts = re.split(r"[-_]", snake(word))
    return "".join(p[:1].upper() + p[1:] for p in parts)


def respelled(name, of_type, functions):
    if of_type and name[0].islower():
        return camel(name)
    parts = [p if p[:1].isupper() else snake(p) for p in name.split("-")]
    out = parts[0]
    for left, right in zip(parts, parts[1:]):
        joins = left[:1].isupper() or left in functions and right in functions
        out += ("-" if joins else "_") + right
    return out


def antt_tokens(text):
    """The words that stand behind no dot: a field or a step of a path meets no name."""
    return set(re.findall(r'(?<![.])(?<![^\s(){}.;,@"«»])' + WORD.pattern, QUIET.sub(" ", text)))


def table():
    ours, functions, facts, types, made = collections.defaultdict(set), set(), set(), set(), set()
    tokens = {}
    for path in texts(".", ".antt"):
        text = read(path)
        tokens[path] = antt_tokens(text)
        for name, how, said in declared(text):
            if MADE.match(said) or name.endswith("-spec"):
                made.add(name)
                continue
            ours[name].add(path)
            if re.search(r"(?:→ |^)Type \S+$", said):
                types.add(name)
            if said and is_fact(said):
                facts.add(name)
            if "pub" in how and "/specs/" in path and "-" not in name and said and not is_fact(said):
                functions.add(snake(name))
    rust = {}
    for path in texts(".", ".rt"):
        text = re.sub(r"//[^\n]*", " ", read(path))
        spoken = set().union(*(antt_tokens(text[a:b]) for a, b in blocks(text)), set())
        given = set(re.findall(r"\b(?:const|static) (\w+)|(?<!:)\b(\w+):(?!:)", text))
        given = {a or b for a, b in given}
        rust[path] = spoken, given
    kit, exported = set(), set()
    for folder in ("core", "std", "std_alloc", "std_collections", "std_heap", "std_io", "logic", "antt"):
        for path in texts(os.path.join(KIT, folder), ".antt"):
            text = read(path)
            kit |= {name for name, how, said in declared(text)}
    for path in ("core/specs/Prelude.antt", "std/specs/Prelude.antt", "std/proofs/Common.antt"):
        for items in re.findall(r"\{([^}]*)\}", read(os.path.join(KIT, path))):
            exported |= {w.split(" as ")[-1].strip() for w in items.split(",")}
    functions |= {"length", "take", "drop", "set", "map", "append", "get_or", "replicate", "min", "max", "reverse", "nat_abs"}
    holders = collections.defaultdict(set)
    for path, words in tokens.items():
        for word in words:
            holders[word].add(path)
    turned, new_in = {}, collections.defaultdict(set)

    def meets(name, new):
        """Whether the new name stands for something else in a file that has the old one."""
        here = holders[name]
        in_rust = any(name in spoken and new in given for spoken, given in rust.values())
        return new in exported or in_rust or here & holders[new] or here & new_in[new]

    for name in sorted(ours, key=lambda it: (it not in types, snake(it) not in functions, "-" in it, it)):
        new = respelled(name, name in types, functions)
        if name in kit or name in exported or new == name:
            continue
        if name not in facts and new in ours and new in facts and new not in kit and new not in turned:
            # the lemma gives way to its function
            print(f"look: {name} is now {new}, and the lemma of that name is {new}_lem")
            turned[new] = new + "_lem"
            new_in[new + "_lem"] |= holders.pop(new)
        if meets(name, new):
            print(f"look: {new} is taken: {name} is now {new}_lem")
            new += "_lem"
            if meets(name, new):
                print(f"left: {name}")
                continue
        turned[name] = new
        new_in[new] |= holders[name]
    return turned, made


def turn_antt(text, names):
    return WORD.sub(lambda m: names.get(m[0], m[0]), text)


def turn_comments(text, names):
    return re.sub(r"`[^`\n]*`", lambda m: WORD.sub(lambda w: names.get(w[0], w[0]), m[0]), text)


def blocks(text):
    """The clauses and ghost items of a source text."""
    for m in re.finditer(r"ghost use [^;]*;", text):
        yield m.span()
    for m in CLAUSE.finditer(text):
        depth, i = 1, m.end()
        while depth and i < len(text):
            depth += {"{": 1, "}": -1}.get(text[i], 0)
            i += 1
        yield m.start(), i


def turn_source(text, names):
    out, at = [], 0
    for a, b in sorted(blocks(text)):
        if a < at:
            continue
        out += [turn_comments(text[at:a], names), turn_antt(text[a:b], names)]
        at = b
    return "".join(out) + turn_comments(text[at:], names)


def main():
    if sys.argv[1:] == ["--docs"]:
        names = dict(line.split("\t") for line in read(TABLE).splitlines())
        paths = ["README.md", "tools/README.md"] + list(texts("docs", ".md"))
        for path in paths:
            text = read(path)
            new = re.sub(r"`[^`\n]*`|(?<![\w/.-])[a-z]\w*(?:-\w+)+(?![\w/.-]|\.\w)", lambda m: WORD.sub(lambda w: names.get(w[0], w[0]), m[0]), text)
            if new != text:
                with open(path, "w", encoding="utf-8") as f:
                    f.write(new)
        return
    names, made = table()
    for path in list(texts(".", ".antt")) + list(texts(".", ".rt")) + list(texts(".", ".edit")):
        text = read(path)
        here = names
        if path.endswith("/Proof.antt"):
            own = {name for name, how, said in declared(text) if MADE.match(said) or name.endswith("-spec")}
            here = {a: b for a, b in names.items() if a not in own}
        if path.endswith(".rt"):
            new = turn_source(text, here)
        else:
            new = turn_antt(text, here)
        if new != text:
            with open(path, "w", encoding="utf-8") as f:
                f.write(new)
    with open(TABLE, "w", encoding="utf-8") as f:
        f.writelines(f"{a}\t{b}\n" for a, b in sorted(names.items()))
    print(f"{len(names)} names respelled")


if __name__ == "__main__":
    main()
