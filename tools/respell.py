#!/usr/bin/env python3
"""Brings the project's own antt names to the spelling of today's Rattle: words in snake case, as `own_part` for `ownPart` and `own-part`.

usage: tools/respell.py [--check]      at the top of the repository, once, after the kit's port.py

Which names turn: those that a file of specs/ or proofs/ declares and that have a dash or a capital inside. Types, modules, constructors of
Rattle's enums, names of the kit and names that Rattle generates (goals, steps) keep their spelling. Where two names would fall together, the
lemma gets `_lem`, as the kit writes it. An alias with a middle dot, as `Word·bit`, becomes `word_bit`; a word of specs/ that a parameter of the
.rt file would hide is imported there under its module's name in the same way.
Files: .antt, .rt, must-fail edits, and code spans of README.md and docs/. --check writes nothing and lists the names that fall together.
"""
import collections
import os
import re
import sys

WORD = r"[^\s(){}.;,@\"«»`\[\]:]+"
TOKEN = re.compile(WORD)
GENERATED = re.compile(r"\.(?:Lts|Tie|Goals|Given|Statement|Reads|Contract)\w*$")
DECLARED = re.compile(rf"(?m)^\s*(?:(?:pub|abbrev|unfoldable|abstract|instance) )*({WORD}) :(?: (.*))?$")
LET = re.compile(rf"\blet ({WORD}) [:=]")
RENAMED = re.compile(rf" as ({WORD})(?=[,}}])")
TYPED = re.compile(rf"(?m)^\s*(?:(?:pub|abbrev) )*(?:data|record|ruleset) ({WORD})")
USED = re.compile(r"use ([\w.·+'-]+)\.\{([^}]*)\}")
ALIAS = re.compile(rf"use [\w.·+'-]+ as ({WORD})")
PLAIN = re.compile(r"^[A-Za-z0-9_'+·-]+$")


def snake(name):
    """The new spelling of a declared name; a type keeps its capital."""
    name = name.replace("getD", "get_or").replace("moduleID", "module_id")
    name = re.sub(r"(?<=[a-z0-9])([A-Z])", lambda m: "_" + m.group(1).lower(), name) if name[0].islower() or name[0] == "+" else name
    return name.replace("-", "_")


def files(top, endings):
    for folder, dirs, names in os.walk(top):
        dirs[:] = sorted(d for d in dirs if d not in ("out", ".git"))
        for name in sorted(names):
            if name.endswith(endings):
                yield os.path.join(folder, name)


def read(path):
    with open(path, encoding="utf-8") as f:
        return f.read()


def kinds(text, path):
    """What a file of antt declares, what of it answers a goal, and what it imports from modules that Rattle generates or the kit has."""
    own, goals, foreign = set(), set(), set()
    for m in DECLARED.finditer(text):
        (goals if re.match(r"(?:tie|goal)\.", m.group(2) or "") else own).add(m.group(1))
    own |= {m.group(1) for m in [*TYPED.finditer(text), *LET.finditer(text), *RENAMED.finditer(text)]}
    own |= {m.group(1) for m in ALIAS.finditer(text) if m.group(1)[0].islower()}
    for module, names in USED.findall(text):
        names = [n.strip().split(" as ")[0] for n in names.split(",")]
        if GENERATED.search(module) or not module.startswith("Rattle.") or re.match(r"Rattle\.(std|core|io|os|libc|bytes)\b", module):
            foreign |= set(names)
    return own, goals, foreign


def table(crates):
    """Old name -> new name, over all files of antt; and the files in which a name is foreign."""
    own, kit = collections.defaultdict(set), collections.defaultdict(set)
    for path in files(crates, ".antt"):
        names, goals, foreign = kinds(read(path), path)
        for name in names:
            own[name].add(path)
        for name in goals | foreign:
            kit[name].add(path)
    turned = {n: snake(n) for n in own if PLAIN.match(n) and snake(n) != n}
    back = collections.defaultdict(list)
    for n in own:
        back[turned.get(n, n)].append(n)
    for new, olds in back.items():
        if len(olds) > 1:
            lemmas = [n for n in olds if "-" in n] or [n for n in olds if n == new]
            assert len(olds) == 2 and len(lemmas) == 1, (new, olds)
            turned[lemmas[0]] = new + "_lem"
    for n, new in turned.items():
        if own[n] & kit[new]:
            turned[n] = new + "_lem"
    return own, turned


def together(own, turned):
    """New names that two old ones get."""
    back = collections.defaultdict(set)
    for n in own:
        back[turned.get(n, n)].add(n)
    return {new: olds for new, olds in back.items() if len(olds) > 1}


def spelled(word, own, turned):
    """A word of a page or an edit: also one that port.py has turned in the sources."""
    if not re.search("[-A-Z]", word) or not PLAIN.match(word):
        return word
    return turned.get(word, snake(word) if word[0].islower() and word not in own and snake(word) in own else word)


def turn_antt(text, path, turned):
    own, goals, foreign = kinds(text, path)
    keep = goals | foreign
    aliases = set(ALIAS.findall(text)) - {"tie", "goal", "lts"}

    def one(m):
        word = m.group(0)
        if "·" in word and not word.startswith("Rattle·"):
            return "_".join(snake(p[0].lower() + p[1:]) for p in word.split("·"))
        if word not in turned or word in keep:
            return word
        before = text[: m.start()]
        if before.endswith(".") and not re.search("[A-Z]", word):
            head = re.search(r"([^\s(){};,.]+)\.$", before)
            if not (head and head.group(1) in aliases):
                return word
        return turned[word]

    return TOKEN.sub(one, text)


CLAUSE = re.compile(r"(?:ghost use [^;]*;)|(?:\b(?:requires|ensures)\b[^{\n]*\{.*\})|(?://[^\n]*)|(?:ghost \w+: \{[^\n]*\})")


def turn_rt(text, turned, hidden):
    """Clauses, ghost imports and comments; `hidden` names the Rust names of the file's code."""
    renames = {}
    for module, names in re.findall(r"ghost use ([\w.·]+)\.\{([^}]*)\}", text):
        last = snake(module.split(".")[-1][0].lower() + module.split(".")[-1][1:])
        for n in (x.strip() for x in names.split(",")):
            if " as " in n or module.startswith("Rattle.std"):
                continue
            new = turned.get(n, n)
            if new in hidden:
                renames[n] = (new, last + "_" + new)

    def item(m):
        piece = m.group(0)
        is_use = piece.startswith("ghost use")

        def one(t):
            word = t.group(0)
            if "·" in word:
                return "_".join(snake(p[0].lower() + p[1:]) for p in word.split("·"))
            if piece.startswith("//"):
                return turned.get(word, word)
            if word in renames:
                new, alias = renames[word]
                return f"{new} as {alias}" if is_use and not piece[: t.start()].endswith(" as ") else alias
            if piece[: t.start()].endswith(".") and not re.search("[A-Z]", word):
                return word
            return turned.get(word, word) if re.search("[-A-Z]", word) else word

        return TOKEN.sub(one, piece)

    return CLAUSE.sub(item, text), renames


def rust_names(text):
    """Names of parameters: a clause reads them before words of specs/."""
    code = CLAUSE.sub(" ", text)
    return set(re.findall(r"(?<![\w'])([a-z_][a-z0-9_]*): ", "".join(re.findall(r"fn \w+(?:<[^>]*>)?(\([^{;]*)", code))))


def main(argv):
    check = "--check" in argv
    top = os.getcwd()
    crates = os.path.join(top, "crates")
    own, turned = table(crates)
    clash = together(own, turned)
    for new, olds in sorted(clash.items()):
        print("together:", new, "<-", ", ".join(f"{o} ({', '.join(sorted(os.path.relpath(p, crates) for p in own[o]))})" for o in sorted(olds)))
    print(len(turned), "names")
    changed, aliased = 0, {}
    texts = {}
    for path in files(crates, ".antt"):
        texts[path] = turn_antt(read(path), path, turned)
    for path in files(crates, ".rt"):
        text = read(path)
        texts[path], renames = turn_rt(text, turned, rust_names(text))
        if renames:
            aliased[path] = renames
            print("alias:", os.path.relpath(path, crates), renames)
    for path in files(crates, ".edit"):
        text = read(path)
        target = re.search(r"(?m)^file: (.*)$", text).group(1)
        renames = aliased.get(os.path.join(os.path.dirname(os.path.dirname(path)), target), {})

        def one(m):
            word = m.group(0)
            if "·" in word and not word.startswith("Rattle·"):
                return "_".join(snake(p[0].lower() + p[1:]) for p in word.split("·"))
            return renames[word][1] if word in renames else spelled(word, own, turned)

        texts[path] = "\n".join(line if line.startswith("file:") else TOKEN.sub(one, line) for line in text.split("\n"))
    for path in [os.path.join(top, "README.md"), *files(os.path.join(top, "docs"), ".md")]:
        text = read(path)
        texts[path] = re.sub(r"`[^`\n]+`", lambda s: TOKEN.sub(lambda m: spelled(m.group(0), own, turned), s.group(0)), text)
    for path, text in texts.items():
        if text != read(path):
            changed += 1
            if not check:
                with open(path, "w", encoding="utf-8") as f:
                    f.write(text)
    print(changed, "files")


main(sys.argv[1:])
