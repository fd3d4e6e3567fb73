#!/usr/bin/env python3
"""Spells the repository's own definitions, lemmas and fields in snake case, after the kit's port.py has spelt the library's.

usage: python3 tools/respell.py        at the top of the repository, once

A name that a file of specs/ or proofs/ declares and that has a capital inside or a dash gets underscores: `answerArea` becomes `answer_area`, `part-at`
becomes `part_at`. Where a lemma would meet a definition so, it gets `_lem`. Names of types, modules and functions of src/ stay, and so do names that a file
takes from a library of the kit. In comments and pages only what stands in backquotes, behind a module's name or with a capital inside is turned.
"""
import collections
import glob
import re

NAME = r"[^\s(){}.;,@\"«»|\[\]:]+"
DECLARED = re.compile(r"^\s*(?:(?:abbrev|unfoldable|pub|opaque) )*((?:[^\s:{}()|]+ )+):(?: |$)")
LOCAL = re.compile(r"(?:λ|let|\(|\{|,|↦)\s*([a-z][A-Za-z0-9]*[A-Z]\w*)(?=[\s,.:)}])")
USE = re.compile(r"^(?:ghost )?use ((?:[^\s.{};]+\.)+)\{([^}]*)\}", re.M)


def texts():
    for pattern in ("crates/*/specs/**/*.antt", "crates/*/proofs/**/*.antt"):
        yield from sorted(glob.glob(pattern, recursive=True))


def read(path):
    with open(path, encoding="utf-8") as it:
        return it.read()


def code(text):
    return re.sub(r"(^|\s)--(?=\s).*", "", text)


def foreign(text):
    """The names that a file takes from a library of the kit."""
    names = set()
    for path, inside in USE.findall(text):
        if not re.match(r"Rattle\.(?!std\b|core\b|std_\w+\b|io\b|libc\b)", path):
            names |= {word for item in inside.split(",") for word in item.split()}
    return names


def snake(name):
    words = re.sub(r"(?<=[a-z0-9])[A-Z]", lambda it: "_" + it[0].lower(), name) if name[:1].islower() else name
    return re.sub(r"(?<=[^◌])-(?=[^◌])", "_", words)


def turned_by():
    """Each own name that changes, with its new spelling."""
    declared, bound = set(), set()
    for path in texts():
        text = code(read(path))
        for line in text.split("\n"):
            found = DECLARED.match(line)
            if found:
                declared |= set(found[1].split())
        bound |= set(LOCAL.findall(text))
    declared = {it for it in declared if not re.search(r"[=→≡]", it) and it not in ("-", "--")}
    names = {it for it in declared | bound if snake(it) != it and not it.startswith("-")}
    meets = collections.Counter(snake(it) for it in names | declared)
    # port.py respelt this lemma; the definition that it is about now has its name
    again = {"any_part": "any_part_lem"}
    return again | {it: snake(it) + ("_lem" if "-" in it and meets[snake(it)] > 1 else "") for it in names}


def turn(text, new, stay, modules=None):
    """Turns names; where modules is given, what stands behind the dot of anything else is a field that the kit makes and keeps its dashes."""

    def name(it):
        if it[0] in stay or it[0] not in new:
            return it[0]
        if modules is not None and "-" in it[0]:
            root = re.search(r"([^\s(){},;@\"«»|\[\]:]+)\.$", text[: it.start()])
            if root and root[1].split(".")[0] not in modules and not root[1][0].isupper():
                return it[0]
        return new[it[0]]

    return re.sub(NAME, name, text)


def turn_words(text, new, stay):
    """A comment or a page: names in backquotes, behind a module, and words with a capital inside."""
    word = r"[\w'\-⊠⊞𝟎π²]+"

    def name(it):
        return it[0] if it[0] in stay else new.get(it[0], it[0])

    text = re.sub(r"`[^`\n]+`", lambda it: re.sub(word, name, it[0]), text)
    text = re.sub(rf"(?<=[A-Za-z0-9]\.)({word})", name, text)
    return re.sub(r"(?<![\w'/-])[a-z][a-z0-9]*[A-Z]\w*", name, text)


def antt(path, text, new):
    stay = foreign(text)
    modules = None
    if path.endswith("/Proof.antt"):
        modules = set(re.findall(r"\bas ([a-z]\w*)", text)) - {"tie"}
        stay |= set(re.findall(r"^abbrev (?:pub )?((?:invariant|decreases)-\S+) :", text, re.M))

    def line(it):
        at = re.search(r"(^|\s)--(?=\s)", it)
        if not at:
            return turn(it, new, stay, modules)
        return turn(it[: at.start()], new, stay, modules) + turn_words(it[at.start() :], new, set())

    return "\n".join(line(it) for it in text.split("\n"))


def rust(text, new):
    stay = foreign(text)

    def line(it):
        at = re.search(r"(^|\s)//", it)
        head, tail = (it[: at.start()], it[at.start() :]) if at else (it, "")
        parts = re.split(r'("(?:[^"\\]|\\.)*")', head)
        return "".join(p if p.startswith('"') else turn(p, new, stay) for p in parts) + turn_words(tail, new, set())

    return "\n".join(line(it) for it in text.split("\n"))


def edit(text, new, crate):
    path, lines = "", []
    for it in text.split("\n"):
        if it.startswith("file:"):
            path = it[5:].strip()
        if it.startswith(("old:", "new:")):
            turned = rust(it[4:], new) if path.endswith(".rt") else turn(it[4:], new, foreign(read(f"{crate}/{path}")))
            it = it[:4] + turned
        elif it.startswith("#"):
            it = turn_words(it, new, set())
        lines.append(it)
    return "\n".join(lines)


def main():
    new = turned_by()
    made = {}
    for path in texts():
        made[path] = antt(path, read(path), new)
    for path in glob.glob("crates/*/src/**/*.rt", recursive=True):
        made[path] = rust(read(path), new)
    for path in glob.glob("crates/*/must-fail/*.edit"):
        made[path] = edit(read(path), new, path.split("/must-fail/")[0])
    for path in ["README.md", "CONTRIBUTING.md"] + glob.glob("docs/**/*.md", recursive=True):
        made[path] = turn_words(read(path), new, set())
    for path, text in made.items():
        with open(path, "w", encoding="utf-8") as it:
            it.write(text)
    with open("tools/respelled.tsv", "w", encoding="utf-8") as it:
        it.writelines(f"{old}\t{now}\n" for old, now in sorted(new.items()))
    print(f"{len(new)} names respelled")


main()
