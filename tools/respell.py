#!/usr/bin/env python3
"""Brings the repository's own definitions and lemmas to one spelling, once, right after /opt/rattle/port/port.py.

Words are in snake case, types and facts keep their camel case. A dash stays only before a type, a fact or one of the library's
functions, as in `first_best-append`; else it becomes an underscore. Where two names would fall together, the lemma's ends in `_lem`.
What a proof names only for itself, in a file Proof.antt, stays as it is.

usage: tools/respell.py [FOLDER]    the top of the checkout; with --list it prints the names, old and new, and writes nothing
"""

import collections
import glob
import os
import re
import sys

LIBRARY = {"append", "length", "map", "replicate", "reverse", "get_or", "take", "drop"}
DEFINED = re.compile(r"^\s*(?:(?:abbrev|unfoldable|pub|record|data|ruleset)\s+)*([A-Za-z][\w'-]*)\s*(?:\(|\{|:)")
# The names of parameters before their type.
PARAMETERS = re.compile(r"[({]((?:[\w'-]+ )+):")
# Kept: words of the language that the pattern above takes for names.
WORDS = {"where", "use", "let", "in", "pub", "elim", "rw", "record"}


def defined(top):
    """Each name that a file of specs/ or a law defines, with the kinds of places ('specs', 'proofs') that do."""
    found = collections.defaultdict(set)
    for kind in ("specs", "proofs"):
        for path in sorted(glob.glob(os.path.join(top, "crates/*", kind, "**/*.antt"), recursive=True)):
            if os.path.basename(path) == "Proof.antt":
                continue
            with open(path, encoding="utf-8") as lines:
                for line in lines:
                    for binder in PARAMETERS.findall(line):
                        for word in binder.split():
                            if snake(word) != word and "-" not in word:
                                found[word].add(kind)
                    name = DEFINED.match(line)
                    if name and name.group(1) not in WORDS:
                        found[name.group(1)].add(kind)
    return found


def aliases(top):
    """The names that a clause gives to what it imports, where they are not in snake case."""
    for path in sorted(glob.glob(os.path.join(top, "crates/*/src/**/*.rt"), recursive=True)):
        with open(path, encoding="utf-8") as f:
            yield from (word for word in re.findall(r" as (\w+)", f.read()) if snake(word) != word)


def imported(top):
    """The names that a file takes from a library: those keep their spelling."""
    own = set(os.listdir(os.path.join(top, "crates")))
    found = set()
    for kind in ("specs", "proofs"):
        for path in glob.glob(os.path.join(top, "crates/*", kind, "**/*.antt"), recursive=True):
            with open(path, encoding="utf-8") as f:
                for module, words in re.findall(r"use ([^\s{}]+)\.\{([^}]*)\}", f.read()):
                    if not (module.startswith("Rattle.") and module.split(".")[1] in own):
                        found.update(word.strip().split(" as ")[0] for word in words.split(","))
    return found


def snake(word):
    if not word[:1].islower():
        return word
    return re.sub(r"(?<=[a-z0-9])[A-Z]", lambda m: "_" + m.group().lower(), word)


def respelled(name):
    first, *more = [snake(word) for word in name.split("-")]
    return first + "".join(("-" if word in LIBRARY or word[:1].isupper() else "_") + word for word in more)


def names(top):
    """The new spelling of each name whose spelling changes."""
    found = defined(top)
    spelled = collections.defaultdict(set)
    for name in found:
        spelled[respelled(name)].add(name)
    new = {word: snake(word) for word in aliases(top)}
    for to, olds in spelled.items():
        words = {name for name in olds if "-" not in name and ("specs" in found[name] or snake(name) != name)}
        for name in olds:
            new[name] = to + ("_lem" if len(olds) > 1 and words and name not in words else "")
    clash = [to for to, count in collections.Counter(new.values()).items() if count > 1]
    if clash:
        sys.exit(f"respell: these names fall together: {clash}")
    kept = imported(top)
    return {old: to for old, to in new.items() if old != to and old not in kept}


def files(top):
    for pattern in ("crates/*/src/**/*.rt", "crates/*/specs/**/*.antt", "crates/*/proofs/**/*.antt", "crates/*/must-fail/*.edit", "README.md", "docs/**/*.md"):
        yield from sorted(glob.glob(os.path.join(top, pattern), recursive=True))


WORD = re.compile(r"(?<![\w'-])[A-Za-z][\w']*(?:-[\w']+)*(?![\w'-])")
COMMENT = re.compile(r"^\s*(?:--|//)")
# In a document only what is set as code, or names a theorem in a table, is one of these names.
CODE = re.compile(r"`[^`\n]+`|\[[^\]\[\s]+\]\[")


def main(arguments):
    top = next((word for word in arguments if word != "--list"), ".")
    new = names(top)
    if "--list" in arguments:
        print("\n".join(f"{old} {to}" for old, to in sorted(new.items())))
        return
    # port.py turned some names already, but for documents and wrong programs: there these too.
    known = set(defined(top)) | set(new.values())

    def turn(text):
        return WORD.sub(lambda m: new.get(m.group(), m.group()), text)

    def turn_line(line):
        """In a comment a word with a dash may be English: there only one that is set as code is a name."""
        mark = COMMENT.search(line)
        if not mark:
            return turn(line)
        comment = CODE.sub(lambda m: turn(m.group()), line[mark.start() :])
        return turn(line[: mark.start()]) + WORD.sub(lambda m: m.group() if "-" in m.group() else new.get(m.group(), m.group()), comment)

    def turn_all(text):
        def one(m):
            to = new.get(m.group()) or respelled(m.group())
            return to if m.group() in new or to in known else m.group()

        return WORD.sub(one, text)

    for path in files(top):
        with open(path, encoding="utf-8") as f:
            text = f.read()
        if path.endswith(".md"):
            turned = CODE.sub(lambda m: turn_all(m.group()), text)
        elif path.endswith(".edit"):
            turned = turn_all(text)
        else:
            turned = "\n".join(map(turn_line, text.split("\n")))
        if turned != text:
            with open(path, "w", encoding="utf-8") as f:
                f.write(turned)


if __name__ == "__main__":
    main(sys.argv[1:])
