#!/usr/bin/env python3
"""Lists the statements of lemmas that stand in more than one crate, with the names and places of the
lemmas, and the count of these statements; ends with status 1 where there are any. It reads the .antt
files of specs/ and proofs/, and lemmas in .rt files. Neither blanks nor the names of variables count.
Two statements are the same where the words that they cite come from the same modules: a word that a
`use` line brings in is that of its module, or of the one that the module itself has it from, and a
word that a file defines is that file's own. Words of std count by their names alone.

usage: statements.py [TOP]   TOP is the folder that holds crates/; without it, that of this repository
"""

import os
import re
import sys

# Shorter ones are no loss: two crates may both say that no number is below zero.
SHORTEST = 40
LEMMA = re.compile(r"(?P<indent>\s*)(?:pub )?(?P<name>[a-z][\w'-]*) : (?P<statement>.*)$")
GOES_ON = re.compile(r"\s+(→|\(|\{)")
BINDER = re.compile(r"[({]([^(){}:→]*) :|λ ([^.(]*)\.")
# A field or a constructor behind a dot is told by what stands before it.
WORD = re.compile(r"\.?[\w'-]+|\s+|.")
USE = re.compile(r"(pub )?use (Rattle|crate)\.([\w.'-]+?)(?:\.\{([^}]*)\}| as (\w+))")
DEFINED = re.compile(r"^(?:(?:abbrev|pub|record|data) )*([\w'◌-]+) ", re.M)


def module_of(place):
    """The name of the module that a file is: sched_model.specs.Words for that of ◌implies◌."""
    return os.path.splitext(place)[0].replace(os.sep, ".")


def brought(text, crate, passed_on):
    """The words that the `use` lines of a file bring in, each with its module and its name there;
    those of `pub use` lines alone where it is asked what the file passes on."""
    for public, top, module, names, alias in USE.findall(text):
        module = f"{crate}.{module}" if top == "crate" else module
        if alias and not passed_on:
            yield alias, *module.rsplit(".", 1)
        for name in names.split(", ") if public or not passed_on else []:
            there, _, here = name.partition(" as ")
            yield here or there, module, there


def origins(text, module, passed, crates):
    """What each word means that a file defines or brings in from a crate: a module, and its name there."""
    words = {name: (module, name) for name in DEFINED.findall(text)}
    for word, there, name in brought(text, module.split(".")[0], False):
        while (there, name) in passed:
            there, name = passed[there, name]
        words[word] = (there, name)
    # An operator's parts mean what it does.
    return {
        part: ".".join(origin)
        for word, origin in words.items()
        for part in word.split("◌")
        if part and origin[0].split(".")[0] in crates
    }


def same_words(statement, meaning):
    """The statement, with each variable that it binds named by the order in which these stand, and
    each other word by what it means."""
    bound = {}
    for binder in BINDER.finditer(statement):
        for name in (binder[1] or binder[2] or "").split():
            bound.setdefault(name, f"{len(bound)}.")
    return "".join(bound.get(word) or meaning.get(word, word) for word in WORD.findall(statement))


def statements(path, text):
    """The name and the statement of each lemma of a file; a statement goes on over deeper lines."""
    lines = text.split("\n")
    for number, line in enumerate(lines):
        found = LEMMA.match(line)
        if not found or (found["indent"] and path.endswith(".antt")):
            continue
        said = [found["statement"]]
        for more in lines[number + 1 :]:
            if not GOES_ON.match(more) or not more.startswith(found["indent"] + " "):
                break
            said.append(more)
        statement = re.sub(r"\s+", " ", " ".join(said)).strip()
        if "≡" in statement and len(statement) > SHORTEST:
            yield found["name"], statement


def files(crates):
    """Each file that may hold lemmas, with the name of its crate."""
    for folder, inner, names in os.walk(crates):
        inner[:] = sorted(name for name in inner if name != "out")
        for name in sorted(names):
            if name.endswith((".antt", ".rt")):
                path = os.path.join(folder, name)
                yield os.path.relpath(path, crates).split(os.sep)[0], path


def main():
    above = os.path.join(os.path.dirname(os.path.abspath(__file__)), "..")
    top = sys.argv[1] if len(sys.argv) > 1 else above
    folder = os.path.join(top, "crates")
    texts = {}
    passed = {}
    for crate, path in files(folder):
        with open(path, encoding="utf-8") as file:
            text = file.read()
        module = module_of(os.path.relpath(path, folder))
        texts[path] = (crate, module, text)
        for word, there, name in brought(text, crate, True):
            passed[module, word] = (there, name)
    crates = {crate for crate, _, _ in texts.values()}
    seen = {}
    for path, (crate, module, text) in texts.items():
        meaning = origins(text, module, passed, crates)
        for name, statement in statements(path, text):
            row = (crate, name, os.path.relpath(path, top), statement)
            seen.setdefault(same_words(statement, meaning), []).append(row)
    shared = [rows for rows in seen.values() if len({row[0] for row in rows}) > 1]
    for rows in sorted(shared, key=lambda rows: -len(rows)):
        print(rows[0][3])
        for _, name, place, _ in rows:
            print(f"    {name}  {place}")
    print(f"{len(shared)} statements stand in more than one crate")
    return 1 if shared else 0


if __name__ == "__main__":
    sys.exit(main())
