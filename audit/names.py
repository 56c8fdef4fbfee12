#!/usr/bin/env python3
"""Looks up what the pages name: each path, and each name in back-quotes, of README.md and of the pages of docs/, bench/ and
examples/. It prints what isn't there, with its page and line, and ends with status 1 where something is missing.

usage: audit/names.py [PAGE..]

- A path begins with a folder of the repository, or of a crate, or ends as a file does. It is there where a file or a
  folder has it, or ends with it; one that doesn't begin at the top has to stand in a crate that its paragraph names, where
  it names any. In a path a word in capital letters (NAME) stands for any name, and `*` for any text. What `rt` makes (out/)
  is passed over.
- A name is a word, or words joined by '::' or '.', in back-quotes. It is there where some file of code or of definitions
  has it outside of comments, or a script does; of `Type::call` the last word has to stand in a file that has the first one
  too. `prop_*`, `plain_` and `_topic` are there where some name begins or ends so.
- A name that is said to be `of` a file is defined there.
- A row of docs/WRONG_BODIES.md has a crate and the names of edits in its must-fail/, with semicolons between them.
- What isn't a word stands for itself and is passed over: texts of models, lines of logs, commands, sums.

Words that stand for others, and those of other programs, are listed in OUTSIDE, by the page that may name them.
"""

import collections
import fnmatch
import os
import re
import subprocess
import sys

ROOT = os.path.dirname(os.path.dirname(os.path.abspath(__file__)))
PAGES = ("README.md", "docs/*.md", "bench/README.md", "examples/README.md")
OUTSIDE = {
    "docs/ARCHITECTURE.md": "proofs/F/ lock_LAYER",
    "docs/COMMANDS.md": "timeout kill mkfifo ulimit plan.cpo",
    "docs/FROM_CP_OPTIMIZER.md": "intervalmax intervalmin present absent previous",
    "docs/FROM_OTHER_TOOLS.md": "job2_0 job2_0_on_1",
    "docs/LANGUAGE.md": "length present or and not previous ifThen abs m.cpo",
}
FOLDERS = ("docs", "crates", "audit", "bench", "examples", "tools", "specs", "src", "proofs", "must-fail", "data")
PATH = re.compile(rf"(?<![\w/.])(?:(?:{'|'.join(FOLDERS)})/[\w./*-]*[\w*/]|[\w./*-]*\w\.(?:md|rt|antt|py|sh|cpo|tsv|edit|answer|svg))(?![\w/])")
QUOTED = re.compile(r"`([^`]+)`")
NAME = re.compile(r"\*?[A-Za-z_][\w*]*(?:(?:::|\.)[A-Za-z_][\w*]*)*(?:\(\))?")
TOKEN = re.compile(r"[A-Za-z_][\w'-]*")
CRATE = re.compile(r"`([a-z_]+)`|(?<!\w)(?:crates/)?([a-z_]+)/(?:src|specs|proofs)")
OF_FILE = re.compile(r"((?:`[\w']+`(?:, and | and |, | to ))*`[\w']+`) of `([\w/]+\.(?:antt|rt))`")
EDITS = re.compile(r"\| `(\w+)` \| (.*) \|")
COMMENT = {".rt": re.compile(r"//.*"), ".antt": re.compile(r"--.*"), ".py": None, ".sh": None}


def tracked():
    """The files of the repository, those that aren't committed yet too."""
    words = ["git", "ls-files", "-z", "--cached", "--others", "--exclude-standard"]
    ran = subprocess.run(words, cwd=ROOT, capture_output=True, text=True, check=True)
    return sorted({it for it in ran.stdout.split("\0") if it and os.path.isfile(f"{ROOT}/{it}")})


def text_of(path):
    with open(f"{ROOT}/{path}", encoding="utf-8") as file:
        return file.read()


class Tree:
    """What can be named: paths, the words of code, and the files that have each."""

    def __init__(self, files):
        self.paths = set(files)
        for it in files:
            while it := os.path.dirname(it):
                self.paths.add(it)
        self.crates = {it.split("/")[1] for it in files if it.startswith("crates/")}
        # Each path by all that it ends with: specs/Cells.antt, Cells.antt.
        self.tails = set()
        for it in self.paths:
            parts = it.split("/")
            self.tails.update("/".join(parts[k:]) for k in range(len(parts)))
        self.words = {os.path.basename(it).split(".")[0] for it in self.paths} | {os.path.basename(it) for it in self.paths}
        self.words.update(TOKEN.findall(text_of("crates.txt")))
        self.having = collections.defaultdict(set)
        for path in files:
            kind = os.path.splitext(path)[1]
            if kind not in COMMENT or path == "audit/names.py":
                continue
            text = COMMENT[kind].sub("", text_of(path)) if COMMENT[kind] else text_of(path)
            for word in set(TOKEN.findall(text)):
                self.words.add(word)
                self.having[word].add(path)

    def files_of(self, path, crates):
        """The files that a path names, in these crates where there are any."""
        found = [it for it in self.paths if it == path or it.endswith(f"/{path}")]
        return found if path in found or not crates else [it for it in found if it.split("/")[1] in crates]

    def defines(self, path, name):
        """Whether a file defines a name, or declares it as a field or a variant."""
        return re.search(rf"^\s*(?:(?:abbrev|pub|record|data|fn|struct|enum|trait) )*{re.escape(name)}(?![\w'])", text_of(path), re.M) is not None

    def has_path(self, path, crates):
        path = path.rstrip("/")
        like = re.sub(r"\b[A-Z]{4,}\b", "*", path)
        if "*" in like:
            return any(fnmatch.fnmatchcase(it, like) for it in self.tails)
        return path in self.tails and (not path.endswith((".antt", ".rt")) or bool(self.files_of(path, crates)))

    def has_name(self, name):
        *front, last = re.split(r"::|\.", name.removesuffix("()"))
        if "*" in name or name[0] == "_" or name[-1] == "_":
            like = name if "*" in name else f"*{name}" if name[0] == "_" else f"{name}*"
            return any(fnmatch.fnmatchcase(it, like) for it in self.words)
        # A crate or a module in front holds the file; a type or a trait stands in it.
        return all(it in self.words for it in (*front, last)) and (
            not front or any(f"/{front[-1]}/" in it or it in self.having[front[-1]] for it in self.having[last])
        )


def missing(text, tree, outside):
    """What a page names and isn't there, with the number of its line, and how many names and paths were looked up."""
    is_code, crates, looked, found = False, set(), 0, []
    for number, line in enumerate(text.split("\n"), 1):
        is_code ^= line.lstrip().startswith("```")
        crates = crates if line.strip() else set()
        if is_code:
            continue
        crates |= {it for row in CRATE.findall(line) for it in row} & tree.crates
        paths = {it[0] for it in PATH.finditer(line)}
        names = {it for it in QUOTED.findall(line) if NAME.fullmatch(it)} - paths
        looked += len(paths) + len(names)
        found += [(number, it) for it in sorted(paths - outside) if "/out" not in it and not tree.has_path(it, crates)]
        found += [(number, it) for it in sorted(names - outside) if not tree.has_name(it)]
        for several, path in OF_FILE.findall(line):
            had = {it for it in QUOTED.findall(several) if any(tree.defines(file, it) for file in tree.files_of(path, crates))}
            found += [(number, f"{it} of {path}") for it in QUOTED.findall(several) if it not in had]
    return looked, found


def missing_edits(text, tree):
    """The edits that a page names by crate, and that aren't there."""
    for number, line in enumerate(text.split("\n"), 1):
        for crate, edits in EDITS.findall(line):
            for it in re.sub(r" \([^)]*\)", "", edits).split("; "):
                path = f"crates/{crate}/must-fail/{it.replace(' ', '_')}.edit"
                if crate in tree.crates and not {path, f"{path}.md"} & tree.paths:
                    yield number, path


def main(words):
    files = tracked()
    tree = Tree(files)
    pages = words or [it for it in files if any(fnmatch.fnmatchcase(it, like) for like in PAGES)]
    looked, wrong = 0, 0
    for page in pages:
        text = text_of(page)
        count, found = missing(text, tree, set(OUTSIDE.get(page, "").split()))
        if page == "docs/WRONG_BODIES.md":
            found += missing_edits(text, tree)
        looked += count
        wrong += len(found)
        for number, it in found:
            print(f"{page}:{number}: {it} isn't there")
    print(f"{looked} names and paths on {len(pages)} pages, {wrong} missing")
    return 1 if wrong else 0


if __name__ == "__main__":
    sys.exit(main(sys.argv[1:]))
