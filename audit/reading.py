#!/usr/bin/env python3
"""Lists what an audit has to read: the definitions on which the promise of a run stands. These are the ones that `Runs` of
`crates/commands/specs/Runs.antt` names, those that they name, and so on. All other specs speak of code, or are laws: what
they say is proved, and no promise rests on how they say it.

usage: reading.py [--names] [--others] [CRATE]
       reading.py --rooms
       reading.py --page

CRATE is `commands`, or `gantt`, `last_plan` or `reasons` for the promise of another program. The definitions of `commands` are told in rings, from
what a word of the program rests on to what only whoever writes another program needs; each ring stands on those before it.
Counted are the lines of the definitions themselves, without comments, blank lines and imports. With --names each definition
is named, with --others the files outside are counted too.

With --rooms it tests where the specs stand: what a promise stands on is in specs/ itself, and what speaks of code, or is
a law, in a folder there (code/, laws/, lemmas/). The promises are those of all programs and the files that
docs/PROMISES.md names. With --page it tests the lists of docs/PROMISES.md against the rings: each file of which a definition
is reached stands in the list of the ring to which most of them belong, each path is there, and the lines of the rings are
those that the page tells. Both end with status 1 where something is wrong.
"""

import collections
import os
import re
import sys

ROOT = os.path.dirname(os.path.dirname(os.path.abspath(__file__)))
PROMISES = f"{ROOT}/docs/PROMISES.md"
NAMED = re.compile(r"crates/([a-z_]+)/specs/([A-Za-z_/]+)\.antt")
CITED = re.compile(r"^use Rattle\.([\w.]+?)(?:\.\{([^}]*)\})?(?: as (\w+))?\s*$", re.M)
COMMENT = re.compile(r"--.*")
# the words in front of the name of a definition, and the name
HEAD = re.compile(r"^(?:pub |abbrev |unfoldable |record |data |syntax )*([^\s:({]+)")
KEPT = re.compile(r"[\w'◌]+(?:\.[\w']+)*")
# what stands in front of a block of definitions with common arguments
BLOCK = re.compile(r"^module .* where$")

# The rings: what each is for, the definitions that it begins with, and those that it takes as words whose definition
# stands further out. What none of them reaches belongs to the last.
TEXTS = ["cpo_elab.specs.Deserves.Deserves"]
LOGS = ["commands.specs.Runs.LogPromise", "commands.specs.Runs.HoldsBegunLog", "checker.specs.Judgement.IsAccepted", "checker.specs.Judgement.IsRefused", "checker.specs.Judgement.IsTooLong", "bound_report.specs.Bounds.ShowsBound", "conflict.specs.Core.ShowsCore"]
PRINTED = [
    "command_line.specs.Commands.command_of",
    "sched_text.specs.Answers.answer_text",
    "sched_text.specs.Answers.numbers_word",
    "sched_text.specs.Answers.values_word",
    "sched_text.specs.Answers.summary_text",
    "sched_text.specs.Answers.check_text",
    "log_reports.specs.Texts.bound_text",
    "log_reports.specs.Texts.core_text",
    "sched_text.specs.Canonical.canonical_text",
    "modelgen.specs.Generated.generated_text",
    "read_schedule.specs.Schedules.Spells",
    "read_schedule.specs.Schedules.IsRefused",
    "commands.specs.VerifyText.verify_text",
    "commands.specs.Told.usage_line",
    "commands.specs.Told.log_line",
    "commands.specs.Told.too_long_line",
    "given_files.specs.Told.refusal_line",
    "given_files.specs.Told.unfit_line",
    "given_files.specs.Told.fault_line",
    "given_files.specs.Told.memory_line",
]
OTHERS = ["log_reports.specs.Reports.bound_report", "log_reports.specs.Reports.core_report"] + [
    f"commands.specs.Runs.{name}" for name in ("ReportPromise", "VerifyPromise", "ShowPromise", "GenPromise", "NoCommandEnds", "ReadsFiles", "RunsWithin")
]
RINGS = [
    ("To trust an accepted log", ["log_reports.specs.Reports.check_report", "log_reports.specs.Reports.PrintsReport"], TEXTS + LOGS + PRINTED),
    ("To trust the word of solve", ["commands.specs.Runs.Runs"], TEXTS + LOGS + PRINTED + OTHERS),
    ("What other commands promise", OTHERS, TEXTS + LOGS + PRINTED),
    ("What a text deserves", TEXTS, []),
    ("What a log is", LOGS, []),
    ("The words, and what is printed", PRINTED, []),
]


def specs_of(root):
    """Returns the files of specs/, by crate.specs.Module."""
    found = {}
    for crate in sorted(os.listdir(f"{root}/crates")):
        top = f"{root}/crates/{crate}/specs"
        for at, _, names in os.walk(top):
            for name in names:
                if name.endswith(".antt"):
                    inside = os.path.relpath(f"{at}/{name}", top)[: -len(".antt")].replace(os.sep, ".")
                    found[f"{crate}.specs.{inside}"] = f"{at}/{name}"
    return found


def text_of(path):
    with open(path, encoding="utf-8") as file:
        return file.read()


# What a file defines.


def lines_of(text):
    """Returns the lines that say something, without comments."""
    told = (COMMENT.sub("", line).rstrip() for line in text.split("\n"))
    return [line for line in told if line.strip() and not line.startswith("use ") and not line.startswith("pub mod ") and not line.startswith("pub use ")]


def definitions_of(text):
    """Returns the lines of each definition, by its name. What is indented belongs to the definition before it, but for the
    blocks with common arguments, of which each item is one."""
    found, name, inset = collections.defaultdict(list), None, ""
    for line in lines_of(text):
        if BLOCK.match(line):
            inset = "  "
            continue
        if not line.startswith(inset):
            inset = ""
        own = line[len(inset) :]
        if not own.startswith(" "):
            name = HEAD.match(own).group(1) if HEAD.match(own) else name
        if name is not None:
            found[name].append(line)
    return found


def imports_of(text):
    """Returns what a file brings in: module and name by the word that it uses, and modules by theirs."""
    names, modules = {}, {}
    for path, listed, alias in CITED.findall(text):
        if not listed:
            modules[alias or path.split(".")[-1]] = path
        for item in listed.split(",") if listed else []:
            words = item.split()
            if words:
                names[words[-1].strip("◌")] = (path, words[0])
    return names, modules


class Specs:
    """The definitions of all specs, each by crate.specs.Module.name."""

    def __init__(self, files):
        self.files = files
        self.lines = {}
        self.named = {}
        for module, path in files.items():
            text = text_of(path)
            names, modules = imports_of(text)
            own = definitions_of(text)
            for name, lines in own.items():
                self.lines[f"{module}.{name}"] = lines
            for name, lines in own.items():
                self.named[f"{module}.{name}"] = self.names_in(module, lines, own, names, modules)

    def names_in(self, module, lines, own, names, modules):
        """Returns the definitions that these lines name."""
        locals_ = {it.strip("◌"): it for it in own}
        found = set()
        for word in KEPT.findall("\n".join(lines)):
            parts = word.strip("◌").split(".")
            if parts[0] in locals_:
                found.add(f"{module}.{locals_[parts[0]]}")
            elif parts[0] in names:
                path, name = names[parts[0]]
                found.add(f"{path}.{name}")
            elif parts[0] in modules and len(parts) > 1:
                found.add(f"{modules[parts[0]]}.{parts[1]}")
        return found

    def behind(self, first, stops=()):
        """Returns the definitions that are reached, but for those of `stops` and what stands behind them alone."""
        seen, left = set(), [it for it in first if it in self.lines]
        while left:
            name = left.pop()
            if name not in seen:
                seen.add(name)
                left.extend(it for it in self.named[name] if it in self.lines and it not in stops)
        return seen


def module_of(name):
    """Returns the module of a definition."""
    return name.rpartition(".")[0]


def rings_of(specs):
    """Returns the definitions of each ring that no ring before it has."""
    seen, found = set(), []
    for title, first, stops in RINGS:
        ring = specs.behind(first, stops) - seen
        seen |= ring
        found.append((title, ring))
    rest = specs.behind(["commands.specs.Runs.Runs"]) - seen
    return [*found[:-1], (found[-1][0], found[-1][1] | rest)]


def lines_in(specs, names):
    return sum(len(specs.lines[it]) for it in names)


def show(specs, names, named):
    """Prints these definitions, a line for each file."""
    by_module = collections.defaultdict(list)
    for name in sorted(names):
        by_module[module_of(name)].append(name)
    for module, its in by_module.items():
        told = ": " + ", ".join(it.rpartition(".")[2] for it in its) if named else ""
        print(f"  {module.replace('.specs.', '/')} {lines_in(specs, its)}{told}")


# Rooms, and the page.


def modules_behind(first, files):
    """Returns a module and all that stand behind it by what they bring in."""
    seen, left = set(), [first]
    while left:
        module = left.pop()
        if module in seen:
            continue
        seen.add(module)
        for path, _, _ in CITED.findall(text_of(files[module])):
            words = path.rstrip(".").split(".")
            while words and ".".join(words) not in files:
                words.pop()
            if words:
                left.append(".".join(words))
    return seen


def misplaced(files):
    """Returns the specs that don't stand where their readers look for them."""
    promises = {f"{crate}.specs.{path.replace('/', '.')}" for crate, path in NAMED.findall(text_of(PROMISES))}
    read = set().union(*(modules_behind(it, files) for it in promises & set(files) | {"commands.specs.Runs", "gantt.specs.Runs", "last_plan.specs.Runs", "reasons.specs.Runs"}))
    wrong = [f"docs/PROMISES.md names {it}, which isn't there" for it in sorted(promises - set(files))]
    for module in sorted(files):
        inside = module.split(".", 2)[2]
        is_in_front = "." not in inside
        if inside[0].islower() and is_in_front or inside == "Lib" or inside.startswith("formers."):
            continue
        if is_in_front and module not in read:
            wrong.append(f"{module} stands in front, and no promise stands on it")
        if not is_in_front and module in read:
            wrong.append(f"{module} stands in a folder, and a promise stands on it")
    return wrong


def page_lists(text):
    """Returns the lists of the page, by title: the lines that it tells, and the files that it names. Behind a path of a
    folder the files in it are named alone."""
    found = {}
    for block in re.split(r"^\*\*", text.partition("## Of the definitions")[2], flags=re.M)[1:]:
        head = re.match(r"([^*]+)\*\* \(([\d,]+) lines\)", block)
        if not head:
            continue
        named, folder = set(), None
        for word in re.findall(r"`([\w/.]+)`", block):
            path = re.match(r"crates/([a-z_]+)/specs/(?:([\w/]+)\.antt)?$", word)
            if path:
                folder = path.group(1)
                if path.group(2):
                    named.add(f"{folder}.specs.{path.group(2).replace('/', '.')}")
            elif folder and word.endswith(".antt"):
                named.add(f"{folder}.specs.{word[: -len('.antt')]}")
        found[head.group(1)] = (int(head.group(2).replace(",", "")), named)
    return found


def page_faults(specs, rings):
    """Returns where the lists of the page differ from what is reached."""
    lists, wrong, most = page_lists(text_of(PROMISES)), [], {}
    for title, ring in rings:
        by_module = collections.Counter()
        for name in ring:
            by_module[module_of(name)] += len(specs.lines[name])
        for module, lines in by_module.items():
            if lines > most.get(module, ("", 0))[1]:
                most[module] = (title, lines)
    for title, ring in rings:
        told, named = lists.get(title, (0, set()))
        lines = lines_in(specs, ring)
        if told != lines:
            wrong.append(f"{title}: the page tells {told} lines, and there are {lines}")
        due = {it for it, best in most.items() if best[0] == title}
        wrong.extend(f"{title}: {it} is missing" for it in sorted(due - named))
        wrong.extend(f"{title}: {it} is named, and {'isn’t there' if it not in specs.files else 'not reached here'}" for it in sorted(named - due) if it not in most or most[it][0] != title)
    wrong.extend(f"{title} is no ring" for title in sorted(set(lists) - {it for it, _ in rings}))
    return wrong


def tell(wrong, what):
    print("\n".join([*wrong, f"{len(wrong)} {what}"]))
    return 1 if wrong else 0


def main(words):
    files = specs_of(ROOT)
    if "--rooms" in words:
        return tell(misplaced(files), "specs in the wrong room")
    crate = next((it for it in words if not it.startswith("--")), "commands")
    if f"{crate}.specs.Runs" not in files:
        print(f"crates/{crate}/specs/Runs.antt isn't there")
        return 2
    specs = Specs(files)
    rings = rings_of(specs) if crate == "commands" else [("The promise", specs.behind([f"{crate}.specs.Runs.Runs"]))]
    if "--page" in words:
        return tell(page_faults(specs, rings), "differences between docs/PROMISES.md and what is reached")
    for title, ring in rings:
        print(f"{title}: {lines_in(specs, ring):,} lines")
        show(specs, ring, "--names" in words)
    read = set().union(*(ring for _, ring in rings))
    print(f"{len(read)} definitions of {len({module_of(it) for it in read})} files, {lines_in(specs, read):,} lines")
    if "--others" in words:
        others = [it for it in specs.lines if module_of(it) not in {module_of(name) for name in read}]
        print(f"{len({module_of(it) for it in others})} files outside, {lines_in(specs, others):,} lines")
    return 0


if __name__ == "__main__":
    sys.exit(main(sys.argv[1:]))
