"""What the scripts of this folder share: names of the language, and the lines of a model."""

import re
import sys


def name_of(text):
    """A name of the language for any text: letters, digits and '_', not a digit first, and 64 bytes at most."""
    name = re.sub(r"[^A-Za-z0-9_]+", "_", text.strip()).strip("_") or "x"
    return (name if not name[0].isdigit() else f"_{name}")[:64]


def free(name, taken):
    """The name, or where it is taken the first of name_2, name_3 and so on that isn't; it is taken from then on."""
    found, k = name, 2
    while found in taken:
        found, k = f"{name[:60]}_{k}", k + 1
    taken.add(found)
    return found


def interval(name, size, horizon, *words):
    """The statement of an interval that ends by the horizon; size is the least and the greatest, words are further arguments."""
    low, high = size
    return f"{name} = intervalVar({', '.join([*words, f'size={low}' if low == high else f'size={low}..{high}', f'end=0..{horizon}'])});"


def sequence(name, members):
    """The statements of a sequence without overlap. Its name labels the row of a picture."""
    return [f"{name} = sequenceVar([{', '.join(members)}]);", f"noOverlap({name});"]


def soonest(names):
    """The statement of the objective that the last of these ends as soon as may be."""
    return f"minimize(max([{', '.join(f'endOf({it})' for it in names)}]));"


def numbers(text):
    """The whole numbers of a text, without its lines that begin with '#'."""
    lines = [line for line in text.split("\n") if not line.lstrip().startswith("#")]
    try:
        return [int(float(word)) for line in lines for word in line.split()]
    except ValueError as fault:
        sys.exit(f"a word that is no number: {str(fault).rpartition(':')[2].strip()}")


def taken(given, count, what):
    """The next so many numbers of an iterator; ends the script where they are missing."""
    found = [it for _, it in zip(range(count), given)]
    if len(found) < count:
        sys.exit(f"the file ends within {what}")
    return found


def text_of(words, usage):
    """The text of the one file that the words name; ends the script where it can't be read."""
    if len(words) != 1 or words[0].startswith("-"):
        sys.exit(usage)
    try:
        with open(words[0], encoding="utf-8-sig") as file:
            return file.read()
    except (OSError, UnicodeDecodeError) as fault:
        sys.exit(f"{words[0]}: {fault}")
