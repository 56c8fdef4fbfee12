#!/usr/bin/env python3
"""Compares the program with a second reading of docs/LANGUAGE.md, written here.

usage: agree.py [COUNT [SEED]]

It makes COUNT (300) random small models of the part of the language that is solved, tries every way to place their
intervals, and compares: the verdict and the value; that the schedule is one of those ways, with that value; that
`check` accepts the log with that verdict; that the canonical text is solved alike. Then it changes each log at random,
and where `check` accepts one, what its verdict says has to be so. It stops at the first model on which the two differ.
It wants a built program: (cd crates/schedtool && rt run -- solve ../../examples/two_in_a_row.cpo two_in_a_row.log)
"""

import itertools
import operator
import os
import random
import subprocess
import sys
import tempfile
from collections import Counter, namedtuple

TOOL = os.environ.get("TOOL") or os.path.join(os.path.dirname(os.path.abspath(__file__)), "../crates/schedtool/out/schedtool")
FREE = (0, 1_000_000_000)

# An expression: its text, how tightly it holds together, and its value where each interval is None or (start, end).
Expr = namedtuple("Expr", "text level value")
IMPLIES, OR, AND, NOT, COMPARE, SUM, PRODUCT, ATOM = range(8)

MEASURES = {
    "startOf": lambda s, e: s,
    "endOf": lambda s, e: e,
    "sizeOf": lambda s, e: e - s,
    "lengthOf": lambda s, e: e - s,
}
COMPARISONS = {
    "==": operator.eq,
    "!=": operator.ne,
    "<=": operator.le,
    ">=": operator.ge,
    "<": operator.lt,
    ">": operator.gt,
}
# The end point of the first interval, that of the second, and whether the distance is exact.
PRECEDENCES = {
    f"{a}{word}{b}": (i, j, word == "At")
    for i, a in enumerate(("start", "end"))
    for word in ("Before", "At")
    for j, b in enumerate(("Start", "End"))
}


class Models:
    def __init__(self, seed):
        self.draw = random.Random(seed)

    def operand(self, expr, level):
        return expr.text if expr.level >= level else f"({expr.text})"

    def atom(self, names):
        if not names or self.draw.random() < 0.3:
            n = self.draw.choice((0, 1, 2, 3, 5))
            return Expr(str(n), ATOM, lambda a: n)
        x = self.draw.choice(names)
        if self.draw.random() < 0.15:
            return Expr(f"presenceOf({x})", ATOM, lambda a: int(a[x] is not None))
        word = self.draw.choice(list(MEASURES))
        absent = self.draw.choice((None, None, -2, 0, 4))
        more = "" if absent is None else f", {absent}"
        value = lambda a: (absent or 0) if a[x] is None else MEASURES[word](*a[x])
        return Expr(f"{word}({x}{more})", ATOM, value)

    def expr(self, names, depth):
        if depth == 0 or self.draw.random() < 0.15:
            return self.atom(names)
        forms = (self.implied, self.linked, self.negated, self.compared, self.summed, self.multiplied, self.gathered)
        return self.draw.choice(forms)(names, depth - 1)

    def several(self, names, depth, least):
        return [self.expr(names, depth) for _ in range(self.draw.randint(least, 3))]

    def implied(self, names, depth):
        x, y = self.expr(names, depth), self.expr(names, depth)
        text = f"{self.operand(x, OR)} => {self.operand(y, IMPLIES)}"
        return Expr(text, IMPLIES, lambda a: int(x.value(a) == 0 or y.value(a) != 0))

    def linked(self, names, depth):
        sign, level, test = self.draw.choice((("||", OR, any), ("&&", AND, all)))
        xs = self.several(names, depth, 2)
        text = f" {sign} ".join(self.operand(x, level + 1) for x in xs)
        return Expr(text, level, lambda a: int(test(x.value(a) != 0 for x in xs)))

    def negated(self, names, depth):
        x = self.expr(names, depth)
        return Expr(f"!{self.operand(x, NOT)}", NOT, lambda a: int(x.value(a) == 0))

    def compared(self, names, depth):
        sign = self.draw.choice(list(COMPARISONS))
        x, y = self.expr(names, depth), self.expr(names, depth)
        text = f"{self.operand(x, SUM)} {sign} {self.operand(y, SUM)}"
        return Expr(text, COMPARE, lambda a: int(COMPARISONS[sign](x.value(a), y.value(a))))

    def summed(self, names, depth):
        xs = self.several(names, depth, 1)
        signs = [self.draw.choice((1, -1)) for _ in xs]
        if len(xs) == 1:
            signs = [-1]
        text = "-" * (signs[0] < 0) + self.operand(xs[0], PRODUCT)
        for sign, x in zip(signs[1:], xs[1:]):
            text += f" {'+' if sign > 0 else '-'} {self.operand(x, PRODUCT)}"
        return Expr(text, SUM, lambda a: sum(sign * x.value(a) for sign, x in zip(signs, xs)))

    def multiplied(self, names, depth):
        # At most one factor may name an interval.
        xs = [self.expr(names, depth), *(self.expr([], depth) for _ in range(self.draw.randint(1, 2)))]
        self.draw.shuffle(xs)
        text = "*".join(self.operand(x, ATOM) for x in xs)

        def value(a):
            product = 1
            for x in xs:
                product *= x.value(a)
            return product

        return Expr(text, PRODUCT, value)

    def gathered(self, names, depth):
        word, gather = self.draw.choice((("max", max), ("min", min), ("sum", sum)))
        xs = self.several(names, depth, 0 if word == "sum" else 1)
        text = f"{word}([{', '.join(x.text for x in xs)}])"
        return Expr(text, ATOM, lambda a: gather(x.value(a) for x in xs))

    def range_of(self, low, high):
        a = self.draw.randint(low, high)
        return a, self.draw.randint(a, high)

    def interval(self, name):
        """The statement, and where the interval can stand."""
        start, end = self.range_of(-2, 3), self.range_of(-2, 4)
        size = self.range_of(0, 4) if self.draw.random() < 0.7 else FREE
        is_optional = self.draw.random() < 0.5
        words = ["optional"] * is_optional
        for word, (low, high) in (("start", start), ("end", end), ("size", size)):
            if (low, high) == FREE:
                continue
            is_short = low == high and self.draw.random() < 0.5
            words.append(f"{word}={low}" if is_short else f"{word}={low}..{high}")
        self.draw.shuffle(words)
        places = [
            (s, e)
            for s in range(start[0], start[1] + 1)
            for e in range(end[0], end[1] + 1)
            if size[0] <= e - s <= size[1]
        ]
        return f"{name} = intervalVar({', '.join(words)});", [None] * is_optional + places

    def precedence(self, names):
        word = self.draw.choice(list(PRECEDENCES))
        x, y = self.draw.choice(names), self.draw.choice(names)
        distance = self.draw.choice((None, 0, 1, -1, 2))
        more = "" if distance is None else f", {distance}"
        i, j, is_exact = PRECEDENCES[word]

        def holds(a):
            if a[x] is None or a[y] is None:
                return True
            from_, to = a[x][i] + (distance or 0), a[y][j]
            return from_ == to if is_exact else from_ <= to

        return f"{word}({x}, {y}{more});", holds

    def calendar(self, names, k):
        """The statements of the k-th step function and of what it forbids an interval."""
        moments = sorted(self.draw.sample(range(-3, 6), self.draw.randint(1, 4)))
        pairs = [(t, self.draw.choice((0, 0, 1, 5))) for t in moments]
        word, x = self.draw.choice(("forbidStart", "forbidExtent")), self.draw.choice(names)

        def value(t):
            return next((v for u, v in reversed(pairs) if u <= t), 0)

        def holds(a):
            if a[x] is None:
                return True
            s, e = a[x]
            return all(value(t) != 0 for t in ([s] if word == "forbidStart" else range(s, e)))

        written = ", ".join(f"[{t}, {v}]" for t, v in pairs)
        return f"F{k} = stepFunction([{written}]); {word}({x}, F{k});", holds

    def alternative(self, names):
        x, parts = self.draw.choice(names), self.draw.sample(names, self.draw.randint(0, len(names)))
        count = self.draw.choice((None, 0, 1, 1, 2))
        more = "" if count is None else f", {count}"

        def holds(a):
            chosen = [a[part] for part in parts if a[part] is not None]
            if a[x] is None:
                return not chosen
            return len(chosen) == (1 if count is None else count) and all(place == a[x] for place in chosen)

        return f"alternative({x}, [{', '.join(parts)}]{more});", holds

    def objective(self, names):
        """The statement, which of two values is better, and the criteria, of which an earlier one decides first."""
        word, best = self.draw.choice((("minimize", min), ("maximize", max)))
        if self.draw.random() < 0.6:
            criteria = [self.expr(names, 3)]
            return f"{word}({criteria[0].text});", best, criteria
        criteria = [self.expr(names, 2) for _ in range(self.draw.choice((1, 2, 2, 3)))]
        return f"{word}(staticLex([{', '.join(x.text for x in criteria)}]));", best, criteria

    def model(self):
        """The text, the places of each interval, the constraints, and the objective or None."""
        names = [f"x{i}" for i in range(self.draw.randint(1, 3))]
        lines, places, constraints, objective = [], {}, [], None
        for name in names:
            line, places[name] = self.interval(name)
            lines.append(line)
        for k in range(self.draw.randint(0, 3)):
            if self.draw.random() < 0.2:
                line, holds = self.calendar(names, k)
            elif self.draw.random() < 0.2:
                line, holds = self.alternative(names)
            elif self.draw.random() < 0.5:
                line, holds = self.precedence(names)
            else:
                x = self.expr(names, 3)
                line, holds = f"{x.text};", lambda a, x=x: x.value(a) != 0
            lines.append(line)
            constraints.append(holds)
        if self.draw.random() < 0.7:
            line, *objective = self.objective(names)
            lines.insert(self.draw.randint(len(names), len(lines)), line)
        return "\n".join(lines) + "\n", places, constraints, objective

    def changed(self, log):
        """The lines of a log with one change."""
        lines = list(log)
        k = self.draw.randrange(len(lines))
        how = self.draw.randrange(5)
        if how == 0:
            del lines[k]
        elif how == 1:
            lines.insert(k, self.draw.choice(lines))
        elif how == 2:
            lines[k:] = ["end"]
        else:
            words = lines[k].split(" ")
            at = self.draw.randrange(len(words))
            if how == 3 or not words[at].lstrip("-").isdigit():
                words[at] = self.draw.choice(self.draw.choice(lines).split(" "))
            else:
                words[at] = str(int(words[at]) + self.draw.choice((-1, 1)))
            lines[k] = " ".join(words)
        return lines


def said(folder, command, *files):
    words = [TOOL, command, *(f"{folder}/{file}" for file in files)]
    ran = subprocess.run(words, stdout=subprocess.PIPE, stderr=subprocess.PIPE, encoding="utf-8")
    return ran.stdout.split("\n"), ran.stderr.strip()


def values(objective, a):
    return tuple(x.value(a) for x in objective[1])


def told(numbers):
    return ",".join(map(str, numbers))


def wanted(solutions, objective):
    """The verdict, and the best values of the criteria if there are any."""
    if not solutions:
        return "infeasible", None
    if objective is None:
        return "feasible", None
    best = objective[0](values(objective, a) for a in solutions)
    return f"optimal {told(best)}", best


def schedule(lines, names):
    rows = [line.split(" ") for line in lines]
    return {row[0]: None if row[1] == "absent" else (int(row[1]), int(row[2])) for row in rows if row[0] in names}


def write(folder, file, text):
    with open(f"{folder}/{file}", "w", encoding="utf-8") as to:
        to.write(text)


def compare(models, folder, counts):
    text, places, constraints, objective = models.model()
    write(folder, "model", text)
    ways = (dict(zip(places, way)) for way in itertools.product(*places.values()))
    solutions = [a for a in ways if all(holds(a) for holds in constraints)]
    verdict, best = wanted(solutions, objective)
    answer, error = said(folder, "solve", "model", "log")
    if objective and len(objective[1]) > 1 and error.startswith("model refused 13"):
        counts["rank too large"] += 1
        return
    assert answer[0] == verdict, f"{text}wanted {verdict}, but solve said {answer[0]}{error}"
    if solutions:
        found = schedule(answer, places)
        assert found in solutions, f"{text}no solution: {answer}"
        assert best is None or values(objective, found) == best, f"{text}another value: {answer}"
        write(folder, "plan", "\n".join(answer))
        lines = ["valid", *([] if best is None else [f"value {told(best)}"]), "end", ""]
        assert said(folder, "verify", "model", "plan")[0] == lines, f"{text}verify said something else"
    judged, error = said(folder, "check", "model", "log")
    assert judged[0] == f"accepted {verdict}", f"{text}check said {judged[0]}{error}"
    shown, _ = said(folder, "show", "model")
    write(folder, "canonical", "\n".join(shown))
    assert said(folder, "show", "canonical")[0] == shown, f"{text}its canonical text is shown as another"
    assert said(folder, "solve", "canonical", "log_of_canonical")[0] == answer, f"{text}its canonical text differs"
    counts[verdict.split(" ")[0]] += 1
    with open(f"{folder}/log", encoding="utf-8") as log:
        lines = log.read().split("\n")[:-1]
    shown = {told(values(objective, a)) for a in solutions} if objective else set()
    true = {f"accepted {it}" for it in (verdict, "unfinished none", *(f"unfinished {v}" for v in shown))}
    for _ in range(5):
        log = "\n".join(models.changed(lines)) + "\n"
        write(folder, "changed", log)
        judged, _ = said(folder, "check", "model", "changed")
        assert judged[0] in true or judged[0] == "", f"{text}{log}check said {judged[0]}"
        counts["changed log accepted" if judged[0] else "changed log refused"] += 1


def main(count=300, seed=1):
    models, counts = Models(int(seed)), Counter()
    with tempfile.TemporaryDirectory() as folder:
        for _ in range(int(count)):
            compare(models, folder, counts)
    for what, n in sorted(counts.items()):
        print(f"{what:24} {n:>8}")


if __name__ == "__main__":
    main(*sys.argv[1:])
