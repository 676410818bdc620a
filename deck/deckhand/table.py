"""Tables of figures: one call's, two calls' side by side, and both for machines."""

from .case import FUNCTIONS, KINDS, MODES, REVOLUTE, word_for
from .floats import to_word, value_of
from .refusals import MEANINGS, entry

ROOT = [(f"root {half} {part}", unit) for half, unit in (("torque", "N m"), ("force", "N")) for part in "xyz"]


class Result:
    """A case's answer under its file's name."""

    def __init__(self, file, case, number, figures):
        """Keeps the answer; rows has one entry for each figure."""
        self.file, self.case, self.number = file, case, number
        self.call = f"{word_for(FUNCTIONS, case.function)}, {word_for(MODES, case.mode)}"
        self.rows = [] if number else figure_rows(case, figures)

    def refusal(self):
        """The refusal's sentence, with the entry where it is known."""
        text = f"refused {self.number}: {MEANINGS[self.number]}"
        found = entry(self.case, self.number)
        if not found:
            return text
        line = f", line {found['line']}" if found["line"] else ""
        return f"{text}\n  {found['field']}{line}: {found['reason']}"


def figure_rows(case, figures):
    """The rows of an accepted call: the root's figures, then the joints' by number."""
    rows = []
    if case.mode:
        for (name, unit), bits in zip(ROOT, figures):
            rows.append({"name": name, "number": None, "kind": "root", "bits": bits, "unit": unit})
    for joint, bits in zip(case.by_number(), figures[6 * case.mode :]):
        unit = "N m" if joint.kind == REVOLUTE else "N"
        kind = word_for(KINDS, joint.kind)
        rows.append({"name": joint.name, "number": joint.number, "kind": kind, "bits": bits, "unit": unit})
    return rows


def laid(rows, right):
    """Rows of words in columns; those of the columns in right end at the same place."""
    widths = [max(len(row[i]) for row in rows) for i in range(len(rows[0]))]
    lines = []
    for row in rows:
        words = [word.rjust(width) if i in right else word.ljust(width) for i, (word, width) in enumerate(zip(row, widths))]
        lines.append("  ".join(words).rstrip())
    return "\n".join(lines)


def number_word(row):
    """A row's joint number; a dash where it has none."""
    return "-" if row["number"] is None else str(row["number"])


def table(result):
    """One call's table, or its refusal."""
    head = f"{result.file}: {result.call}"
    if result.number:
        return f"{head}\n{result.refusal()}"
    rows = [["joint", "number", "kind", "figure", "unit"]]
    for row in result.rows:
        rows.append([row["name"], number_word(row), row["kind"], to_word(row["bits"]), row["unit"]])
    return f"{head}\n{laid(rows, (1, 3))}" if result.rows else f"{head}\nno figures: no joint moves"


def paired(first, second):
    """The rows of two results by name, in the first's order and then the second's; None where one has no such row."""
    left, right = ({(row["name"], row["kind"] == "root"): row for row in result.rows} for result in (first, second))
    return [(left.get(name), right.get(name)) for name in [*left, *(name for name in right if name not in left)]]


def verdict(one, other):
    """Whether two rows' figures have the same bits."""
    if one is None or other is None:
        return "only B" if one is None else "only A"
    return "same" if one["bits"] == other["bits"] and one["unit"] == other["unit"] else "DIFFERS"


def pair_row(one, other):
    """One line of the table of two calls."""
    sides = [side for side in (one, other) if side]
    columns = zip(*((number_word(side), side["kind"], side["unit"]) for side in sides))
    numbers, kinds, units = (" / ".join(dict.fromkeys(words)) for words in columns)
    figures = [to_word(side["bits"]) if side else "-" for side in (one, other)]
    return [sides[0]["name"], numbers, kinds, *figures, units, verdict(one, other)]


def comparison(first, second):
    """Two calls' figures side by side, or the refusals."""
    head = f"A  {first.file}: {first.call}\nB  {second.file}: {second.call}"
    refused = [f"{name}  {side.refusal()}" for name, side in (("A", first), ("B", second)) if side.number]
    rows = [["joint", "number", "kind", "A", "B", "unit", "bits"]]
    rows += [pair_row(one, other) for one, other in paired(first, second)]
    parts = [head, *refused] + ([laid(rows, (1, 3, 4))] if len(rows) > 1 else [])
    return "\n".join(parts)


def figure_value(row):
    """A figure for machines: the number, its hexadecimal text and its bits."""
    if row is None:
        return None
    return {"figure": value_of(row["bits"]), "hex": to_word(row["bits"], True), "bits": f"{row['bits']:016x}"}


def machine(result):
    """One call's answer for machines."""
    found = {"file": result.file, "function": word_for(FUNCTIONS, result.case.function)}
    found.update(mode=word_for(MODES, result.case.mode), refusal=result.number)
    if result.number:
        return {**found, "meaning": MEANINGS[result.number], "entry": entry(result.case, result.number)}
    names = ("name", "number", "kind", "unit")
    return {**found, "figures": [{**{key: row[key] for key in names}, **figure_value(row)} for row in result.rows]}


def machine_comparison(first, second):
    """Two calls' answers for machines."""
    rows = []
    for one, other in paired(first, second):
        sides = {"a": figure_value(one), "b": figure_value(other)}
        rows.append({"name": (one or other)["name"], **sides, "same": verdict(one, other) == "same"})
    return {"a": machine(first), "b": machine(second), "figures": rows}
