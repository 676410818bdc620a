#!/usr/bin/env python3
"""Brings this repository's own definitions and lemmas to snake case, after port.py. Run once, at the top of the repository: respell.py [--dry] [--verbose]

A name turns if it stands in crates/*/specs/*.antt or in a lemma file crates/*/proofs/*.antt and is not the kit's (at the top, in a module, a where, a let, a record, a data or a binder),
begins with a small letter and holds a capital or a dash. A name that a file brings in from the kit stays in that file. Names declared in proofs/F/Proof.antt
alone stay, as they answer goals. Types, records and modules (capital first) stay. What turns in a file, turns in every file of crates/ (.antt, clauses
of .rt), in must-fail/*.edit and, in backticks or import paths, in comments, docs/*.md and README.md. In edits and pages a word that port.py turned in specs/ turns too, and in edits of specs/
projections and paths take today's form. A line 'clash:' names words that would fall together (none now), 'by hand:' an edit whose old text stands nowhere.
A second run changes nothing.
"""
import glob, os, re, sys, collections

# old name: new name, where the plain respelling would meet another name
# (nearly all: a lemma that had the name of the definition that it is about, written with a dash)
EXCEPTIONS = {
    "answer-laid": "answer_is_laid",
    "call-laid": "call_is_laid",
    "joint-laid": "joint_is_laid",
    "model-laid": "model_is_laid",
    "pose-laid": "pose_is_laid",
    "counts-fit": "counts_are_fit",
    "frame-kept": "frame_is_kept",
    "function-code": "function_code_stands",
    "mode-code": "mode_code_stands",
    "gravity-own": "gravity_own_same",
    "gravity-step": "gravity_step_same",
    "inverse-own": "inverse_own_same",
    "inverse-step": "inverse_step_same",
    "is-nan": "eq_nan",
    "lent-after": "lent_after_as_map",
    "lent-answer": "lent_answer_as_map",
    "or-else": "or_else_zero",
    "output-length": "output_length_if_good",
    "root-sum": "sum_from_root",
    "sum-from": "sum_from_folds",
    "table-length": "length_table",
    "times-joint": "times_joint_finite",
    "times-link": "times_link_finite",
    "vector-sum": "vector_sum_finite",
    "wrench-sum": "wrench_sum_finite",
    # digits and a kit word of an older name
    "getD-listOf": "get_or_list_of",
    "at-2^-19-fails": "at_2_to_minus_19_fails",
    "at-2^-20-passes": "at_2_to_minus_20_passes",
}

NAME = re.compile(r'[^\s(){}.;,@"«»]+')
QUIET = re.compile(r'"(?:[^"\\\n]|\\.)*"|(?<![^\s(){}.;,@"«»])--[^\n]*|\{-.*?-\}', re.S)
RUST_QUIET = re.compile(r'//[^\n]*|/\*.*?\*/|b?"(?:[^"\\]|\\.)*"', re.S)
SPAN = re.compile(r"`[^`\n]+`")
USE = re.compile(r"\buse +([^\s;{]+?)\.?(?:\{([^}]*)\}|(?=[\s;]))(?: +as +([^\s;]+))?", re.S)
OLD = re.compile(r"[a-zℕ].*[A-Z]|[a-z](?:.*[\w'₀-₉ℕ])?-\w")
FIELD = re.compile(r"^  +pub (\S+) : ", re.M)


def snake(name):
    name = re.sub(r"(?<=[a-z0-9ℕ])(?=[A-Z])|(?<=[A-Z])(?=[A-Z][a-z])", "_", name)
    return name.replace("-", "_").lower()


def read(path):
    with open(path, encoding="utf-8") as f:
        return f.read()


def between(rx, text, inside, outside):
    out, at = [], 0
    for m in rx.finditer(text):
        out += [outside(text[at : m.start()]), inside(m[0])]
        at = m.end()
    return "".join(out) + outside(text[at:])


def is_own(path):
    steps = path.split(".")
    return steps[0] == "Rattle" and len(steps) > 1 and steps[1] in CRATES


def imports(code):
    own, kit = set(), set()
    for path, items, alias in USE.findall(code):
        for it in re.split(r",", items):
            words = it.split(" as ")
            (own if is_own(path) else kit).update(w.strip().strip("«»") for w in words if w.strip())
            if len(words) == 2 and not is_own(path):
                kit.discard(words[1].strip())
    return own, kit


CRATES = sorted(os.path.basename(c) for c in glob.glob("crates/*") if os.path.isdir(c))
SOURCE = sorted(glob.glob("crates/*/specs/**/*.antt", recursive=True) + glob.glob("crates/*/proofs/*.antt"))
PROOFS = sorted(set(glob.glob("crates/*/proofs/*/**/*.antt", recursive=True)))
OF_F = set(PROOFS)
FIELDS, WORDS = set(), set()
RUST = sorted(glob.glob("crates/*/src/**/*.rt", recursive=True))
EDITS = sorted(glob.glob("crates/*/must-fail/*.edit"))
PAGES = sorted(glob.glob("docs/*.md") + glob.glob("README.md") + glob.glob("crates/*/*.md"))


def collect():
    """The names to turn, each with where it stands: a map from the old to the new."""
    found, where = {}, collections.defaultdict(set)
    for f in SOURCE:
        code = QUIET.sub(" ", read(f))
        own, kit = imports(code)
        for record in re.findall(r"^(?:pub )?record .*\n(?:  .*\n|\n)+", code, re.M):
            FIELDS.update(FIELD.findall(record))
        for w in set(NAME.findall(code)):
            WORDS.add(w)
            if OLD.match(w) and w not in kit:
                where[w].add(f)
    for w in where:
        found[w] = EXCEPTIONS.get(w, snake(w))
    WORDS.update(found.values())
    return found, where


def kit_in(path, code):
    own, kit = imports(code)
    return kit - own


def turner(path, table, kit):
    def one(word):
        if word in kit:
            return word
        return table.get(word, word)

    return one


def turn_code(text, one, proof=False):
    """In a proof of a function a name behind a dot is one that Rattle makes, but for a field of a record of this repository and a name behind a module's."""

    def sub(m):
        if proof and text[m.start() - 1 : m.start()] == "." and m[0] not in FIELDS:
            if not re.search(r"(?:^|[^\w.'-])(?:\w+\.)*[A-Z]\w*\.$", text[max(0, m.start() - 200) : m.start()]):
                return m[0]
        return one(m[0])

    return re.sub(r"(\S+) as \1(?=\s*[,}])", r"\1", NAME.sub(sub, text))


def turn_spans(text, one):
    def span(s):
        return NAME.sub(lambda m: one(m[0]), s.strip("`")).join("``")

    return between(SPAN, text, span, lambda t: t)


def turn_antt(path, text, table):
    kit = kit_in(path, QUIET.sub(" ", text))
    one = turner(path, table, kit)
    return between(QUIET, text, lambda q: q if q[0] == '"' else turn_spans(q, one), lambda t: turn_code(t, one, path in OF_F))


def turn_rust(path, text, table):
    kit = kit_in(path, RUST_QUIET.sub(" ", text))
    one = turner(path, table, kit)
    return between(RUST_QUIET, text, lambda q: turn_spans(q, one) if q[0] == "/" else q, lambda t: turn_code(t, one))


def later(word):
    """What port.py made of an older name: the same word in snake case, where the specs and lemma files have it."""
    new = snake(word)
    return new if OLD.match(word) and new != word and new in WORDS else word


def tight(line):
    """Projections of an older clause or definition, as this antt writes them: (b .id) is b.id, f x .g is (f x).g."""
    line = re.sub(r"Rattle·(\w+)(?:·specs)?\.specs\.", r"Rattle.\1.specs.", line).replace("′", "'")
    step = re.compile(r"((?:^|[(\[,=≡⊕⊖⊗{;] ?|\. |: |\+\+ )[\w']+(?:\.[\w']+)*) \.(?=[a-z])")
    for _ in range(9):
        line = step.sub(r"\1.", line)
        line = re.sub(r"(?<=[\s(])\(([\w']+(?:\.[\w']+)+)\)", r"\1", line)
        line = re.sub(r"((?:^|[(\[,=≡{;] ?|\. |: |\+\+ ))((?:[\w']+(?:\.[\w']+)* )+[\w']+(?:\.[\w']+)*) \.(?=[a-z])", r"\1(\2).", line)
    return line


def turn_edit(path, text, table):
    at, out = "", []
    for line in text.split("\n"):
        m = re.match(r"(file|old|new): ?(.*)", line)
        if m and m[1] == "file":
            at = m[2].strip()
        elif m:
            full = os.path.join(os.path.dirname(os.path.dirname(path)), at)
            quiet = RUST_QUIET if at.endswith(".rt") else QUIET
            kit = kit_in(full, quiet.sub(" ", read(full))) if os.path.exists(full) else set()
            one = turner(full, table, kit)
            by = lambda w: later(one(w)) if w not in kit else w
            line = between(quiet, m[2], lambda q: q if q[0] in '"b' else turn_spans(q, one), lambda t: turn_code(t, by if at.startswith("specs/") else one, full in OF_F))
            if at.startswith("specs/"):
                line = tight(line)
            line = m[1] + ": " + line
        elif line.startswith("#"):
            line = turn_spans(line, lambda w: table.get(w, w))
        out.append(line)
    return "\n".join(out)


def turn_page(path, text, table):
    fence = re.compile(r"^```.*?^```", re.S | re.M)
    one = lambda w: table.get(w) or later(w)
    return between(fence, text, lambda t: NAME.sub(lambda m: one(m[0]), t), lambda t: turn_spans(t, one))


def clashes(table, where):
    """Names that would fall together in one file: says each."""
    said = collections.defaultdict(list)
    for f in SOURCE + PROOFS + RUST:
        text = read(f)
        code = (RUST_QUIET if f.endswith(".rt") else QUIET).sub(" ", text)
        kit = kit_in(f, code)
        words = collections.Counter(NAME.findall(code))
        free = set()  # words that stand somewhere with no dot before
        for m in NAME.finditer(code):
            if code[m.start() - 1 : m.start()] != ".":
                free.add(m[0])
        undotted = set(free) | FIELDS
        if f.endswith(".rt"):
            # functions, paths and fields of the source do not meet names of clauses; parameters and locals do
            fns = set(re.findall(r"\bfn +(\w+)", code))
            for it in re.findall(r"^ *(?:pub )?use ([^;]*);", code, re.M):
                fns.update(re.findall(r"\b[a-z]\w*", it))
            free = {w for w in free if w not in fns} | (free & set(re.findall(r"\blet +(?:mut +)?(\w+)|[(,]\s*(?:mut +)?(\w+):", code) and {x for p in re.findall(r"\blet +(?:mut +)?(\w+)|[(,]\s*(?:mut +)?(\w+):", code) for x in p if x}))
        into = collections.defaultdict(set)
        for w in words:
            if w in table and w not in kit:
                into[table[w]].add(w)
        for new, olds in into.items():
            if f in OF_F:
                olds = {o for o in olds if o in undotted}
                if not olds:
                    continue
            if len(olds) > 1:
                said[(new, tuple(sorted(olds)))].append(f)
            elif new in free and new not in olds:
                said[(new, tuple(sorted(olds)))].append(f)
    return said


def main(argv):
    dry = "--dry" in argv
    table, where = collect()
    table = {o: n for o, n in table.items() if o != n}
    said = clashes(table, where)
    for (new, olds), files in sorted(said.items()):
        print(f"clash: {new} <- {', '.join(olds)}: {' '.join(files[:6])}{' ..' if len(files) > 6 else ''}")
    kinds = collections.Counter()
    changed = collections.Counter()
    for kind, files, how in (("specs and lemma files", SOURCE, turn_antt), ("proofs/F", PROOFS, turn_antt), ("src", RUST, turn_rust), ("must-fail edits", EDITS, turn_edit), ("pages", PAGES, turn_page)):
        for f in files:
            old = read(f)
            new = how(f, old, table)
            if new != old:
                changed[kind] += 1
                if not dry:
                    with open(f, "w", encoding="utf-8") as g:
                        g.write(new)
    for f in EDITS:
        at = ""
        for line in (turn_edit(f, read(f), {}) if dry else read(f)).split("\n"):
            m = re.match(r"(file|old): ?(.*)", line)
            if m and m[1] == "file":
                at = os.path.join(os.path.dirname(os.path.dirname(f)), m[2].strip())
            elif m and not dry and (not os.path.exists(at) or read(at).count(m[2]) != 1):
                print(f"by hand: {f}: its old text does not stand once in {at}: {m[2][:100]}")
    print(f"respell: {len(table)} names, {len(said)} clashes; files changed: " + ", ".join(f"{k} {n}" for k, n in changed.items()))
    if "--verbose" in argv:
        for o in sorted(table):
            print(f"{o}\t{table[o]}\t{' '.join(sorted(where[o])[:3])}")
    return 1 if said else 0


if __name__ == "__main__":
    sys.exit(main(sys.argv[1:]))
