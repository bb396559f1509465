"""How many lines of what kind the crates have, and signs of what is assumed and not proved, for `tools/book`."""
import glob
import os
import re

# What begins a clause of a contract, and goes on to the closing of its brackets.
CLAUSE = re.compile(r"\s*(?:requires|ensures|ghost)\b(?!\s+use\b)")
TEXTS = re.compile(r'r(#*)".*?"\1|"(?:\\.|[^"\\])*"', re.S)


def read(path):
    with open(path, encoding="utf-8") as file:
        return file.read()


def lines_of(path):
    """Its lines that are not empty."""
    return sum(1 for line in read(path).splitlines() if line.strip())


def contract_lines(text):
    """How many lines of a source belong to clauses: each from its word to the end of its brackets."""
    count, depth = 0, 0
    for line in text.splitlines():
        code = line.split("//")[0]
        if depth or CLAUSE.match(code):
            count += 1
            depth += code.count("{") - code.count("}")
    return count


def sizes(top):
    """Name and lines of each kind, over all crates. Empty lines do not count."""
    sources = glob.glob(os.path.join(top, "crates", "*", "src", "**", "*.rt"), recursive=True)
    specs = glob.glob(os.path.join(top, "crates", "*", "specs", "**", "*.antt"), recursive=True)
    proofs = glob.glob(os.path.join(top, "crates", "*", "proofs", "**", "*.antt"), recursive=True)
    laws = {path for path in specs if re.search(r"/specs/laws(?:/|\.antt$)", path)}
    contracts = sum(contract_lines(read(path)) for path in sources)
    total = sum(map(lines_of, sources))
    return [
        ("code, with its comments and imports", total - contracts),
        ("contracts", contracts),
        ("definitions (`specs/`)", sum(lines_of(path) for path in specs if path not in laws)),
        ("laws about definitions (`specs/laws/`)", sum(map(lines_of, laws))),
        ("proofs (`proofs/`)", sum(map(lines_of, proofs))),
    ]


def without_comments(path):
    """The lines of a file, with its comments and texts made blank."""
    text = read(path)
    if path.endswith(".rt"):
        text = TEXTS.sub(lambda found: re.sub(r"[^\n]", " ", found[0]), text)
    mark = "--" if path.endswith(".antt") else "//"
    return [re.sub(rf"(?:^|\s){mark}.*", "", line) for line in text.splitlines()]


# Each sign by what is looked for, where, and in which words the page tells it.
SIGNS = (
    ("axiom", r"^\s*(?:pub\s+)?(?:abbrev\s+)?axiom\b", ".antt", "a statement that is taken without proof, in specs and proofs"),
    ("?", r"(?:^|[\s(\[,;=])\?[\w-]*(?=$|[\s)\],;])", ".antt", "a hole in a proof or a definition"),
    ("excluded middle, choice", r"\b(?:LEM|AC|lem|excluded_middle|axiom_of_choice)\b", ".antt", "the two axioms that the logic knows and a crate may not use"),
    ('extern "C"', r"\bextern\b", ".rt", "a C function of the repository's own, whose contract would be assumed"),
    ("unsafe", r"\bunsafe\b", ".rt", "code over raw pointers, proved by hand"),
    ("no_mangle", r"\bno_mangle\b", ".rt", "a function for callers that nothing checks"),
)


def signs(top):
    """Each sign with where it stands, as (sign, where it would stand, places)."""
    files = {kind: [] for kind in (".antt", ".rt")}
    for folder in ("specs", "proofs", "src"):
        for path in sorted(glob.glob(os.path.join(top, "crates", "*", folder, "**", "*"), recursive=True)):
            kind = os.path.splitext(path)[1]
            if kind in files:
                files[kind].append((os.path.relpath(path, top), without_comments(path)))
    for sign, form, kind, where in SIGNS:
        pattern = re.compile(form)
        yield sign, where, [f"{path}:{n}" for path, lines in files[kind] for n, line in enumerate(lines, 1) if pattern.search(line)]
