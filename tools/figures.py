"""The figures of the documents: how many cases, edits, tests and crashes there are, each counted where it comes from.

A figure stands in a document behind a comment with its name, which no reader of the page sees:

    There are <!-- figure: cases -->280 cases.

`tools/claims --write` writes the number behind each such comment, and `tools/claims` says where one differs. A number of cases,
edits, tests, crashes or stops that stands without a comment was written by hand, and is refused.
"""
import glob
import os
import re

MARK = re.compile(r"(<!-- figure: ([\w ]+) -->)([\d,]*)")
BY_HAND = re.compile(r"(?<!\^)\b(\d[\d,]*) (?:worked cases|cases|edits|tests|crashes|stops)\b")
# docs/CI.md tells what runs of certain days took, with what there was then.
NOT_READ = ("docs/CI.md",)


def read(*path):
    with open(os.path.join(*path), encoding="utf-8") as file:
        return file.read()


def cases_of(top, crate, name):
    """The cases of a file of scripts: the title of each, the words that each is done for, and how often it is tried."""
    for text in re.split(r"^case ", read(top, "crates", crate, "data", name), flags=re.M)[1:]:
        lines = text.splitlines()
        each, tried = {}, None
        for line in lines[1:]:
            words = line.split()
            if words[:1] == ["each"]:
                each[words[1]] = words[3:]
            elif words[:1] == ["tried"]:
                tried = int(words[-1])
        yield lines[0], each, tried


def tried(top, name, titles):
    """How often the cases of `scripts` whose titles begin so are tried in all. The program checks the number of each."""
    counts = [count for title, _, count in cases_of(top, "scripts", name) if count and re.match(titles, title)]
    if not counts:
        raise ValueError(f"no case of {name} is tried whose title begins with {titles}")
    return sum(counts)


def outcomes(top, name, titles):
    """How many outcomes of the sectors each of these cases has: those of a sector times the sectors."""
    found = {len(each["sector"]) * len(each["byte"]) for title, each, _ in cases_of(top, "scripts", name) if re.match(titles, title)}
    if len(found) != 1:
        raise ValueError(f"the cases of {name} whose titles begin with {titles} have {len(found)} numbers of outcomes")
    return found.pop()


def programs_of_cases(top):
    """How many cases the program over scripts says that it ran, by the text that it has to print."""
    for path in sorted(glob.glob(os.path.join(top, "crates", "*", "stdout"))):
        told = re.search(r"^(\d+) cases, 0 differ$", read(path), re.M)
        if told:
            yield int(told[1])


def tests(top):
    files = glob.glob(os.path.join(top, "crates", "*", "src", "**", "*.rt"), recursive=True)
    return sum(len(re.findall(r"^\s*#\[test\]", read(path), re.M)) for path in files)


def figures(top):
    """Each figure by its name."""
    crashes = "a fuse blows|a call fails once"
    by_fuse = tried(top, "everywhere.txt", "a fuse blows")
    of_sectors = outcomes(top, "everywhere.txt", crashes)
    return {
        "cases": sum(programs_of_cases(top)),
        "edits": len(glob.glob(os.path.join(top, "crates", "*", "must-fail", "*.edit"))),
        "tests": tests(top),
        "calls crashed": by_fuse // of_sectors,
        "outcomes": of_sectors,
        "crashes": tried(top, "everywhere.txt", crashes),
        "configured crashes": tried(top, "everywhere_configured.txt", crashes),
        "shared crashes": tried(top, "everywhere_in_halves.txt", crashes),
        "failed reads": tried(top, "everywhere.txt", "an opening .*fails once in a read"),
        "failed flushes": tried(top, "everywhere.txt", "an opening .*fails once in its barrier"),
        "migration stops": tried(top, "migrations.txt", "and each sector that is not settled is torn|.* and torn$"),
        "copy stops": tried(top, "copies.txt", "a stop|a torn gate"),
        "other crashes": tried(top, "stops.txt", "every stop of a script"),
        "switch crashes": tried(top, "switches.txt", "each stop of|each gate that is torn"),
    }


def documents(top):
    found = glob.glob(os.path.join(top, "docs", "**", "*.md"), recursive=True)
    names = ["README.md", "CONTRIBUTING.md"] + sorted(os.path.relpath(path, top) for path in found)
    return [name for name in names if name not in NOT_READ]


def check(top, is_writing, say):
    """Compares each figure of the documents, or writes it: how many there are. What is not as it should be is said."""
    try:
        known = figures(top)
    except (OSError, ValueError, KeyError) as fault:
        say("tools/figures.py", f"a figure cannot be counted: {fault}")
        return 0
    count = 0
    for name in documents(top):
        text, lines = read(top, name), []
        for n, line in enumerate(text.split("\n"), 1):
            place = f"{name}:{n}"
            for _, figure, told in MARK.findall(line):
                count += 1
                if figure not in known:
                    say(place, f"there is no figure {figure}")
                elif told != f"{known[figure]:,}" and not is_writing:
                    say(place, f"the figure {figure} is {told or 'left out'}, and not {known[figure]:,}: tools/claims --write")
            for by_hand in BY_HAND.finditer(MARK.sub("", line)):
                say(place, f"this figure was written by hand: {by_hand[0]}")
            lines.append(MARK.sub(lambda mark: mark[1] + (f"{known[mark[2]]:,}" if mark[2] in known else mark[3]), line))
        if is_writing and "\n".join(lines) != text:
            with open(os.path.join(top, name), "w", encoding="utf-8") as file:
                file.write("\n".join(lines))
    return count
