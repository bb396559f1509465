"""The definitions that a law stands on, found by the words of its contract and the imports of its file, for `tools/book`."""
import collections
import glob
import os
import re

import measured

IMPORT = re.compile(r"^(?:pub |ghost )*use\s+([\w.+'-]+?)(?:\.\{([^}]*)\})?(?:\s+as\s+(\S+?))?;?\s*$")
RUST_USE = re.compile(r"^\s*(?:pub(?:\([a-z]+\))? )?use ([\w:]+?)(?:::\{([^}]*)\})?;", re.M)
MODIFIERS = re.compile(r"^(?:(?:pub|abbrev|unfoldable|private) )*")
SPLIT = re.compile(r"[\s(){}\[\],;.:=|`\"]+")
RUST_TYPE = re.compile(r"^(?:#\[[^\n]*\]\n|///[^\n]*\n)*(?:pub(?:\([a-z]+\))? )?(?:struct|enum|trait|union|type) (\w+)", re.M)


def words_of(text):
    """The words of a text without its comments, as both languages part them: a contract has both."""
    code = re.sub(r"(?:^|(?<=\s))(?:--|//).*", "", text)
    return set(SPLIT.split(code)) | set(re.findall(r"\w+", code)) - {""}


class Item:
    """A definition, or a type of the code: its text with the comment above it, and where it stands."""

    def __init__(self, crate, path, name, line, text, is_type=False):
        self.crate, self.path, self.name, self.line, self.is_type = crate, path, name, line, is_type
        self.text = text.rstrip()
        self.size = sum(1 for line in self.text.splitlines() if line.strip())
        self.words = words_of(self.text)


def imports_of(lines):
    """What the words of a file stand for: a module and a name in it, or a module alone."""
    found = {}
    for line in lines:
        used = IMPORT.match(line.strip())
        if not used:
            continue
        module, names, alias = used.groups()
        if names is None:
            found[alias or module.split(".")[-1]] = (module, None)
            continue
        for name in filter(None, (part.strip() for part in names.split(","))):
            was, _, new = name.partition(" as ")
            for word in filter(None, (new or was).split("◌")):
                found[word] = (module, was)
    return found


class Specs:
    """A file of definitions: its items by name, and its imports."""

    def __init__(self, crate, path):
        self.crate, self.path, self.items = crate, path, {}
        lines = measured.read(path).splitlines()
        self.imports = imports_of(lines)
        self.cut(lines)

    def cut(self, lines):
        """Cuts the file into its items: each begins where a name is declared, at the margin of the file or of a module within it."""
        texts, first, name, above, header, margin = collections.defaultdict(list), {}, None, [], [], 0
        for n, line in enumerate(lines, 1):
            rest = line[margin:] if line[:margin].strip() == "" else line
            if line.strip() and line[: margin].strip():
                margin, header, rest = 0, [], line
            if re.match(r"module\b", rest):
                header, margin, name, above = header + [line], margin + 2, None, []
                continue
            if not rest.strip() or rest.startswith("--") or re.match(r"(?:pub )?use\b", rest):
                above = above + [line] if rest.startswith("--") else []
                continue
            declared = None if rest.startswith(" ") else self.declared(rest, texts)
            if declared:
                name = declared
                first.setdefault(name, n)
                texts[name] += header + above
            if name:
                texts[name].append(line)
            above = []
        for each, text in texts.items():
            self.items[each] = Item(self.crate, self.path, each, first[each], "\n".join(text))
        for item in list(self.items.values()):
            if re.search(r"^(?:pub )?data\b", item.text, re.M):
                for made in re.findall(r"^\s+(\S+) :", item.text, re.M):
                    self.items.setdefault(made, item)

    @staticmethod
    def declared(rest, known):
        """The name that a line declares or goes on to define, or None: what is neither belongs to the item before it."""
        plain = MODIFIERS.sub("", rest)
        kind = re.match(r"(?:record|data) (\S+)", plain)
        if kind:
            return kind[1]
        word = plain.split()[0]
        if re.match(r"\S+ +(?:\{|\(|:)", plain) and (plain != rest or re.match(r"\S+ +:", plain)):
            return word
        return word if word in known else None

    def named(self, word):
        """The item of this word: that of an operator by one of its parts, of a `data` by what makes its values."""
        if word in self.items:
            return self.items[word]
        return next((item for name, item in self.items.items() if "◌" in name and word in name.split("◌")), None)


class Source:
    """A source: what its words stand for, and its types by name."""

    def __init__(self, crate, path):
        self.crate, self.path, self.text = crate, path, measured.read(path)
        self.imports = imports_of(self.text.splitlines())
        self.types, self.uses = {}, {}
        for found in RUST_TYPE.finditer(self.text):
            line = self.text.count("\n", 0, found.start()) + 1
            self.types.setdefault(found[1], Item(crate, path, found[1], line, self.block(found.start()), is_type=True))
        for path_of, names in RUST_USE.findall(self.text):
            first = path_of.split("::")[0]
            for name in filter(None, re.split(r"[\s,]+", names)) if names else [path_of.split("::")[-1]]:
                self.uses[name] = first

    def block(self, begin):
        """The text from there to the end of its brackets, or to its semicolon."""
        depth = 0
        for at in range(begin, len(self.text)):
            depth += {"{": 1, "}": -1}.get(self.text[at], 0)
            if depth == 0 and self.text[at] in "};":
                return self.text[begin : at + 1]
        return self.text[begin:]

    def type_of(self, name):
        """The type of this name that it declares, if it does."""
        return self.types.get(name)


class Contract:
    """What the source says of a call before its body, or of a type in its ghost members."""

    def __init__(self, source, text):
        self.source, self.text, self.words = source, text, words_of(text)


def signature(source, begin):
    """From a call's comments on to the line before its body, or to the semicolon of a trait."""
    lines = source.text[:begin].split("\n")
    while len(lines) > 1 and re.match(r"\s*(?:///|#\[|//)", lines[-2]):
        lines.pop(-2)
    begin = len("\n".join(lines))
    said, depth = [], 0
    for line in source.text[begin:].split("\n"):
        said.append(line)
        depth += line.count("{") - line.count("}")
        if depth <= 0 and re.search(r"\{\s*\}$|;$", line) and not re.match(r"\s*(?:requires|ensures|ghost|//|#)", line) or re.match(r"\s*\{$", line):
            break
    return "\n".join(said[:-1] if re.match(r"\s*\{\s*\}?$", said[-1]) else said).strip("\n")


class Book:
    def __init__(self, top):
        self.top, self.lost = top, []
        self.specs, self.sources, self.types = {}, collections.defaultdict(list), {}
        self.crates = self.crates_of()
        for crate in self.crates:
            at = os.path.join(top, "crates", crate)
            for path in sorted(glob.glob(os.path.join(at, "specs", "**", "*.antt"), recursive=True)):
                module = os.path.relpath(path, os.path.join(at, "specs"))[:-5].replace(os.sep, ".")
                self.specs[crate, module] = Specs(crate, path)
            for path in sorted(glob.glob(os.path.join(at, "src", "**", "*.rt"), recursive=True)):
                self.sources[crate].append(Source(crate, path))
        self.roots = list(self.read_promises())

    def crates_of(self):
        lines = measured.read(os.path.join(self.top, "crates.txt")).splitlines()
        return [line.split(":")[0].split()[0] for line in lines if ":" in line and not line.startswith("#")]

    # What is promised.

    def read_promises(self):
        """Each section, crate and call that docs/PROMISES.md names."""
        crate = section = None
        for line in measured.read(os.path.join(self.top, "docs", "PROMISES.md")).splitlines():
            section = line.strip("# ") if line.startswith("#") else section
            carried = re.match(r"\((?:(\w+): )?(`.*)\)$", line)
            if carried:
                crate = carried[1] or crate
                for item in carried[2].split("; "):
                    for name in re.findall(r"[\w:]+", item.partition("`: `")[0]):
                        yield section, crate, name

    def promised(self):
        return list(dict.fromkeys((crate, name) for _, crate, name in self.roots))

    def laws(self):
        return list(dict.fromkeys((crate, name) for section, crate, name in self.roots if section == "The law"))

    # What a call says.

    def contract(self, crate, call):
        """The contract of a call, or what a type's ghost members say. What is not found is noted as lost."""
        owner, _, name = call.rpartition("::")
        for source in self.sources[crate]:
            for found in re.finditer(rf"^[ \t]*(?:pub(?:\([a-z]+\))? )?(?:unsafe )?fn {name}\b", source.text, re.M):
                if not owner or re.search(rf"(?:impl|trait)\b[^{{;]*\b{owner}\b", self.above(source, found.start())):
                    return Contract(source, signature(source, found.start()))
        members = "" if owner else self.members(crate, name)
        if members:
            return members
        self.lose(f"there is no contract of {crate}: {call}")
        return Contract(self.sources[crate][0], "")

    @staticmethod
    def above(source, begin):
        """The head of the block that a method stands in."""
        heads = [found for found in re.finditer(r"^(?:pub(?:\([a-z]+\))? )?(?:impl|trait)\b[^{;]*", source.text, re.M) if found.start() < begin]
        return heads[-1][0] if heads else ""

    def members(self, crate, name):
        """The ghost members of a type and of its impls, as they stand in one source."""
        for source in self.sources[crate]:
            heads = re.finditer(rf"^(?:pub(?:\([a-z]+\))? )?(?:impl|trait|struct|enum)\b[^{{;]*\b{name}\b[^{{;]*\{{", source.text, re.M)
            blocks = [source.block(found.start()) for found in heads]
            ghosts = [found for block in blocks for found in re.findall(r"^    ghost [^\n]*(?:\n {5,}[^\n]*)*", block, re.M)]
            if ghosts:
                return Contract(source, "\n".join(ghosts))
        return None

    # What it reaches.

    def looked_up(self, word, imports, uses, own):
        """What a word stands for in a file: items of this repository. `own` is what the file itself has of that name."""
        if own is not None:
            return [own]
        if word in imports:
            return self.imported(*imports[word], word)
        if word in uses:
            return [item for item in [self.type_named(uses[word], word)] if item]
        return []

    def imported(self, module, name, word):
        parts = module.split(".")
        if parts[0] != "Rattle" or len(parts) < 3 or parts[1] not in self.sources:
            return []
        crate, side, within = parts[1], parts[2], ".".join(parts[3:])
        if side == "specs" and within.startswith("declared."):
            kept = [part for part in parts[4:] if part != "TheVariants"]
            item = self.type_named(crate, kept[-1]) if kept else None
            if item is None:
                self.lose(f"there is no type {module}")
            return [item] if item else []
        file = self.specs.get((crate, within)) if side == "specs" else None
        if file is None:
            self.lose(f"there is no file of {module}")
            return []
        if name is None:
            # (a module by its name: each of its words is another's, so all of it is taken)
            return list(dict.fromkeys(file.items.values()))
        item = file.named(name) or file.named(word)
        if item:
            return [item]
        passed = file.imports.get(name) or file.imports.get(word)
        if passed and passed != (module, name):
            return self.imported(*passed, word)
        self.lose(f"{module} has no {name}")
        return []

    def lose(self, what):
        """What cannot be followed is told once: else less would be counted than has to be read."""
        if what not in self.lost:
            self.lost.append(what)

    def type_named(self, crate, name):
        if (crate, name) not in self.types:
            found = (source.type_of(name) for source in self.sources.get(crate, []))
            self.types[crate, name] = next((item for item in found if item), None)
        return self.types[crate, name]

    def next_to(self, item):
        """What the words of an item stand for."""
        if item.is_type:
            source = next(source for source in self.sources[item.crate] if source.path == item.path)
            uses = {word: item.crate if first in ("crate", "super", "self") else first for word, first in source.uses.items()}
            for word in item.words - {item.name}:
                yield from self.looked_up(word, source.imports, uses, source.type_of(word))
            return
        file = next(file for file in self.specs.values() if file.path == item.path)
        for word in item.words - {item.name}:
            yield from self.looked_up(word, file.imports, {}, file.named(word))

    def reach(self, calls):
        """All that these calls stand on, in the order in which it is met."""
        met, left = {}, collections.deque()
        for crate, call in calls:
            contract = self.contract(crate, call)
            uses = {word: crate if first in ("crate", "super", "self") else first for word, first in contract.source.uses.items()}
            for word in sorted(contract.words):
                left.extend(self.looked_up(word, contract.source.imports, uses, contract.source.type_of(word)))
        while left:
            item = left.popleft()
            if (item.path, item.name) not in met:
                met[item.path, item.name] = item
                left.extend(sorted(self.next_to(item), key=lambda each: (each.path, each.line)))
        return list(met.values())


def in_order(items):
    """The items a file at a time: the files as they are met, within one as it stands."""
    files = list(dict.fromkeys(item.path for item in items))
    return sorted(items, key=lambda item: (files.index(item.path), item.line))
