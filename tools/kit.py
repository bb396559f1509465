"""What a kit of Rattle has below the broker: libraries, and the C functions that they declare and name, for `tools/book`."""
import functools
import glob
import os
import re
import subprocess

import measured

BROKER = "lambda_broker"
DECLARED = re.compile(r'extern "C" \{\n.*?^\s*\}\n', re.S | re.M)


@functools.cache
def printed(*words):
    """What a command of the kit prints, or None where there is no kit."""
    try:
        return subprocess.run(words, capture_output=True, text=True, check=True, timeout=60).stdout.strip()
    except (OSError, subprocess.SubprocessError):
        return None


def version():
    return printed("rt", "version")


def below_broker(top):
    """The crates of this repository that the broker is made of, with what each names."""
    lines = measured.read(os.path.join(top, "crates.txt")).splitlines()
    split = [line.split(":", 1) for line in lines if ":" in line and not line.startswith("#")]
    uses, left, found = {head.split()[0]: names.split() for head, names in split}, [BROKER], {}
    while left:
        name = left.pop()
        if name in uses and name not in found:
            found[name] = uses[name]
            left += uses[name]
    return found


def used(top):
    """The kit's libraries that these crates name, each with the crates."""
    crates, found = below_broker(top), {}
    for crate in sorted(crates):
        # (std is there without being named)
        for name in ["std", *crates[crate]]:
            if name not in crates:
                found.setdefault(name, []).append(crate)
    return dict(sorted(found.items()))


def own_sources(top):
    """The texts of the sources of these crates."""
    return [
        measured.read(path)
        for crate in below_broker(top)
        for path in glob.glob(os.path.join(top, "crates", crate, "src", "**", "*.rt"), recursive=True)
    ]


class Kit:
    def __init__(self, folder, version):
        self.folder, self.version = folder, version

    @classmethod
    def here(cls):
        page = printed("rt", "doc")
        folder = os.path.dirname(page.splitlines()[0]) if page else ""
        return cls(folder, version()) if os.path.isdir(os.path.join(folder, "rlibs")) else None

    def dependencies(self, name):
        """The libraries that a built one names."""
        path = os.path.join(self.folder, "rlibs", f"{name}.rlib", "format")
        with open(path, encoding="utf-8", errors="replace") as file:
            return re.findall(r"^dep (\w+)$", file.read(), re.M)

    def below(self, names):
        """These libraries and all below them."""
        found, left = set(), list(names)
        while left:
            name = left.pop()
            if name not in found:
                found.add(name)
                left += self.dependencies(name)
        return sorted(found)

    @functools.cache
    def sources(self, name):
        return {path: measured.read(path) for path in glob.glob(os.path.join(self.folder, "rattle", name, "src", "**", "*.rt"), recursive=True)}

    @functools.cache
    def declared(self, name):
        """The C functions that a library declares."""
        found = set()
        for text in self.sources(name).values():
            for block in DECLARED.finditer(text):
                found.update(re.findall(r"^\s*(?:pub )?(?:safe |unsafe )?fn (\w+)", block[0], re.M))
        return sorted(found)

    def named(self, name, libraries, own):
        """Those of them that a source of these libraries, or of this repository, calls or imports: the program can reach no other."""
        texts = [text for library in libraries for text in self.sources(library).values() if library == name or re.search(rf"\b{name}\b", text)]
        texts += [text for text in own if re.search(rf"\b{name}\b", text)]
        whole = "\n".join(DECLARED.sub("", re.sub(r"//.*", "", text)) for text in texts)
        return [each for each in self.declared(name) if re.search(rf"(?<!fn )(?<![\w.]){each}\s*(?:::<[^>\n]*>)?\(|use [^;]*\b{each}\b", whole)]
