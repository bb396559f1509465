"""What was changed, and how each of it is undone."""
from __future__ import annotations

import contextlib
import os
import pwd
import signal
from collections.abc import Callable
from typing import NamedTuple

from .places import read
from .telling import Failed, say


class Step(NamedTuple):
    """What was done, in words, and what undoes it."""

    what: str
    undo: Callable[[], object]


class Steps:
    """What was changed below a folder, and how each of it is undone."""

    def __init__(self, root: str) -> None:
        self.root = root
        self.done: list[Step] = []

    def at(self, path: str) -> str:
        return self.root + path

    def will(self, what: str, undo: Callable[[], object]) -> None:
        """Notes what undoes a step that is about to be done, also in part."""
        self.done.append(Step(what, undo))

    def did(self, what: str, undo: Callable[[], object]) -> None:
        say(what)
        self.will(what, undo)

    def undo(self) -> str:
        """Undoes all, the last first, and says what became of it."""
        for each in signal.SIGTERM, signal.SIGHUP, signal.SIGINT:
            signal.signal(each, signal.SIG_IGN)
        told = "all that was done before is undone" if self.done else "nothing was changed"
        for what, undo in reversed(self.done):
            try:
                undo()
                say(f"undone: {what}")
            except (OSError, Failed) as why:
                told = "not all that was done before is undone"
                say(f"not undone: {what}: {why}")
        return told

    def folder(self, path: str, mode: int = 0o755, owner: pwd.struct_passwd | None = None) -> None:
        if not os.path.isdir(self.at(path)):
            if not os.path.isdir(os.path.dirname(self.at(path))):
                self.folder(os.path.dirname(path))
            os.mkdir(self.at(path), mode)
            self.did(f"made {self.at(path)}", lambda: os.rmdir(self.at(path)))
            if owner:
                os.chown(self.at(path), owner.pw_uid, owner.pw_gid)

    def give(self, path: str, owner: pwd.struct_passwd | None) -> None:
        """A folder that was there, as a volume's is once it is mounted, becomes the owner's."""
        old = os.stat(self.at(path))
        if owner and old.st_uid != owner.pw_uid:
            os.chown(self.at(path), owner.pw_uid, owner.pw_gid)
            self.did(f"gave {self.at(path)} to {owner.pw_name}", lambda: os.chown(self.at(path), old.st_uid, old.st_gid))

    def put(self, path: str, text: str, mode: int) -> None:
        """A file comes whole, or not at all."""
        new = f"{self.at(path)}.new"
        os.makedirs(os.path.dirname(new), exist_ok=True)
        try:
            with open(os.open(new, os.O_WRONLY | os.O_CREAT | os.O_TRUNC, mode), "w", encoding="utf-8") as file:
                file.write(text)
            os.replace(new, self.at(path))
        except OSError:
            with contextlib.suppress(OSError):
                os.remove(new)
            raise

    def put_back(self, path: str, old: str | None, mode: int) -> None:
        """A file is as it was before, or gone where there was none."""
        if old is None:
            os.remove(self.at(path))
        else:
            self.put(path, old, mode)

    def write(self, path: str, text: str, mode: int = 0o644) -> None:
        old = read(self.at(path))
        if old != text:
            self.folder(os.path.dirname(path))
            self.put(path, text, mode)
            self.did(f"wrote {self.at(path)}", lambda: self.put_back(path, old, mode))

    def delete(self, path: str) -> None:
        old = read(self.at(path))
        if old is not None:
            mode = os.stat(self.at(path)).st_mode & 0o777
            os.remove(self.at(path))
            self.did(f"removed {self.at(path)}", lambda: self.put_back(path, old, mode))
