"""What a tool writes: tried against all that it reads before anything is done, and then written whole or not at all.

No input is written over, whatever its name. A file that stands where one is to be written is replaced where nothing of a user's is
lost: it is empty, it has the very bytes that are to be written, it is a certificate or a report where one is written, or the same
command made it and nobody changed it since, which a list in its folder says by its digest. Any other needs --force.
"""

from __future__ import annotations

import os
import stat
import tempfile
from typing import Callable, NamedTuple, Optional

from .interrupts import held_back
from .speaking import Stop
from .statuses import MADE_A_PART, MADE_NOTHING

# In the folder of what is written: a line `COMMAND SHA256 NAME` for each file that a command made.
LIST = ".escrow-made"
FORCE = "replace files that this command didn't make, or that were changed since"

# What was made so far in this run, by the names that were given.
made: list = []


def is_certificate(data: bytes) -> bool:
    """Whether a text begins as certificates do."""
    return data.startswith(b"escrow-certificate ")


def is_report(data: bytes) -> bool:
    """Whether a text is a report, or a summary, which stands in the place of one beside holdings and at a cap."""
    return data.startswith((b"escrow report\n", b"cost ", b"cap "))


def same_file(one: str, other: str) -> bool:
    """Whether two names are of one file, also through links; of devices, which hold nothing, they aren't."""
    try:
        first, second = os.stat(one), os.stat(other)
    except (OSError, ValueError):
        return os.path.realpath(one) == os.path.realpath(other) and not os.path.exists(one)
    return os.path.samestat(first, second) and not stat.S_ISCHR(first.st_mode)


def _stream_is(descriptor: int, path: str) -> bool:
    """Whether standard output or standard error goes into a file."""
    try:
        stream, found = os.fstat(descriptor), os.stat(path)
    except (OSError, ValueError):
        return False
    return stat.S_ISREG(stream.st_mode) and os.path.samestat(stream, found)


def digest(data: bytes) -> str:
    # Most runs put out what needs no digest, and this library takes long to read.
    import hashlib

    return hashlib.sha256(data).hexdigest()


def _target(path: str) -> str:
    """The file itself, where a link stands for it; a device or a pipe has no other name."""
    is_plain = os.path.isfile(path) or not os.path.exists(path)
    return os.path.realpath(path) if is_plain and os.path.islink(path) else path


def _folder(target: str) -> str:
    return os.path.dirname(target) or "."


def _listed(target: str) -> list[bytes]:
    """The lines of the list beside a file."""
    try:
        with open(os.path.join(_folder(target), LIST), "rb") as opened:
            return opened.read(1_000_000).splitlines()
    except OSError:
        return []


def _line(command: str, data: bytes, target: str) -> bytes:
    return b"%s %s %s" % (command.encode(), digest(data).encode(), os.fsencode(os.path.basename(target)))


def _kept_bytes(target: str, most: int) -> Optional[bytes]:
    """What stands in a plain file, up to so many bytes; None where there is no such file. One that can't be read has something."""
    try:
        if not stat.S_ISREG(os.stat(target).st_mode):
            return None
        with open(target, "rb") as opened:
            return opened.read(most)
    except PermissionError:
        return b"?"
    except OSError:
        return None


class Output(NamedTuple):
    """One file that is written: what it is called, its name, and how one of its kind begins, where that can be told."""

    what: str
    path: str
    has_form: Optional[Callable[[bytes], bool]] = None

    @property
    def named(self) -> str:
        return "%s, %s," % (self.what, self.path)


class Outputs:
    """All files that a command writes, beside those that it reads."""

    def __init__(self, command: str, inputs: list[tuple[str, Optional[str]]], force: bool = False):
        self.command = command
        self.inputs = [(what, path) for what, path in inputs if path is not None]
        self.force = force
        self.files: list[Output] = []
        for what, path in self.inputs:
            if _stream_is(1, path):
                raise Stop(
                    "standard output goes into %s, %s, which is read: by `>` the shell has emptied it, and by `>>` it would grow; "
                    "nothing was run" % (what, path)
                )
            if _stream_is(2, path):
                raise Stop("standard error goes into %s, %s, which is read; nothing was run" % (what, path))

    def will_write(self, what: str, path: str, has_form: Optional[Callable[[bytes], bool]] = None) -> None:
        """Tries a file that is going to be written, before anything is run."""
        output = Output(what, path, has_form)
        for name, read in self.inputs:
            if same_file(path, read):
                raise Stop("%s is the same file as %s, %s: it would be written over; nothing was run" % (output.named, name, read))
        for other in self.files:
            if same_file(path, other.path):
                raise Stop("%s is the same file as %s, %s; nothing was run" % (output.named, other.what, other.path))
        for descriptor, stream in ((1, "output"), (2, "error")):
            if _stream_is(descriptor, path):
                raise Stop("%s is the file that standard %s goes into; nothing was run" % (output.named, stream))
        self._try_place(output)
        if has_form is not None and not self.force:
            self._try_form(output)
        self.files.append(output)

    def _try_place(self, output: Output) -> None:
        """Refuses a name at which no file can be written."""
        target = _target(output.path)
        folder = _folder(target)
        if os.path.isdir(target):
            raise Stop("%s is a folder: give the name of a file" % output.named)
        if os.path.exists(target) and not os.path.isfile(target):
            raise Stop("%s is a device or a pipe: give the name of a file" % output.named)
        if not os.path.isdir(folder):
            raise Stop("%s can't be written: its folder %s isn't there" % (output.named, folder))
        if os.path.exists(target) and not os.access(target, os.W_OK):
            raise Stop("%s may not be written by you (its permissions)" % output.named)
        if not os.access(folder, os.W_OK | os.X_OK):
            raise Stop("%s can't be written: its folder %s may not be written by you (its permissions)" % (output.named, folder))

    def _try_form(self, output: Output) -> None:
        kept = _kept_bytes(_target(output.path), 64)
        if kept and not output.has_form(kept):
            raise Stop(
                "%s is there already, and is none that `%s` made: --force replaces it; nothing was run" % (output.named, self.command)
            )

    def _try_kept(self, output: Output, data: bytes) -> None:
        """Refuses to replace what a user may have written."""
        target = _target(output.path)
        # A byte more shows a file that is longer than any that is made here.
        kept = _kept_bytes(target, 100_000_000)
        if not kept or kept == data or output.has_form is not None:
            return
        if _line(self.command, kept, target) not in _listed(target):
            raise Stop(
                "%s is there already, and `%s` didn't make it, or it was changed since: --force replaces it; nothing is written"
                % (output.named, self.command)
            )

    def write(self, files: list[tuple[str, bytes]]) -> None:
        """Writes files that were said before, all of them or none."""
        outputs = {output.path: output for output in self.files}
        if not self.force:
            for path, data in files:
                self._try_kept(outputs[path], data)
        staged = Staged()
        try:
            for path, data in files:
                staged.add(path, data)
            with held_back():
                staged.take_names()
        finally:
            staged.clear()
        for path, data in files:
            if outputs[path].has_form is None:
                _keep_in_list(self.command, _target(path), data)


class Staged:
    """Files that stand whole beside those that they are to replace."""

    def __init__(self) -> None:
        self.waiting: list[tuple[str, str, str]] = []

    def add(self, path: str, data: bytes) -> None:
        target = _target(path)
        try:
            self.waiting.append((_beside(target, data), target, path))
        except OSError as fault:
            raise Stop("%s can't be written: %s" % (path, fault.strerror)) from None

    def take_names(self) -> None:
        while self.waiting:
            temporary, target, path = self.waiting[0]
            try:
                os.replace(temporary, target)
            except OSError as fault:
                raise Stop("%s can't be written: %s" % (path, fault.strerror), status=status_if_stopped()) from None
            self.waiting.pop(0)
            made.append(path)

    def clear(self) -> None:
        """Removes what has taken no name."""
        for temporary, _, _ in self.waiting:
            try:
                os.unlink(temporary)
            except OSError:
                pass


def status_if_stopped() -> int:
    """The status of a tool that ends here without all that it was asked for."""
    return MADE_A_PART if made else MADE_NOTHING


def _beside(target: str, data: bytes) -> str:
    """A new file in the folder of another, whole and on the disk, with the other's mode and owner where it is there."""
    descriptor, temporary = tempfile.mkstemp(prefix=".escrow.", dir=_folder(target))
    try:
        with os.fdopen(descriptor, "wb") as opened:
            opened.write(data)
            opened.flush()
            _like_before(descriptor, target)
            os.fsync(descriptor)
    except BaseException:
        os.unlink(temporary)
        raise
    return temporary


def _like_before(descriptor: int, target: str) -> None:
    """Gives a new file the mode and the owner of the one that it replaces; a wholly new one has the usual mode."""
    try:
        before = os.stat(target)
    except FileNotFoundError:
        mask = os.umask(0)
        os.umask(mask)
        os.fchmod(descriptor, 0o666 & ~mask)
        return
    try:
        os.fchown(descriptor, before.st_uid, before.st_gid)
    except OSError:
        # Another's file, which we may write: it becomes ours.
        pass
    os.fchmod(descriptor, stat.S_IMODE(before.st_mode))


def _keep_in_list(command: str, target: str, data: bytes) -> None:
    """Keeps in the list of a folder that a command made a file; without it the file is taken for another's, and nothing is lost."""
    if not os.path.isfile(target) or "\n" in target:
        return
    folder, name = _folder(target), os.fsencode(os.path.basename(target))
    lines = [line for line in _listed(target) if _is_of_another(line, name, folder)] + [_line(command, data, target)]
    path = os.path.join(folder, LIST)
    try:
        temporary = _beside(path, b"".join(line + b"\n" for line in lines))
    except OSError:
        return
    try:
        os.replace(temporary, path)
    except OSError:
        os.unlink(temporary)


def _is_of_another(line: bytes, name: bytes, folder: str) -> bool:
    """Whether a line of the list is of another file, which is still there."""
    other = line.split(b" ", 2)[-1]
    return line.count(b" ") >= 2 and other != name and os.path.exists(os.path.join(os.fsencode(folder), other))
