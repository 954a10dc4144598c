"""Tests of how the tools write files: completely or not at all, synced before they are renamed, and never readable by more users than the file
that they replace."""

from __future__ import annotations

import contextlib
import os
import stat
import subprocess
import unittest.mock
from collections.abc import Callable, Iterator
from pathlib import Path
from typing import Any

from tooltest import HEADER, HERE, TOP, InFolder, captured, limited, run

from fintaqush_tools import errors, files

TEXT = "a line\n" * 5000


@contextlib.contextmanager
def umask(mask: int) -> Iterator[None]:
    before = os.umask(mask)
    try:
        yield
    finally:
        os.umask(before)


class Replaced(InFolder):
    def mode(self, path: Path) -> int:
        return stat.S_IMODE(path.stat().st_mode)

    def test_the_mode_stays(self) -> None:
        """For each way to replace a file; a new file gets the mode that the umask leaves."""
        for mode in (0o600, 0o640, 0o644, 0o664, 0o444, 0o400, 0o755):
            old = self.write("old", "old\n")
            old.chmod(mode)
            files.write_whole(str(old), TEXT)
            self.assertEqual((old.read_text(), oct(self.mode(old))), (TEXT, oct(mode)))
            old.unlink()
        old = self.write("old.csv", "old\n")
        old.chmod(0o600)
        done = run("traffic", "--out", old)
        self.assertEqual((done.stderr, oct(self.mode(old)), old.read_text()[: len(HEADER)]), ("", oct(0o600), HEADER))
        for mask, mode in ((0o022, 0o644), (0o077, 0o600), (0o002, 0o664)):
            with umask(mask):
                self.succeeds("traffic", "--out", self.folder / f"new{mask}")
            self.assertEqual(oct(self.mode(self.folder / f"new{mask}")), oct(mode))

    def test_what_is_private_never_shows(self) -> None:
        """The new file for one that only its user can read is private from its creation on, even if the write fails."""
        old = self.write("old.csv", "old\n")
        old.chmod(0o600)
        seen: list[int] = []
        really_open = os.open

        def watched(path: str, *words: Any, **others: Any) -> int:
            handle = really_open(path, *words, **others)
            seen.append(stat.S_IMODE(os.fstat(handle).st_mode))
            return handle
        with unittest.mock.patch("os.open", watched), files.WholeFile(str(old)) as new:
            Path(new).write_text("half of it")
            seen.append(self.mode(Path(new)))
        self.assertGreaterEqual(len(seen), 2)
        self.assertEqual({mode & 0o077 for mode in [*seen, self.mode(old)]}, {0})

    def test_it_is_on_the_disk_before_it_has_its_name(self) -> None:
        """The file is synced before it gets its name: when it replaces a file, and as a new one."""
        events: list[tuple[str, int, Any]] = []
        really_sync = os.fsync

        def synced(handle: int) -> None:
            really_sync(handle)
            status = os.fstat(handle)
            events.append(("fsync", status.st_ino, status.st_size))

        def put(what: str, really: Callable[[str, str], None]) -> Callable[[str, str], None]:
            def call(source: str, target: str) -> None:
                events.append((what, os.stat(source).st_ino, Path(target).name))
                really(source, target)
            return call
        by_name = [unittest.mock.patch(f"os.{name}", put(name, getattr(os, name))) for name in ("replace", "rename", "link")]
        self.write("old", "old\n")
        with unittest.mock.patch("os.fsync", synced), by_name[0], by_name[1], by_name[2]:
            files.write_whole(str(self.folder / "old"), TEXT)
            files.write_all({str(self.folder / name): text for name, text in (("first", TEXT), ("second", "short\n"))})
            with files.WholeFile(str(self.folder / "drawn")) as new:  # written by another program
                subprocess.run(["sh", "-c", 'printf text > "$0"', new], check=True)
        sizes = {"old": len(TEXT), "first": len(TEXT), "second": 6, "drawn": 4}
        self.assertEqual([each[2] for each in events if each[0] != "fsync"], list(sizes))
        for place, (what, inode, name) in enumerate(events):
            if what != "fsync":
                self.assertIn(("fsync", inode, sizes[name]), events[:place])


class AllOrNone(InFolder):
    def test_a_failure_behind_the_first_file(self) -> None:
        """With a file size limit of 1 kB the notes fit and the trace doesn't: neither file stays."""
        self.write("captured", "".join(captured(f"100.{place:06}") for place in range(200)))
        calls: list[tuple[str, list[object]]] = [
            ("from-pcap", ["captured", "made"]), ("from-pcap", ["captured", "made", "--arrivals"]),
            ("from-ftrace", [HERE / "recorded-apart.rec", "made"]), ("from-ftrace", [TOP / "examples/veth-backlog.rec", "made", "--arrivals"])]
        for tool, words in calls:
            done = limited("-f 1", tool, *words, folder=self.folder)
            self.assertEqual((done.stderr, done.stdout, done.returncode), (f"fintaqush {tool}: File too large\n", "", 1))
            self.assertEqual(self.names(), ["captured"])
            self.ends_with(0, tool, *words, folder=self.folder)  # with room for all, both are written
            self.assertLess((self.folder / "made.notes").stat().st_size, 1024)
            self.assertGreater((self.folder / "made.csv").stat().st_size, 1024)
            self.forget("made")

    def test_whatever_the_failure_is(self) -> None:
        """The last of three files fails: its text raises an error or a signal, its name is taken, or its folder is gone."""
        def lines(error: BaseException) -> Iterator[str]:
            yield "a line\n"
            raise error
        self.write("taken", "mine\n")
        for name, text in (("third", lines(OSError(28, "full"))), ("third", lines(errors.Interrupted(2))), ("third", lines(KeyboardInterrupt())),
                           ("taken", "text\n"), ("none/third", "text\n")):
            with self.assertRaises((OSError, errors.Interrupted, KeyboardInterrupt, errors.Refusal)):
                files.write_all({str(self.folder / each): part for each, part in (("first", TEXT), ("second", "text\n"), (name, text))})
            self.assertEqual((self.names(), (self.folder / "taken").read_text()), (["taken"], "mine\n"))
        files.write_all({str(self.folder / each): "text\n" for each in ("first", "second")})
        self.assertEqual(self.names(), ["first", "second", "taken"])
