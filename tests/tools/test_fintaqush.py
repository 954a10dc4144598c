"""Tests of the command `fintaqush`: how it finds its subcommands, its errors, its completions, and its tour."""

from __future__ import annotations

import ast
import glob
import os
import pty
import re
import select
import shutil
import signal
import sys
import time
from concurrent.futures import ThreadPoolExecutor
from pathlib import Path
from typing import Any

from finding import group_in
from tooltest import HAS_MACHINE, MOST_SECONDS, PROGRAMS, REPLAY, SERIES, TOP, Done, InFolder, process, process_to, run, skip_without, started

from fintaqush_tools.cli import MODULES, module_of
from fintaqush_tools.options import parser_of

COMMAND = TOP / "fintaqush"
BURSTS = TOP / "examples/bursts.csv"


def call(*words: object, command: Path = COMMAND, **others: Any) -> Done:
    """Runs the command as a process, as a user does."""
    return process(command, *words, **others)


class Fintaqush(InFolder):
    def test_help_lists_all_by_task(self) -> None:
        done = call("--help")
        self.assertEqual((done.returncode, done.stderr), (0, ""))
        listed = re.findall(r"^  ([a-z][\w-]*) {2,}\S", done.stdout, re.M)
        self.assertEqual(sorted(listed), sorted(MODULES.keys() - {"series"}))
        self.assertEqual(run("--names").stdout.split(), sorted(MODULES))
        self.assertEqual(run("help").stdout, done.stdout)
        self.assertEqual(run("help", "costs").stdout, run("costs", "--help").stdout)
        modules = {path.stem for path in (TOP / "tools/fintaqush_tools/commands").glob("*.py")} - {"__init__"}
        self.assertEqual(set(MODULES.values()), modules)

    def test_each_goes_by_its_name(self) -> None:
        version = group_in('#define FQ_VERSION "(.*)"', (TOP / "include/fintaqush.h").read_text())
        for name in MODULES:
            text = call(name, "--help").stdout if name == "replay" else self.succeeds(name, "--help")
            self.assertTrue(text.startswith(f"usage: fintaqush {name}"), text[:80])
            if name != "replay":
                self.assertEqual(self.succeeds(name, "--version"), f"fintaqush {name} of Fintaqush {version}\n")
            page = self.succeeds(name, "--manual")
            self.assertTrue(page.startswith(f".TH FINTAQUSH\\-{name.upper().replace('-', chr(92) + '-')} 1 "), page[:80])
            self.assertEqual("; 3 a condition of \\-\\-fail\\-if holds;" in page, "--fail-if" in text and name != "replay", page)
        for text in (run("--manual").stdout.replace("\\-", "-"), run("--help").stdout):
            self.assertIn("; 3 a condition of --fail-if holds;", text)
        for name, status in (("costs", 1), ("replay", 66)):
            done = call(name, "none.csv", folder=self.folder)
            self.assertEqual((done.stderr, done.returncode), (f"fintaqush {name}: none.csv: there is no such file\n", status))
        self.fails("fintaqush costs: error: unrecognized arguments: --buget", "costs", "x", "--buget", status=64)

    def test_a_subcommand_that_does_not_exist(self) -> None:
        for name, near in (("plto", "plot"), ("from", "from-ftrace or from-pcap"), ("whatif", "what-if"), ("Steps", "steps")):
            said = self.fails(f"fintaqush: there is no subcommand '{name}': is {near} ", name, status=64)
            self.assertEqual(said.count("\n"), 1)
        self.assertNotIn("\x1b", run("\x1b[31m").stderr)
        self.assertEqual((call().returncode, run("").returncode, run("--bad").returncode), (64, 64, 64))

    def test_from_any_folder_and_by_a_link(self) -> None:
        (self.folder / "link").symlink_to(COMMAND)
        (self.folder / "second").symlink_to("link")
        for command in (self.folder / "link", self.folder / "second"):
            self.assertEqual(call("traffic", command=command, folder="/").stdout, self.ends_with(0, "traffic").stdout)

    def test_what_it_runs_prints_what_the_program_prints(self) -> None:
        text = BURSTS.read_text()
        calls: list[tuple[list[object], str]] = [
            (["--every", "10"], "--every 10"), ([BURSTS, "--every", "10"], "--every 10"),
            (["--raise", "--polls", "--budget", "2"], "--raise --polls --budget 2"),
            (["--rows", "--raise", "--restarts", "1", "--budget", "2"], "--raise=1 --rows --budget 2")]
        for words, own in calls:
            expected = process(SERIES, *own.split(), text=text)
            self.assertEqual((expected.returncode, call("series", *words, text=text).stdout), (0, expected.stdout))
        for wrong in (["--every", "0"], ["--restarts", "1"], ["--rows", "--polls"], ["--rows", "--every", "2"]):
            self.ends_with(64, "series", *wrong, text=text)

    def test_outputs_and_inputs_that_are_none(self) -> None:
        for words in (["--help"], ["plot", "--help"], ["--version"], ["completion", "bash"]):
            name = "fintaqush" if words[0].startswith("-") else f"fintaqush {words[0]}"
            for kind, why in (("full", "No space left on device"), ("closed", "standard output is closed")):
                self.assertEqual(process_to(kind, COMMAND, *words), (f"{name}: {why}\n", 1))
        done = process("sh", "-c", 'exec "$0" costs < "$1"', COMMAND, self.folder)
        self.assertEqual((done.stderr, done.returncode), ("fintaqush: standard input is a folder\n", 1))

    def test_signals(self) -> None:
        """Signals to the started process, which has become the tool: one line, and exit status 128 plus the signal's number."""
        os.mkfifo(self.folder / "fifo")
        for number in (signal.SIGINT, signal.SIGTERM):
            child = started(COMMAND, "costs", "fifo", folder=self.folder)
            end = self.opened(child, "fifo")
            while child.poll() is None:
                child.send_signal(number)
                time.sleep(0.05)
            os.close(end)
            self.assertEqual((child.communicate()[1], child.returncode), ("fintaqush costs: interrupted\n", 128 + number))

    @HAS_MACHINE
    def test_the_tour(self) -> None:
        printed = self.succeeds("try", folder=self.folder)
        self.assertEqual(self.names(), ["fintaqush-try.html"])
        for command in re.findall(r"^    \$ (\S+) ", printed, re.M):  # which are typed in this folder
            self.assertTrue((self.folder / command).is_file() and "/" in command, command)
        self.assertIn("With 16 there are 793 runs, of which 312 are squeezed; with 300 there are 528, and 0 are squeezed.", printed)
        self.assertRegex(printed, r"dropped 3 packets")  # as recorded
        self.assertEqual(re.findall(r"^ +(\d+) +(yes|no) ", printed, re.M), [(str(size), apart) for size in (6, 12, 48) for apart in ("no", "yes")])
        why = "fintaqush try: fintaqush-try.html exists and isn't overwritten; --force replaces it\n"
        self.fails(why, "try", folder=self.folder)


class Options(InFolder):
    """The options that all subcommands have in common, and messages about wrong ones."""

    def test_messages_are_short(self) -> None:
        """One line of usage, whatever the subcommand's options are, and one with the error, which has the nearest option."""
        for name, words, near in (("what-if", ["--budgte", "3"], ": is --budget meant?"), ("record", ["--device", "lo", "--out", "x", "--progam=y"], ": is --program meant?"),
                                  ("plot", ["a", "b"], ""), ("traffic", ["--xyz"], "")):
            said = self.ends_with(64, name, *words).stderr
            self.assertRegex(said, rf"^usage: fintaqush .*\nfintaqush {name}: error: .*{re.escape(near)}\n$")

    def test_each_option_means_one_thing(self) -> None:
        """The same name has the same form in all subcommands, but for what FILE and NAME are."""
        options = ("--program", "--binary", "--flows", "--device", "--force", "--json", "--quiet")
        forms: dict[str, set[object]] = {option: set() for option in options}
        for name in MODULES:
            for action in parser_of(None, module_of(name).add_options)._actions:
                for option in forms.keys() & set(action.option_strings):
                    is_flag = action.nargs == 0 or action.const is not None
                    forms[option].add(is_flag or str(action.metavar).partition("|")[0])
        self.assertEqual({option: len(each) for option, each in forms.items()}, dict.fromkeys(forms, 1), forms)


class Starts(InFolder):
    """What starts Python: the command, the launcher and the build, and the tools themselves."""

    STARTS: dict[str, list[str]] = {"fintaqush": ["plot"], "replay": [], "scripts/build.sh": ["napi_serial"]}

    def few(self, python: str | None) -> str:
        """Returns a PATH with little else than this Python."""
        few = self.folder / "few"
        few.mkdir(exist_ok=True)
        for tool, path in [(tool, shutil.which(tool)) for tool in ("sh", "env", "readlink", "dirname")] + [("python3", python)] * bool(python):
            (few / tool).unlink(missing_ok=True)
            assert path
            (few / tool).symlink_to(path)
        return str(few)

    def test_no_python(self) -> None:
        more = {"fintaqush": ("; it needs Python 3.9 or later", 1)}
        for name, words in self.STARTS.items():
            said, status = more.get(name, ("", 69))
            done = call(*words, command=TOP / name, PATH=self.few(None))
            self.assertEqual((done.stderr.partition(": ")[2], done.returncode), (f"there is no python3 on PATH{said}\n", status))

    def test_an_older_python_ends_by_a_line(self) -> None:
        """An older Python has to parse the file that compares the versions."""
        source = TOP / "scripts/start.py"
        ast.parse(source.read_text(), feature_version=(3, 6))
        self.assertNotRegex(source.read_text(), r"""\bf["']|from __future__""")
        fake = "import runpy, sys; sys.version_info = (3, 8, 20, 'final', 0); sys.argv = {!r}; runpy.run_path({!r}, run_name='__main__')"
        for words, status in ((["start", "fintaqush", "plot"], 1), (["start", "replay"], 69), (["start", "build"], 69)):
            done = process(sys.executable, "-Bc", fake.format(words, str(source)), PYTHONDONTWRITEBYTECODE=1)
            self.assertEqual((done.stderr.partition(": ")[2], done.returncode), ("it needs Python 3.9 or later, and python3 is 3.8\n", status), words)

    def test_pythons_of_this_machine_that_are_older(self) -> None:
        """Real ones, where pyenv has some; the one above is made up."""
        for python in glob.glob(os.path.expanduser("~/.pyenv/versions/3.[678].*/bin/python3")):
            number = group_in(r"/(3\.\d)\.", python)
            for name, words in self.STARTS.items():
                done = call(*words, command=TOP / name, PATH=self.few(python))
                self.assertEqual(done.stderr.partition(": ")[2], f"it needs Python 3.9 or later, and python3 is {number}\n", (name, python))

    def test_no_environment(self) -> None:
        """Without PATH a shell finds python3 in its own folders, and Python doesn't know its own name."""
        calls: list[list[object]] = [["--version"], ["plot", "--help"], ["compare", BURSTS, "--binary", REPLAY, "--"], ["replay", "--help"], ["completion", "bash"]]
        for words in calls:
            done = process("env", "-i", COMMAND, *words)
            self.assertEqual((done.stderr.count("\n") <= 1, done.returncode), (True, 0), done.stderr)
            self.assertEqual(done.stdout, call(*words).stdout)
        done = process("env", "-i", TOP / "replay", "--help")
        self.assertEqual((done.stderr, done.returncode), ("", 0))

    def test_little_memory(self) -> None:
        """One line, whatever Python needs itself."""
        calls: list[list[object]] = [["series", BURSTS], ["compare", BURSTS, "--"], ["--version"]]
        for kib in (8000, 12000, 14000, 16384, 24000, 32767, 33000, 40000):
            for words in calls:
                none: dict[str, Any] = dict.fromkeys(PROGRAMS, "/bin/false")
                done = process("sh", "-c", f'ulimit -v {kib}; exec "$0" "$@"', COMMAND, *words, **none)
                if words != ["--version"] or kib < 32768:
                    self.assertEqual((done.stdout, done.stderr.count("\n") <= 1), ("", True), (kib, words, done.stderr))
                self.assertNotIn("Traceback", done.stderr)
                if kib < 32768:
                    self.assertEqual((done.stderr, done.returncode),
                                     (f"fintaqush: there isn't enough memory: it needs 32 MiB, and ulimit -v is {kib} KiB\n", 1))

    def test_a_signal_while_python_starts(self) -> None:
        """Ctrl-C at any time from the beginning on: no traceback, and the end that it has later."""
        os.mkfifo(self.folder / "fifo")
        starts = {COMMAND: ["costs", "fifo"], TOP / "replay": ["--mode", "serial", "fifo"]}
        keeps = os.open(self.folder / "fifo", os.O_RDWR)  # so that no open of it waits

        def interrupted(command: Path, words: list[str], place: int) -> None:
            child = started(command, *words, folder=self.folder)
            time.sleep(place * 0.004)
            child.send_signal(signal.SIGINT)
            said = child.communicate(timeout=MOST_SECONDS)[1]
            self.assertIn(child.returncode, (-signal.SIGINT, 130), (command, place, said))
            is_end = said == "" or said.splitlines()[-1].endswith("interrupted") or "interrupted; " in said
            self.assertTrue(is_end, (command, place, said))
            self.assertNotIn("Traceback", said)

        with ThreadPoolExecutor(4) as pool:
            ends = [pool.submit(interrupted, *each, place) for each in starts.items() for place in range(40)]
        os.close(keeps)
        for end in ends:
            end.result()


    def test_a_signal_that_interrupts_no_read(self) -> None:
        """A signal may come in the last instructions before a read: here another thread takes it, so the read isn't interrupted either."""
        program = """
import os, signal, sys, threading
sys.path.insert(0, sys.argv[1])
from fintaqush_tools import errors

def main(_words):
    mine, _ = os.pipe()
    threading.Timer(0.2, lambda: signal.pthread_kill(threading.get_ident(), signal.SIGINT)).start()
    os.read(mine, 1)

errors.run("this", main, [])
"""
        done = process(sys.executable, "-Bc", program, TOP / "tools")
        self.assertEqual((done.stdout, done.stderr, done.returncode), ("", "this: interrupted\n", 130))

    def test_an_alarm_of_the_caller(self) -> None:
        """It still ends the tool, and what takes the tool's place has none."""
        os.mkfifo(self.folder / "fifo")
        ended = "import os, signal, sys; signal.setitimer(signal.ITIMER_REAL, 2); os.execv(sys.argv[1], sys.argv[1:])"
        keeps = os.open(self.folder / "fifo", os.O_RDWR)
        done = process(sys.executable, "-c", ended, COMMAND, "costs", self.folder / "fifo")
        self.assertEqual((done.stdout, done.returncode), ("", -signal.SIGALRM), done.stderr)
        child = started(COMMAND, "replay", "--mode", "serial", self.folder / "fifo")
        time.sleep(1.5)
        child.send_signal(signal.SIGINT)
        said = child.communicate(timeout=MOST_SECONDS)[1]
        self.assertIn(child.returncode, (-signal.SIGINT, 130), said)
        os.close(keeps)


class Completion(InFolder):
    def test_each_option_is_there(self) -> None:
        for shell in ("bash", "zsh", "fish"):
            text = self.succeeds("completion", shell)
            for name, options in (("plot", ["beside", "budget", "force"]), ("traffic", ["kind"]), ("what-if", ["rx-nsecs"]), ("replay", ["mode"])):
                self.assertIn(name, text)
                for option in options:
                    self.assertIn(f"-l {option} " if shell == "fish" else f"--{option}", text, (shell, option))

    def test_bash(self) -> None:
        script = self.write("script", self.succeeds("completion", "bash"))
        asked = 'source "$0"; COMP_WORDS=("$@"); COMP_CWORD=$(($# - 1)); _fintaqush; echo "${COMPREPLY[*]}"'
        for words, told in ((["pl"], "plot"), (["traffic", "--kind", ""], "constant poisson bursts"), (["plot", "--fo"], "--force"),
                            (["replay", "--mode", "s"], "serial shared"), (["plot", "fil"], "")):
            done = process("bash", "--norc", "-c", asked, script, "fintaqush", *words)
            self.assertEqual((done.stdout, done.stderr), (f"{told}\n", ""))

    @skip_without("fish")
    def test_fish(self) -> None:
        script = self.write("script", self.succeeds("completion", "fish"))
        for line, told in (("fintaqush pl", ["plot"]), ("fintaqush traffic --kind ", ["bursts", "constant", "poisson"]), ("fintaqush plot --fo", ["--force"])):
            done = process("fish", "--no-config", "-c", f"source {script}; complete -C '{line}'", HOME=self.folder)
            self.assertEqual(sorted(each.split("\t")[0] for each in done.stdout.splitlines()), told)

    @skip_without("zsh")
    def test_zsh(self) -> None:
        """On a terminal, with the TAB key."""
        script = self.write("script", self.succeeds("completion", "zsh"))
        for line, told in (("fintaqush pl", "fintaqush plot "), ("fintaqush plot --fo", "fintaqush plot --force"), ("fintaqush replay --mode th", "--mode threads")):
            seen = self.typed(["zsh", "-f", "-i"], f"autoload -U compinit; compinit -u -D; PS1='> '; source {script}; echo re''ady\n", "ready", line + "\t", told)
            self.assertIn(told, seen)

    def typed(self, shell: list[str], first: str, ready: str, then: str, told: str) -> str:
        """Returns what a shell shows on its terminal."""
        child, end = pty.fork()
        if child == 0:
            os.execvpe(shell[0], shell, {**os.environ, "TERM": "dumb", "COLUMNS": "200", "HOME": str(self.folder)})
        seen = ""
        for text, wanted in ((first, ready), (then, told)):
            os.write(end, text.encode())
            seen, until = "", time.monotonic() + MOST_SECONDS
            while wanted not in re.sub(r"\x08|\r|\x07", "", seen) and time.monotonic() < until:
                if select.select([end], [], [], 0.1)[0]:
                    seen += os.read(end, 65536).decode(errors="replace")
        os.kill(child, signal.SIGKILL)
        os.waitpid(child, 0)
        os.close(end)
        return re.sub(r"\x08|\r|\x07", "", seen)
