"""shared_words.py PROGRAM WORD ..: runs a program for arm64 (linked with -no-pie) instruction by instruction under QEMU, reads its disassembly,
and fails if a plain load or store touches a word that others of its instructions load or store as atomics, between the first and the last
of these. A block of the library's heap begins again when it is allocated. Prints how many of the atomic instructions ran, on how many words, and for how
many of them a plain instruction in their place would be found."""

from __future__ import annotations

import re
import subprocess
import sys
import tempfile
from collections import defaultdict
from collections.abc import Iterator

RUN = ["qemu-aarch64", "-L", "/usr/aarch64-linux-gnu", "-d", "cpu,nochain"]
ATOMIC = re.compile("(ldar|stlr|ldaxr|stlxr|casal|swpal|ldaddal|ldsetal|ldclral|ldeoral)[bh]?$")
LINE = re.compile(r" +([0-9a-f]+):\t(\S+)\t(.*?)(?: *//.*)?$")
PLACE = re.compile(r"\[(\w+)(?:, (#-?\w+|[wx]\w+)(?:, (\w+) ?#?(\d*))?)?\]")
SIZES = {"b": 1, "h": 2, "w": 4, "s": 4, "x": 8, "d": 8, "q": 16, "{": 16}
State = dict[str, int]
Touch = tuple[int, int, bool]  # a step, the place of its instruction, and whether that is atomic


class Access:
    """An instruction that loads or stores, by its text."""

    def __init__(self, name: str, words: str) -> None:
        self.is_atomic = bool(ATOMIC.match(name))
        base, offset, shift, count = PLACE.findall(words)[-1]
        self.base, self.offset, self.shift, self.count = base, offset, shift, int(count or 0)
        ends = re.match(r"(?:ld|st)\w*?r?(b|h)$|(?:ld\w*s)(b|h|w)$", name)
        register = words.split(", ")[name in ("stlxr", "stxr")]  # the first one of these gets the success
        kind = (ends[1] or ends[2]) if ends else register[0]
        self.size = SIZES[kind] * (2 if name[2:3] == "p" or name in ("ldnp", "stnp") else 1)

    def words(self, state: State) -> range:
        """Returns the numbers of the words of eight bytes that it touches."""
        at = state[self.base]
        if self.offset.startswith("#"):
            at += int(self.offset[1:], 0)
        elif self.offset:
            value = state[f"x{self.offset[1:]}"] & (2**32 - 1 if self.offset[0] == "w" else 2**64 - 1)
            at += (value - 2**32 * (self.shift == "sxtw" and value >= 2**31)) << self.count
        return range(at >> 3, (at + self.size - 1 >> 3) + 1)


def disassembled(program: str) -> tuple[dict[int, Access], range]:
    """Returns the program's loads and stores by their places, and where rattle_alloc lies."""
    text = subprocess.run(["aarch64-linux-gnu-objdump", "-d", "-j.text", "--no-show-raw-insn", program], capture_output=True, text=True, check=True).stdout
    found: dict[int, Access] = {}
    for line in text.splitlines():
        if (it := LINE.match(line)) and re.match("ld|st|cas|swp", it[2]) and "[" in it[3]:
            found[int(it[1], 16)] = Access(it[2], it[3])
    begin, end = (int(it, 16) for it in re.findall(r"^([0-9a-f]+) <rattle_alloc>:(?:\n.+)*\n +([0-9a-f]+):\tret", text, re.M)[0])
    return found, range(begin, end + 1)


def states(program: list[str], end: int) -> Iterator[State]:
    """Runs the program, and yields the registers before each of its instructions."""
    with tempfile.NamedTemporaryFile("r") as log:
        said = subprocess.run([RUN[0], "-help"], capture_output=True, text=True, check=False).stdout
        step = "-one-insn-per-tb" if "one-insn-per-tb" in said else "-singlestep"
        subprocess.run([*RUN, step, "-dfilter", f"0x400000..{end:#x}", "-D", log.name, *program], check=True)
        state: State = {}
        for line in log:
            if "PSTATE" in line:
                yield state
            state.update((name.lower().replace("x0", "x"), int(value, 16)) for name, value in re.findall(r"(X\d\d|SP|PC)=([0-9a-f]+)", line))


def touched(accesses: dict[int, Access], alloc: range, program: list[str]) -> list[list[Touch]]:
    """Returns for each word of each life of a block who touched it."""
    lives: list[list[Touch]] = []
    now: dict[int, list[Touch]] = defaultdict(list)
    size = 0
    for step, state in enumerate(states(program, max(accesses))):
        if state["pc"] == alloc[0]:
            size = state["x0"] or state["x1"]
        if state["pc"] == alloc[-1]:
            lives += [now.pop(word) for word in range(state["x1"] >> 3, (state["x1"] + size + 7) >> 3) if word in now]
        if access := accesses.get(state["pc"]):
            for word in access.words(state):
                now[word].append((step, state["pc"], access.is_atomic))
    return [*lives, *now.values()]


def plain(life: list[Touch], but: int = 0) -> list[int]:
    """Returns where the plain instructions lie that touch a word between two atomics; the one at `but` as if it were plain."""
    atomic = [step for step, place, is_atomic in life if is_atomic and place != but]
    return [place for step, place, is_atomic in life if atomic and (place == but or not is_atomic) and atomic[0] < step < atomic[-1]]


if __name__ == "__main__":
    accesses, alloc = disassembled(sys.argv[1])
    lives = [life for life in touched(accesses, alloc, sys.argv[1:]) if any(it[2] for it in life)]
    wrong = sorted({place for life in lives for place in plain(life)})
    ran = {it[1] for life in lives for it in life if it[2]}
    seen = {place for life in lives for place in {it[1] for it in life if it[2]} if plain(life, place)}
    for place in wrong:
        print(f"{place:x}: a plain instruction touches a shared word")
    atomics = [place for place, it in accesses.items() if it.is_atomic]
    print(f"{len(ran)} of {len(atomics)} atomic instructions ran on {len(lives)} shared words; {len(seen)} would be found if plain")
    sys.exit(bool(wrong) or len(seen) < 20)
