"""Checks of a program of the receiving machine (napi_machine, or bench/machine.cc), for tests/machine.sh: what it prints is what the
plain program (bench/machine.cc) prints, or what queueing theory or a recording of Linux says. PLAIN=FILE names a build of the plain one.

    python3 -B tests/machine.py examples|random|one_queue|faults|texts|options|ends|queue|livelock|recorded|simulator PROGRAM [SEED COUNT]
    python3 -B tests/machine.py simulated REPORT FILE
"""

from __future__ import annotations

import atexit
import functools
import itertools
import json
import os
import pathlib
import random
import re
import shutil
import subprocess
import sys
import tempfile
import time
from collections import Counter
from collections.abc import Callable, Iterable, Iterator, Sequence
from typing import Any

from finding import group_in

TOP = pathlib.Path(__file__).resolve().parent.parent
HEADER, FLOWS = "ns,device,bytes", "ns,device,bytes,flow"
# The least, the greatest and the default value of each option, by napi_machine's table; the plain program has its own. A name as default:
# the value of that option.
TABLE: list[dict[str, Any]] = json.loads((TOP / "tools/fintaqush_tools/options.json").read_text(encoding="utf-8"))
OPTIONS: dict[str, tuple[int, int, int | str]] = {row["name"]: (row["least"], row["most"], row["default"]) for row in TABLE}
Settings = dict[str, int]


def settings_of(given: Settings) -> Settings:
    settings = {name: default for name, (_, _, default) in OPTIONS.items()} | given
    return {name: settings[value] if isinstance(value, str) else value for name, value in settings.items()}  # type: ignore[misc]


@functools.lru_cache(None)
def plain() -> str:
    """Returns the path of the plain program, which is compiled if PLAIN names no build of it."""
    if "PLAIN" in os.environ:
        return os.environ["PLAIN"]
    folder = tempfile.mkdtemp()
    atexit.register(shutil.rmtree, folder)
    subprocess.run(["g++", "-std=c++17", "-O2", TOP / "bench/machine.cc", "-o", f"{folder}/machine"], check=True)
    return f"{folder}/machine"


def ran(program: str, arguments: Sequence[str | bytes], text: str | bytes) -> tuple[str, str, int]:
    sent = text if isinstance(text, bytes) else text.encode()
    done = subprocess.run([program, *arguments], input=sent, capture_output=True, check=False, timeout=3600)
    return done.stdout.decode("latin-1"), done.stderr.decode("latin-1"), done.returncode


def values(line: str) -> dict[str, int]:
    """The numbers of a line of the report, by their names."""
    fields = line.split()
    return dict(zip(fields[::2], map(int, fields[1::2])))


def text_of(rows: Iterable[Sequence[object]], header: str = HEADER) -> str:
    return "".join(f"{line}\n" for line in [header, *(",".join(map(str, row)) for row in rows)])


def same(program: str, arguments: Sequence[str], text: str) -> tuple[str, dict[str, int]]:
    """Returns what both print, and how often the rules that the plain program counts apply; if they differ, prints both and exits."""
    (out, said, status), theirs = ran(plain(), arguments, text), ran(program, arguments, text)
    if (out, said if status else "", status) != theirs:
        raise SystemExit("{} {}\n{}the plain program:\n{}{} status {}\nthe program:\n{}{} status {}".format(
            program, " ".join(arguments), text[:3000], out, said, status, *theirs))
    return out, {} if status else values(said)


# ---- reports that were worked out by hand

def example_of(text: str) -> dict[str, list[str]]:
    """An example: `options`, `arrivals`, and the report's lines, or what it `contains`."""
    of: dict[str, list[str]] = {"report": [], "contains": []}
    for line in text.splitlines():
        name, sign, rest = line.partition(": ")
        if sign and not line.startswith("#"):
            of.setdefault(name, []).append(rest)
        elif not line.startswith("#"):
            of["report"].append(line)
    return of


def examples(program: str) -> list[str]:
    blocks = (TOP / "tests/machine_examples.txt").read_text(encoding="ascii").split("\n\n")
    every = [of for of in map(example_of, blocks) if "options" in of]
    wrong = [] if len(every) == 19 else [f"there are {len(every)} examples"]
    for of in every:
        out, _, _ = ran(program, of["options"][0].split(), text_of(row.split(",") for row in of["arrivals"][0].split()))
        is_right = all(part in out for part in of["contains"]) and of["report"] in ([], out.splitlines())
        wrong += [] if is_right else [f"{of['options'][0]}\n{out}"]
    return wrong


# ---- random arrivals with random options

def random_options(chance: random.Random) -> Settings:
    """Some options. Costs that are equal, or 0, or fall on the grid of the arrivals, cause ties."""
    costs = (0, 1, 500, 1000, 1000, 2000, 4000, chance.randrange(20000), chance.randrange(10**6))
    choices = {
        "processors": (1, 2, 3, chance.randint(1, 64)), "queues": (1, 1, 2, 3, 8, 64), "ring": (1, 2, 4, 16, 256), "socket": (1, 2, 8, 512),
        "backlog": (0, 1), "budget": (0, 1, 2, 3, 16, 64, 300), "weight": (1, 2, 3, 8, 64), "window": (1, 2, 3, 1024),
        "time-limit": (1, 1000, 5000, 20000, 8000000), "rx-nsecs": (0, 1, 500, 3000, 20000, 100000), "rx-frames": (0, 1, 2, 5),
        "defer-hard-irqs": (0, 1, 2, 2, 9), "gro-flush-timeout": (0, 500, 1000, 20000, 20000), "threaded": (0, 1), "apart": (0, 1, 1),
        "rx-gap": (0, 1, 500, 20000, 100000), "latched": (0, 1, 2), "gro-batch": (0, 1, 2, 8, 64), "heedless": (0, 1, 1)}
    chosen: Settings = {}
    share = chance.choice((0.15, 0.4, 0.8))
    # Without these three few instances are scheduled again at their completion.
    kinds: list[tuple[tuple[str, ...], tuple[str, ...]]] = [((), ()), ((), ()), (("gro-batch", "threaded"), ("backlog", "budget", "latched"))]
    always, never = chance.choice(kinds)
    for name in chance.sample(sorted(OPTIONS), len(OPTIONS)):
        if name in always or name not in never and chance.random() < share:
            chosen[name] = chance.choice(choices.get(name, costs))
    if chosen.get("rx-gap") and (chosen.get("rx-nsecs") or chosen.get("rx-frames")):
        del chosen["rx-gap"]
    if chosen.get("take", 0) > chosen.get("packet", int(OPTIONS["packet"][2])):
        del chosen["take"]
    if chosen.get("early") and chosen.get("heedless"):
        del chosen["heedless"]
    return chosen


def written(chance: random.Random, chosen: Settings) -> list[str]:
    """Options in one word or in two, with zeros or without."""
    pairs = [(f"--{name}", str(value).zfill(chance.choice((1, 1, 1, 10)))) for name, value in chosen.items()]
    return [word for pair in pairs for word in chance.choice((("=".join(pair),), pair))]


def random_rows(chance: random.Random, settings: Settings) -> Iterator[tuple[int, ...]]:
    """Bursts and pauses, at some devices, on a grid or not; rarely for a queue that is out of range."""
    highest = 64 * settings["processors"]
    last = highest if chance.random() < 0.1 else max(1, highest // settings["queues"])
    grid, most = chance.choice((1, 500, 1000)), chance.choice((1, 2, 5, 64 * settings["processors"]))
    devices = [chance.randint(1, last) for _ in range(chance.randint(1, most))]
    flows = [chance.choice((0, chance.randrange(70), chance.randrange(2**64, 10**20))) for _ in range(chance.choice((1, 3, 64)))]
    pause = chance.choice((0, 500, 3000, 20000, 200000))
    moment = chance.choice((0, 0, chance.randrange(10**6), 2**61))
    for _ in range(chance.choice((0, 1, 5, 50, 300, 1500))):
        if chance.random() < 0.6:
            moment += chance.randint(0, pause) // grid * grid
        row = moment, chance.choice(devices), chance.choice((1, 60, 1514, 65535)), chance.choice(flows)
        yield row if settings["queues"] > 1 else row[:3]


def random_arrivals(program: str, seed: str = "1", count: str = "300") -> list[str]:
    """The plain program's bytes for this many arrivals, which together reach each case of the rules."""
    chance = random.Random(int(seed))
    reached: Counter[str] = Counter()
    for _ in range(int(count)):
        chosen = random_options(chance)
        settings, arguments = settings_of(chosen), written(chance, chosen)
        rows = list(random_rows(chance, settings))
        printed, calls = same(program, arguments, text_of(rows, FLOWS if settings["queues"] > 1 else HEADER))
        if not printed:
            reached["out of range"] += 1
            continue
        reached.update(cases_of(settings, rows, printed, calls))
        reached.update(cases_of_cards(settings, printed, calls))
    print(f"{count} random arrivals: {', '.join(f'{name} {number}' for name, number in sorted(reached.items()))}")
    return [f"{name} is reached {number} times" for name, number in reached.items() if number < int(count) // 100]


def cases_of(settings: Settings, rows: list[tuple[int, ...]], printed: str, calls: dict[str, int]) -> dict[str, bool]:
    """Which cases of the rules these arrivals reach."""
    total = values(printed.splitlines()[-1].removeprefix("total "))
    of: Counter[str] = Counter()
    for line in printed.splitlines():
        if line.startswith(("processor", "application")):
            of.update(values(line))
    polls_on = of["polls"] > 1
    return {
        "dropped": total["dropped"] > 0, "refused": total["refused"] > 0, "squeezed": of["squeezed"] > of["late"], "late": of["late"] > 0,
        "interrupts without polling": settings["budget"] == 0 and of["interrupts"] > 0, "several runs": of["runs"] > 10, "no packet": not rows,
        "several processors": settings["processors"] > 1 and of["runs"] > 1,
        "no cost": 0 in (settings["poll"], settings["packet"], settings["use"]),
        "several devices": total["devices"] > settings["processors"], "full weight": of["work"] > 2 * settings["weight"],
        "several packets at one time": len({row[0] for row in rows}) < len(rows), "an interrupted use": calls["rests"] > 0,
        "NAPI timers": of["timers"] > 0, "threads": settings["threaded"] > 0 and polls_on,
        "threads with timers": settings["threaded"] > 0 and of["timers"] > 0, "queues": settings["queues"] > 1 and total["devices"] > 1,
        "backlog": settings["backlog"] > 0 and polls_on, "wake": settings["wake"] > 0 and polls_on,
        "coalescing": settings["rx-nsecs"] > 0 and polls_on,
        "coalescing by frames": settings["rx-nsecs"] > 0 and settings["rx-frames"] > 1 and polls_on,
        "apart": of["wakes"] > 1, "apart, refused": of["wakes"] > 1 and total["refused"] > 0,
        "app-wake on the processor that polls": settings["app-wake"] > 0 and not settings["apart"] and polls_on}


def cases_of_cards(settings: Settings, printed: str, calls: dict[str, int]) -> dict[str, bool]:
    """Which cases of the rules of cards these arrivals reach."""
    lines = [values(line) for line in printed.splitlines() if line.startswith("processor")]
    polls_on, timers = any(line["polls"] > 1 for line in lines), any(line["timers"] > 0 for line in lines)
    return {
        "a gap": calls["gaps"] > 1, "GRO's batches": calls["batches"] > 2, "scheduled again": calls["agains"] > 0,
        "an interrupt before a completion": calls["earlies"] > 0,
        "a delivery that wakes": settings["poll-wake"] > 0 and calls["wakings"] > 1, "a completion that starts the timer": calls["arms"] > 0,
        "scheduled again, threads": calls["agains"] > 0 and settings["threaded"] > 0,
        "latched": settings["latched"] == 1 and polls_on, "latched, and read": settings["latched"] == 2 and polls_on,
        "heedless": settings["heedless"] == 1 and polls_on, "heedless with timers": settings["heedless"] == 1 and timers,
        "timers at a cost of their own": timers and settings["timer"] != settings["interrupt"]}


# ---- what a setting doesn't change

LIMITS = "budget", "window", "time-limit", "queues"


def one_queue(program: str, seed: str = "1", count: str = "60") -> list[str]:
    """With one queue per processor, budgets, windows and time limits change nothing in a report but its runs, squeezed and
    late."""
    chance = random.Random(int(seed))
    for _ in range(int(count)):
        chosen = {name: value for name, value in random_options(chance).items() if name not in LIMITS}
        arguments = written(chance, chosen)
        text = text_of((moment, 1, size) for moment, _, size in random_rows(chance, settings_of(chosen)))
        limits = [[f"--budget={budget}", f"--window={window}", f"--time-limit={limit}"] for budget, window, limit in (
            (1, 65535, 10**9), (65535, 1, 10**9), (65535, 65535, 1), (16, 8, 10000), (300, 1024, 8000000), (65535, 65535, 10**9))]
        reports = [re.sub(r"(runs|squeezed|late) \d+", r"\1 .", ran(program, arguments + each, text)[0]) for each in limits]
        if not reports[0] or len(set(reports)) != 1:
            return [f"{' '.join(arguments)}\n{text[:3000]}", *reports]
    return []


# ---- what is rejected

def faults(program: str) -> list[str]:
    """Each error of the rows with its message and status, and with nothing written; in a row that has several the lowest one. With --queues above 1
    there is a fourth column, and queues are within the processor's 64."""
    good, many, two = f"{HEADER}\n0,1,60\n", ["--queues", "3"], (["--processors", "2"], ["--processors=2", "--budget=0"])
    bare = ["", "moment,device,event,value\n", "ns,device,bytes,2\n", "time,device,bytes\n", f"{FLOWS}\n", f" {HEADER}\n"]
    fields, numbers = ["0,1", "0,1,60,", "x,1,60,60"], ["x,1,60", ",1,60", "0,+1,60", "0,1,6e1", "0,1, 60", f"{'0' * 21},1,60", "x,0,0"]
    ranges = ["0,0,60", "0,129,60", "0,1,0", "0,1,65536", f"{2**62},1,60", f"{'9' * 20},1,60"]
    later = [(5, "OutOfRange", f"7,1,60\n{2**64 + 7},1,60"), (8, "Falls", "7,1,60\n6,1,60"), (5, "OutOfRange", "7,1,60\n6,0,60"),
             (8, "Falls", "7,1,60\n6,128,60\n0,x,60")]
    cases = [(words, text, 1, "BadHeader", 0) for words in two for text in bare]
    for number, name, rows in ((2, "BadFields", fields), (3, "BadNumber", numbers), (5, "OutOfRange", ranges)):
        cases += [(words, f"{good}{row}\n", number, name, 2) for words in two for row in rows]
    cases += [(words, f"{good}{rows}\n", number, name, 3) for words in two for number, name, rows in later]
    cases += [(many, f"{HEADER}\n0,1,60\n", 1, "BadHeader", 0)]
    for number, name, row, rows in ((2, "BadFields", 1, ["0,1,60", "0,1,60,1,"]), (3, "BadNumber", 1, ["0,1,60,", "0,1,60,x", f"0,1,60,{'1' * 21}"]),
                                    (5, "OutOfRange", 2, ["0,1,60,0\n0,22,60,1", "5,22,60,0\n4,22,60,1"]), (8, "Falls", 2, ["5,22,60,0\n4,22,60,0"])):
        cases += [(many, f"{FLOWS}\n{text}\n", number, name, row) for text in rows]
    same(program, many, f"{FLOWS}\n0,22,60,0\n0,1,60,{'9' * 20}\n0,1,60,{2**64 + 1}\n0,1,60,{'2'.zfill(20)}\n")
    same(program, ["--queues", "64", "--processors", "2"], f"{FLOWS}\n0,2,60,63\n0,1,60,64\n")
    wanted = [("", f"arrivals fault {number} {name} row {row}\n", 2) for _, _, number, name, row in cases]
    seen = [ran(program, words, text) for words, text, *_ in cases]
    return [f"{case[1]!r} gives {printed}, and not {one}" for case, printed, one in zip(cases, seen, wanted) if printed != one]


def texts(program: str) -> list[str]:
    """Arrivals as other programs and earlier versions write them: the header with `moment`, other line ends, a byte-order mark, quotes in all
    rows or in one, many zeros, the bounds of the ranges."""
    text = f"{HEADER}\n0,1,60\n{2**62 - 1},128,65535\n"
    zeros = f"{HEADER}\n{'0' * 20},{'1'.zfill(20)},{'60'.zfill(20)}\n{2**62 - 1},128,65535\n"
    quoted = "".join(",".join(f'"{field}"' for field in line.split(",")) + "\n" for line in text.splitlines())
    others = [text.replace("\n", end) for end in ("\r\n", "\r", "\n\n")] + [text.rstrip(), "\ufeff" + text, zeros, quoted]
    others += [text.replace("ns", "moment"), text.replace("0,1,", '"0",1,'), text.replace(",128,", ',"128",'), text.replace("bytes", '"bytes"')]
    wanted, _ = same(program, ["--processors", "2"], text)
    same(program, ["--processors", "2"], f"{HEADER}\n")
    same(program, ["--queues", "2"], f"{FLOWS.replace('ns', 'moment')}\n0,1,60,1\n5,1,60,0\n")
    return [f"{each!r} gives {printed}" for each in others if (printed := ran(program, ["--processors", "2"], each)) != (wanted, "", 0)]


def options(program: str) -> list[str]:
    """Options that are rejected before anything is read, and the bounds of each range, which are accepted."""
    wrong: list[str] = []
    refused: list[list[str | bytes]] = [["-h"], ["--"], ["-"], ["x"], [""], ["--budget"], ["--budget="], ["--budget=x"], ["--budget", "+1"], ["--budget", " 1"],
               ["--budg", "1"], ["-budget", "1"], ["--budget", "1", "--budget", "1"], ["--budget=1", "--budget", "2"], ["--mode", "serial"],
               ["--budget", "1", "2"], ["--budget", "--weight"], ["--budget", "1.0"], [b"--budget\xff=1"], ["--budget", b"\xff"],
               ["--slice", "1"], ["--longest", "1"], ["--threaded"], ["--rx_nsecs", "1"], ["--take", "1001"],
               ["--packet", "5", "--take", "6"], ["--take", "6", "--packet", "5"], ["--rx-gap", "1", "--rx-nsecs", "1"],
               ["--rx-frames", "1", "--rx-gap", "1"], ["--early", "1", "--heedless", "1"]]
    taken: list[list[str]] = []
    for name, (low, high, _) in OPTIONS.items():
        refused += [[f"--{name}", str(high + 1)], [f"--{name}={'1'.zfill(11)}"], [f"--{name}", "99999999999999999999"]]
        refused += [[f"--{name}", str(low - 1)]] if low else [[f"--{name}=-1"]]
        more = {"take": [f"--packet={high}"]}.get(name, [])  # what the greatest value needs
        taken += [[f"--{name}", str(low), *more], [f"--{name}={str(high).zfill(10)}", *more]]
    for each in refused:
        if (printed := ran(program, each, "what\n")) != ("", "usage fault 64\n", 64):
            wrong.append(f"{each}: {printed}")
    for words in taken:
        has_flows = words[0].startswith("--queues=")
        rows: list[tuple[int, ...]] = [(0, 1, 60, 0), (0, 1, 60, 1), (10**6, 1, 60, 2)] if has_flows else [(0, 1, 60), (0, 2, 60), (10**6, 1, 60)]
        same(program, words, text_of(rows, FLOWS if has_flows else HEADER))
    return wrong


def about(program: str) -> list[str]:
    """What `--help` and `--version` print, each as the only argument. Nothing is read then."""
    version = re.findall(r'^#define FQ_VERSION "(.*)"', (TOP / "include/fintaqush.h").read_text(encoding="ascii"), re.M)[0]
    printed, said, status = ran(program, ["--help"], "what\n")
    wrong = [] if printed.startswith("usage: napi_machine ") and (said, status) == ("", 0) else [f"--help: {printed!r}, {said!r}, {status}"]
    if (ended := ran(program, ["--version"], "what\n")) != (f"napi_machine {version}\n", "", 0):
        wrong.append(f"--version: {ended}")
    others = [["--help", "--ring", "1"], ["--ring", "1", "--version"], ["--help", "--help"], ["--helper"], ["--version="]]
    return wrong + [f"{each}: accepted" for each in others if ran(program, each, "") != ("", "usage fault 64\n", 64)]


def ends(program: str) -> list[str]:
    """A pipe that gives some bytes at a time, and a terminal, on which one Ctrl-D ends the text."""
    wrong: list[str] = []
    text = text_of([(0, 1, 60), (5, 1, 60), (9, 1, 60)])
    wanted = ran(program, [], text)[0]
    for name, (read, write), end in (("a slow pipe", os.pipe(), b""), ("a terminal", os.openpty()[::-1], b"\x04")):
        with subprocess.Popen([program], stdin=read, stdout=subprocess.PIPE, text=True) as child:
            os.close(read)
            for at in range(0, len(text), 7):
                os.write(write, text[at:at + 7].encode())
                time.sleep(0.01)
            os.write(write, end)
            if not end:
                os.close(write)
            try:
                printed = child.communicate(timeout=3600)[0]
            except subprocess.TimeoutExpired:
                child.kill()
                printed = "nothing in an hour"
        if printed != wanted:
            wrong.append(f"{name}: {printed}")
        if end:
            os.close(write)
    return wrong


# ---- what theory says

def poisson(rate: float, length: int, seed: int) -> Iterator[tuple[int, ...]]:
    chance, moment = random.Random(seed), 0.0
    while (moment := moment + chance.expovariate(rate)) < length:
        yield int(moment), 1, 60


def queue(program: str) -> list[str]:
    """M/D/1: packets of a Poisson process, each polled in its own run, and nothing else takes time. A packet has left when it
    is delivered, on average its cost c and r c / (2 (1 - r)) after its arrival, at load r (Pollaczek and Khinchine)."""
    wrong: list[str] = []
    cost = 1000
    given = {"budget": 1, "weight": 1, "interrupt": 0, "poll": 0, "packet": cost, "use": 0, "ring": 65536, "socket": 65536}
    for load in (0.3, 0.6, 0.8):
        rows = text_of(poisson(load / cost, 10**9, 7))
        out, _, status = ran(program, [f"--{name}={value}" for name, value in given.items()], rows)
        device, theory = values(out.splitlines()[0]) if status == 0 else {"mean": -1, "polled": 0}, cost + load * cost / (2 * (1 - load))
        print(f"M/D/1 at load {load}: mean {device['mean']}, by theory {theory:.0f}, of {device['polled']} packets")
        if abs(device["mean"] - theory) > theory / 100:
            wrong.append("this is over 1 % apart")
    return wrong


def livelock(program: str) -> list[str]:
    """At a load whose interrupts take all of the processor nothing is used while packets arrive, and no budget changes that,
    because softirqs run before tasks. Coalescing does: four devices, each with an interrupt of 4 us and a poll of 1 us per
    period, leave the application the time that these and 1 us per packet don't take, and a packet's use takes 2 us."""
    wrong: list[str] = []
    used: dict[int, int] = {}
    load, packets = 400_000, 80_000
    rows = text_of((number * 10**9 // load, 1 + number % 4, 1000) for number in range(packets))
    slow = text_of((number * 10**9 // 100_000, 1 + number % 4, 1000) for number in range(packets))

    def used_by(text: str, **given: object) -> int:
        out, _, status = ran(program, [f"--{name.replace('_', '-')}={value}" for name, value in given.items()], text)
        if status != 0:
            wrong.append(f"{given}: status {status}")
            return 0
        return values(out.splitlines()[-1].removeprefix("total "))["used"]

    if used_by(slow, budget=0) < packets:
        wrong.append("at 100000 packets a second interrupts without polling suffice")
    for budget in (0, 16, 64, 300):
        used[budget] = used_by(rows, budget=budget)
    print("used at 400000 packets a second, by budget:", used)
    if any(count > packets // 100 for count in used.values()):
        wrong.append("no budget leaves more than 1 % to the application")
    for period in (200_000, 400_000, 800_000):
        count, theory = used_by(rows, rx_nsecs=period), packets * (period - 4 * 5000 - period * 2 // 5) / (period * 2 // 5 * 2)
        print(f"used with an interrupt each {period // 1000} us: {count}, by theory {theory:.0f}")
        if abs(count - theory) > theory / 20:
            wrong.append("this is over 5 % apart")
    return wrong


# ---- what Linux did

# A recording as ftrace's text, with arrivals to a microsecond and costs that are fitted. All others use its costs: a second
# recording, whose own `costs` rejects because a line over its polls explains nothing, and traces, with arrivals to a
# millisecond. Each with its budget. No card interrupted, and no application used what was received.
RECORDED = (("tests/tools/soft-gso-23", 23), ("tests/tools/soft-tcp", 300), ("examples/linux-veth-bursts", 300),
            ("examples/linux-veth-small-budget", 64))


def made_by(tool: str, *arguments: object, check: bool = True) -> str:
    command = [str(TOP / "fintaqush"), tool, *map(str, arguments)]
    return subprocess.run(command, capture_output=True, text=True, check=check).stdout


def recorded_arrivals(name: str, folder: str) -> tuple[str, list[str]]:
    """The arrivals of a recording, and the options for its costs if they are known."""
    if not (text := TOP / f"{name}.txt").exists():
        lines = (line.split(",") for line in (TOP / f"{name}.csv").read_text(encoding="ascii").splitlines())
        rows = sorted((int(row[0]) * 10**6, row[1], row[3]) for row in lines if row[2] == "rx")
        return text_of(rows), []
    made = f"{folder}/{text.stem}"
    made_by("from-ftrace", text, made, "--arrivals")
    return pathlib.Path(f"{made}.csv").read_text(encoding="ascii"), made_by("costs", text, "--words", check=False).split()


def recorded(program: str) -> list[str]:
    """Compares runs and squeezes with those of Linux, and prints the differences: costs vary from poll to poll, a sender that
    shares the processor waits for the runs, which arrivals don't, and the recordings don't say to which processor a packet
    came. All packets are polled, and runs and squeezes differ by a factor of at most three."""
    wrong: list[str] = []
    costs: list[str] = []
    for name, budget in RECORDED:
        with tempfile.TemporaryDirectory() as folder:
            text, fitted = recorded_arrivals(name, folder)
        costs = fitted or costs
        out, _, status = ran(program, ["--budget", str(budget), "--interrupt", "0", "--use", "0", *costs], text)
        if status != 0:
            return [*wrong, f"{name}: status {status}"]
        counts = values(next(line for line in out.splitlines() if line.startswith("processor")))
        work = [int(line.split()[3]) for line in (TOP / f"{name}.work").read_text(encoding="ascii").splitlines()]
        theirs = {"runs": len(work), "squeezed": sum(each >= budget for each in work)}
        print(f"{name} at a budget of {budget}, {' '.join(costs)}: " + ", ".join(
            f"{each} {counts[each]}, recorded {theirs[each]} ({counts[each] - theirs[each]:+})" for each in theirs))
        if counts["work"] != text.count("\n") - 1:
            wrong.append(f"{name}: {counts['work']} packets of {text.count(chr(10)) - 1} are polled")
        wrong += [f"{name}: {each} {counts[each]}, recorded {theirs[each]}" for each in theirs
                  if theirs[each] and not theirs[each] <= 3 * counts[each] <= 9 * theirs[each]]
    return wrong


def wait_fields(waits: list[int]) -> str:
    """The fields of these waits, of which each is counted by its first ten binary digits; the rest are 0."""
    if not waits:
        return "mean 0 wait50 0 wait90 0 wait99 0 wait999 0 most 0"
    rests = [max(0, wait.bit_length() - 10) for wait in waits]
    buckets = sorted(wait >> rest << rest for wait, rest in zip(waits, rests))
    # The least bucket that, with those below it, has this many of 1000 of the waits.
    shares = {name: buckets[-(-share * len(waits) // 1000) - 1] for name, share in (("50", 500), ("90", 900), ("99", 990), ("999", 999))}
    return f"mean {sum(waits) // len(waits)} {' '.join(f'wait{name} {wait}' for name, wait in shares.items())} most {max(waits)}"


# ---- simulations

EACH = "--use 0 --wake 0 --ring 256 --budget 300 --weight 64 --time-limit 1000000000 --interrupt 4000 --poll 1000 --packet 1000".split()
COUNTS = "polled", "dropped", "interrupts", "runs", "squeezed", "timers"


def simulator(program: str) -> list[str]:
    """The simulator of docs/GUIDE.md (examples/c/simulator.cpp) has the program's counts and its mean wait until delivery for the same
    arrivals and costs: 20000 packets of each of four cards, at each deferral and each gap between them."""
    wanted, waits = [], []
    text = (TOP / "examples/c/simulator.cpp").read_text()
    gaps = list(map(int, group_in(r"for \((?:const )?Time gap : \{([\d, ]+)\}\)", text).split(",")))
    for defer, timeout in re.findall(r"\{(\d+), (\d+)\}", group_in(r"for \(Deferral of : \{(.*)\}\)", text)):
        for gap in gaps:
            rows = sorted((1000 + card * gap // 4 + place * gap, card + 1, 60) for card in range(4) for place in range(20000))
            told = ran(program, [*EACH, "--defer-hard-irqs", defer, "--gro-flush-timeout", timeout], text_of(rows))[0].splitlines()
            counts = {**values(next(line for line in told if line.startswith("processor"))), **values(told[-1].removeprefix("total "))}
            wanted.append([counts[name] for name in COUNTS])
            devices = [values(line) for line in told if line.startswith("device")]
            waits.append(sum(device["mean"] * device["polled"] for device in devices) / counts["polled"] / 1000)
    lines = (TOP / "examples/c/simulator.stdout").read_text().splitlines()
    shown = [[int(group_in(rf"(\d+) {name}", line)) for name in COUNTS] for line in lines]
    wrong = [f"the simulator counts {shown}, and the program {wanted}"] * (shown != wanted or len(shown) < 25)
    return wrong + [f"{line}: the program's mean is {wait}" for line, wait in zip(lines, waits)
                    if abs(float(group_in(r"mean wait ([\d.]+) us", line)) - wait) > 0.06]


def simulated(report: str, waited: str) -> list[str]:
    """Compares a report of the machine with that of a simulation of the same arrivals, which has each wait in place of their percentiles,
    and no total."""
    def with_percentiles(line: str) -> str:
        counts, sign, waits = line.rstrip("\n").partition(" waits")
        return f"{counts} {wait_fields(list(map(int, waits.split())))}" if sign else counts

    with open(report, encoding="ascii") as mine, open(waited, encoding="ascii") as theirs:
        lines = [(line.rstrip("\n"), with_percentiles(other)) for line, other in itertools.zip_longest(mine, theirs, fillvalue="")]
    wrong = [f"{line}\n    the simulation: {other}" for line, other in lines[:-1] if line != other]
    return wrong + [f"{other}: and no total" for line, other in lines[-1:] if other or not line.startswith("total ")]


CHECKS: dict[str, Callable[..., list[str]]] = {"examples": examples, "random": random_arrivals, "one_queue": one_queue, "faults": faults, "texts": texts,
          "options": options, "ends": ends, "about": about, "queue": queue, "livelock": livelock, "recorded": recorded,
          "simulator": simulator, "simulated": simulated}

if __name__ == "__main__":
    found = CHECKS[sys.argv[1]](*sys.argv[2:])
    if found:
        sys.exit("\n".join(found))
