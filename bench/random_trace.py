#!/usr/bin/env python3
"""Writes a random trace of all events, the same for the same seed: random_trace.py SEED [VERSION]

VERSION is 1, where none is given, or 2, which has busy rows too. About every sixth trace has a row that is refused; in half of
them each ring has a place for every packet, as threads mode wants it."""

from __future__ import annotations

import random
import sys

KINDS = ["rx", "tx", "done", "softirq", "kthread", "disable", "enable", "threaded", "open"]
WEIGHTS = [40, 8, 8, 18, 6, 3, 9, 5, 3]

REFUSED = """1,%d,rx 1,%d,rx,0 1,%d,rx,65536 1,17,rx,1 1,0,rx,1 1,%d,softirq,0 1,0,softirq,1 +1,%d,rx,1
    18446744073709551616,%d,rx,1 1,%d,poll,0 1,%d,busy,0 1,%d,RX,1 1,%d,threaded,2 1,%d,open,0 1,%d,open,65537
    1,%d,done,65537 1,%d,rx,1,1 1,,rx,1 1,%d,open,4 1,%d,enable,0 1,%d,disable,0 1,%d,kthread,0""".split()


def refused(dice: random.Random, device: int) -> str:
    """A row that a reader rejects, or that is none; the last four if the device is in the wrong state."""
    return dice.choice(REFUSED).replace("%d", str(device))


class Trace:
    def __init__(self, seed: int, version: int) -> None:
        self.dice = random.Random(seed)
        self.version = version
        self.rows = self.dice.choice([5, 20, 60, 200, 600])
        self.roomy = self.dice.random() < 0.5
        self.is_on: dict[int, bool] = {}
        self.moment = 0
        self.lines: list[str] = []

    def row(self, device: int, event: str, value: int) -> None:
        # moments needn't increase
        self.moment = max(0, self.moment + self.dice.choice([0, 1, 1, 2, 500, 2000, -3]))
        self.lines.append("%d,%d,%s,%d" % (self.moment, device, event, value))

    def open(self) -> None:
        closed = [device for device in range(1, 17) if device not in self.is_on]
        if closed:
            device = self.dice.choice(closed)
            self.row(device, "open", 1024 if self.roomy else self.dice.choice([1, 2, 4, 16, 64, 256]))
            self.is_on[device] = True

    def event(self, kind: str) -> None:
        if kind == "open" or not self.is_on:
            return self.open()
        device = self.dice.choice(sorted(self.is_on))
        if kind == "rx":
            for _ in range(self.dice.choice([1, 1, 2, 5, 70])):
                self.row(device, "rx", self.dice.choice([1, 60, 1500, 65535]))
        elif kind == "tx":
            self.row(device, "tx", self.dice.choice([1, 60, 1500, 65535]))
        elif kind == "done":
            self.row(device, "done", self.dice.choice([0, 1, 1, 2, 3, 65536]))
        elif kind == "softirq":
            self.row(0, "softirq", 0)
        elif kind == "kthread":
            self.row(device, "kthread", 0)
        elif kind == "threaded":
            self.row(device, "threaded", self.dice.randrange(2))
        elif kind == "busy":
            self.row(device, "busy", self.dice.choice([1, 2, 3, 8]))
        elif kind == "disable" and self.is_on[device]:
            self.row(device, "disable", 0)
            self.is_on[device] = False
        elif kind == "enable":
            self.enable()

    def enable(self) -> None:
        off = [device for device in sorted(self.is_on) if not self.is_on[device]]
        if not off:
            return
        device = self.dice.choice(off)
        # most devices are released first, so that few enables meet a disable that is pending
        if self.dice.random() < 0.9:
            for _ in range(self.dice.choice([2, 6])):
                self.row(0, "softirq", 0)
            self.row(device, "kthread", 0)
            for _ in range(6):
                self.row(0, "softirq", 0)
        self.row(device, "enable", 0)
        self.is_on[device] = True

    def text(self) -> str:
        header = "moment,device,event,value" + (",2" if self.version == 2 else "")
        kinds, weights = list(KINDS), list(WEIGHTS)
        if self.version == 2:
            kinds.append("busy")
            weights.append(10)
        for _ in range(self.dice.randrange(1, 5)):
            self.open()
        while len(self.lines) < self.rows:
            self.event(self.dice.choices(kinds, weights)[0])
        if self.dice.random() < 1 / 6:
            place = self.dice.randrange(len(self.lines) + 1)
            self.lines.insert(place, refused(self.dice, self.dice.randrange(1, 17)))
        if self.dice.random() < 1 / 60:
            header = self.dice.choice(["", "moment,device,event", header + ",3", header.upper()])
        return "\n".join([header] + self.lines) + "\n"


if __name__ == "__main__":
    if len(sys.argv) not in (2, 3) or not sys.argv[1].isdigit() or sys.argv[2:] not in ([], ["1"], ["2"]):
        sys.exit(__doc__)
    sys.stdout.write(Trace(int(sys.argv[1]), int((sys.argv[2:] or ["1"])[0])).text())
