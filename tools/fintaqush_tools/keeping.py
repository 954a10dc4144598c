"""Leaves settings that were better, and writes the files that set them after a reboot: for advise --verify --keep."""

from __future__ import annotations

import contextlib
import os
import re
import shutil
from collections.abc import Sequence
from dataclasses import replace

from fintaqush_tools.advice import Change, Machine, pinned, thread_of
from fintaqush_tools.errors import unlink
from fintaqush_tools.files import write_whole
from fintaqush_tools.texts import argument

ETC = "/etc"
PLAIN = re.compile(r"[A-Za-z0-9][A-Za-z0-9_.-]*")  # names of devices in which udev gives no character a meaning
LOST = {  # why no file sets it after a reboot
    "threads": "the threads of NAPI are others then",
    "program": "CPUAffinity= in the program's own systemd unit pins it then",
    "irq": "the interrupts may have other numbers then",
}


def file_of(machine: Machine, change: Change) -> tuple[str, str]:
    """Returns the path and the text of the file that makes a change at each boot; without a path, the reason why there is none."""
    if change.kind == "sysctl":
        return f"{ETC}/sysctl.d/90-fintaqush-{change.name}.conf", f"net.core.{change.name} = {change.value}\n"
    if change.kind in LOST:
        return "", LOST[change.kind]
    if machine.netns:
        return "", "its network namespace is gone then"
    if not PLAIN.fullmatch(machine.device):
        return "", "its name has characters with a meaning for udev"
    rule = f'ACTION=="add|move", SUBSYSTEM=="net", KERNEL=="{machine.device}"'
    if change.kind == "sysfs":
        text = f'{rule}, ATTR{{{change.name}}}="{change.value}"\n'
    else:
        command = f"{shutil.which('ethtool') or '/usr/sbin/ethtool'} {machine.line_of(change).partition(' ')[2]}"
        text = f'{rule}, RUN+="{command}"\n'
    return f"{ETC}/udev/rules.d/90-fintaqush-{machine.device}-{change.name}.rules", text


def undoing(machine: Machine, change: Change, allowed: str) -> str:
    """Returns the command that restores what was set before; a task was allowed on these processors."""
    if change.kind == "threads":
        return pinned(thread_of(change.name), "", "-pc", allowed)
    if change.kind == "program":
        return pinned(change.name, "$", "-apc", allowed)
    return machine.line_of(replace(change, value=change.before))


def keep(machine: Machine, changes: Sequence[Change]) -> list[dict[str, str]]:
    """Makes the changes, writes their files, and returns for each what is set, its file or the reason why it has none, and the command that undoes
    it. If one fails, the old settings are restored, and no file is left."""
    kept: list[dict[str, str]] = []
    with contextlib.ExitStack() as undo:
        for change in changes:
            allowed = ",".join(map(str, sorted(set().union(*machine.make(change, undo).values()))))
            command, (path, text) = undoing(machine, change, allowed), file_of(machine, change)
            if path:
                command = f"rm {argument(path)} && {command}"
                is_new = not os.path.lexists(path)
                write_whole(path, f"# By fintaqush advise --verify --keep. It is undone by:\n# {command}\n{text}")
                undo.callback(unlink, path) if is_new else None
            kept.append({"set": machine.line_of(change), "file": path, "why": "" if path else text, "undo": command})
        undo.pop_all()
    return kept


def lines_of(kept: Sequence[dict[str, str]]) -> list[str]:
    """Returns what is printed of it."""
    lines = []
    for each in kept:
        until = f"also after a reboot, by {each['file']}" if each["file"] else f"until a reboot: {each['why']}"
        lines += [f"kept, {until}: {each['set']}", f"  undone by: {each['undo']}"]
    return lines
