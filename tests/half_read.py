"""Runs a command on half of a trace, after which a read fails: standard input is this process's memory, up to the end of what
is mapped of it. With --rows before the command the half ends after a row. Its status is the command's.
"""

from __future__ import annotations

import ctypes
import mmap
import os
import subprocess
import sys

TRACE = b"moment,device,event,value\n0,1,open,4\n1,1,rx,100\n2,0,softirq,0\n3,1,r"


def main() -> int:
    rows = sys.argv[1] == "--rows"
    text = TRACE[: TRACE.rindex(b"\n") + 1] if rows else TRACE
    libc = ctypes.CDLL(None, use_errno=True)
    libc.mmap.restype = ctypes.c_void_p
    libc.mmap.argtypes = [ctypes.c_void_p, ctypes.c_size_t, ctypes.c_int, ctypes.c_int, ctypes.c_int, ctypes.c_long]
    libc.munmap.argtypes = [ctypes.c_void_p, ctypes.c_size_t]
    page = mmap.PAGESIZE
    access, kind = mmap.PROT_READ | mmap.PROT_WRITE, mmap.MAP_PRIVATE | mmap.MAP_ANONYMOUS
    start = libc.mmap(None, 2 * page, access, kind, -1, 0)
    if libc.munmap(start + page, page) != 0:
        sys.exit("a page couldn't be taken away")
    place = start + page - len(text)
    ctypes.memmove(place, text, len(text))
    memory = os.open("/proc/self/mem", os.O_RDONLY)
    os.lseek(memory, place, os.SEEK_SET)
    return subprocess.run(sys.argv[1 + rows :], stdin=memory, check=False).returncode


if __name__ == "__main__":
    sys.exit(main())
