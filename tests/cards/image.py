"""Writes the memory image of the guest (an initramfs: archives of cpio's form newc, one after the other) from the unpacked packages of
fetch.sh."""

import hashlib
import lzma
import os
import re
import subprocess
import tempfile
from collections.abc import Iterable
from pathlib import Path
from typing import Union

HERE = Path(__file__).resolve().parent
TOP = HERE.parent.parent
PYTHON = "python3.13"
# With those that they need; without veth, `ip` lists other devices as veth pairs.
MODULES = ("e1000", "vmxnet3", "virtio_pci", "virtio_net", "virtio_blk", "veth")
COMMANDS = "sh mount mkdir cat echo sleep insmod tar poweroff grep sed ls rm kill tr cut sync env dd true [".split()
FOLDERS = "proc sys dev tmp run out bin sbin etc usr/sbin usr/bin lib lib64 modules rig fq".split()
# Packages of Python that the guest doesn't need, and parts that are compiled.
UNUSED = set(
    "test idlelib tkinter lib2to3 ensurepip pydoc_data unittest asyncio xml xmlrpc sqlite3 curses dbm email http "
    "wsgiref turtledemo venv multiprocessing distutils".split()
)
UNUSED_PARTS = re.compile("_ssl|_hashlib|_sqlite3|_dbm|_gdbm|readline|_curses|_test|_codecs_|_decimal|xx")
PROGRAM, TEXT, DIRECTORY, LINK, CHARACTERS = 0o100755, 0o100644, 0o40755, 0o120777, 0o20600


class Archive:
    """An archive, whose files are added one by one."""

    def __init__(self) -> None:
        self.parts: list[bytes] = []
        self.names: set[str] = set()

    def add(self, name: str, mode: int, data: bytes = b"", device: tuple[int, int] = (0, 0)) -> None:
        parent = os.path.dirname(name)
        if name in self.names:
            return
        if parent and parent not in self.names:
            self.add(parent, DIRECTORY)
        self.names.add(name)
        fields = (len(self.names), mode, 0, 0, 1, 0, len(data), 0, 0, *device, len(name) + 1, 0)
        head = b"070701" + b"".join(b"%08x" % each for each in fields) + name.encode() + b"\0"
        self.parts.append(head + b"\0" * (-len(head) % 4) + data + b"\0" * (-len(data) % 4))

    def add_file(self, name: str, path: Union[str, Path], mode: int = PROGRAM) -> None:
        self.add(name, mode, Path(path).read_bytes())

    def content(self) -> bytes:
        self.add("TRAILER!!!", 0)
        return b"".join(self.parts)


class Root:
    """The unpacked packages, and the folder that has the kernel."""

    def __init__(self, folder: Path, linux: Path) -> None:
        self.folder = folder
        self.libraries = folder / "usr/lib/x86_64-linux-gnu"
        self.loader = folder / "usr/lib64/ld-linux-x86-64.so.2"
        self.modules = next(each for part in ("usr/lib/modules/*", "lib/modules/*") for each in linux.glob(part))
        self.kernel = next(each for part in (linux / "boot", self.modules) for each in part.glob("vmlinuz*"))

    def command(self, name: str) -> list[str]:
        """Returns the words that run a program of these packages here."""
        return [str(self.loader), "--library-path", str(self.libraries), str(self.folder / "usr/bin" / name)]

    def run(self, name: str, *words: str) -> None:
        subprocess.run([*self.command(name), *words], env={"PYTHONHOME": str(self.folder / "usr")}, check=True)

    def needed_by(self, path: Path) -> list[str]:
        """Returns the shared libraries of a program."""
        command = [str(self.loader), "--library-path", str(self.libraries), "--list", str(path)]
        out = subprocess.run(command, capture_output=True, text=True, check=False).stdout
        return re.findall(r"=> (/\S+)", out)

    def order(self, module: str) -> list[Path]:
        """Returns the files of a module and of those that it needs, in the order in which they are loaded; none if it is built in."""
        if not (self.modules / "modules.dep").exists():
            busybox, base = str(self.folder / "usr/bin/busybox"), str(self.modules).rpartition("/lib/modules/")[0]
            subprocess.run([busybox, "depmod", "-b", base, self.modules.name], check=True)
        for line in (self.modules / "modules.dep").read_text(encoding="ascii").splitlines():
            path, _, needs = line.partition(":")
            if re.fullmatch(rf"{module}\.ko(\.xz)?", os.path.basename(path).replace("-", "_")):
                return [self.modules / each for each in (*reversed(needs.split()), path)]
        return []


def add_program(archive: Archive, root: Root, name: str, path: Path) -> None:
    archive.add_file(name, path)
    for library in root.needed_by(path):
        archive.add_file(f"lib/x86_64-linux-gnu/{os.path.basename(library)}", library)


def add_compiled(archive: Archive, root: Root, name: str, folder: Path) -> None:
    """Adds the modules of Python in a folder in their compiled form, because the guest is slow. The form has no times and no names of
    folders here, so that an image can be made again."""
    unused = "/(lib-dynload|" + "|".join(sorted(UNUSED)) + ")/"
    with tempfile.TemporaryDirectory() as scratch:
        subprocess.run(["cp", "-r", f"{folder}/.", scratch], check=True)
        how = f"-b -q --invalidation-mode unchecked-hash -d /{name}".split()
        root.run(PYTHON, "-s", "-m", "compileall", *how, "-x", unused, scratch)
        for path in sorted(Path(scratch).rglob("*.pyc")):
            part = path.relative_to(scratch)
            if not UNUSED & set(part.parts) and "__pycache__" not in part.parts:
                archive.add_file(f"{name}/{part}", path, TEXT)


def add_modules(archive: Archive, root: Root) -> None:
    lines = []
    for module in MODULES:
        for path in root.order(module):
            data, name = path.read_bytes(), path.name.removesuffix(".xz")
            archive.add(f"modules/{name}", TEXT, lzma.decompress(data) if path.suffix == ".xz" else data)
            lines.append(f"{module} {name}\n")
    archive.add("modules/order", TEXT, "".join(lines).encode())


def add_python(archive: Archive, root: Root) -> None:
    folder = root.folder / "usr/lib" / PYTHON
    add_compiled(archive, root, f"usr/lib/{PYTHON}", folder)
    for path in sorted((folder / "lib-dynload").glob("*.so")):
        if not UNUSED_PARTS.match(path.name):
            add_program(archive, root, f"usr/lib/{PYTHON}/lib-dynload/{path.name}", path)


def system_of(root: Root) -> bytes:
    """Returns the part of the image that doesn't depend on this repository: programs, Python and modules."""
    archive = Archive()
    for name in FOLDERS:
        archive.add(name, DIRECTORY)
    archive.add("dev/console", CHARACTERS, device=(5, 1))
    archive.add("dev/null", CHARACTERS, device=(1, 3))
    archive.add_file("bin/busybox", root.folder / "usr/bin/busybox")
    for name in COMMANDS:
        archive.add(f"bin/{name}", LINK, b"/bin/busybox")
    archive.add_file("lib64/ld-linux-x86-64.so.2", root.loader)
    for name, path in (("bin/python3", f"bin/{PYTHON}"), ("sbin/ethtool", "sbin/ethtool"), ("sbin/ip", "bin/ip")):
        add_program(archive, root, f"usr/{name}", root.folder / "usr" / path)
    add_python(archive, root)
    add_modules(archive, root)
    return archive.content()


def system_kept(root: Root) -> Path:
    """Returns the file with that part, which is made once for this kernel, these packages and this script."""
    version = hashlib.sha256(Path(__file__).read_bytes()).hexdigest()[:12]
    kept = root.folder.parent / f"system-{root.modules.name}-{version}.cpio"
    if not kept.exists():
        new = kept.with_suffix(f".{os.getpid()}")
        new.write_bytes(system_of(root))
        for old in kept.parent.glob(f"system-{root.modules.name}-*.cpio"):
            old.unlink()
        new.rename(kept)
    return kept


def own_of(root: Root, programs: Iterable[Path], job: str) -> bytes:
    """Returns the part of this repository: the tools, the guest's scripts and programs, and the job."""
    archive = Archive()
    archive.add("job.sh", PROGRAM, job.encode())
    archive.add_file("init", HERE / "guest/init")
    archive.add_file("rig/lib.sh", HERE / "guest/lib.sh")
    for path in programs:
        archive.add_file(f"rig/{path.name}", path)
    add_compiled(archive, root, "fq/tools/fintaqush_tools", TOP / "tools/fintaqush_tools")
    for name in ("tools/fintaqush_tools/options.json", "tools/fintaqush_tools/usage.txt", "scripts/start.py", "include/fintaqush.h"):
        archive.add_file(f"fq/{name}", TOP / name, TEXT)
    return archive.content()
