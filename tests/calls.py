"""The functions of crate `exports`, called from Python with plain numbers and addresses.

On x86-64 they are loaded as a shared object. On another processor a program that has them (tests/bridge.c) runs under the kit's emulator and shares its memory with us.
`opened(path)` gives a library: `call(name, words)` calls a function, `lend(count)` gives memory that it may be lent.
"""
import ctypes
import mmap
import os
import platform
import struct
import subprocess
import tempfile

ROOT = os.path.dirname(os.path.dirname(os.path.abspath(__file__)))
NATIVE = platform.machine() == "x86_64"


def settled(name):
    """What .ci/x86 says of this machine: the words before a program's name, or the compiler."""
    said = subprocess.run(["bash", "-c", f'source .ci/x86; printf "%s\\n" "${{{name}[@]}}"'], cwd=ROOT, check=True, capture_output=True, text=True)
    return said.stdout.split("\n")[:-1]


def made(archive, path):
    """The file that `opened` opens, made of an archive."""
    compiler = settled("compiler")[0]
    if NATIVE:
        words = ["-shared", "-o", path, "-Wl,--whole-archive", archive, "-Wl,--no-whole-archive"]
    else:
        words = ["-std=c11", "-O2", "-static", "-o", path, os.path.join(ROOT, "tests", "bridge.c"), archive]
    subprocess.run([compiler] + words, check=True)


class Memory:
    """Bytes at an address."""

    def __init__(self, view, address, free=None):
        self.view, self.address, self.free = view, address, free

    def __del__(self):
        if self.free:
            self.view.release()
            self.free()


class Loaded:
    def __init__(self, path):
        self.library = ctypes.CDLL(path)

    def call(self, name, words):
        function = getattr(self.library, name)
        function.restype = ctypes.c_uint64
        return function(*(ctypes.c_uint64(word) for word in words))

    def lend(self, count):
        buffer = bytearray(count)
        return Memory(memoryview(buffer), ctypes.addressof(ctypes.c_ubyte.from_buffer(buffer)) if count else 0)


class Emulated:
    BASE, SIZE, STEP = 1 << 36, 1 << 31, 4096

    def __init__(self, path):
        self.file = tempfile.NamedTemporaryFile(prefix="belquita")
        self.file.truncate(self.SIZE)
        self.memory = memoryview(mmap.mmap(self.file.fileno(), self.SIZE))
        self.taken = {}
        emulator = settled("on")[0]
        self.program = subprocess.Popen([emulator, path, self.file.name, str(self.BASE), str(self.SIZE)], stdin=subprocess.PIPE, stdout=subprocess.PIPE)

    def call(self, name, words):
        self.program.stdin.write(struct.pack("<32s16Q", name.encode(), *words, *[0] * (16 - len(words))))
        self.program.stdin.flush()
        answer = self.program.stdout.read(8)
        if len(answer) != 8:
            raise SystemExit(f"{name}: the program was brought down, status {self.program.wait()}")
        return struct.unpack("<Q", answer)[0]

    def lend(self, count):
        """The first gap that is large enough."""
        at = 0
        for start in sorted(self.taken):
            if at + count <= start:
                break
            at = self.taken[start]
        end = (at + count + self.STEP) // self.STEP * self.STEP
        if self.SIZE < end:
            raise MemoryError(count)
        self.taken[at] = end
        return Memory(self.memory[at:at + count], self.BASE + at, lambda: self.taken.pop(at))


def opened(path):
    return Loaded(path) if NATIVE else Emulated(path)
