"""The debugging stub in Python 3: the library's calls by ctypes, on a state and a memory that a Gateway keeps.

The library is a static archive, and Python loads shared objects alone. load(ARCHIVE) makes one of it in a temporary folder,
which is removed once it is loaded; load(ARCHIVE, PATH) makes it at PATH, to keep; and load(PATH), where PATH ends in .so, takes one that was made
before. It is made by

    cc -shared -o libpalustrode.so -Wl,--whole-archive libpalustrode.a -Wl,--no-whole-archive

The constants are those of include/palustrode.h, without PALUSTRODE_: they are read from it, as EXAMINE or REFUSED_NO_RIGHT.
"""
import ctypes
import pathlib
import re
import subprocess
import tempfile

ROOT = pathlib.Path(__file__).resolve().parent.parent
HEADER = ROOT / "include/palustrode.h"
ARCHIVE = ROOT / "target/staticlib/libpalustrode.a"

globals().update((name, int(value)) for name, value in re.findall(r"^#define PALUSTRODE_(\w+) (\d+)\b", HEADER.read_text(), re.M))


def share(archive, path):
    """Makes a shared object of the archive."""
    if not pathlib.Path(archive).exists():
        raise FileNotFoundError(f"{archive} is missing: make library")
    whole = ["-Wl,--whole-archive", str(archive), "-Wl,--no-whole-archive"]
    subprocess.run(["cc", "-shared", "-o", str(path), *whole], check=True)


def load(library=ARCHIVE, path=None):
    """Loads an archive or a shared object."""
    if str(library).endswith(".so"):
        return checked(library)
    with tempfile.TemporaryDirectory() as folder:
        made = path or folder + "/libpalustrode.so"
        share(library, made)
        return checked(made)


def checked(path):
    """The functions of a shared object, which has to be of the header's version."""
    library = typed(ctypes.CDLL(str(pathlib.Path(path).resolve())))
    version = library.palustrode_version()
    if version != VERSION:
        raise RuntimeError(f"the library is of version {version}, the header of {VERSION}")
    return library


def typed(library):
    """Tells ctypes what each function takes and returns, as the header declares them; a buffer comes with its length."""
    number, buffer = [ctypes.c_uint64], [ctypes.c_void_p, ctypes.c_size_t]
    takes = {
        "version": [],
        "fresh_start": number + buffer + number + buffer,
        "request": 4 * buffer,
        "report": 2 * buffer + 3 * number + 3 * buffer,
        "line": 4 * buffer,
        "packet": 2 * buffer + 2 * number + 2 * buffer,
        "tick": buffer,
        "why": 3 * buffer,
        "write_request": 5 * number + 2 * buffer,
        "read_answer": 2 * buffer,
    }
    for name, arguments in takes.items():
        function = getattr(library, "palustrode_" + name)
        function.argtypes, function.restype = arguments, ctypes.c_int64
    return library


def lent(array):
    """A buffer and its length, as two arguments."""
    return array, len(array)


def of_bytes(content):
    """The bytes as a buffer; one of no bytes has an address too, as the library asks."""
    return (ctypes.c_uint8 * len(content)).from_buffer_copy(content)


def room(count):
    """A buffer of so many zero bytes."""
    return (ctypes.c_uint8 * count)()


class Gateway:
    """A gateway after a fresh start. sizes has the bytes of each process that is there, by its number, as {2: 4096}."""

    def __init__(self, library, sizes, door=NO_DOOR):
        self.library, self.state, self.memory = library, room(STATE_BYTES), room(MEMORY_BYTES)
        each = (ctypes.c_uint16 * PROCESSES)(*(sizes.get(p, 0) for p in range(PROCESSES)))
        there = sum(1 << p for p in sizes)
        self.started = library.palustrode_fresh_start(there, *lent(each), door, *lent(self.state))

    def write(self, host, cmd, pid, arg1=0, arg2=0, string=b""):
        """The desk's end: the message of a request, which is refused with an exception."""
        message = room(MESSAGE_BYTES)
        r = self.library.palustrode_write_request(host, cmd, pid, arg1, arg2, *lent(of_bytes(string)), *lent(message))
        if r < 0:
            raise ValueError(f"no such request: {r}")
        return bytes(message[:r])

    def request(self, message):
        """Answers a message: the result, and the reply to send, of no bytes where there is none."""
        reply = room(MESSAGE_BYTES)
        r = self.library.palustrode_request(*lent(self.state), *lent(self.memory), *lent(of_bytes(message)), *lent(reply))
        return r, bytes(reply[:r if r >= 0 else HEADER_BYTES if r <= -REFUSED_NO_PROCESS else 0])

    def why(self, message):
        """What the message would be refused for: 0 or minus the number, and its two facts."""
        facts = (ctypes.c_uint64 * FACTS)()
        r = self.library.palustrode_why(*lent(self.state), *lent(of_bytes(message)), *lent(facts))
        return r, list(facts)

    def report(self, pid, kind, registers, reason=0):
        """A machine report with the nine registers: the result, the notice to send and the line to send."""
        words = of_bytes(b"".join(register.to_bytes(2, "little") for register in registers))
        notice, line = room(MESSAGE_BYTES), room(LINE_BYTES)
        r = self.library.palustrode_report(
            *lent(self.state), *lent(self.memory), pid, kind, reason, *lent(words), *lent(notice), *lent(line)
        )
        return r, bytes(notice[:max(r, 0) % 256]), bytes(line[:max(r, 0) // 256])
