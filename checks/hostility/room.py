"""What all parts of the check share: calls of the program, counts, and what stands in a folder."""
import hashlib
import os
import resource
import signal
import subprocess
from dataclasses import dataclass

SECONDS = 10
REFUSALS = {2, 3, 4, 5, 6, 7, 8}
STATUSES = REFUSALS | {0, 9, 10, 13}


@dataclass
class Answer:
    """How a call ended: its status, or minus a signal's number, or None where it hung; and what it said."""
    status: int | None
    out: str
    error: str = ''

    def __str__(self):
        return f'status {self.status}, {self.out[:300]!r}' + (f', {self.error[:300]!r}' if self.error else '')

    @property
    def pair(self):
        return self.status, self.out


class Tally:
    """Counts what holds, and keeps what doesn't."""

    def __init__(self, part, check='hostile'):
        self.part = part
        self.check = check
        self.passed = 0
        self.failures = []
        self.left_out = []

    def agrees(self, name, got, wanted):
        return self.holds(name, got == wanted, f'got {got!r:.600}\n  wanted {wanted!r:.600}')

    def holds(self, name, is_right, text=''):
        if is_right:
            self.passed += 1
        else:
            self.failures.append(f'FAILED {self.check} {self.part}, {name}: {text}')
        return is_right

    def leave_out(self, what):
        self.left_out.append(f'{self.check} {self.part}: {what}')

    def add(self, other):
        self.passed += other.passed
        self.failures += other.failures
        self.left_out += other.left_out


def call(program, words, folder, seconds=SECONDS, **more):
    """Calls the program in a folder, and answers once it has ended or has been stopped."""
    more.setdefault('stdout', subprocess.PIPE)
    more.setdefault('stdin', subprocess.DEVNULL)
    with subprocess.Popen([program, *words], cwd=folder, stderr=subprocess.PIPE, **more) as child:
        try:
            out, error = child.communicate(timeout=seconds)
        except subprocess.TimeoutExpired:
            child.kill()
            return Answer(None, '')
    return Answer(child.returncode, (out or b'').decode('latin-1'), error.decode('latin-1'))


def limited(**limits):
    """A call before the program starts that sets limits: limited(AS=bytes) is `ulimit -v`. A signal leaves no core file."""
    def start():
        signal.signal(signal.SIGXFSZ, signal.SIG_DFL)
        resource.setrlimit(resource.RLIMIT_CORE, (0, 0))
        for name, most in limits.items():
            resource.setrlimit(getattr(resource, 'RLIMIT_' + name), (most, most))
    return start


def fresh(folder, **files):
    """A new folder with these files."""
    os.makedirs(folder)
    for name, data in files.items():
        write(os.path.join(folder, name), data)
    return folder


def write(path, data):
    with open(path, 'wb') as file:
        file.write(data if not isinstance(data, str) else data.encode())


def read(path):
    with open(path, 'rb') as file:
        return file.read()


def digest(path):
    return hashlib.sha256(read(path)).hexdigest()


def marks(folder):
    """What shows that a file of the folder was touched."""
    with os.scandir(folder) as entries:
        return {entry.name: (state.st_ino, state.st_size, state.st_mtime_ns)
                for entry in entries for state in (entry.stat(follow_symlinks=False),)}


def contents(folder, out):
    """The bytes of the files whose names begin with OUT and a point, by what follows."""
    return {name[len(out):]: read(os.path.join(folder, name)) for name in sorted(os.listdir(folder)) if name.startswith(out + '.')}


def bios(*words):
    """A BIOS image of these words, and zeros."""
    return b''.join(word.to_bytes(4, 'little') for word in words).ljust(16_384, b'\0')


def cartridge(data):
    """The bytes with a header that is accepted."""
    rom = bytearray(data)
    rom[0xB2] = 0x96
    rom[0xBD] = (-sum(rom[0xA0:0xBD]) - 0x19) % 256
    return bytes(rom)
