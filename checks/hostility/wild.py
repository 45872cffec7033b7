"""Wild code: cartridges and BIOS images of random bytes, alone and on cables with random delays and consoles that are off.

Each run ends with status 0, and its log, run again, gives the same bytes: one of both runs on one processor, the other on all.
"""
import contextlib
import hashlib
import os
import random
import shutil
import subprocess
import sys

from . import room

START = room.bios(0xE3A0F302)  # mov pc, #0x08000000
# Exceptions return, and the stack is in the inner RAM: then mov pc, #0x08000000.
RETURNS = room.bios(0xEA000006, 0xE1B0F00E, 0xE1B0F00E, 0xE25EF004, 0xE25EF008, 0xE1A00000, 0xE25EF004, 0xE25EF004, 0xE3A0D403, 0xE3A0F302)
BEGIN = 0xC0
# Registers that start something: the serial unit, DMA, timers, the picture, interrupts, sound and waits.
REGISTERS = [0x134, 0x128, 0x12A, 0x120, 0x0B0, 0x0B8, 0x0BA, 0x0C6, 0x0D2, 0x0DE, 0x100, 0x102, 0x104, 0x106, 0x000, 0x004, 0x008,
             0x010, 0x020, 0x028, 0x040, 0x04C, 0x050, 0x082, 0x084, 0x0A0, 0x200, 0x208, 0x204, 0x132]


def congruent(case):
    """65,536 bytes of the sequence x' = 1664525 x + 1013904223 modulo 2^32 from the number of the case, its high bytes."""
    value, data = case, bytearray()
    for _ in range(65_536):
        value = (1_664_525 * value + 1_013_904_223) % 2**32
        data.append(value >> 24)
    return room.cartridge(data)


def random_cartridge(source):
    """Random words behind a header, in ARM or in Thumb state, with stores to registers before them and a branch back behind."""
    stores = [(register, source.getrandbits(16)) for register in source.sample(REGISTERS, source.randrange(12))]
    if source.random() < 0.7:
        mode = source.choice([0x2003, 0x2003, 0x6001, 0x1001, 0x5009])
        stores += [(0x134, 0), (0x128, mode), (0x12A, source.getrandbits(16)), (0x128, mode | 0x80)]
    words = []
    for register, value in stores:
        words += [0xE59F0008, 0xE59F1008, 0xE1C010B0, 0xEA000001, 0x04000000 + register, value]
    if source.random() < 0.4:
        words += [0xE28F0001, 0xE12FFF10]  # add r0, pc, #1 and bx r0
    begin = source.choice([0, len(words)])
    words += [source.getrandbits(32) if source.random() < 0.3 else source.choice([0xE0000000, 0xE2000000, 0xE5000000, 0xE8000000])
              | source.getrandbits(25) for _ in range(source.randrange(4, 400))]
    words.append(0xEA000000 | (begin - len(words) - 2) % 2**24)
    code = b''.join(word.to_bytes(4, 'little') for word in words)
    header = 0xEA00002E.to_bytes(4, 'little') + source.randbytes(BEGIN - 4)
    return room.cartridge((header + code).ljust(source.choice([4_096, 65_536]), b'\0'))


def job(source, carts, cycles):
    lines = ['gbalink 2', f'cycles {cycles}']
    if source.random() < 0.5:
        lines.append(f'delay {source.choice([1, 255, 256, 512, 1024, source.randint(1, 1024)])}')
    players = range(len(carts))
    lines += [f'link {a} {b} {source.choice([1, 256, 257, 1024, source.randint(1, 1024)])}' for a in players for b in players
              if a != b and source.random() < 0.7]
    for k, cart in enumerate(carts):
        lines += [f'console {k}', f'bios {source.choice(["start", "returns"])}', f'cart {cart}']
        lines += [f'backup {source.choice(["sram", "flash64", "flash128"])}'] if source.random() < 0.5 else []
        lines += [f'off {source.randint(1, cycles)}'] if source.random() < 0.3 else []
        lines += [f'key {source.randint(0, cycles)} {source.getrandbits(10):03x}'] if source.random() < 0.5 else []
        lines += [f'out {kind}' for kind in ('frames', 'samples', 'words', 'state', 'save')]
    return '\n'.join([*lines, 'end']) + '\n'


class Wild:
    def __init__(self, program, top, seed):
        self.program = program
        self.tally = room.Tally('wild code')
        self.random = random.Random(seed)
        self.folder = room.fresh(top, start=START, returns=RETURNS)
        self.processor = min(os.sched_getaffinity(0))
        self.words = 0

    def call(self, words, is_alone):
        pinned = ['taskset', '-c', str(self.processor)] if is_alone and shutil.which('taskset') else []
        return room.call([*pinned, self.program, *words][0], [*pinned, self.program, *words][1:], self.folder, seconds=60)

    def runs(self, name, text):
        """The run and the run of its log, by turns on one processor and on all."""
        room.write(os.path.join(self.folder, 'j'), text)
        is_alone = self.random.random() < 0.5
        got = self.call(['run', 'j', 'g'], is_alone)
        if not self.tally.holds(name, got.status == 0, f'{got}\n{text}'):
            self.clear()
            return
        again = self.call(['run', 'g.log', 'h'], not is_alone)
        self.tally.agrees(f'{name}, the log', again.pair, got.pair)
        first, second = room.contents(self.folder, 'g'), room.contents(self.folder, 'h')
        self.words += sum(data.count(b'\n') for entry, data in first.items() if entry.endswith('.words'))
        self.tally.holds(f'{name}, the log', first == second, f'other bytes: {[entry for entry in first if first[entry] != second.get(entry)]}\n{text}')
        self.clear()
        self.traces(name)

    def clear(self):
        """Removes what runs wrote."""
        for out in 'gh':
            for entry in room.contents(self.folder, out):
                os.remove(os.path.join(self.folder, out + entry))

    def traces(self, name):
        """The steps of the job, and the same in two parts; each machine's clock never falls, and the least one steps."""
        count, part = 20_000, self.random.randrange(1, 20_000)
        got = self.call(['trace', 'j', '0', str(count), 't'], False)
        whole = room.read(os.path.join(self.folder, 't.trace')).splitlines(keepends=True)
        self.tally.agrees(f'{name}, the trace', got.pair, (0, f'trace {len(whole)}\n'))
        parts = b''
        for first, length in ((0, part), (part, count - part)):
            self.call(['trace', 'j', str(first), str(length), 't'], True)
            parts += room.read(os.path.join(self.folder, 't.trace'))
        self.tally.holds(f'{name}, the trace in parts from step {part}', parts == b''.join(whole), f'other lines:\n{name}')
        clocks = [int(line.split(b' ', 2)[1]) for line in whole]
        self.tally.holds(f'{name}, the clocks of the trace', clocks == sorted(clocks), 'they fall')


def check(program, top, seed, count):
    """The sixteen cartridges alone, a million cycles each; then random ones, some alone and some on cables."""
    wild = Wild(program, top, seed)
    for case in range(16):
        room.write(os.path.join(wild.folder, f'c{case}'), congruent(case))
        text = f'gbalink 1\ncycles 1000000\nconsole 0\nbios start\ncart c{case}\n'
        wild.runs(f'cartridge {case}', text + ''.join(f'out {kind}\n' for kind in ('frames', 'samples', 'state', 'save')) + 'end\n')
    for case in range(count):
        names = [f'r{k}' for k in range(wild.random.choice([1, 2, 2, 3, 4]))]
        for name in names:
            room.write(os.path.join(wild.folder, name), random_cartridge(wild.random))
        wild.runs(f'seed {seed} case {case}', job(wild.random, names, wild.random.randint(50_000, 300_000)))
    wild.tally.holds('random code makes transfers', wild.words > count // 4, f'only {wild.words} words')
    return wild.tally


# ---- Many cartridges, which aren't run ever --------------------------------------------------------------------------------

# It ends by itself too, where nobody is left to end it.
TURN = 'import time\nwhile time.process_time() < 600:\n    pass'


@contextlib.contextmanager
def load(is_wanted):
    """A process on each processor that does nothing but take time."""
    others = [subprocess.Popen([sys.executable, '-c', TURN]) for _ in os.sched_getaffinity(0)] if is_wanted else []
    try:
        yield
    finally:
        for other in others:
            other.kill()
            other.wait()


def came_to(wild, words, is_alone):
    """What a call comes to: its status, its summary, and a digest of all that it wrote, which is removed."""
    got = wild.call(words, is_alone)
    files = room.contents(wild.folder, words[2])
    told = hashlib.sha256(repr(sorted(files.items())).encode()).hexdigest()
    for entry in files:
        os.remove(os.path.join(wild.folder, words[2] + entry))
    return got.pair, told, files.get('.log', b'')


def check_many(program, top, seed, count):
    """Each of so many random cartridges alone, and on a cable with the three behind it: a run on one processor, and runs of
    its log on all, on one beside load, and on all beside load."""
    wild = Wild(program, top, seed)
    names = [f'r{case}' for case in range(count)]
    for name in names:
        room.write(os.path.join(wild.folder, name), random_cartridge(wild.random))
    groups = [group for case in range(count) for group in ([names[case]], [names[(case + k) % count] for k in range(4)])]
    for begin in range(0, len(groups), 100):
        first = []
        for place, group in enumerate(groups[begin:begin + 100], begin):
            text = job(wild.random, group, wild.random.randint(20_000, 150_000))
            room.write(os.path.join(wild.folder, 'j'), text)
            got = came_to(wild, ['run', 'j', 'g'], True)
            wild.tally.holds(f'seed {seed} run {place}', got[0][0] == 0, f'{got[0]}\n{text}')
            first.append((place, got))
        for is_loaded, is_alone in ((False, False), (True, True), (True, False)):
            with load(is_loaded):
                for place, got in first:
                    room.write(os.path.join(wild.folder, 'k'), got[2])
                    wild.tally.agrees(f'seed {seed} run {place}, loaded {is_loaded}, one processor {is_alone}',
                                      came_to(wild, ['run', 'k', 'h'], is_alone), got)
    return wild.tally
