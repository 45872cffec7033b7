"""Broken frozen files: files that the program wrote, changed from a seed, which a job is to resume or to refuse.

What has to come is said by the second reading (thawing.py). A refused file touches none; an accepted one runs to the end of the job,
also where no run of it comes there.
"""
import collections
import os
import random
import re

from . import broken, reading, room, thawing, wild

OUT = 'g'
CASES = 12  # jobs of a worker, each frozen at some clocks
OLD = {'g.0.state': b'old state', 'g.1.words': b'old words', 'g.3.save': b'old save', 'g.log': b'old log', 'g.frozen': b'old text'}
REGISTERS = {name.encode() for name in thawing.REGISTERS}
DECIMALS = {b'console', b'clock', b'halted', b'timer', b'dma', b'sequencer', b'tone', b'position', b'serial', b'known', b'flash', b'was',
            b'applied', b'counts', b'queue', b'drawn', b'signal'}
HEXADECIMALS = {b'job', b'register', b'r15', b'cpsr', b'affine', b'wave', b'mem', b'drawn', b'signal', b'queue'}
EDGES = sorted({edge + by for edge in (0, 4, 5, 8, 16, 32, 64, 159, 160, 227, 228, 256, 512, 1_006, 1_024, 1_232, 2_048, 32_768, 65_536, 2**18,
                                       2**24, 2**32, 2**38, 2**40, 2**64, 10**20) for by in (-1, 0, 1) if edge + by >= 0})


class Changes:
    """Changes of a frozen file, each by lines of one kind, so that the many lines of memory don't hide the others."""

    def __init__(self, source):
        self.random = source
        self.make = broken.Maker(0, [], {}, [])
        self.make.random = source

    def pick(self, *choices):
        return self.random.choice(choices)

    def changed(self, data):
        for _ in range(self.pick(0, 1, 1, 1, 1, 1, 1, 2, 3)):
            change = self.pick(*[self.change_number] * 4, *[self.change_digit] * 2, *[self.change_io] * 2, *[self.change_lines] * 2,
                               self.change_signal, self.change_clock, self.change_clock, self.change_end)
            data = change(data) if self.random.random() < 0.95 else self.make.change_byte(data, None)
        return data

    def place_of(self, lines, wanted=None):
        """The place of a line, of any kind alike, or of these kinds."""
        kinds = collections.defaultdict(list)
        for place, line in enumerate(lines):
            word = line.split(b' ', 1)[0]
            kinds[b'register' if word in REGISTERS - HEXADECIMALS else word].append(place)
        return self.random.choice(kinds[self.random.choice(sorted(kinds.keys() & wanted if wanted else kinds) or sorted(kinds))])

    def change_number(self, data):
        """Another decimal number, often one at a limit or next to what it was."""
        lines = data.split(b'\n')
        place = self.place_of(lines, DECIMALS)
        words = lines[place].split(b' ')
        places = [k for k, word in enumerate(words) if k and word.isdigit() and len(word) < 16]
        if not places:
            return self.change_digit(data)
        k = self.random.choice(places)
        value = int(words[k])
        words[k] = str(self.pick(value + 1, max(0, value - 1), 0, 1, self.random.choice(EDGES), self.random.choice(EDGES))).encode()
        if self.random.random() < 0.03:
            words[k] = self.pick(b'0' + words[k], b'+' + words[k], b'', words[k] + b'x', words[k].zfill(21))
        lines[place] = b' '.join(words)
        return b'\n'.join(lines)

    def change_digit(self, data):
        """Another hexadecimal digit, often of one bit, or another number of them."""
        lines = data.split(b'\n')
        place = self.place_of(lines, HEXADECIMALS)
        words = lines[place].split(b' ')
        k = len(words) - self.pick(1, 1, min(2, len(words)))
        digits = words[k]
        if not re.fullmatch(b'[0-9a-f]+', digits):
            return data
        at = self.pick(0, len(digits) - 1, self.random.randrange(len(digits)))
        digit = b'%x' % (int(digits[at:at + 1], 16) ^ self.pick(1, 2, 4, 8, self.random.randrange(16)))
        words[k] = digits[:at] + digit + digits[at + 1:]
        if self.random.random() < 0.1:
            words[k] = self.pick(digits.upper(), digits[:-1], digits + b'0', b'0' * len(digits), b'f' * len(digits), digits[:-1] + b'g')
        lines[place] = b' '.join(words)
        return b'\n'.join(lines)

    def change_io(self, data):
        """Another bit of the I/O registers, in a line that is there, or in one more."""
        lines = data.split(b'\n')
        offset = self.random.choice(sorted(thawing.STORED) + [4, 6, 0x84, 0x128, 0x130, *range(0x100, 0x110, 2), self.random.randrange(0, 1024, 2)])
        head = b'mem io %06x' % (offset & ~31)
        console = self.random.choice([place for place, line in enumerate(lines) if line == b'gbalink-state 1'] or [0])
        place = next((k for k in range(console, len(lines)) if lines[k] >= head and lines[k].startswith(b'mem')), len(lines) - 1)
        bits = bytearray(bytes.fromhex(lines[place][-64:].decode()) if lines[place].startswith(head) else bytes(32))
        bits[offset % 32 + self.pick(0, 1)] ^= 1 << self.random.randrange(8)
        lines[place:place + lines[place].startswith(head)] = [head + b' ' + bits.hex().encode()]
        return b'\n'.join(lines)

    def change_lines(self, data):
        """Lines that are dropped, doubled, moved, joined, swapped or that end otherwise."""
        lines = data.split(b'\n')
        place, other = self.place_of(lines), self.place_of(lines)
        near = min(len(lines) - 1, place + 1)
        kind = self.random.randrange(8)
        if kind == 0:
            del lines[place]
        elif kind == 1:
            lines.insert(self.pick(place, place, other), lines[place])
        elif kind == 2:
            lines.insert(other, lines.pop(place))
        elif kind == 3:
            lines[place], lines[near] = lines[near], lines[place]
        elif kind == 4:
            lines[place:place + 2] = [self.pick(b'', b' ').join(lines[place:place + 2])]
        elif kind == 5:
            lines[place] += self.pick(b'\r', b' ', b'\t', b' 0', b' end', b'\0')
        elif kind == 6:
            lines[place] = self.pick(b'', b' ', b'#', b' ' + lines[place], lines[place].replace(b' ', b'  ', 1), lines[place].replace(b' ', b'\t', 1))
        else:
            lines[place:place + 1] = [lines[place], lines[other]]
        return b'\n'.join(lines)

    def change_end(self, data):
        """Another end: cut at a line or within one, without its last LF, or with something behind."""
        kind = self.random.randrange(4)
        if kind == 0:
            return data[:-1]
        if kind == 1:
            return data + self.pick(b'\n', b'end\n', b' ', b'\0', b'end')
        if kind == 2:
            return data[:self.random.randrange(len(data) + 1)]
        return b''.join(data.splitlines(keepends=True)[:self.random.randrange(data.count(b'\n') + 1)])

    def change_signal(self, data):
        """A signal more behind the others, about the clock of a console."""
        clocks = [int(line.split()[1]) for line in data.split(b'\n') if re.fullmatch(rb'clock [0-9]{1,12}', line)] or [0]
        clock = max(0, self.random.choice(clocks) - self.pick(0, 1, 2, 511, 512, 513, self.random.randrange(2_000)))
        first = clock | self.random.randrange(4) << 40 | self.pick(0, 0, 1 << 42, 1 << 45, self.random.getrandbits(7) << 40)
        signal = b'signal %d %016x %016x\n' % (self.random.randrange(5), first, self.pick(0, 0, 1, self.random.getrandbits(16), 1 << 32))
        return data[:-4] + signal + data[-4:]

    def change_clock(self, data):
        """Another clock of a console, with or without the clock of its last step, or the other way round."""
        lines = data.split(b'\n')
        consoles = [place for place, line in enumerate(lines) if line.startswith(b'clock ')]
        if not consoles:
            return data
        begin = self.random.choice(consoles)
        by = self.pick(1, -1, 16, -16, 500, -500, 512, 513, 1_024, self.random.randrange(-3_000, 3_000))
        for place, line in enumerate(lines):
            if place >= begin and re.fullmatch(rb'(clock|was) [0-9]{1,12}', line) and self.random.random() < 0.8:
                word, number = line.split()
                lines[place] = b'%s %d' % (word, max(0, int(number) + by))
                if word == b'was':
                    break
        return b'\n'.join(lines)


class Frozen:
    """The calls of one worker, in a folder of its own."""

    def __init__(self, program, top, seed, cases=CASES):
        self.program = program
        self.tally = room.Tally('frozen files')
        self.random = random.Random(seed)
        self.changes = Changes(self.random)
        self.ended = collections.Counter()
        saves = {kind: bytes(size) for kind, size in thawing.BACKUPS.items()}  # of zeros, which need no lines
        self.folder = room.fresh(top, start=wild.START, returns=wild.RETURNS, b=broken.bios_image(), **saves, **OLD)
        self.cases = [case for number in range(cases) for case in self.freeze(number)]

    def write(self, name, data):
        room.write(os.path.join(self.folder, name), data)

    def freeze(self, number):
        """A job of random cartridges, or of consoles that go by the cable, and its text at some clocks and at its end."""
        carts = [f'c{number}.{k}' for k in range(self.random.randint(1, 4))]
        for cart in carts:
            self.write(cart, wild.random_cartridge(self.random))
        cycles = self.random.choice([700, 9_000, 40_000])
        text = wild.job(self.random, carts, cycles)
        if self.random.random() < 0.4:
            text = re.sub('(?m)^bios .*\ncart .*$', 'bios b', text)
        text = re.sub('(?m)^backup (.*)$', r'backup \1\nsave \1', text)
        self.write('j', text)
        for clock in (cycles, self.random.randint(1, cycles), self.random.randint(1, cycles)):
            got = room.call(self.program, ['freeze', 'j', str(clock), 'z'], self.folder)
            if self.tally.holds(f'a job to be frozen {number}', got.status == 0, f'{got}\n{text}'):
                yield text, room.read(os.path.join(self.folder, 'z.frozen'))
        for entry in room.contents(self.folder, 'z'):
            os.remove(os.path.join(self.folder, 'z' + entry))

    def check(self, name):
        """A call of `resume` beside what the second reading says of it; and the file's bytes."""
        text, data = self.random.choice(self.cases)
        data = self.changes.changed(data)
        self.write('j', text)
        self.write('f', data)
        return self.agrees(name, ['resume', 'j', 'f', OUT]), data

    def agrees(self, name, words):
        before = room.marks(self.folder)
        try:
            job, _ = reading.run_of(words, broken.reader(self.folder))
        except reading.Answer as answer:
            got = room.call(self.program, words, self.folder)
            self.ended[got.status] += 1
            is_well = self.tally.agrees(name, got.pair, answer.pair)
            return self.tally.holds(name, room.marks(self.folder) == before, f'a refused call touched files: {got}') and is_well
        got = room.call(self.program, words, self.folder)
        self.ended[got.status] += 1
        is_well = self.tally.holds(name, got.status == 0 and re.fullmatch(broken.SUMMARY + '\n', got.out), f'{got}')
        is_well = is_well and self.agrees_with_files(name, got, job, before)
        self.restore()
        return is_well

    def agrees_with_files(self, name, got, job, before):
        """Just the outputs are written; and a console that has come to its end has the state that the file says."""
        outputs = {output: 0 for output, _ in reading.outputs_of(job, OUT)[:-1]}
        is_well = self.tally.agrees(name, {**room.marks(self.folder), **outputs}, {**before, **outputs})
        clocks = [int(clock) for clock in re.findall('clock ([0-9]+)', got.out)]
        is_well = self.tally.holds(name, len(clocks) == len(job.consoles) and min(clocks) >= job.cycles, f'{got}') and is_well
        data = room.read(os.path.join(self.folder, 'f'))
        if min(map(int, re.findall(rb'(?m)^clock ([0-9]+)$', data))) < job.cycles:
            return is_well
        states = re.findall(rb'(?s)(gbalink-state 1\n.*?)((?:mem backup [^\n]*\n)*)(?:flash [^\n]*\n)?was ', data)
        for k, console in enumerate(job.consoles):
            if 'state' in console.outputs:
                is_well = self.tally.agrees(name, room.read(os.path.join(self.folder, f'{OUT}.{k}.state')), states[k][0]) and is_well
        return is_well

    def restore(self):
        for entry in room.contents(self.folder, OUT):
            os.remove(os.path.join(self.folder, OUT + entry))
        for name, data in OLD.items():
            self.write(name, data)

    def edges(self):
        """A file of another job, and others than a frozen one: none, a folder, an output of the job, one of the most bytes and of
        one more."""
        text, data = self.cases[0]
        self.write('f', data)
        for other in (re.sub('(?m)^cycles .*$', 'cycles 701', text), text.replace('console 0\n', 'console 0\nkey 274877906943 000\n', 1)):
            self.write('j', other)
            self.agrees('another job', ['resume', 'j', 'f', OUT])
        self.write('j', text)
        for words in (['resume', 'j', 'none', OUT], ['resume', 'none', 'f', OUT], ['resume', 'j', 'g.log', OUT], ['resume', 'j', 'j', OUT],
                      ['resume', 'j', 'f'], ['resume', 'j', 'f', 'x' * 181], ['resume', 'j', 'x' * 201, OUT], ['resume', 'j', '-', OUT]):
            self.agrees(f'{words}', words)
        os.mkdir(os.path.join(self.folder, 'd'))
        self.agrees('a folder', ['resume', 'j', 'd', OUT])
        for size in (thawing.FILE_BYTES, thawing.FILE_BYTES + 1):
            os.truncate(os.path.join(self.folder, 'f'), size)
            self.agrees(f'a file of {size} bytes', ['resume', 'j', 'f', OUT])


def edges(program, top, seed):
    """Files of other jobs, of other kinds and of the greatest sizes."""
    frozen = Frozen(program, top, seed, 1)
    if frozen.cases:
        frozen.edges()
    return frozen.tally


def check(program, top, seed, count, keep=None):
    """So many changed files of one seed."""
    frozen = Frozen(program, top, seed)
    if not frozen.cases:
        return frozen.tally
    for number in range(count):
        is_well, data = frozen.check(f'seed {seed} file {number}')
        if not is_well and keep:
            room.write(os.path.join(keep, f'{seed}-{number}-frozen'), data)
        if len(frozen.tally.failures) > 200:
            break
    if count >= 100:
        frozen.tally.holds('accepted and refused files', min(frozen.ended[0], frozen.ended[12]) > count // 20, f'{dict(frozen.ended)}')
    return frozen.tally
