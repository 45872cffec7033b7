"""Broken input: jobs, key files, logs, sources, images and words that are made and then changed, all from a seed.

Each call has to end with a status and a report of docs/FORMATS.md, and a refused one leaves its folder as it was. Where the
second reading says the status and the report, they have to be these; where it says a run, its log has to be the one it says.
"""
import collections
import hashlib
import os
import random
import re
import shutil

from . import reading, room

LIMITS = [0, 1, 2, 3, 4, 5, 7, 511, 512, 1023, 1024, 1025, 10**6, 10**6 + 1, 2**31 - 1, 2**31, 2**31 + 1, 2**32 - 1, 2**32, 2**38 - 2,
          2**38 - 1, 2**38, 2**38 + 1, 2**40 - 1, 2**40, 2**63, 2**64 - 1, 2**64, 10**19, 10**20 - 1, 10**20]
BYTES = [0, 9, 10, 11, 12, 13, 31, 32, 33, 35, 45, 46, 47, 48, 57, 58, 59, 64, 65, 90, 95, 96, 97, 122, 123, 126, 127, 128, 255]
KEYS = ['000', '001', '009', '3ff', '3FF', '2aB', '400', '3fg', '00', '0000', '-01', 'fff', '0x1', '+01']
LONGEST = 300_000  # console cycles of a run that is made here
OUT = 'g'
OLD = {'g.0.state': b'old state', 'g.1.words': b'old words', 'g.3.save': b'old save', 'g.log': b'old log', 'o': b'old bytes',
       'g.trace': b'old trace'}


class Maker:
    """Makes inputs that are right, and changes them."""

    def __init__(self, seed, names, digests, sources):
        self.random = random.Random(seed)
        self.names = names
        self.digests = digests
        self.sources = sources

    def often(self, part):
        return self.random.random() < part

    def pick(self, *choices):
        return self.random.choice(choices)

    # ---- Right inputs

    def number(self, least, most):
        """A number of a range, often at its ends, now and then with leading zeros."""
        value = self.pick(least, most, self.random.randint(least, most))
        return str(value).zfill(self.random.randint(1, 20)) if self.often(0.1) else str(value)

    def digest(self, name):
        if self.often(0.8):
            return ''
        digits = self.digests.get(name) or '%064x' % self.random.getrandbits(256)
        return ' sha256 ' + (digits.upper() if self.often(0.3) else digits)

    def changes(self, count):
        clocks = sorted(self.random.choice([0, 5, 1000, 2**38 - 1, self.random.randrange(2**38)]) for _ in range(count))
        return [f'{clock} {self.random.randrange(1024):03x}' for clock in clocks]

    def console(self, player, version, names):
        lines = [f'bios {names["bios"]}{self.digest(names["bios"])}']
        for kind in ('cart', 'save'):
            if self.often(0.3):
                lines.append(f'{kind} {names[kind]}{self.digest(names[kind])}')
        if version == 2 and self.often(0.2):
            lines.append(f'backup {self.pick("sram", "flash64", "flash128")}')
        if version == 2 and self.often(0.3):
            lines.append(f'off {self.pick("1", "777", "5000", "40000", "274877906943")}')
        for kind in reading.KINDS:
            if self.often(0.35):
                lines.append(f'out {kind}{self.digest(None) if self.often(0.1) else ""}')
        changes = self.changes(self.random.randrange(4))
        if changes and self.often(0.6):
            lines += ['key ' + change for change in changes]
        elif self.often(0.3):
            lines.append(f'keys {names["keys"]}{self.digest(names["keys"])}')
        keys = [line for line in lines if line.startswith('key ')]
        self.random.shuffle(lines)
        moved = iter(keys)
        return [f'console {player}'] + [next(moved) if line.startswith('key ') else line for line in lines]

    def job(self, names, most_cycles):
        version = self.pick(1, 2, 2)
        head = [f'cycles {self.number(1, min(most_cycles, reading.CYCLES[version]))}']
        if self.often(0.4):
            head.append(f'delay {self.number(1, 1024)}')
        if version == 2:
            pairs = [(a, b) for a in range(4) for b in range(4) if a != b]
            head += [f'link {a} {b} {self.number(1, 1024)}' for a, b in self.random.sample(pairs, self.pick(0, 0, 1, 2, 5, 12))]
        self.random.shuffle(head)
        lines = [f'gbalink {version}', *head]
        for player in range(self.pick(1, 1, 2, 3, 4)):
            lines += self.console(player, version, names)
        return self.spelled([*lines, 'end'])

    def spelled(self, lines):
        """The bytes of the lines, in one spelling or in a free one."""
        text = '\n'.join(lines).encode() + self.pick(b'\n', b'\n', b'', b'\r\n')
        if self.often(0.5):
            return text
        text = re.sub(rb' ', lambda _: self.pick(b' ', b'  ', b'\t', b' \t '), text)
        return re.sub(rb'\n', lambda _: self.pick(b'\n', b'\n', b' \r\n', b'\r\n', b'\n\n', b'\n# \0\xff note\n', b'\n \t\n  '), text)

    def key_file(self):
        return self.spelled(self.changes(self.random.randrange(8))) if self.often(0.95) else b''

    # ---- Changes

    def changed(self, data, vocabulary):
        for _ in range(self.pick(0, 1, 1, 1, 1, 1, 2, 2, 3)):
            change = self.pick(self.change_byte, self.change_lines, self.change_word, self.change_word)
            data = change(data, vocabulary)
        return data

    def change_byte(self, data, _):
        place = self.random.randrange(len(data) + 1)
        front, one, rest = data[:place], data[place:place + 1], data[place + 1:]
        other = bytes([self.random.choice(BYTES) if self.often(0.8) else self.random.randrange(256)])
        return self.pick(front + rest, front + one + one + rest, front + rest[:1] + one + rest[1:], front + other + rest,
                         front + other + one + rest, front, front + one + rest + data[-place - 1:])

    def change_lines(self, data, vocabulary):
        lines = data.split(b'\n')
        place, other = self.random.randrange(len(lines)), self.random.randrange(len(lines))
        line = lines[place]
        kind = self.random.randrange(9)
        if kind == 0:
            del lines[place]
        elif kind == 1:
            lines.insert(other, line)
        elif kind == 2:
            lines[place], lines[other] = lines[other], line
        elif kind == 3:
            lines.insert(other, lines.pop(place))
        elif kind == 4:
            lines[place:place + 2] = [self.pick(b'', b' ', b'\r').join(lines[place:place + 2])]
        elif kind == 5:
            lines[place] = line + self.pick(b'\r', b'\r\r', b' ', b'\t', b' x', b' sha256', b' #', b' ' + self.word(vocabulary))
        elif kind == 6:
            lines[place] = line.ljust(self.pick(399, 400, 401, 402), b' ') + self.pick(b'', b'\r')
        elif kind == 7:
            lines[place] = b'#'.ljust(self.pick(399, 400, 401), self.pick(b'\0', b'\xff', b'x')) + self.pick(b'', b'\r')
        else:
            words = [self.word(vocabulary) for _ in range(self.random.randrange(5))]
            lines.insert(place, b' '.join(words))
        return b'\n'.join(lines)

    def change_word(self, data, vocabulary):
        parts = re.split(rb'([ \t\r\n]+)', data)
        places = [place for place, part in enumerate(parts) if part and not part.isspace()]
        if not places:
            return self.word(vocabulary)
        place, other = self.random.choice(places), self.random.choice(places)
        kind = self.random.randrange(6)
        if kind == 0:
            del parts[place:place + 2]
        elif kind == 1:
            parts[place:place] = [parts[place], self.pick(b' ', b'\n')]
        elif kind == 2:
            parts[place], parts[other] = parts[other], parts[place]
        elif kind == 3:
            parts[place] = self.pick(parts[place].upper(), parts[place][:-1], b'0' + parts[place], parts[place].zfill(self.pick(20, 21)))
        else:
            parts[place] = self.word(vocabulary)
        return b''.join(parts)

    def word(self, vocabulary):
        kind = self.random.randrange(6)
        if kind < 2:
            return self.random.choice(vocabulary).encode()
        if kind == 2:
            return str(self.random.choice(LIMITS)).encode()
        if kind == 3:
            return self.random.choice(KEYS).encode()
        if kind == 4:
            return self.name().encode()
        return self.pick(b'sha256', b'a' * 64, b'A' * 63, b'0' * 65, b'g' * 64, b'SHA256', b'#', b'end', b'-', b'+1', b'-1', b'1.0')

    def name(self):
        most = self.pick(179, 180, 181, 199, 200, 201)
        return self.pick(*self.names, 'x' * most, 'x' * most, '-', '--', '.', '/', 'a/b', './b', 'a b', 'b\0', 'b+', 'B', 'g.0.state',
                         'g.1.words', 'g.log', 'j', 'none', '')


VOCABULARY = sorted(reading.WORDS[2]) + list(reading.KINDS) + ['1', '2', '0', '3', 'sha256', 'b', 'none']


def reader(folder):
    """What the second reading asks for the bytes of a file of the folder."""
    def data(entry):
        try:
            return room.read(os.path.join(folder, entry))
        except FileNotFoundError:
            return None
        except OSError:  # a folder, or a name that goes by a file as by a folder
            return False
    return data


WORD = '[0-9a-f]{8}'
STEP = re.compile(rf'([0-3]) ([0-9]+) (arm {WORD} {WORD}|thumb {WORD} [0-9a-f]{{4}}|dma [0-3]|idle|irq|off)((?: {WORD}){{17}})( ; [ -~]+)?')


def is_step(line, job):
    """Whether this is a line of a trace of the job."""
    found = STEP.fullmatch(line)
    if not found or int(found[1]) >= len(job.consoles) or int(found[2]) >= job.cycles:
        return False
    return (found[5] is not None) == found[3].startswith(('arm', 'thumb'))


class Broken:
    """The calls of one worker, in folders of its own."""

    def __init__(self, program, top, seed, sources, commands=()):
        self.program = program
        self.commands = commands
        self.top = top
        self.tally = room.Tally('broken input')
        self.ended = collections.Counter()
        self.full = room.fresh(os.path.join(top, 'full'), b=bios_image(), c=room.cartridge(bytes(400)), s=bytes(32_768),
                               k='5 001\n5000 3ff\n', **OLD)
        self.bare = room.fresh(os.path.join(top, 'bare'), **OLD)
        digests = {name: room.digest(os.path.join(self.full, name)) for name in 'bcsk'}
        self.make = Maker(seed, ['b', 'c', 's', 'k'], digests, sources)
        self.log = self.make_log()

    def make_log(self):
        job = 'gbalink 2\ncycles 3000\nlink 0 1 7\nconsole 0\nbios b\ncart c\nsave s\noff 9\nkeys k\nout words\nout state\nout save\n' \
              'console 1\nbios b\nkey 5 3ff\nout samples\nout frames\nend\n'
        room.write(os.path.join(self.full, 'j'), job)
        room.call(self.program, ['run', 'j', 'l'], self.full)
        return room.read(os.path.join(self.full, 'l.log')) if os.path.exists(os.path.join(self.full, 'l.log')) else job.encode()

    # ---- Calls

    def restore(self):
        for name in os.listdir(self.full):
            if name.startswith(OUT + '.') or name == 'o':
                os.remove(os.path.join(self.full, name))
        for name, data in OLD.items():
            room.write(os.path.join(self.full, name), data)

    def call(self, name, words, folder, writes=False):
        """Calls, and looks at what is asked of each call: its end, its report, and the folder of one that is to write nothing."""
        before = room.marks(folder)
        got = room.call(self.program, words, folder)
        self.ended[got.status] += 1
        is_well = self.tally.holds(name, got.status in room.STATUSES and is_report(got), f'{got}\n  of {words}')
        if is_well and got.status in room.REFUSALS and not writes:
            is_well = self.tally.holds(name, room.marks(folder) == before, f'a refused call touched files: {got}')
        return got, is_well

    def said(self, name, words, folder):
        """The job of a call and its inputs, as the second reading has them; or of a refused call None, None and whether the program
        answers the same."""
        try:
            return *reading.run_of(words, reader(folder)), True
        except reading.Answer as answer:
            got, is_well = self.call(name, words, folder)
            return None, None, is_well and self.tally.agrees(name, got.pair, answer.pair)

    def call_run(self, name, folder, job='j'):
        """A call of `run` beside what the second reading says of it."""
        words = ['run', job, OUT]
        said, inputs, is_well = self.said(name, words, folder)
        if said is None:
            return is_well
        if said.cycles * len(said.consoles) > LONGEST:
            self.ended['left out, a long run'] += 1
            return True
        got, is_well = self.call(name, words, folder, writes=True)
        is_well = is_well and self.agrees_with_run(name, got, said, inputs, folder)
        self.restore()
        return is_well

    def agrees_with_run(self, name, got, job, inputs, folder):
        outputs = reading.outputs_of(job, OUT)
        if not all(os.path.exists(os.path.join(folder, output)) for output, _ in outputs):
            return self.tally.holds(name, False, f'not all outputs are there: {got}')
        digests = {output: room.digest(os.path.join(folder, output)) for output, _ in outputs}
        log = reading.log_of(job, inputs, digests, OUT)
        differing = [(output, stated) for output, stated in outputs if stated not in (None, digests[output])]
        if differing:
            output, stated = differing[0]
            wanted = (7, f'digest {output} stated {stated} got {digests[output]}\n')
        else:
            counts = re.sub(r'log .*\n', '', got.out)
            wanted = (0, f'{counts}log {hashlib.sha256(log).hexdigest()}\n')
        is_well = self.tally.agrees(name, got.pair, wanted)
        return self.tally.agrees(name, room.read(os.path.join(folder, OUT + '.log')), log) and is_well

    def call_trace(self, name, folder):
        """A call of `trace` of the job, which writes its lines and touches nothing else."""
        words = ['trace', 'j', str(self.make.pick(0, 0, 1, self.make.random.randrange(30_000), 2**40 - 1)),
                 str(self.make.pick(1, 2, self.make.random.randrange(1, 2_000))), OUT]
        said, _, is_well = self.said(name, words, folder)
        if said is None:
            return is_well
        if said.cycles * len(said.consoles) > LONGEST:
            return True
        before = room.marks(folder)
        got, is_well = self.call(name, words, folder, writes=True)
        lines = room.read(os.path.join(folder, OUT + '.trace')).decode('latin-1').split('\n')
        is_well = is_well and self.tally.agrees(name, got.pair, (0, f'trace {len(lines) - 1}\n'))
        wrong = [line for line in lines[:-1] if not is_step(line, said)] + ([lines] if lines[-1] or len(lines) > int(words[3]) + 1 else [])
        is_well = self.tally.holds(name, not wrong, f'no steps: {wrong[:3]}') and is_well
        is_well = self.tally.agrees(name, {**room.marks(folder), f'{OUT}.trace': 0}, {**before, f'{OUT}.trace': 0}) and is_well
        self.restore()
        return is_well

    def call_freeze(self, name, folder):
        """A call of `freeze` of the job, whose text names the job and has each console at a clock that isn't before CLOCK."""
        clock = self.make.pick(0, 1, 1, self.make.random.randrange(1, 30_000), 2**38, 2**38 + 1)
        words = ['freeze', 'j', str(clock), OUT]
        said, inputs, is_well = self.said(name, words, folder)
        if said is None:
            return is_well
        if clock * len(said.consoles) > LONGEST:
            return True
        before = room.marks(folder)
        got, is_well = self.call(name, words, folder, writes=True)
        is_well = is_well and self.tally.holds(name, got.status == 0, f'{got}')
        if is_well:
            outputs = reading.outputs_of(said, OUT)
            digest = reading.frozen_digest(said, inputs)
            lines = room.read(os.path.join(folder, OUT + '.frozen')).decode('latin-1').split('\n')
            self.tally.agrees(name, [*lines[:2], *lines[-2:]], ['gbalink-frozen 1', f'job {digest}', 'end', ''])
            clocks = [line.split()[1] for line in lines if line.startswith('clock ')]
            told = re.findall('clock ([0-9]+)', got.out)
            is_well = self.tally.agrees(name, (clocks, len(clocks)), (told, len(said.consoles)))
            is_well = self.tally.holds(name, all(clock <= int(one) < clock + 512 for one in clocks), f'{clocks}') and is_well
            written = {f'{OUT}.frozen': 0, **{output: 0 for output, _ in outputs}}
            is_well = self.tally.agrees(name, {**room.marks(folder), **written}, {**before, **written}) and is_well
        self.restore()
        return is_well

    # ---- The kinds of input

    def job(self, name):
        """A changed job, whose run or whose first absent file shows that it was accepted."""
        call = self.call_run
        if self.make.often(0.15):
            call = self.make.pick(self.call_trace, self.call_freeze)
        is_full = self.make.often(0.12 if call == self.call_run else 0.5)
        names = {'bios': 'b', 'cart': 'c', 'save': 's', 'keys': 'k'}
        folder = self.full if is_full else self.bare
        data = self.make.changed(self.make.job(names, 20_000 if is_full else 2**38), VOCABULARY)
        room.write(os.path.join(folder, 'j'), data)
        return call(name, folder), data

    def log_line(self, name):
        data = self.make.changed(self.log, VOCABULARY)
        folder = self.full if self.make.often(0.5) else self.bare
        room.write(os.path.join(folder, 'j'), data)
        return self.call_run(name, folder), data

    def key_file(self, name):
        """A changed key file, behind which an absent file shows that it was accepted."""
        data = self.make.changed(self.make.key_file(), KEYS + ['0', '1', '274877906943', '274877906944'])
        room.write(os.path.join(self.full, 'f'), data)
        rest = 'end\n' if self.make.often(0.1) else 'console 1\nbios none\nend\n'
        room.write(os.path.join(self.full, 'j'), f'gbalink 2\ncycles 9\nconsole 0\nbios b\nkeys f\n{rest}')
        return self.call_run(name, self.full), data

    def image(self, name):
        """An image of another length, or a cartridge with another header."""
        kind, entry = self.make.pick(('bios', 'b'), ('cart', 'c'), ('cart', 'c'), ('cart', 'c'), ('save', 's'))
        data = bytearray(room.read(os.path.join(self.full, entry)))
        place = self.make.pick(0xB2, 0xBD, 0xA0, 0xBC, 0xBE, 0x9F, self.make.random.randrange(192))
        if kind == 'cart' and self.make.often(0.7):
            data[place] = (data[place] + self.make.pick(1, 255, 128)) % 256
        if kind == 'cart' and self.make.often(0.3):
            data = data[:self.make.pick(0, 1, 0xB2, 0xB3, 0xBD, 0xBE, 191, 192, 193)]
        if kind != 'cart' and self.make.often(0.9):
            data = data[:-1] if self.make.often(0.3) else data + bytes(self.make.pick(1, 2, 16_384)) if self.make.often(0.7) else b''
        room.write(os.path.join(self.full, 'i'), data)
        lines = {'bios': 'bios b', kind: f'{kind} i'}
        room.write(os.path.join(self.full, 'j'), 'gbalink 1\ncycles 50\nconsole 0\n' + '\n'.join(lines.values()) + '\nend\n')
        return self.call_run(name, self.full), bytes(data)

    def source(self, name):
        """A changed source: its status and its report, and the length of what was assembled."""
        data = self.make.changed(self.make.random.choice(self.make.sources), self.make.sources[0].decode().split())
        room.write(os.path.join(self.full, 'a'), data)
        got, is_well = self.call(name, ['asm', 'a', 'o'], self.full)
        if is_well and got.status == 0:
            is_well = self.tally.agrees(name, got.out, f'asm {os.path.getsize(os.path.join(self.full, "o"))}\n')
        elif is_well:
            line = re.fullmatch(r'source a line ([0-9]+) \w+\n', got.out)
            is_well = self.tally.holds(name, line and 1 <= int(line[1]) <= len(reading.lines_of(data)), str(got))
        return is_well, data

    def listing(self, name):
        """Random bytes, whose listing is assembled to the same bytes."""
        data = self.make.random.randbytes(self.make.pick(0, 1, 2, 3, 4, 5, 6, 7, 64, 999, 2000))
        room.write(os.path.join(self.full, 'i'), data)
        got, is_well = self.call(name, [self.make.pick('dis', 'tdis'), 'i', 'o'], self.full)
        is_well = is_well and self.tally.agrees(name, got.pair, (0, f'dis {os.path.getsize(os.path.join(self.full, "o"))}\n'))
        os.replace(os.path.join(self.full, 'o'), os.path.join(self.full, 'a'))
        got, _ = self.call(name, ['asm', 'a', 'o'], self.full)
        is_well = self.tally.agrees(name, got.pair, (0, f'asm {len(data)}\n')) and is_well
        return self.tally.agrees(name, room.read(os.path.join(self.full, 'o')), data) and is_well, data

    def words(self, name):
        """Words that are changed, in a folder without inputs."""
        words = self.make.pick(['run', 'j', 'g'], ['asm', 'a', 'o'], ['dis', 'i', 'o'], ['tdis', 'i', 'o'], ['gen', '7', '90', 'g'],
                               ['trace', 'j', '0', '1', 'g'], ['freeze', 'j', '1', 'g'], *map(list, self.commands))
        for _ in range(self.make.pick(1, 1, 2, 3)):
            place = self.make.random.randrange(len(words) + 1)
            words[place:place + self.make.pick(0, 1, 1)] = [self.make.word(VOCABULARY).decode() for _ in range(self.make.pick(0, 1, 1, 1))]
        words = [word.replace('\0', '') for word in words]
        data = repr(words).encode()
        folder = os.path.join(self.top, 'words')
        shutil.rmtree(folder, ignore_errors=True)
        room.fresh(folder, j='gbalink 1\n', a='mov r0, #1\n', i=b'1234')
        try:
            reading.command_of(words)
        except reading.Answer as answer:
            got, is_well = self.call(name, words, folder)
            return is_well and self.tally.agrees(name, got.pair, answer.pair), data
        if words[0] == 'gen' and int(words[2]) > LONGEST:
            return True, data
        got, is_well = self.call(name, words, folder)
        return self.tally.holds(name, is_well and got.status != 2, f'{got} of {words}'), data


def bios_image():
    """Sets the timers, the serial unit and the sound, starts transfers, and counts."""
    return room.bios(0xE3A04404, 0xE2845C01, 0xE3A00000, 0xE1C503B4, 0xE3A00A02, 0xE3800003, 0xE1C502B8, 0xE3800080, 0xE1C502BA,
                     0xE1C502B8, 0xE2866001, 0xEAFFFFFB)


CONSOLE = r'console [0-3] clock [0-9]+ frames [0-9]+ samples [0-9]+ words [0-9]+'
SUMMARY = rf'{CONSOLE}(\n{CONSOLE}){{0,3}}'
REPORTS = {
    2: r'words', 3: r'absent \S{1,200}', 4: r'store \S{1,200}', 6: r'image \S{1,200} (BiosLength|TooShort|TooLong|FixedByte|HeaderCheck|SaveLength)',
    5: r'job \S{1,200} line [0-9]+ (Long|Byte|Word|Order|Repeated|Number|Name|Missing|Extra|Digest|Clash)',
    7: r'digest \S{1,200} stated [0-9a-f]{64} got [0-9a-f]{64}', 8: r'source \S{1,200} line [0-9]+ (Size|Unknown|Operand|Repeated|Label|Range)',
    9: r'sink \S{1,200}', 10: r'memory', 13: r'',
    0: rf'trace [0-9]+|{SUMMARY}(\nlog [0-9a-f]{{64}})?|(asm|dis) [0-9]+',
}


def is_report(answer):
    """Whether the report is of the form that the table has for the status."""
    return re.fullmatch(f'(?:{REPORTS[answer.status]})' + ('\n' if answer.status != 13 else ''), answer.out) is not None


# How many of a hundred inputs are of each kind.
SHARES = {Broken.job: 60, Broken.key_file: 14, Broken.log_line: 8, Broken.source: 8, Broken.image: 4, Broken.words: 4, Broken.listing: 2}


def check(program, top, seed, count, sources, keep=None, commands=()):
    """So many inputs of one seed; `commands` are words of commands that don't stand in every program."""
    os.makedirs(top)
    broken = Broken(program, top, seed, sources, commands)
    kinds = [kind for kind, share in SHARES.items() for _ in range(share)]
    for number in range(count):
        kind = broken.make.random.choice(kinds)
        is_well, data = kind(broken, f'seed {seed} input {number} ({kind.__name__})')
        if not is_well and keep:
            room.write(os.path.join(keep, f'{seed}-{number}-{kind.__name__}'), data)
        if len(broken.tally.failures) > 200:
            break
    return broken.tally


def edges(program, top):
    """Files of the greatest sizes, one byte more, and counts at and past their limits."""
    tally = room.Tally('sizes')
    folder = room.fresh(top, b=bios_image())
    job = 'gbalink 1\ncycles 1\nconsole 0\nbios b\n%send\n'

    def agrees(name, wanted):
        tally.agrees(name, room.call(program, ['run', 'j', 'g'], folder).pair, wanted)
    room.write(os.path.join(folder, 'j'), b'')
    for size, wanted in ((reading.JOB_BYTES, 'job j line 1 Long\n'), (reading.JOB_BYTES + 1, 'job j line 0 Long\n')):
        os.truncate(os.path.join(folder, 'j'), size)
        agrees(f'a job of {size} bytes', (5, wanted))
    for size, wanted in ((reading.KEY_FILE_BYTES, 'job k line 1 Long\n'), (reading.KEY_FILE_BYTES + 1, 'job k line 0 Long\n')):
        room.write(os.path.join(folder, 'j'), job % 'keys k\n')
        room.write(os.path.join(folder, 'k'), b'')
        os.truncate(os.path.join(folder, 'k'), size)
        agrees(f'a key file of {size} bytes', (5, wanted))
    for more, kind in (('5 3ff\n', 'Long'), ('5 3ff 1\n', 'Extra'), ('5 400\n', 'Number'), ('4 000\n', 'Order'), ('5\n', 'Missing'), ('', None)):
        room.write(os.path.join(folder, 'k'), '5 3ff\n' * reading.CHANGES + more)
        room.write(os.path.join(folder, 'j'), job % 'keys k\nconsole 1\nbios none\n')
        agrees(f'a million changes and {more!r}', (5, f'job k line 1000001 {kind}\n') if kind else (3, 'absent none\n'))
    room.write(os.path.join(folder, 'j'), job % ('key 5 3ff\n' * reading.CHANGES + 'key 5 3ff\n'))
    agrees('a million and one key lines', (5, 'job j line 1000005 Long\n'))
    room.write(os.path.join(folder, 'b'), bios_image())
    for size, wanted in ((reading.IMAGE_BYTES, (6, 'image c FixedByte\n')), (reading.IMAGE_BYTES + 1, (6, 'image c TooLong\n'))):
        room.write(os.path.join(folder, 'j'), job % 'cart c\n')
        room.write(os.path.join(folder, 'c'), b'')
        os.truncate(os.path.join(folder, 'c'), size)
        agrees(f'a cartridge of {size} bytes', wanted)
        if size > reading.IMAGE_BYTES:
            tally.agrees('an image to be listed', room.call(program, ['dis', 'c', 'o'], folder).pair, (6, 'image c TooLong\n'))
    return tally
