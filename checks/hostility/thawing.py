"""A second reading of frozen files, written from docs/FORMATS.md alone, without a look at the program.

`judged` says of the bytes of a file whether a job resumes it: None, or the line and the kind of its refusal.
"""
import re
from dataclasses import dataclass, field

FILE_BYTES = 134_217_728
REGISTERS = [*(f'r{k}' for k in range(16)), *(f'r{k}_fiq' for k in range(8, 15)),
             *(f'r{k}_{mode}' for mode in ('irq', 'svc', 'abt', 'und') for k in (13, 14)),
             'cpsr', *(f'spsr_{mode}' for mode in ('fiq', 'irq', 'svc', 'abt', 'und'))]
MEMORIES = {'io': 1_024, 'wram': 262_144, 'iwram': 32_768, 'palette': 1_024, 'vram': 98_304, 'oam': 1_024, 'backup': 0}
BACKUPS = {'sram': 32_768, 'flash64': 65_536, 'flash128': 131_072}
PLACES = {1: 8, 2: 8, 3: 64, 4: 32_768}
MODES = {0x10, 0x11, 0x12, 0x13, 0x17, 0x1B, 0x1F}
OTHER, MULTI = 3, 2
HBLANK, DRAWN = 1_006, 159

# Bits of the halfwords that are stored, and which nothing else of a console says.
STORED = {
    0x000: 0xFFF7, 0x008: 0xDFFF, 0x00A: 0xDFFF, 0x00C: 0xFFFF, 0x00E: 0xFFFF,
    **{offset: 0x01FF for offset in range(0x010, 0x020, 2)},
    **{begin + offset: 0xFFFF for begin in (0x020, 0x030) for offset in (0, 2, 4, 6, 8, 12)},
    **{begin + offset: 0x0FFF for begin in (0x020, 0x030) for offset in (10, 14)},
    0x040: 0xFFFF, 0x042: 0xFFFF, 0x044: 0xFFFF, 0x046: 0xFFFF, 0x048: 0x3F3F, 0x04A: 0x3F3F, 0x050: 0x3FFF, 0x052: 0x1F1F, 0x054: 0x001F,
    0x060: 0x007F, 0x062: 0xFFFF, 0x064: 0x47FF, 0x068: 0xFFFF, 0x06C: 0x47FF, 0x070: 0x00E0, 0x072: 0xE0FF, 0x074: 0x47FF,
    0x078: 0xFF3F, 0x07C: 0x40FF, 0x080: 0xFF77, 0x082: 0x770F, 0x088: 0xC3FE,
    **{0x0B0 + 12 * k: 0xFFFF for k in range(4)}, **{0x0B2 + 12 * k: 0x0FFF if k else 0x07FF for k in range(4)},
    **{0x0B4 + 12 * k: 0xFFFF for k in range(4)}, **{0x0B6 + 12 * k: 0x07FF if k < 3 else 0x0FFF for k in range(4)},
    **{0x0B8 + 12 * k: 0x3FFF if k < 3 else 0xFFFF for k in range(4)}, **{0x0BA + 12 * k: 0xF7E0 if k < 3 else 0xFFE0 for k in range(4)},
    **{offset: 0xFFFF for offset in (0x120, 0x122, 0x124, 0x126, 0x12A)}, 0x132: 0xC3FF, 0x134: 0xC000,
    0x200: 0x3FFF, 0x202: 0x3FFF, 0x204: 0x5FFF, 0x208: 0x0001, 0x300: 0x0001,
}


class Refused(Exception):
    """A line is refused: its kind, its number where it is known, and by which rule."""

    def __init__(self, kind, line=None, rule=''):
        super().__init__(kind)
        self.kind = kind
        self.line = line
        self.rule = rule


@dataclass
class Seat:
    """What a job says of a console."""
    backup: str
    changes: list
    off: int


@dataclass
class Setup:
    """What a job says that a frozen file has to agree with: its digest, its cycles, the delay for each sender and receiver."""
    digest: str
    cycles: int
    delays: dict
    seats: list


@dataclass
class Console:
    """The numbers of a console's lines, each kind of line by its first words, and its memories."""
    lines: dict = field(default_factory=dict)
    bytes: dict = field(default_factory=dict)
    waves: list = field(default_factory=list)
    drawn: list = field(default_factory=list)

    def half(self, offset):
        data = self.bytes['io'].get(offset & ~31, bytes(32))
        return int.from_bytes(data[offset % 32:offset % 32 + 2], 'little')

    def one(self, head):
        return self.lines[head][0]


def setup_of(job, digest):
    """What a job says, by the second reading of jobs."""
    players = range(len(job.consoles))
    delays = {(a, b): job.links.get((a, b), job.delay or 512) for a in players for b in players if a != b}
    return Setup(digest, job.cycles, delays, [Seat(console.backup or 'sram', console.changes, console.off) for console in job.consoles])


# ---- Lines -----------------------------------------------------------------------------------------------------------------

DECIMAL = '(0|[1-9][0-9]{0,19})'


def digits(count):
    return '([0-9a-f]{%d})' % count


class Lines:
    """The lines of a file, which are taken one by one."""

    def __init__(self, data):
        self.lines = data.split(b'\n')[:-1]
        self.has_tail = not data.endswith(b'\n') and data != b''
        self.taken = 0

    def begins(self, word):
        """Whether the next line has this first word."""
        return self.taken < len(self.lines) and self.lines[self.taken].split(b' ')[0] == word

    def take(self, form):
        """The parts of the next line, which has to have this form."""
        self.taken += 1
        if self.taken > len(self.lines):
            raise Refused('Spelling')
        found = re.fullmatch(form.encode(), self.lines[self.taken - 1])
        if not found:
            raise Refused('Spelling')
        return [part.decode() for part in found.groups()]

    def finish(self):
        if self.taken < len(self.lines) or self.has_tail:
            self.taken += 1
            raise Refused('Spelling')


def ranged(value, is_right):
    if not is_right:
        raise Refused('Number')
    return value


def numbers(lines, head, *limits, form=DECIMAL, base=10):
    """The numbers behind the words of `head`, each below its limit."""
    values = [int(part, base) for part in lines.take(' '.join([head, *[form] * len(limits)]))]
    return ranged(values, all(value < limit for value, limit in zip(values, limits)))


def keep(lines, console, head, *limits, **more):
    console.lines[head] = numbers(lines, head, *limits, **more)


def read_registers(lines, console):
    for name in REGISTERS:
        keep(lines, console, name, 2**32, form=digits(8), base=16)
        value = console.one(name)
        ranged(value, not name.startswith(('cpsr', 'spsr')) or not value & 0x0FFFFF00)
        ranged(value, name != 'cpsr' or value & 31 in MODES)


def read_timers(lines, console):
    for k in range(4):
        keep(lines, console, f'timer {k}', 2**16, 2**16, 2**64, 1_024)
        control = console.lines[f'timer {k}'][2]
        ranged(control, not control & ~(0xC7 if k else 0xC3))
    for k in range(4):
        keep(lines, console, f'dma {k}', 2, 2, 2**32, 2**32, 65_537)


def read_sound(lines, console):
    for name in 'AB':
        _, count, held = lines.take(f'queue {name} {digits(2)} {DECIMAL} ((?:[0-9a-f][0-9a-f])+|-)')
        if int(count) != len(held) // 2:
            raise Refused('Spelling')
        ranged(count, int(count) <= 32)
    keep(lines, console, 'sequencer', 262_144)
    for k in range(1, 5):
        keep(lines, console, f'tone {k}', 2, PLACES[k], 2**24, 257, 16, 8, 8, 2_048)
    console.waves = [bytes.fromhex(lines.take(f'wave {bank} {digits(32)}')[0]) for bank in range(2)]


def read_memories(lines, console, seat):
    names = list(MEMORIES)
    console.bytes = {name: {} for name in names}
    last = (0, -1)
    while lines.begins(b'mem'):
        name, offset, data = lines.take(f'mem ({"|".join(names)}) {digits(6)} {digits(64)}')
        place = (names.index(name), int(offset, 16))
        if place <= last or not int(data, 16):
            raise Refused('Spelling')
        ranged(place, place[1] % 32 == 0 and place[1] < (MEMORIES[name] or BACKUPS[seat.backup]))
        console.bytes[name][place[1]] = bytes.fromhex(data)
        last = place


def read_drawn(lines, console):
    while lines.begins(b'drawn'):
        place = int(lines.take(f'drawn {DECIMAL} {digits(960)}')[0])
        if console.drawn and place <= console.drawn[-1]:
            raise Refused('Spelling')
        console.drawn.append(ranged(place, place < DRAWN))


def read_console(lines, setup, player):
    console, seat = Console(), setup.seats[player]
    lines.take('gbalink-state 1')
    lines.take(f'console {player}')
    keep(lines, console, 'clock', setup.cycles + 512)
    keep(lines, console, 'halted', 2)
    read_registers(lines, console)
    read_timers(lines, console)
    read_sound(lines, console)
    keep(lines, console, 'position', 228, 1_232)
    for k in (2, 3):
        keep(lines, console, f'affine {k}', 2**32, 2**32, form=digits(8), base=16)
    keep(lines, console, 'serial', 4, 2, 2, 2**40, 16, 2**32, 2**32)
    keep(lines, console, 'known', 4, 4, 4, 4)
    read_memories(lines, console, seat)
    if seat.backup != 'sram':
        keep(lines, console, 'flash', 5, 2, 2, 2)
    keep(lines, console, 'was', setup.cycles + 512)
    keep(lines, console, 'applied', 2**40)
    keep(lines, console, 'counts', 2**40, 2**40, 2**40)
    read_drawn(lines, console)
    return console


def read_signal(lines, count):
    sender, first, second = lines.take(f'signal {DECIMAL} {digits(16)} {digits(16)}')
    sender, first, second = int(sender), int(first, 16), int(second, 16)
    ranged(first, sender < count and first < 2**46)
    ranged(first, first >> 42 & 1 or not first >> 43 & 3 and not second % 2**32)
    ranged(first, first >> 45 & 1 or not second >> 32)
    return first % 2**40, sender


def read_file(lines, setup):
    lines.take('gbalink-frozen 1')
    if lines.take(f'job {digits(64)}') != [setup.digest]:
        raise Refused('Job')
    consoles = [read_console(lines, setup, player) for player in range(len(setup.seats))]
    signals = []
    while lines.begins(b'signal'):
        signals.append(read_signal(lines, len(consoles)))
    lines.take('end')
    lines.finish()
    return consoles, signals


# ---- The whole -------------------------------------------------------------------------------------------------------------

def clocks_are_near(consoles, delays):
    clocks = [(console.one('was'), console.one('clock')) for console in consoles]
    return all(was <= clock <= was + 512 for was, clock in clocks) and all(
        clocks[i][1] < clocks[j][1] + delay + 512 and clocks[i][0] < clocks[j][1] + delay for (j, i), delay in delays.items())


def signals_are_right(signals, consoles, delays):
    """The clock of each below its sender's and below what a peer can have heard of; each still to be taken by some peer."""
    players = range(len(consoles))
    for clock, sender in signals:
        peers = [i for i in players if i != sender]
        if clock >= consoles[sender].one('clock') or any(clock >= consoles[i].one('clock') + delays[i, sender] for i in peers):
            return False
        if not any(consoles[i].one('was') < clock + delays[sender, i] for i in peers):
            return False
    return signals == sorted(set(signals))


def keys_are_applied(console, seat):
    was, clock, applied = console.one('was'), console.one('clock'), console.one('applied')
    due = sum(at <= was for at, _ in seat.changes)
    return applied <= len(seat.changes) and (was == clock or applied == due)


def lines_are_drawn(console):
    line, dot = console.lines['position']
    if line <= DRAWN and dot < HBLANK:
        count = line
    else:
        count = line + 1 if line < DRAWN else 0
    return console.drawn == list(range(count))


def devices_go(console):
    channels = [(console.lines[f'dma {k}'], console.half(0x0BA + 12 * k)) for k in range(4)]
    tones = [console.lines[f'tone {k}'] for k in range(1, 5)]
    if any(active and (not control >> 15 or not left) for (active, _, _, _, left), control in channels):
        return False
    if any(on and not (wait and left) for on, _, wait, left, *_ in tones):
        return False
    is_silent = not (console.one('sequencer') or any(map(any, tones)) or any(console.half(offset) for offset in range(0x060, 0x082, 2)))
    return bool(console.half(0x084) & 0x80) or is_silent


def serial_is_right(console, player, seats):
    mode, runs, *rest = console.lines['serial']
    _, _, _, sent, word = rest
    if mode != (OTHER if console.half(0x134) >> 15 else console.half(0x128) >> 12 & 3):
        return False
    if runs and (mode == OTHER or console.one('clock') < seats[player].off) or not runs and any(rest):
        return False
    most = {0: 2**8, MULTI: 2**16}.get(mode, 2**32)
    strangers = [k for k in range(4) if k == player or k >= len(seats)]
    return max(sent, word) < most and all(console.lines['known'][k] == OTHER for k in strangers)


def registers_are_right(console):
    return console.one('r15') % (2 if console.one('cpsr') & 32 else 4) == 0


def flash_is_right(console, seat):
    return seat.backup != 'flash64' or (console.lines['flash'][0] != 4 and console.lines['flash'][3] == 0)


def told_halves(console, player, seat):
    """The halfwords, and bits of them, that other lines of the console or the job say: of each offset its value."""
    line, dot = console.lines['position']
    status = console.half(0x004) & 0xFF38
    pressed = int(seat.changes[console.one('applied') - 1][1], 16) if console.one('applied') else 0
    wave = console.waves[0 if console.half(0x070) & 0x40 else 1]
    serial = console.half(0x128) & 0x70CB
    if console.one('serial') == MULTI:
        serial |= (4 if player else 0) | player << 4
    told = {
        0x004: status | (160 <= line <= 226) | (dot >= HBLANK) << 1 | (status >> 8 == line) << 2, 0x006: line,
        0x084: console.half(0x084) & 0x80 | sum(console.one(f'tone {k}') << k - 1 for k in range(1, 5)),
        0x128: serial, 0x130: 0x3FF & ~pressed,
        **{0x090 + offset: int.from_bytes(wave[offset:offset + 2], 'little') for offset in range(0, 16, 2)},
    }
    for k in range(4):
        _, reload, control, _ = console.lines[f'timer {k}']
        told |= {0x100 + 4 * k: reload, 0x102 + 4 * k: control}
    return told


def io_is_right(console, player, seat):
    told = told_halves(console, player, seat)
    return all(console.half(offset) == told.get(offset, console.half(offset) & STORED.get(offset, 0)) for offset in range(0, 1_024, 2))


def broken_rule(consoles, signals, setup):
    """The first rule of the whole that is broken, or None."""
    if not clocks_are_near(consoles, setup.delays):
        return 'clocks'
    if not signals_are_right(signals, consoles, setup.delays):
        return 'signals'
    for player, (console, seat) in enumerate(zip(consoles, setup.seats)):
        if not keys_are_applied(console, seat):
            return 'keys'
        if not lines_are_drawn(console):
            return 'drawn lines'
        if not devices_go(console):
            return 'devices'
        if not serial_is_right(console, player, setup.seats):
            return 'serial unit'
        if not registers_are_right(console):
            return 'r15'
        if not flash_is_right(console, seat):
            return 'flash'
        if not io_is_right(console, player, seat):
            return 'io'
    return None


def judged(data, setup):
    """None where the job resumes this file, or the number of the first refused line and its kind."""
    if len(data) > FILE_BYTES:
        return 0, 'Spelling'
    lines = Lines(data)
    try:
        consoles, signals = read_file(lines, setup)
    except Refused as refused:
        return lines.taken, refused.kind
    return (lines.taken, 'Unsound') if broken_rule(consoles, signals, setup) else None
