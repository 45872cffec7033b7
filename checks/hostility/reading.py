"""A second reading of words, jobs, key files and images, written from docs/FORMATS.md alone, without a look at the program.

`answer` says the status and the report of a call, up to where a run begins; `log_of` says the log of a run that has ended.
"""
import hashlib
import re
from dataclasses import dataclass, field

from . import thawing

JOB_BYTES = 134_217_728
KEY_FILE_BYTES = 33_554_432
IMAGE_BYTES = 33_554_432
LINE_BYTES = 400
CHANGES = 1_000_000
STEPS = 1_000_000
CLOCKS = 2**38
CYCLES = {1: 2_147_483_648, 2: 274_877_906_944}
MORE = {'trace': 'trace', 'freeze': 'frozen'}  # the file that a command writes beside the outputs of its job
KINDS = ('frames', 'samples', 'words', 'state', 'save')
INPUTS = ('bios', 'cart', 'save', 'keys')
HEAD = ('gbalink', 'cycles', 'delay', 'link')
WORDS = {1: {'gbalink', 'cycles', 'delay', 'console', 'end', 'key', 'out', *INPUTS}}
WORDS[2] = WORDS[1] | {'link', 'backup', 'off'}
BACKUPS = {'sram': 32_768, 'flash64': 65_536, 'flash128': 131_072}


class Refused(Exception):
    """A line is refused: its kind, and its number where it is known."""

    def __init__(self, kind, line=None):
        super().__init__(kind)
        self.kind = kind
        self.line = line


@dataclass
class Input:
    name: str
    digest: str | None
    line: int


@dataclass
class Console:
    inputs: dict = field(default_factory=dict)
    changes: list = field(default_factory=list)
    outputs: dict = field(default_factory=dict)
    backup: str | None = None
    off: int = 0


@dataclass
class Job:
    version: int | None = None
    cycles: int | None = None
    delay: int | None = None
    links: dict = field(default_factory=dict)
    consoles: list = field(default_factory=list)
    is_ended: bool = False


# ---- Lines and words -------------------------------------------------------------------------------------------------------

def lines_of(data):
    """The lines without their ends. CR belongs to an end only before LF, and nothing stands behind a last LF."""
    whole = data.split(b'\n')
    rest = whole.pop()
    lines = [line[:-1] if line.endswith(b'\r') else line for line in whole]
    return lines + [rest] if rest else lines


def is_skipped(line):
    return line.startswith(b'#') or not line.strip(b' \t')


class Words:
    """The words of a line, which are taken from left to right."""

    def __init__(self, line):
        self.words = [word.decode('ascii') for word in re.split(rb'[ \t]+', line) if word]

    def take(self):
        if not self.words:
            raise Refused('Missing')
        return self.words.pop(0)

    def finish(self):
        if self.words:
            raise Refused('Extra')


def words_of(line):
    """The words of a line that isn't skipped, or None of one that is."""
    if len(line) > LINE_BYTES:
        raise Refused('Long')
    if is_skipped(line):
        return None
    if re.search(rb'[^!-~ \t]', line):
        raise Refused('Byte')
    return Words(line)


def each_line(data, read):
    """Calls `read` with the number and the words of each line that isn't skipped; answers how many lines there are."""
    number = 0
    for number, line in enumerate(lines_of(data), 1):
        try:
            words = words_of(line)
            if words:
                read(number, words)
        except Refused as refused:
            raise Refused(refused.kind, number) from None
    return number


def number_of(word, least, most):
    if not re.fullmatch(r'[0-9]{1,20}', word) or not least <= int(word) <= most:
        raise Refused('Number')
    return int(word)


def is_name(word, most=200):
    return re.fullmatch(r'[A-Za-z0-9._/-]{1,%d}' % most, word) is not None and word != '-'


def digest_of(words):
    """The digest at the end of a line, or None where there is none."""
    if not words.words:
        return None
    if words.take() != 'sha256':
        raise Refused('Word')
    digits = words.take()
    if not re.fullmatch(r'[0-9A-Fa-f]{64}', digits):
        raise Refused('Digest')
    return digits.lower()


def read_change(words, changes):
    """CLOCK KEYS, the rest of a line."""
    clock = number_of(words.take(), 0, CLOCKS - 1)
    if changes and clock < changes[-1][0]:
        raise Refused('Order')
    keys = words.take()
    if not re.fullmatch(r'[0-3][0-9A-Fa-f]{2}', keys):
        raise Refused('Number')
    words.finish()
    if len(changes) == CHANGES:
        raise Refused('Long')
    changes.append((clock, keys.lower()))


# ---- Jobs ------------------------------------------------------------------------------------------------------------------

def stands_right(job, word):
    """Whether a line with this first word may stand here, were it the first of its kind."""
    if word == 'gbalink':
        return True
    if job.version is None:
        return False
    if word in HEAD:
        return not job.consoles
    if word == 'console':
        return job.cycles is not None
    if word == 'end':
        return bool(job.consoles)
    if not job.consoles:
        return False
    return not (word == 'key' and 'keys' in job.consoles[-1].inputs or word == 'keys' and job.consoles[-1].changes)


def stood_before(job, word):
    if word == 'gbalink':
        return job.version is not None
    if word in ('cycles', 'delay'):
        return getattr(job, word) is not None
    if word == 'backup':
        return job.consoles[-1].backup is not None
    if word == 'off':
        return job.consoles[-1].off > 0
    return word in INPUTS and word in job.consoles[-1].inputs


def read_version(job, words, _):
    version = words.take()
    if version not in ('1', '2'):
        raise Refused('Word')
    words.finish()
    job.version = int(version)


def read_cycles(job, words, _):
    job.cycles = number_of(words.take(), 1, CYCLES[job.version])
    words.finish()


def read_delay(job, words, _):
    job.delay = number_of(words.take(), 1, 1024)
    words.finish()


def read_link(job, words, _):
    sender = number_of(words.take(), 0, 3)
    receiver = number_of(words.take(), 0, 3)
    if sender == receiver:
        raise Refused('Number')
    if (sender, receiver) in job.links:
        raise Refused('Repeated')
    job.links[sender, receiver] = number_of(words.take(), 1, 1024)
    words.finish()


def end_console(job):
    if job.consoles and 'bios' not in job.consoles[-1].inputs:
        raise Refused('Missing')


def read_console(job, words, _):
    if number_of(words.take(), 0, 10**20) != len(job.consoles) or len(job.consoles) == 4:
        raise Refused('Order')
    end_console(job)
    words.finish()
    job.consoles.append(Console())


def read_end(job, words, _):
    end_console(job)
    words.finish()
    job.is_ended = True


def read_backup(job, words, _):
    kind = words.take()
    if kind not in BACKUPS:
        raise Refused('Word')
    words.finish()
    job.consoles[-1].backup = kind


def read_off(job, words, _):
    job.consoles[-1].off = number_of(words.take(), 1, 274_877_906_943)
    words.finish()


def read_out(job, words, _):
    kind = words.take()
    if kind not in KINDS:
        raise Refused('Word')
    if kind in job.consoles[-1].outputs:
        raise Refused('Repeated')
    digest = digest_of(words)
    words.finish()
    job.consoles[-1].outputs[kind] = digest


def read_input(kind):
    def read(job, words, line):
        name = words.take()
        if not is_name(name):
            raise Refused('Name')
        digest = digest_of(words)
        words.finish()
        job.consoles[-1].inputs[kind] = Input(name, digest, line)
    return read


READ = {
    'gbalink': read_version, 'cycles': read_cycles, 'delay': read_delay, 'link': read_link, 'console': read_console,
    'backup': read_backup, 'off': read_off, 'out': read_out, 'end': read_end, 'key': lambda job, words, _: read_change(words, job.consoles[-1].changes),
    **{kind: read_input(kind) for kind in INPUTS},
}


def job_of(data):
    """The job that these bytes say."""
    if len(data) > JOB_BYTES:
        raise Refused('Long', 0)
    job = Job()

    def read(number, words):
        if job.is_ended:
            raise Refused('Extra')
        word = words.take()
        if word not in WORDS[job.version or 1]:
            raise Refused('Word')
        if not stands_right(job, word):
            raise Refused('Order')
        if stood_before(job, word):
            raise Refused('Repeated')
        READ[word](job, words, number)

    count = each_line(data, read)
    if not job.is_ended:
        raise Refused('Missing', count + 1)
    return job


def changes_of(data):
    """The key changes that the bytes of a key file say."""
    if len(data) > KEY_FILE_BYTES:
        raise Refused('Long', 0)
    changes = []
    each_line(data, lambda _, words: read_change(words, changes))
    return changes


def outputs_of(job, out):
    """The names of the outputs that a job asks for, in the order of the files, with their stated digests; and the log's."""
    named = [(f'{out}.{k}.{kind}', console.outputs[kind]) for k, console in enumerate(job.consoles)
             for kind in KINDS if kind in console.outputs]
    return named + [(f'{out}.log', None)]


def refuse_clash(job, names, out, *more):
    """Refuses a job where one of the files that are read by these names, or an input, would be written."""
    written = {*more, *(output for output, _ in outputs_of(job, out))}
    clashing = [0] if written & {*names} else []
    clashing += [entry.line for console in job.consoles for entry in console.inputs.values() if entry.name in written]
    if clashing:
        raise Refused('Clash', min(clashing))


# ---- Images ----------------------------------------------------------------------------------------------------------------

def image_kind(kind, data, backup):
    """Why the image is refused, or None, where the console saves in this."""
    if kind == 'bios':
        return None if len(data) == 16_384 else 'BiosLength'
    if kind == 'save':
        return None if len(data) == BACKUPS[backup or 'sram'] else 'SaveLength'
    if len(data) < 192:
        return 'TooShort'
    if len(data) > IMAGE_BYTES:
        return 'TooLong'
    if data[0xB2] != 0x96:
        return 'FixedByte'
    return None if data[0xBD] == (-sum(data[0xA0:0xBD]) - 0x19) % 256 else 'HeaderCheck'


# ---- The answers -----------------------------------------------------------------------------------------------------------

class Answer(Exception):
    """The status and the report of a call that is refused."""

    def __init__(self, status, report):
        super().__init__(report)
        self.pair = (status, report + '\n')


def command_of(words):
    """The words of a command, or the answer to others."""
    if len(words) == 3 and words[0] == 'run' and is_name(words[1]) and is_name(words[2], 180):
        return words
    if len(words) == 3 and words[0] in ('asm', 'dis', 'tdis'):
        if is_name(words[1]) and is_name(words[2], 180) and words[1] != words[2]:
            return words
    if len(words) == 4 and words[0] == 'gen' and is_name(words[3], 180):
        if all(re.fullmatch(r'[0-9]{1,20}', word) for word in words[1:3]):
            if int(words[1]) < 2**32 and 1 <= int(words[2]) <= CYCLES[1]:
                return words
    if len(words) == 4 and words[0] == 'freeze' and is_name(words[1]) and is_name(words[3], 180):
        if re.fullmatch(r'[0-9]{1,20}', words[2]) and 1 <= int(words[2]) <= CYCLES[2]:
            return words
    if len(words) == 4 and words[0] == 'resume' and all(map(is_name, words[1:3])) and is_name(words[3], 180):
        return words
    if len(words) == 5 and words[0] == 'trace' and is_name(words[1]) and is_name(words[4], 180):
        if all(re.fullmatch(r'[0-9]{1,20}', word) for word in words[2:4]):
            if int(words[2]) < 2**40 and 1 <= int(words[3]) <= STEPS:
                return words
    raise Answer(2, 'words')


def read_or_answer(name, read):
    """The bytes of a file that `read` gives: None stands for a file that isn't there, False for one that can't be read."""
    data = read(name)
    if data is None:
        raise Answer(3, f'absent {name}')
    if data is False:
        raise Answer(4, f'store {name}')
    return data


def parsed(name, parse, *arguments):
    try:
        return parse(*arguments)
    except Refused as refused:
        raise Answer(5, f'job {name} line {refused.line} {refused.kind}') from None


def run_of(words, read):
    """The job of a call that comes to a run, whole or in part, or to a trace, with its key changes, and its inputs' digests; or
    its answer."""
    command, name, *_, out = command_of(words)
    job = parsed(name, job_of, read_or_answer(name, read))
    names = words[1:3] if command == 'resume' else [name]
    parsed(name, refuse_clash, job, names, out, *([f'{out}.{MORE[command]}'] if command in MORE else []))
    if command == 'freeze' and int(words[2]) > job.cycles:
        raise Answer(5, f'job {name} line 0 Number')
    files = {}
    for console in job.consoles:
        for kind in INPUTS:
            entry = console.inputs.get(kind)
            if entry is None:
                continue
            data = read_or_answer(entry.name, read)
            if kind == 'keys':
                console.changes = parsed(entry.name, changes_of, data)
            elif image_kind(kind, data, console.backup):
                raise Answer(6, f'image {entry.name} {image_kind(kind, data, console.backup)}')
            got = hashlib.sha256(data).hexdigest()
            if entry.digest not in (None, got):
                raise Answer(7, f'digest {entry.name} stated {entry.digest} got {got}')
            files[entry.name] = got
    if command == 'resume':
        refuse_frozen(job, files, words[2], read_or_answer(words[2], read))
    return job, files


def refuse_frozen(job, files, name, data):
    refused = thawing.judged(data, thawing.setup_of(job, frozen_digest(job, files)))
    if refused:
        raise Answer(12, f'frozen {name} line {refused[0]} {refused[1]}')


def frozen_digest(job, inputs):
    """The digest by which a frozen file names its job: that of its log without the digests of its outputs."""
    log = log_of(job, inputs, {output: '' for output, _ in outputs_of(job, '')}, '')
    return hashlib.sha256(re.sub(rb'(?m)^(out [a-z]+) sha256 $', rb'\1', log)).hexdigest()


def console_lines(job, k, inputs, outputs, out):
    console = job.consoles[k]
    yield f'console {k}'
    for kind in ('bios', 'cart', 'save'):
        if kind in console.inputs:
            name = console.inputs[kind].name
            yield f'{kind} {name} sha256 {inputs[name]}'
    if console.backup not in (None, 'sram'):
        yield f'backup {console.backup}'
    if console.off:
        yield f'off {console.off}'
    for clock, keys in console.changes:
        yield f'key {clock} {keys}'
    for kind in KINDS:
        if kind in console.outputs:
            yield f'out {kind} sha256 {outputs[f"{out}.{k}.{kind}"]}'


def log_of(job, inputs, outputs, out):
    """The log of a run, with the digests of its inputs and of its outputs by their names."""
    lines = ['gbalink 2', f'cycles {job.cycles}']
    players = range(max(2, len(job.consoles)))
    lines += [f'link {a} {b} {job.links.get((a, b), job.delay or 512)}' for a in players for b in players if a != b]
    for k in range(len(job.consoles)):
        lines += console_lines(job, k, inputs, outputs, out)
    return ''.join(line + '\n' for line in [*lines, 'end']).encode()
