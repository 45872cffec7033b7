"""What inputs of the greatest size cost: seconds of a processor and memory, beside a plain file of that length."""
import multiprocessing
import os
import subprocess

from . import broken, room

JOB = 134_217_728
KEYS = 33_554_432
SOURCE = 1_073_741_824
IMAGE_WORDS = 8_388_608  # of the greatest image
END = 'end\n'
HEAD = 'gbalink 2\ncycles 1\nconsole 0\nbios b\n'


def filled(line, size):
    """So many of a line, of text or bytes, as fit."""
    return line * (size // len(line))


def statements(count, length):
    """Lines of a statement and a comment, of this length with their ends."""
    return ('mov r0, #1'.ljust(length - 1, ' ' if length < 15 else ';') + '\n').encode() * count


def consoles(changes):
    """A job of four consoles with these changes each."""
    return HEAD + ''.join((f'console {k}\nbios b\n' if k else '') + changes for k in range(4)) + END


def labels(count, digits=7):
    """So many labels of 32 letters, of which the last ones are digits."""
    return ''.join('x' * (32 - digits) + f'{number:0{digits}}:\n' for number in range(count))


def label_words(count):
    return labels(count) + ''.join('.word ' + 'x' * 25 + f'{number:07}\n' for number in range(count)) * 4


# Of each kind of file: a name, the status, and what makes the text. The first row of a kind is the plain file; of a source the
# second is too.
INPUTS = {
    'job': (
        ('plain: comments of 99 bytes', 5, lambda: HEAD + filled('#' + 'x' * 98 + '\n', JOB - 100)),
        ('empty lines', 5, lambda: HEAD + filled('\n', JOB - 100)),
        ('lines of two blanks and CR LF', 5, lambda: HEAD + filled(' \t\r\n', JOB - 100)),
        ('comments of one byte', 5, lambda: HEAD + filled('#\n', JOB - 100)),
        ('4,000,000 equal clocks', 0, lambda: consoles('key 5 3ff\n' * 1_000_000)),
        ('4,000,000 clocks of 20 digits', 0, lambda: consoles('key 00000000000000000005 3ff\n' * 1_000_000)),
    ),
    'key file': (
        ('plain: comments of 99 bytes', 0, lambda: filled('#' + 'x' * 98 + '\n', KEYS)),
        ('empty lines', 0, lambda: filled('\n', KEYS)),
        ('1,000,000 equal clocks', 0, lambda: '5 3ff\n' * 1_000_000),
        ('the same, but the last one falls', 5, lambda: '5 3ff\n' * 999_999 + '4 3ff\n'),
        ('1,000,000 clocks of 20 digits', 0, lambda: '00000000137438953472 3ff\n' * 1_000_000),
    ),
    'source': (
        ('plain: comments of 99 bytes', 0, lambda: filled(b';' + b'x' * 98 + b'\n', SOURCE)),
        ('plain: 8,388,608 statements, each with a comment, of 34 bytes', 0, lambda: statements(IMAGE_WORDS, 34)),
        ('8,388,608 statements of 11 bytes', 0, lambda: statements(IMAGE_WORDS, 11)),
        ('one statement more', 8, lambda: statements(IMAGE_WORDS + 1, 11)),
        ('empty lines', 0, lambda: filled(b'\n', SOURCE)),
        ('a byte more than the most', 8, lambda: b'\n' * (SOURCE + 1)),
        ('500,000 labels that share 25 letters', 0, lambda: labels(500_000)),
        ('1,000,000 labels that share 25 letters', 0, lambda: labels(1_000_000)),
        ('2,000,000 labels that share 25 letters', 0, lambda: labels(2_000_000)),
        ('1,000,000 times the label x', 8, lambda: 'x:\n' * 1_000_000),
        ('as many labels that share 24 letters as fit', 0, lambda: labels(SOURCE // 34, 8)),
        ('1,000,000 labels, the last one twice', 8, lambda: labels(1_000_000) + 'x' * 25 + '0999999:\n'),
        ('1,000,000 labels, 4,000,000 words of them', 0, lambda: label_words(1_000_000)),
        ('the same, and a last one without a label', 8, lambda: label_words(1_000_000) + '.word y\n'),
    ),
}
WORDS = {'job': ['run', 'i', 'g'], 'key file': ['run', 'j', 'g'], 'source': ['asm', 'i', 'o']}


def write_input(kind, place, folder):
    """Writes an input, in a process of its own, whose memory isn't counted as the program's."""
    room.write(os.path.join(folder, 'i'), INPUTS[kind][place][2]())
    if kind == 'key file':
        room.write(os.path.join(folder, 'j'), HEAD + 'keys i\n' + END)


def measured(program, words, folder):
    """The status, the seconds of a processor, and the most resident memory in bytes."""
    with open(os.devnull, 'wb') as null, subprocess.Popen([program, *words], cwd=folder, stdout=null) as child:
        _, status, used = os.wait4(child.pid, 0)
        child.returncode = os.waitstatus_to_exitcode(status)
    return child.returncode, used.ru_utime + used.ru_stime, used.ru_maxrss * 1_024


def lines_in(path):
    with open(path, 'rb') as file:
        return sum(part.count(b'\n') for part in iter(lambda: file.read(1 << 24), b''))


def show(program, top):
    """Prints the table, a row for each input."""
    folder = room.fresh(os.path.join(top, 'cost'), b=broken.bios_image())
    heads = ['Input', 'bytes', 'seconds of a processor', 'memory, MB', 'ns a line', 'a byte, beside plain', 'status']
    print(f'| {" | ".join(heads)} |\n{"|---" * len(heads)}|')
    for kind, rows in INPUTS.items():
        plain = []
        for place, (name, wanted, _) in enumerate(rows):
            writer = multiprocessing.Process(target=write_input, args=(kind, place, folder))
            writer.start()
            writer.join()
            size = os.path.getsize(os.path.join(folder, 'i'))
            status, seconds, memory = measured(program, WORDS[kind], folder)
            plain += [seconds / size] if name.startswith('plain') else []
            beside = ' and '.join(f'{seconds / size / one:.1f}' for one in plain)
            note = '' if status == wanted else f', wanted {wanted}'
            line = 1e9 * seconds / max(1, lines_in(os.path.join(folder, 'i')))
            print(f'| {kind}, {name} | {size:,} | {seconds:.2f} | {memory / 1e6:,.0f} | {line:,.0f} | {beside} | {status}{note} |', flush=True)
