"""The real program on a system that fails: full disks, refused folders and files, closed and full outputs, inputs that are no
plain files or are cut while they are read, limits on memory, files and their sizes, and signals at random moments.

Each time the status and the report are those of docs/FORMATS.md, or the end is the signal's; every file is a front of what
it would have been, or as it was; and the same command, run again without the failure, gives the whole.
"""
import contextlib
import os
import random
import re
import shutil
import signal
import subprocess
import threading
import time

from . import reading, room

SECOND = 16_777_216
CYCLES = 34_000_000  # three segments
NOBODY = 65_534
NO_USER = 'since root may not become another user who can call the program'
JOB = f'gbalink 2\ncycles {CYCLES}\ndelay 100\n' + ''.join(
    f'console {k}\nbios b\nout frames\nout samples\nout state\nout save\n' for k in (0, 1)) + 'end\n'
BIOS = room.bios(0xEAFFFFFE)  # a branch to itself
FILES = [f'g.{k}.{kind}' for k in (0, 1) for kind in ('frames', 'samples', 'state', 'save')] + ['g.log']


def other_user(program):
    """By which words of a call a user makes it whom the modes of files bind; None where root can't become one, who can call
    the program."""
    if os.getuid() != 0:
        return {}
    user = {'user': NOBODY, 'group': NOBODY, 'extra_groups': []}
    try:
        subprocess.run([program], stdin=subprocess.DEVNULL, stdout=subprocess.DEVNULL, stderr=subprocess.DEVNULL, check=False, **user)
    except (OSError, subprocess.SubprocessError):
        return None
    return user


def frames_by(clock):
    return (clock - 196_894 + 280_896) // 280_896


def appends(whole):
    """The pieces that the run adds, in their order: the file and its length after it. No frame ends near an end of a segment."""
    ends = [*range(SECOND, CYCLES, SECOND), CYCLES]
    pieces = [(f'g.{k}.{kind}', size(end)) for end in ends for k in (0, 1)
              for kind, size in (('frames', lambda end: 76_800 * frames_by(end)), ('samples', lambda end: end // 512 * 4))]
    pieces += [(f'g.{k}.{kind}', len(whole[f'g.{k}.{kind}'])) for k in (0, 1) for kind in ('state', 'save')]
    return [*pieces, ('g.log', len(whole['g.log']))]


class Real:
    def __init__(self, program, script, top, seed, tally):
        self.script = script
        self.random = random.Random(seed)
        self.tally = tally
        self.top = top
        self.program = os.path.join(top, 'gbalink')  # where another user may call it
        shutil.copy(program, self.program)
        os.chmod(self.program, 0o755)
        os.chmod(top, 0o755)
        self.user = other_user(self.program)
        self.count = 0
        folder = self.folder()
        before = time.monotonic()
        self.summary = room.call(self.program, ['run', 'j', 'g'], folder, seconds=60)
        self.seconds = time.monotonic() - before
        self.whole = self.files(folder)
        self.pieces = appends(self.whole)
        self.tally.agrees('a whole run has its files', sorted(self.whole), sorted(FILES))
        self.tally.agrees('their lengths', {name: len(data) for name, data in self.whole.items()}, dict(self.pieces))

    # ---- Folders and what is asked of them

    def folder(self, job=JOB, **files):
        self.count += 1
        folder = room.fresh(os.path.join(self.top, f'room{self.count}'), j=job, b=BIOS, **files)
        os.chmod(folder, 0o777)
        return folder

    def files(self, folder, out='g'):
        return {name: room.read(os.path.join(folder, name)) for name in os.listdir(folder) if name.startswith(out + '.')}

    def call(self, folder, words=('run', 'j', 'g'), **more):
        more.setdefault('seconds', 60)
        return room.call(self.program, list(words), folder, **more)

    def is_whole(self, name, folder):
        """Whether the outputs are those of the whole run."""
        files = self.files(folder)
        return self.tally.holds(name, files == self.whole, 'not whole: ' + lengths(files))

    def again(self, name, folder, **more):
        """The same command, run again without the failure, gives the whole; then the folder is done with."""
        self.tally.agrees(f'{name}, run again', self.call(folder, **more).pair, self.summary.pair)
        self.is_whole(f'{name}, run again', folder)
        shutil.rmtree(folder)

    def are_fronts(self, name, folder, old=None):
        """Each file is a front of what it would have been, or what it was before."""
        files = self.files(folder)
        wrong = [entry for entry, data in files.items()
                 if not (entry in self.whole and self.whole[entry].startswith(data)) and data != (old or {}).get(entry)]
        return self.tally.holds(name, not wrong, f'no fronts: {wrong}, of {lengths(files)}')

    def stopped_at(self, name, got, folder):
        """After status 9 the file that is named has a part of one piece more, and every other file the pieces before it."""
        report = re.fullmatch(r'sink (\S+)\n', got.out)
        if not self.tally.holds(name, got.status == 9 and report, f'{got}, wanted 9'):
            return
        files = {entry: len(data) for entry, data in self.files(folder).items()}
        self.are_fronts(name, folder)
        states = [({entry: 0 for entry in FILES[:place]}, entry, 0) for place, entry in enumerate(FILES)]
        grown = dict.fromkeys(FILES, 0)
        for entry, length in self.pieces:
            states.append((dict(grown), entry, length))
            grown[entry] = length
        is_right = any(entry == report[1] and is_state(files, before, entry, length) for before, entry, length in states)
        self.tally.holds(name, is_right, f'{got}, no state of the run: {files}')


def lengths(files):
    return str({name: len(data) for name, data in sorted(files.items())})


def is_state(files, before, entry, length):
    """Whether the files have these lengths, but for one, which has a part of the piece that ends at `length`."""
    others = {name: size for name, size in before.items() if name != entry}
    least = before.get(entry, 0)
    return {name: size for name, size in files.items() if name != entry} == others and least <= files.get(entry, 0) <= max(least, length)


# ---- The disk --------------------------------------------------------------------------------------------------------------

DISK = '''
mount -t tmpfs -o "size=$1,nr_inodes=$2,mode=777" hostile disk || exit 99
cd disk && cp ../j ../b . || exit 99
if [ "$3" = inside ]; then "$4" run j g >told; else "$4" run j g >../told; fi
echo $? >../status
cp -r . ../result
mount -o remount,size=1g,nr_inodes=1000 hostile . || exit 99
rm -f told
"$4" run j g >../told2
echo $? >../status2
cp -r . ../result2
'''


def unshare():
    """The words that give a call its own mounts, which nobody else sees, or None where the system doesn't allow it."""
    words = ['unshare', '--mount', '--propagation', 'private']
    if os.getuid() != 0:
        words[1:1] = ['--user', '--map-root-user']
    mount = 'mount -t tmpfs -o size=40k,nr_inodes=9 hostile /mnt && mount -o remount,size=80k,nr_inodes=99 hostile /mnt'
    try:
        tried = subprocess.run([*words, 'sh', '-c', mount], stdin=subprocess.DEVNULL, stdout=subprocess.DEVNULL,
                               stderr=subprocess.DEVNULL, timeout=room.SECONDS, check=False)
    except (OSError, subprocess.TimeoutExpired):
        return None
    return words if tried.returncode == 0 else None


def full_disks(real):
    """Disks with less room than the run needs, and with fewer files."""
    words = unshare()
    if words is None:
        real.tally.leave_out('full disks, since mounting is not allowed')
        return
    total = sum(-len(data) // 4_096 * -4_096 for data in real.whole.values())
    sizes = [40_960, 65_536, 200_000] + [real.random.randrange(100_000, total) for _ in range(4)] + [total, total - 200_000]
    cases = [(f'{size}', '1000', 'outside') for size in sizes] + [(f'{total // 2}', '1000', 'inside')]
    cases += [('1g', f'{count}', 'outside') for count in (3, 4, 7, 11)]
    for case in cases:
        full_disk(real, words, 'a disk of %s bytes and %s files, %s' % case, case)


def full_disk(real, words, name, case):
    folder = real.folder()
    os.mkdir(os.path.join(folder, 'disk'))
    done = subprocess.run([*words, 'sh', '-c', DISK, 'sh', *case, real.program], cwd=folder, stderr=subprocess.PIPE, check=False)
    if not real.tally.holds(name, done.returncode == 0, f'the disk failed: {done}'):
        return
    told = [room.read(os.path.join(folder, entry)).decode() for entry in ('status', 'told', 'status2', 'told2') if
            os.path.exists(os.path.join(folder, entry))]
    if case[2] == 'inside':
        real.tally.agrees(name, told[0], '9\n')
        real.are_fronts(name, os.path.join(folder, 'result'))
    else:
        real.stopped_at(name, room.Answer(int(told[0]), told[1]), os.path.join(folder, 'result'))
        real.tally.agrees(f'{name}, run again', (int(told[2]), told[3]), real.summary.pair)
    real.is_whole(f'{name}, run again', os.path.join(folder, 'result2'))
    shutil.rmtree(folder)


# ---- Folders and files that are refused ------------------------------------------------------------------------------------

def refused_folder(real):
    """A folder in which nothing can be made, and inputs that can't be read, for a user who isn't root."""
    name = 'a folder that refuses'
    if real.user is None:
        real.tally.leave_out(f'{name}, {NO_USER}')
        return
    folder = real.folder()
    os.chmod(folder, 0o555)
    got = real.call(folder, **real.user)
    real.tally.agrees(name, got.pair, (9, f'sink {FILES[0]}\n'))
    real.tally.agrees(name, sorted(os.listdir(folder)), ['b', 'j'])
    os.chmod(folder, 0o777)
    for entry, words in (('j', ['run', 'j', 'g']), ('b', ['run', 'j', 'g']), ('j', ['asm', 'j', 'o']), ('b', ['dis', 'b', 'o'])):
        os.chmod(os.path.join(folder, entry), 0)
        real.tally.agrees(f'{entry} may not be read', real.call(folder, words, **real.user).pair, (4, f'store {entry}\n'))
        os.chmod(os.path.join(folder, entry), 0o644)
    real.tally.agrees(name, sorted(os.listdir(folder)), ['b', 'j'])
    real.again(name, folder, **real.user)


def refused_files(real):
    """One file that can't be made empty: those before it are empty, it and those behind it as they were."""
    if real.user is None:
        real.tally.leave_out(f'files that refuse, {NO_USER}')
        return
    for place, entry in enumerate(FILES):
        for kind in ('read only', 'a folder'):
            name = f'{entry} is {kind}'
            old = {other: f'old {other}'.encode() for other in FILES}
            folder = real.folder(**old)
            path = os.path.join(folder, entry)
            if kind == 'a folder':
                os.remove(path)
                os.mkdir(path)
                del old[entry]
            else:
                os.chmod(path, 0o444)
            for other in old:
                os.chmod(os.path.join(folder, other), 0o444 if other == entry else 0o666)
            real.tally.agrees(name, real.call(folder, **real.user).pair, (9, f'sink {entry}\n'))
            wanted = {other: b'' if FILES.index(other) < place else data for other, data in old.items()}
            got = {other: room.read(os.path.join(folder, other)) for other in FILES if os.path.isfile(os.path.join(folder, other))}
            real.tally.agrees(name, got, wanted)
            os.rmdir(path) if kind == 'a folder' else os.chmod(path, 0o666)
            real.again(name, folder, **real.user) if place in (0, 8) else shutil.rmtree(folder)


# ---- Standard output -------------------------------------------------------------------------------------------------------

def outputs(real):
    """Standard output is closed, full, open for reading alone, or a pipe that nobody reads."""
    reader, writer = os.pipe()
    os.close(reader)
    with open('/dev/full', 'wb') as full, open('/dev/null', 'rb') as null:
        kinds = {'full': {'stdout': full}, 'for reading': {'stdout': null}, 'a pipe without a reader': {'stdout': writer}}
        for kind, more in kinds.items():
            output(real, f'standard output is {kind}', more)
    os.close(writer)
    # bin/gbalink opens what is closed, since else a file of the run would get its number.
    program, real.program = real.program, real.script
    for closed in ((1,), (0, 1), (0, 1, 2)):
        def close(closed=closed):
            for number in closed:
                os.close(number)
        output(real, f'{closed} are closed', {'preexec_fn': close})
    real.program = program


def output(real, name, more):
    folder = real.folder(s='mov r0, #1\n', w='x\n')
    made = real.folder()
    real.call(made, ['gen', '7', '1000', 'g'])
    wanted = real.files(made)
    for entry in wanted:
        os.remove(os.path.join(made, entry))
    ends = {9, -signal.SIGPIPE} if 'reader' in name else {9}
    got = real.call(folder, **more)
    real.tally.holds(name, got.status in ends, f'{got}, wanted {ends}')
    real.is_whole(name, folder)
    got = real.call(folder, ['asm', 's', 'o'], **more)
    real.tally.holds(f'{name}, asm', got.status in ends, f'{got}, wanted {ends}')
    got = real.call(made, ['gen', '7', '1000', 'g'], **more)
    real.tally.holds(f'{name}, gen', got.status in ends and real.files(made) == wanted, f'{got}, {lengths(real.files(made))}')
    shutil.rmtree(made)
    real.tally.agrees(f'{name}, asm', room.read(os.path.join(folder, 'o')), b'\x01\x00\xa0\xe3')
    for words, status in ((['run', 'none', 'h'], 3), (['run'], 2), (['run', 'w', 'h'], 5), (['dis', '.', 'h'], 4), (['asm', 'w', 'h'], 8)):
        got = real.call(folder, words, **more)
        wanted = {status, *ends - {9}}
        real.tally.holds(f'{name}, {words}', got.status in wanted, f'{got}, wanted {wanted}')
    real.tally.agrees(name, sorted(os.listdir(folder)), sorted(['b', 'j', 's', 'w', 'o', *FILES]))
    real.tally.agrees(name, [room.read(os.path.join(folder, entry)) for entry in 'jsw'], [JOB.encode(), b'mov r0, #1\n', b'x\n'])
    real.again(name, folder)


# ---- Inputs ----------------------------------------------------------------------------------------------------------------

SMALL = 'gbalink 1\ncycles 9\nconsole 0\nbios %s\n%s\nout state\nend\n'


def strange_inputs(real):
    """Inputs that are folders, devices, loops of links, or can't be read to their end."""
    devices = {'null': '/dev/null', 'zero': '/dev/zero', 'random': '/dev/urandom', 'broken': '/proc/self/mem', 'folder': '.',
               'loop': 'loop', 'nowhere': 'nothing'}
    folder = real.folder(s=bytes(32_768))
    for name, target in devices.items():
        os.symlink(target, os.path.join(folder, name))
    refusals = {'broken': (4, 'store broken'), 'folder': (4, 'store folder'), 'loop': (4, 'store loop'), 'nowhere': (3, 'absent nowhere')}
    uses = {
        'job': {**refusals, 'null': (5, 'job null line 1 Missing'), 'zero': (5, 'job zero line 0 Long')},
        'bios': {**refusals, **{device: (6, f'image {device} BiosLength') for device in ('null', 'zero', 'random')}},
        'cart': {**refusals, 'null': (6, 'image null TooShort'), 'zero': (6, 'image zero TooLong'), 'random': (6, 'image random TooLong')},
        'save': {**refusals, **{device: (6, f'image {device} SaveLength') for device in ('null', 'zero', 'random')}},
        'keys': {**refusals, 'zero': (5, 'job zero line 0 Long'), 'random': (5, 'job random line 0 Long')},
        'asm': refusals,
        'dis': {**refusals, 'zero': (6, 'image zero TooLong'), 'random': (6, 'image random TooLong')},
    }
    before = room.marks(folder)
    for use, answers in uses.items():
        for device, wanted in answers.items():
            words = ['run', 'j', 'g']
            if use == 'job':
                words = ['run', device, 'g']
            elif use in ('asm', 'dis'):
                words = [use, device, 'o']
            else:
                room.write(os.path.join(folder, 'j'), SMALL % ((device, '') if use == 'bios' else ('b', f'{use} {device}')))
                before['j'] = room.marks(folder)['j']
            real.tally.agrees(f'{use} {device}', real.call(folder, words).pair, (wanted[0], wanted[1] + '\n'))
            real.tally.agrees(f'{use} {device}', room.marks(folder), before)
    shutil.rmtree(folder)


def feed(path, data, pieces):
    """Writes into a pipe piece by piece, and closes it."""
    with contextlib.suppress(BrokenPipeError), open(path, 'wb', buffering=0) as pipe:
        for place in range(pieces):
            pipe.write(data[len(data) * place // pieces:len(data) * (place + 1) // pieces])
            time.sleep(0.001)


def piped_inputs(real):
    """Inputs that come by a pipe, whole or cut: the second reading says what the bytes that came are."""
    folder = real.folder(s=bytes(32_768), k='5 001\n7 3ff\n')
    texts = {'j': SMALL % ('b', 'save s\nkeys k'), 'b': BIOS, 's': bytes(32_768), 'k': '5 001\n7 3ff\n'}
    for entry, data in texts.items():
        data = data if isinstance(data, bytes) else data.encode()
        for length in sorted({0, 1, len(data) // 2, len(data) - 1, len(data), real.random.randrange(len(data))}):
            for other, text in texts.items():
                room.write(os.path.join(folder, other), text)
            os.remove(os.path.join(folder, entry))
            os.mkfifo(os.path.join(folder, entry))
            came = {**{other: text if isinstance(text, bytes) else text.encode() for other, text in texts.items()}, entry: data[:length]}
            writer = threading.Thread(target=feed, args=(os.path.join(folder, entry), data[:length], real.random.randrange(1, 9)))
            writer.daemon = True
            writer.start()
            got = real.call(folder)
            os.remove(os.path.join(folder, entry))
            name = f'{length} bytes of {entry} come by a pipe'
            try:
                job, inputs = reading.run_of(['run', 'j', 'g'], came.get)
            except reading.Answer as answer:
                real.tally.agrees(name, got.pair, answer.pair)
                continue
            digests = {'g.0.state': room.digest(os.path.join(folder, 'g.0.state'))}
            real.tally.agrees(name, got.status, 0)
            real.tally.agrees(name, room.read(os.path.join(folder, 'g.log')), reading.log_of(job, inputs, digests, 'g'))
    shutil.rmtree(folder)


def cut_inputs(real):
    """Files that become shorter, or longer, while they are read: the answer is that of some front of their bytes."""
    lines = 300_000
    for place in range(8):
        folder = real.folder(job='# ' + 'x' * 97 + '\n')
        path = os.path.join(folder, 'j')
        room.write(path, ('#' * 99 + '\n') * lines)
        name = f'a job is cut while it is read, {place}'
        with subprocess.Popen([real.program, 'run', 'j', 'g'], cwd=folder, stdout=subprocess.PIPE) as child:
            time.sleep(real.random.random() * 0.02)
            os.truncate(path, 100 * real.random.choice([0, lines // 2, real.random.randrange(lines), lines + 50_000]))
            out = child.communicate(timeout=room.SECONDS)[0].decode()
        told = re.fullmatch(r'job j line ([0-9]+) (Missing|Long)\n', out)
        real.tally.holds(name, child.returncode == 5 and told and 1 <= int(told[1]) <= lines + 1, f'status {child.returncode}, {out}')
        real.tally.agrees(name, sorted(os.listdir(folder)), ['b', 'j'])
        shutil.rmtree(folder)


def strange_outputs(real):
    """Outputs that lead to a device or to a pipe that is read."""
    folder = real.folder()
    os.symlink('/dev/full', os.path.join(folder, FILES[1]))
    real.tally.agrees('samples go to a full device', real.call(folder).pair, (9, f'sink {FILES[1]}\n'))
    os.remove(os.path.join(folder, FILES[1]))
    os.mkfifo(os.path.join(folder, FILES[1]))
    wanted, came = real.whole[FILES[1]], bytearray()
    pipe = os.open(os.path.join(folder, FILES[1]), os.O_RDWR)  # so that it never ends, since the program opens it piece by piece

    def take():
        while len(came) < len(wanted):
            came.extend(os.read(pipe, 65_536))
    reader = threading.Thread(target=take, daemon=True)
    reader.start()
    real.tally.agrees('samples go to a pipe', real.call(folder).pair, real.summary.pair)
    reader.join(room.SECONDS)
    real.tally.holds('samples go to a pipe', came == wanted, f'{len(came)} bytes came, or others')
    os.close(pipe)
    os.remove(os.path.join(folder, FILES[1]))
    real.again('an output that was a pipe', folder)


# ---- Limits ----------------------------------------------------------------------------------------------------------------

def least_memory(real):
    """The least limit on memory with which the program starts, or None."""
    least = 1 << 20
    while real.call(real.top, [], preexec_fn=room.limited(AS=least)).pair != (2, 'words\n'):
        least += 1 << 16
        if least > 1 << 30:
            real.tally.holds('limits on memory', False, '1 GiB is not enough for a start')
            return None
    return least


def memory_limits(real):
    """`ulimit -v` in rising steps: once the program starts, each call ends with 10, or with what it ends with ever."""
    least = least_memory(real)
    if least is None:
        return
    keys = 'gbalink 2\ncycles 300000\n' + ''.join(f'console {k}\nbios b\nkeys k\nout state\n' for k in (0, 1)) + 'end\n'
    uses = {
        'run': (['run', 'j', 'g'], {'job': JOB.replace(str(CYCLES), '300000')}), 'keys': (['run', 'j', 'g'], {'job': keys, 'k': '5 3ff\n' * 150_000}),
        'gen': (['gen', '7', '300000', 'g'], {}), 'trace': (['trace', 'j', '0', '20000', 'g'], {'job': JOB.replace(str(CYCLES), '300000')}),
        'freeze': (['freeze', 'j', '200000', 'g'], {'job': JOB.replace(str(CYCLES), '300000')}),
        'asm': (['asm', 's', 'g.out'], {'s': 'label: mov r0, #1\nldr r0, label\n' + 'mov r0, #1\n' * 300_000}),
        'dis': (['dis', 's', 'g.out'], {'s': bytes(range(256)) * 2_000}),
    }
    for use, (words, files) in uses.items():
        memory_limit(real, use, words, files, least)


def memory_limit(real, use, words, files, least):
    whole = real.folder(**files)
    wanted = real.call(whole, words)
    files_wanted = real.files(whole)
    limit, ended = least, []
    while True:
        folder = real.folder(**files)
        name = f'{use} with {limit >> 10} KiB'
        got = real.call(folder, words, preexec_fn=room.limited(AS=limit))
        ended.append(got.status)
        if got.status == 0:
            real.tally.agrees(name, (got.pair, real.files(folder) == files_wanted), (wanted.pair, True))
            break
        real.tally.agrees(name, got.pair, (10, 'memory\n'))
        made = real.files(folder)
        real.tally.holds(name, all(files_wanted[entry].startswith(data) for entry, data in made.items()), f'no fronts: {lengths(made)}')
        real.tally.agrees(f'{name}, run again', (real.call(folder, words).pair, real.files(folder) == files_wanted), (wanted.pair, True))
        shutil.rmtree(folder)
        limit += max(1 << 16, limit // 12)
        if limit > 1 << 33:
            real.tally.holds(name, False, f'8 GiB are not enough: {ended}')
            break
    real.tally.holds(f'{use} meets a limit', 10 in ended, f'{ended}')


def file_limits(real):
    """Limits on a file's size, with the signal that comes then and without it, and on how many files are open."""
    for limit in (0, 1, 100_000, 3_000_000, 8_000_000):
        for is_ignored in (False, True):
            folder = real.folder()

            def start(limit=limit, is_ignored=is_ignored):
                room.limited(FSIZE=limit)()
                if is_ignored:
                    signal.signal(signal.SIGXFSZ, signal.SIG_IGN)
            name = f'files of at most {limit} bytes, the signal is {"ignored" if is_ignored else "not ignored"}'
            got = real.call(folder, preexec_fn=start)
            if got.status == -signal.SIGXFSZ and not is_ignored:
                real.are_fronts(name, folder)
            else:
                real.stopped_at(name, got, folder)
            real.again(name, folder)
    ended = set()
    for limit in range(4, 20):
        folder = real.folder()
        name = f'{limit} open files'
        got = real.call(folder, preexec_fn=room.limited(NOFILE=limit))
        ended.add(got.status)
        if got.status == 4:
            real.tally.holds(name, got.out in ('store j\n', 'store b\n'), str(got))
            real.tally.agrees(name, sorted(os.listdir(folder)), ['b', 'j'])
        elif got.status == 9:
            real.stopped_at(name, got, folder)
        else:
            real.tally.holds(name, got.pair == real.summary.pair and real.files(folder) == real.whole, str(got))
        shutil.rmtree(folder)
    real.tally.holds('open files meet the limit', {0, 4, 9} <= ended, f'only {ended}')


# ---- Signals and runs at once ----------------------------------------------------------------------------------------------

def signals(real, count=32):
    """INT and TERM at random moments of a run, over the files of an earlier one."""
    ended = set()
    old = {entry: f'old {entry}'.encode() for entry in FILES}
    for place in range(count):
        number = (signal.SIGINT, signal.SIGTERM)[place % 2]
        folder = real.folder(**old)
        moment = real.random.random() * real.seconds * 1.1
        name = f'{number.name} after {moment:.4f} s'
        with subprocess.Popen([real.program, 'run', 'j', 'g'], cwd=folder, stdout=subprocess.PIPE) as child:
            time.sleep(moment)
            child.send_signal(number)
            out = child.communicate(timeout=room.SECONDS)[0].decode()
        got = room.Answer(child.returncode, out)
        ended.add(got.status)
        if got.status == 0:
            real.tally.agrees(name, got.pair, real.summary.pair)
            real.is_whole(name, folder)
        else:
            real.tally.holds(name, got.status == -number and (out == '' or out == real.summary.out), str(got))
            real.are_fronts(name, folder, old)
        real.again(name, folder) if place % 4 < 2 else shutil.rmtree(folder)
    real.tally.holds('signals end runs', {-signal.SIGINT, -signal.SIGTERM} <= ended, f'they only end with {ended}')


def at_once(real):
    """A second run over the files of a first one that goes on: it can't make the first file empty, and the first is whole."""
    folder = real.folder()
    with subprocess.Popen([real.program, 'run', 'j', 'g'], cwd=folder, stdout=subprocess.PIPE) as child:
        while not os.path.exists(os.path.join(folder, FILES[-1])) and child.poll() is None:
            time.sleep(0.001)
        got = real.call(folder, ['run', 'h', 'g'])
        real.tally.agrees('a second run of no job', got.pair, (3, 'absent h\n'))
        room.write(os.path.join(folder, 'h'), SMALL.replace('out state', 'out frames') % ('b', ''))
        got = real.call(folder, ['run', 'h', 'g'])
        is_running = child.poll() is None
        out = child.communicate(timeout=60)[0].decode()
    if is_running:
        real.tally.agrees('a second run', got.pair, (9, f'sink {FILES[0]}\n'))
        real.tally.agrees('a first run', (child.returncode, out), real.summary.pair)
        real.is_whole('a first run', folder)
    real.again('two runs at once', folder)


# ---- Frozen files ----------------------------------------------------------------------------------------------------------

def resumed(real):
    """`resume` of what is no plain file or comes by a pipe, whole or cut, without room for its outputs, under limits on memory,
    and stopped by a signal."""
    job = JOB.replace(str(CYCLES), '300000')
    folder = real.folder(job=job)
    real.call(folder, ['freeze', 'j', '200000', 'z'])
    text = room.read(os.path.join(folder, 'z.frozen'))
    for entry in real.files(folder, 'z'):
        os.remove(os.path.join(folder, entry))
    answers = {'null': (12, 'frozen null line 1 Spelling'), 'zero': (12, 'frozen zero line 0 Spelling'), 'broken': (4, 'store broken'),
               'folder': (4, 'store folder'), 'loop': (4, 'store loop'), 'nowhere': (3, 'absent nowhere')}
    targets = {'null': '/dev/null', 'zero': '/dev/zero', 'broken': '/proc/self/mem', 'folder': '.', 'loop': 'loop', 'nowhere': 'nothing'}
    for name, target in targets.items():
        os.symlink(target, os.path.join(folder, name))
    before = room.marks(folder)
    for name, (status, report) in answers.items():
        real.tally.agrees(f'resume {name}', real.call(folder, ['resume', 'j', name, 'g']).pair, (status, report + '\n'))
        real.tally.agrees(f'resume {name}', room.marks(folder), before)
    room.write(os.path.join(folder, 'x'), text)
    real.tally.agrees('resume into no folder', real.call(folder, ['resume', 'j', 'x', 'none/g']).pair, (9, 'sink none/g.0.frames\n'))
    shutil.rmtree(folder)
    piped_text(real, job, text)
    least = least_memory(real)
    if least:
        memory_limit(real, 'resume', ['resume', 'j', 'x', 'g'], {'job': job, 'x': text}, least)
    stopped_resumes(real)


def piped_text(real, job, text):
    """The second reading says what the bytes that came by the pipe are."""
    for length in (0, 1, len(text) // 2, len(text) - 1, len(text)):
        folder = real.folder(job=job)
        os.mkfifo(os.path.join(folder, 'x'))
        writer = threading.Thread(target=feed, args=(os.path.join(folder, 'x'), text[:length], 5), daemon=True)
        writer.start()
        got = real.call(folder, ['resume', 'j', 'x', 'g'])
        came = {'j': job.encode(), 'b': BIOS, 'x': text[:length]}
        name = f'{length} bytes of a frozen file come by a pipe'
        try:
            reading.run_of(['resume', 'j', 'x', 'g'], came.get)
            real.tally.agrees(name, (got.status, sorted(real.files(folder))), (0, sorted(set(FILES) - {'g.log'})))
        except reading.Answer as answer:
            real.tally.agrees(name, (got.pair, real.files(folder)), (answer.pair, {}))
        shutil.rmtree(folder)


def stopped_resumes(real, count=6):
    """INT and TERM at random moments: each file is a front of what it would have been, and the same call again gives the whole."""
    folder = real.folder()
    real.call(folder, ['freeze', 'j', '100', 'z'])
    words, ended = ['resume', 'j', 'z.frozen', 'g'], []
    whole = real.call(folder, words)
    wanted = real.files(folder)
    for place in range(count):
        for entry in real.files(folder):
            os.remove(os.path.join(folder, entry))
        number = (signal.SIGINT, signal.SIGTERM)[place % 2]
        with subprocess.Popen([real.program, *words], cwd=folder, stdout=subprocess.PIPE) as child:
            time.sleep(real.random.random() * real.seconds)
            child.send_signal(number)
            child.communicate(timeout=room.SECONDS)
        ended.append(child.returncode)
        real.tally.holds(f'{number.name} ends a resume', child.returncode in (0, -number), f'status {child.returncode}')
        made = real.files(folder)
        real.tally.holds(f'{number.name} ends a resume, fronts', all(wanted[entry].startswith(data) for entry, data in made.items()), lengths(made))
        real.tally.agrees('a resume again', (real.call(folder, words).pair, real.files(folder) == wanted), (whole.pair, True))
    real.tally.holds('signals end resumes', any(ended), f'they only end with {ended}')
    shutil.rmtree(folder)


FROZEN_PARTS = (resumed,)
PARTS = (full_disks, refused_folder, refused_files, outputs, strange_inputs, piped_inputs, cut_inputs, strange_outputs,
         memory_limits, file_limits, signals, at_once)


def check(program, script, top, seed, parts=PARTS):
    tally = room.Tally('real program')
    os.makedirs(top)
    real = Real(program, script, top, seed, tally)
    for part in parts:
        part(real)
    return tally
