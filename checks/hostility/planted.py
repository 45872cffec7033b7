"""Bugs that are planted: a script in place of the program, which calls it and changes its status, its report or its files.

Each has to be found by the part that is named.
"""
import os
import shlex
import stat
import subprocess
import sys
import tempfile

# A name, the part that has to find it, and what is done: $out is what was said, $status the status, $3 OUT of a run.
BUGS = [
    ('a status outside the table', 'broken', '[ $status -ne 5 ] || status=11'),
    ('a signal', 'broken', '[ $status -ne 5 ] || kill -SEGV $$'),
    ('the line before', 'broken', 'out=$(echo "$out" | sed "s/line 3 /line 2 /")'),
    ('another kind', 'broken', 'out=$(echo "$out" | sed "s/Repeated/Order/")'),
    ('a refused job makes a file', 'broken', '[ $status -ne 5 ] || echo >new'),
    ('a refused job empties a file', 'broken', '[ $status -ne 5 ] || : >g.log'),
    ('falling clocks are accepted', 'broken', 'case $out in *Order) status=3 out="absent none" ;; esac'),
    ('the log lacks a link', 'broken', '[ ! -s g.log ] || sed -i "/^link 1 0/d" g.log'),
    ('a trace touches another file', 'broken', '[ "$1" != trace ] || echo >>g.log'),
    ('a trace has a line more', 'broken', '[ "$1" != trace ] || [ $status -ne 0 ] || echo "0 0 idle" >>g.trace'),
    ('a trace begins late', 'wild', '[ "$1" != trace ] || [ "$3" = 0 ] || sed -i 1d t.trace'),
    ('a hang', 'broken', '[ $status -ne 8 ] || sleep 11'),
    ('a file is no front', 'refused_files', '[ $status -ne 9 ] || { [ -w g.0.frames ] && echo >>g.0.frames; }'),
    ('a full output is no failure', 'outputs', '[ $status -ne 0 ] || { echo "$out"; exit 0; } 2>/dev/null'),
    ('a wrong name of a file', 'refused_files', 'out=$(echo "$out" | sed "s/sink g.1/sink g.0/")'),
    ('a refused file is emptied', 'refused_files', '[ $status -ne 9 ] || { : >g.log; } 2>/dev/null'),
    ('a run again adds', 'strange_outputs', '[ $status -ne 0 ] || [ ! -s ../ran ] || echo >>g.log; [ $status -ne 9 ] || echo >../ran'),
    ('want of memory is another status', 'memory_limits', '[ $status -ne 10 ] || status=9'),
    ('a signal is no end', 'signals', '[ $status -lt 128 ] || status=0'),
    ('other bytes in a run again', 'wild', '[ "$3" != h ] || [ ! -e h.0.state ] || echo >>h.0.state'),
    ('Unsound in another line', 'frozen', 'case $out in *Unsound) out=$(echo "$out" | sed "s/line [0-9]*/line 1/") ;; esac'),
    ('Number for Spelling', 'frozen', 'out=$(echo "$out" | sed "s/Spelling/Number/")'),
    ("another job's file is accepted", 'frozen', 'case $out in *Job) status=0 ;; esac'),
    ('a refused frozen file empties a file', 'frozen', '[ $status -ne 12 ] || : >g.log'),
    ('a resumed job writes a log', 'frozen', '[ "$1" != resume ] || [ $status -ne 0 ] || echo >>g.log'),
    ('a resumed console has another number', 'frozen', '[ "$1" != resume ] || [ $status -ne 0 ] || sed -i "s/^r0 .*/r0 12345678/" g.*.state'),
    ('another status of wild code', 'wild', 'case $(head -c 2000 j) in *"console 2"*) status=9 ;; esac'),
]
SCRIPT = '''#!/bin/sh
out=$({program} "$@")
status=$?
{bug}
{{ [ -z "$out" ] || printf '%s\\n' "$out"; }} 2>/dev/null || [ $status -ne 0 ] || status=9
exit $status
'''


def check(program, hostile, resumes):
    """Whether each bug is found; those of frozen files where the program reads them."""
    missed = 0
    for name, part, bug in [bug for bug in BUGS if resumes or bug[1] != 'frozen']:
        with tempfile.TemporaryDirectory() as folder:
            os.chmod(folder, 0o755)
            path = os.path.join(folder, 'gbalink')
            with open(path, 'w', encoding='ascii') as file:
                file.write(SCRIPT.format(program=shlex.quote(program), bug=bug))
            os.chmod(path, stat.S_IRWXU | stat.S_IRGRP | stat.S_IXGRP | stat.S_IROTH | stat.S_IXOTH)
            done = subprocess.run([sys.executable, hostile, part, '--inputs', '200', '--cases', '8', '--program', path],
                                  stdout=subprocess.PIPE, text=True, check=False)
        is_found = done.returncode == 1 and 'FAILED' in done.stdout
        missed += not is_found
        print(f'{"found" if is_found else "MISSED"}: {name}: {done.stdout.splitlines()[-1] if done.stdout else done}', flush=True)
    return 1 if missed else 0
