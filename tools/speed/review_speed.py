#!/usr/bin/env python3
"""Times the reviews of the gallery's studies beside plain Rust, or what a board shows of them, and compares the lines of both.

    tools/speed/review_speed.py reviews DIR [NAME..]
    tools/speed/review_speed.py views DIR [NAME..]

DIR has the files of the tables, as examples/all_tables.script makes them; tools/speed/build.sh builds our program. Both programs hold the tables
whole, follow the same scripts, and write each text some 200 times: the review of each study, or its views along the main line and the
surveys of its men. For each script and kind of text this prints milliseconds of the fastest times, added up, in ours and in plain Rust,
their ratio, and the slowest text of ours. Studies whose tables are not in DIR are skipped."""
import os
import subprocess
import sys
import tempfile

TOP = os.path.abspath(os.path.join(os.path.dirname(os.path.abspath(__file__)), "..", ".."))
GALLERY = os.path.join(TOP, 'crates/gallery/data')
PROGRAM = os.path.join(TOP, 'tools/speed/out/study_speed')
TABLE_COMMANDS = ('build', 'load', 'save', 'verify')
GOES = 200


def read_script(name):
    with open(os.path.join(GALLERY, name + '.script'), encoding='ascii') as file:
        return [line for line in file.read().split('\n') if line and line.split()[0] not in TABLE_COMMANDS]


def loads(folder):
    """The `load` lines of the tables that are there, each after those that it leads to."""
    with open(os.path.join(GALLERY, 'load_all.script'), encoding='ascii') as file:
        lines = [line.split() for line in file if line.startswith('load ')]
    return [f'load {name}' for _, name in lines if os.path.exists(os.path.join(folder, name + '.dtm'))]


def timed(command, lines):
    """What a program writes for a script, and of each kind of text the nanoseconds of each."""
    done = subprocess.run(command, input='\n'.join(lines) + '\n', capture_output=True, text=True, check=True)
    times = {}
    for line in done.stderr.split('\n'):
        if line:
            kind, nanoseconds = line.split()
            times.setdefault(kind, []).append(int(nanoseconds))
    return done.stdout, times


def main():
    if len(sys.argv) < 3 or sys.argv[1] not in ('reviews', 'views'):
        sys.exit(__doc__)
    what, folder, *names = sys.argv[1:]
    names = names or sorted(name[:-7] for name in os.listdir(GALLERY) if name.endswith('.script') and name != 'load_all.script')
    tables = loads(folder)
    with tempfile.TemporaryDirectory() as work:
        plain = os.path.join(work, 'reviews')
        subprocess.run(['rustc', '--edition', '2024', '-C', 'opt-level=3', '-C', 'target-cpu=x86-64-v2', '-C', 'panic=abort',
                        os.path.join(TOP, 'tools/speed/reviews.rs'), '-o', plain], check=True, stderr=subprocess.DEVNULL)
        for name in names:
            script = read_script(name)
            text, ours = timed([PROGRAM, what, folder], tables + script)
            plain_text, theirs = timed([plain, folder, str(GOES)] + ['views'] * (what == 'views'), script)
            for kind, each in ours.items():
                sums = sum(each), sum(theirs.get(kind, [])) or 1
                note = '' if text == plain_text and len(each) == len(theirs.get(kind, [])) else '   LINES DIFFER'
                print(f'{name:28} {kind:6} {sums[0] / 1e6:8.3f} ms   plain Rust {sums[1] / 1e6:8.3f} ms   ratio {sums[0] / sums[1]:5.2f}'
                      f'   slowest {max(each) / 1e6:7.3f} ms{note}', flush=True)


if __name__ == '__main__':
    main()
