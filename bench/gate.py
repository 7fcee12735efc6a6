#!/usr/bin/env python3
"""Where the processor seconds of proofs go.

  bench/gate.py stamp COMMAND..     runs a command, as rt check --jobs 1 or rt test --jobs 1, and writes its lines
                                    with the processor seconds that it and its children had used when each came
  bench/gate.py table LOG..         a table in Markdown from such logs, each named CRATE.proof, CRATE.tests or
                                    CRATE.edits: seconds of each crate, and each function that took over 10 s
"""
import os
import re
import subprocess
import sys

TICK = os.sysconf('SC_CLK_TCK')
LONG = 10.0
KINDS = ('proof', 'tests', 'edits')
PROVED = re.compile(r'^(?:fn|struct|enum|impl|trait|const) (\S+): ')


def children():
    """The processes of this machine by the one that started them, each with its own processor seconds."""
    found = {}
    for name in os.listdir('/proc'):
        if not name.isdigit():
            continue
        try:
            with open(f'/proc/{name}/stat') as stat:
                fields = stat.read().rsplit(')', 1)[1].split()
        except OSError:
            continue
        own = sum(int(field) for field in fields[11:15]) / TICK
        found.setdefault(int(fields[1]), []).append((int(name), own))
    return found


def used(pid):
    """The processor seconds of all processes below this one, with those that have ended and were waited for."""
    tree = children()
    times = os.times()
    total, left = times.children_user + times.children_system, [pid]
    while left:
        for child, own in tree.get(left.pop(), []):
            total += own
            left.append(child)
    return total


def stamp(command):
    run = subprocess.Popen(command, stdout=subprocess.PIPE, stderr=subprocess.STDOUT, text=True, errors='replace')
    for line in run.stdout:
        print(f'{used(os.getpid()):9.2f} {line}', end='', flush=True)
    status = run.wait()
    print(f'{used(os.getpid()):9.2f} ended {status}', flush=True)
    return status


def read(path):
    """The seconds of a whole run, and those of each function that it proved."""
    last, functions = 0.0, []
    with open(path, errors='replace') as log:
        for line in log:
            at, _, text = line.strip().partition(' ')
            try:
                now = float(at)
            except ValueError:
                continue
            match = PROVED.match(text.strip())
            if match:
                functions.append((match.group(1), now - last))
            last = now
    return last, functions


def table(paths):
    crates, long = {}, []
    for path in paths:
        crate, _, kind = os.path.basename(path).partition('.')
        if kind not in KINDS:
            sys.exit(f'gate.py: {path} is not named CRATE.proof, CRATE.tests or CRATE.edits')
        seconds, functions = read(path)
        crates.setdefault(crate, {})[kind] = seconds
        if kind != 'edits':
            long += [(took, crate, kind, name) for name, took in functions if took > LONG]
    print('| crate | proof, s | tests, s | edits, s |\n|---|---:|---:|---:|')
    for crate in sorted(crates, key=lambda name: -sum(crates[name].values())):
        shown = (f'{crates[crate][kind]:.0f}' if kind in crates[crate] else '' for kind in KINDS)
        print(f'| {crate} | {" | ".join(shown)} |')
    sums = (sum(times.get(kind, 0) for times in crates.values()) for kind in KINDS)
    print(f'| all | {" | ".join(f"{total:.0f}" for total in sums)} |')
    print(f'\n| function that took over {LONG:.0f} s | crate | of | s |\n|---|---|---|---:|')
    for took, crate, kind, name in sorted(long, reverse=True):
        print(f'| {name} | {crate} | {kind} | {took:.0f} |')


def main(words):
    if words[:1] == ['stamp'] and len(words) > 1:
        return stamp(words[1:])
    if words[:1] == ['table'] and len(words) > 1:
        return table(words[1:])
    sys.exit(__doc__)


if __name__ == '__main__':
    sys.exit(main(sys.argv[1:]))
