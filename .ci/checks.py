#!/usr/bin/env python3
"""Holds documents, examples and the built program to the tree, in seconds and without any proof.

    .ci/checks.py [--program PATH] [CHECK ..]
    .ci/checks.py --above CRATE     lists the crates that stand on a crate, which are proved again when it changes

Without names all checks run. PATH is the built program, crates/contour/out/contour where none is given.

    examples   each example gives its stored reply, and `check` says right to it
    readme     each command block of README.md runs, and prints what the block after it shows
    links      each link of a document leads to a file, and to a heading of it
    names      each file, crate, function and definition that a document names is there
    crates     each crate has a README that names only its public functions with a contract; one order of crates
    columns    no line of a document has more than 120 columns
    statuses   each status of the built program, with both streams
    words      each word of the program's commands stands in README.md, docs/FORMATS.md and docs/man/contour.1
    tree       no number of a task and no path of a machine stands in the tree
    pictures   the pictures are those that tools/view/make-pictures makes
    tools      the tests of tools/*/tests

The last line is `N checks passed`; else each fault has a line, and the status is 1.
"""
import argparse
import os
import re
import subprocess
import sys
import tempfile

sys.dont_write_bytecode = True
sys.path.insert(0, os.path.dirname(os.path.abspath(__file__)))
import statuses
import tree

TOP = tree.TOP
COLUMNS = 120
SECONDS = 120
# The Python for which the system's packages install modules, KiCad's pcbnew among them.
SYSTEM_PYTHON = '/usr/bin/python3' if os.path.exists('/usr/bin/python3') else sys.executable
README_LINES = (10, 30)
COMMANDS = ('run', 'check', 'upgrade', 'gen', 'demo', 'fill', 'gerber', 'trace', 'through', 'auto')


def run(words, data=b''):
    return subprocess.run(words, input=data, capture_output=True, timeout=SECONDS)


def examples(program):
    """The faults of the examples: a reply text without a certificate is one of `run --quiet`."""
    folder = os.path.join(TOP, 'examples')
    boards = sorted(name[:-6] for name in os.listdir(folder) if name.endswith('.board'))
    replies = sorted(name[:-6] for name in os.listdir(folder) if name.endswith('.reply'))
    faults = [f'examples/{name}: a board or a reply without the other' for name in sorted(set(boards) ^ set(replies))]
    for name in sorted(set(boards) & set(replies)):
        with open(os.path.join(folder, f'{name}.board'), 'rb') as file:
            board = file.read()
        with open(os.path.join(folder, f'{name}.reply'), 'rb') as file:
            wanted = file.read()
        has_cert = re.search(rb'^cert ', wanted, re.M)
        is_routed = re.search(rb'^route .* made ', wanted, re.M)
        whole = run([program, 'run'], board)
        given = run([program, 'run', '--quiet'], board) if is_routed and not has_cert else whole
        if given.returncode or given.stdout != wanted:
            faults.append(f'examples/{name}.board: the reply is not examples/{name}.reply')
        checked = run([program, 'check'], board.rstrip(b'\n') + b'\nreplies\n' + whole.stdout)
        if checked.returncode or not re.fullmatch(rb'right \d+\n', checked.stdout):
            said = (checked.stdout + checked.stderr).decode(errors='replace').strip()
            faults.append(f'examples/{name}.board: check says {said!r}')
    return faults


def blocks(text):
    """The fenced blocks of a document: the word after the fence, and the lines within."""
    found, word, lines = [], None, []
    for line in text.split('\n'):
        if line.startswith('```'):
            if word is None:
                word, lines = line[3:].strip(), []
            else:
                found.append((word, lines))
                word = None
        elif word is not None:
            lines.append(line)
    return found


def readme(program):
    """The faults of README's command blocks, run in a folder in which ./contour is the built program."""
    faults, found = [], blocks(tree.text_of('README.md'))
    with tempfile.TemporaryDirectory() as folder:
        for name in ('examples', 'tools', 'docs', 'crates'):
            if os.path.isdir(os.path.join(TOP, name)):
                os.symlink(os.path.join(TOP, name), os.path.join(folder, name))
        os.symlink(os.path.abspath(program), os.path.join(folder, 'contour'))
        for at, (word, lines) in enumerate(found):
            if word != 'sh':
                continue
            printed = b''
            for line in lines:
                if line.strip() in ('.ci/run', ''):
                    continue
                ran = subprocess.run(['bash', '-c', line], cwd=folder, capture_output=True, timeout=SECONDS,
                                     env={**os.environ, 'CONTOUR': os.path.abspath(program)})
                printed += ran.stdout
                if ran.returncode:
                    faults.append(f'README.md: {line}: status {ran.returncode}, {ran.stderr.decode()[:100].strip()}')
            shown = found[at + 1][1] if at + 1 < len(found) and found[at + 1][0] == 'text' else None
            if shown is not None and printed.decode() != '\n'.join(shown) + '\n':
                faults.append(f'README.md: the commands {lines[0]!r} .. do not print what the block after them shows')
    return faults


def slug(heading):
    """The anchor that a heading has."""
    plain = re.sub(r'[`*]|\[([^\]]*)\]\([^)]*\)', r'\1', heading).strip().lower()
    return re.sub(r'[^\w\- ]', '', plain).replace(' ', '-')


def anchors(path):
    lines = tree.without_blocks(tree.text_of(path)).split('\n')
    return {slug(line.lstrip('#')) for line in lines if line.startswith('#')}


def links(_):
    faults = []
    for path in tree.documents():
        text = re.sub(r'`[^`\n]*`', '', tree.without_blocks(tree.text_of(path)))
        for target in re.findall(r'\]\(([^)\s]+)\)', text) + re.findall(r'(?:src|href)="([^"]+)"', text):
            if re.match(r'[a-z]+:', target):
                continue
            file, _, anchor = target.partition('#')
            at = os.path.normpath(os.path.join(os.path.dirname(path), file)) if file else path
            if not os.path.exists(os.path.join(TOP, at)):
                faults.append(f'{path}: the link to {target} leads to no file')
            elif anchor and (not at.endswith('.md') or anchor not in anchors(at)):
                faults.append(f'{path}: the link to {target} leads to no heading')
    return faults


def names(_):
    known = tree.Names()
    return [f'{path}: {name} is no file, crate, function or definition of the tree'
            for path in tree.documents() if not path.startswith(tree.UNCHECKED)
            for name in sorted(set(known.unknown_in(path)))]


def crates(_):
    faults, known = [], tree.Names()
    listed = tree.crates()
    for crate in listed:
        path = f'crates/{crate}/README.md'
        if not os.path.isfile(os.path.join(TOP, path)):
            faults.append(f'{path} is missing')
            continue
        text = tree.text_of(path)
        count = len(text.rstrip('\n').split('\n'))
        if not README_LINES[0] <= count <= README_LINES[1]:
            faults.append(f'{path} has {count} lines, and not {README_LINES[0]} to {README_LINES[1]}')
        public = known.public_with_contract(crate)
        for name in tree.code_words(text):
            last = name.split('::')[-1]
            if known.is_function(last) and last not in public and not known.is_else(crate, last):
                faults.append(f'{path}: {name} is no public function of {crate} with a contract')
    rows = re.findall(r'^\| `?(\w+)`? \|', tree.text_of('docs/ARCHITECTURE.md'), re.M)
    mapped = [name for name in rows if name in listed]
    if mapped != listed:
        odd = next((a for a, b in zip(mapped + [None], listed + [None]) if a != b), None)
        faults.append(f'docs/ARCHITECTURE.md: its crates are not those of crates.txt in the same order, from {odd} on')
    return faults


def columns(_):
    return [f'{path}:{number}: {len(line)} columns'
            for path in tree.files()
            if path.endswith(('.md', '.py', '.1')) or path in ('contour', '.ci/run')
            for number, line in enumerate(tree.text_of(path).split('\n'), 1) if len(line) > COLUMNS]


def words(_):
    faults = []
    for path in ('README.md', 'docs/FORMATS.md', 'docs/man/contour.1'):
        text = tree.text_of(path)
        faults += [f'{path}: the word {word} is missing' for word in COMMANDS if not re.search(rf'\b{word}\b', text)]
    return faults


def pictures(program):
    maker = os.path.join(TOP, 'tools/view/make-pictures')
    if not os.path.isfile(maker):
        return []
    ran = subprocess.run([maker, '--check'], cwd=TOP, capture_output=True, text=True,
                         env={**os.environ, 'CONTOUR': os.path.abspath(program)})
    return [f'tools/view/make-pictures --check: {line}' for line in (ran.stdout + ran.stderr).strip().split('\n')
            ] if ran.returncode else []


def tools(program):
    faults = []
    folder = os.path.join(TOP, 'tools')
    for name in sorted(os.listdir(folder)) if os.path.isdir(folder) else []:
        if not os.path.isdir(os.path.join(folder, name, 'tests')):
            continue
        words = [SYSTEM_PYTHON, '-m', 'unittest', 'discover', '-t', f'tools/{name}', '-s', f'tools/{name}/tests']
        ran = subprocess.run(words, cwd=TOP, capture_output=True, text=True,
                             env={**os.environ, 'CONTOUR': os.path.abspath(program)})
        if ran.returncode:
            faults.append(f'tools/{name}/tests: ' + ran.stderr.strip().split('\n')[-1])
    return faults


CHECKS = {
    'examples': examples,
    'readme': readme,
    'links': links,
    'names': names,
    'crates': crates,
    'columns': columns,
    'statuses': statuses.faults,
    'words': words,
    'tree': lambda _: tree.faults(),
    'pictures': pictures,
    'tools': tools,
}
NEED_PROGRAM = ('examples', 'readme', 'statuses', 'pictures', 'tools')


def main():
    parser = argparse.ArgumentParser(usage='.ci/checks.py [--program PATH] [CHECK ..] | --above CRATE')
    parser.add_argument('--program', default=os.path.join(TOP, 'crates/contour/out/contour'))
    parser.add_argument('--above', metavar='CRATE', choices=tree.crates())
    parser.add_argument('checks', nargs='*', metavar='CHECK')
    given = parser.parse_args()
    if given.above:
        print(*tree.above(given.above), sep='\n')
        return 0
    unknown = [name for name in given.checks if name not in CHECKS]
    if unknown:
        parser.error(f'{unknown[0]} is none of {", ".join(CHECKS)}')
    chosen = given.checks or list(CHECKS)
    if any(name in NEED_PROGRAM for name in chosen) and not os.access(given.program, os.X_OK):
        parser.error(f'{given.program} is no program: `./contour` or `rt ci` makes it, and --program names another')
    count = 0
    for name in chosen:
        faults = CHECKS[name](given.program)
        print(f'{name}: {"ok" if not faults else f"{len(faults)} faults"}', flush=True)
        for fault in faults:
            print(f'  {fault}')
        count += not faults
    print(f'{count} checks passed, {len(chosen) - count} failed')
    return 0 if count == len(chosen) else 1


if __name__ == '__main__':
    sys.exit(main())
