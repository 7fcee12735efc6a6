"""Runs of the built program for each of its statuses, with what it must write on both streams."""
import os
import resource
import subprocess

SECONDS = 60
USAGE = b'usage: contour run [--quiet] / check / upgrade / gen N / demo N\n'
HEAD = b'board 1 demo 4000 2000\nlayer top\nlayer bot\nclass sig\nrule top sig 75 200\nrule bot sig 75 200\n'
KIND = b'viakind thru top bot 50\npad thru sig 100\n'
NETS = b'net a sig\nnet b sig\npin a 1000 700 1000 700 top top\npin a 2000 700 2000 700 top top\n'
BOARD = HEAD + KIND + NETS + b'end\n'
REPLIES = b'replies\n'
# A board text or a first part of one, its line that is refused, and the kind.
REFUSED = (
    ('a byte that is no ASCII', b'board 1 demo 4000 2000\nlayer gr\xc3\xb6\xc3\x9fe\n', 2, 1),
    ('an unknown first word', b'board 1 demo 4000 2000\nlayers top\n', 2, 2),
    ('a word too many', b'board 1 demo 4000 2000 9\n', 1, 2),
    ('a name of 65 bytes', b'board 1 demo 4000 2000\nlayer ' + b'x' * 65 + b'\n', 2, 2),
    ('a form of version 2 in version 1', HEAD + b'clear top sig sig 3\n', 7, 2),
    ('a word that is no number', b'board one demo 4000 2000\n', 1, 3),
    ('a negative number', HEAD + b'net a sig\npin a 4 9 -6 11 top top\n', 8, 3),
    ('a version that is none', b'board 3 demo 4000 2000\n', 1, 4),
    ('a side past its range', b'board 1 demo 1048577 2000\n', 1, 4),
    ('a gap of 0', b'board 1 demo 4000 2000\nlayer top\nclass sig\nrule top sig 75 0\n', 4, 4),
    ('a corner off the board', HEAD + b'block top 0 0 4001 9\n', 7, 4),
    ('an unknown class', HEAD + b'net a power\n', 7, 5),
    ('an unknown net of a command', BOARD + b'route c\n', 14, 5),
    ('a layer named twice', HEAD + b'layer top\n', 7, 6),
    ('a text that begins without its board', b'layer top\n', 1, 7),
    ('a command before the end', HEAD + b'all\n', 7, 7),
    ('a net after the end', BOARD + b'net c sig\n', 14, 7),
    ('a rule that is missing', b'board 1 demo 4000 2000\nlayer top\nclass sig\nend\n', 4, 8),
    ('a pad that is missing', HEAD + b'viakind thru top bot 50\nend\n', 8, 8),
    ('a text that is cut off', HEAD, 7, 9),
    ('an empty text', b'', 1, 9),
    ('a ninth layer', b'board 1 demo 40 20\n' + b''.join(b'layer %d\n' % it for it in range(9)), 10, 10),
    ('corners in the wrong order', HEAD + b'block top 22 0 18 14\n', 7, 11),
    ('a kind of via from a layer to itself', HEAD + b'viakind v top top 9\n', 7, 11),
)
# Words, an input whose replies are right, and the kind of what the words name wrongly.
WRONG_NAMES = (
    (['fill', 'c', 'top', '0', '0', '9', '9'], 5),
    (['fill', 'a', 'mid', '0', '0', '9', '9'], 5),
    (['gerber', 'mid'], 5),
    (['fill', 'a', 'top', '0', '0', '4001', '9'], 4),
    (['fill', 'a', 'top', '9', '0', '0', '9'], 11),
    (['through', 'a', 'c'], 5),
    (['through', 'a', 'b', 'b'], 6),
)
BAD_WORDS = ([], ['frob'], ['run', 'quiet'], ['run', '--quiet', 'x'], ['gen'], ['gen', '0'], ['gen', '2001'],
             ['gen', '01'],
             ['demo', 'ten'], ['auto', '0'], ['auto', '101'], ['through', 'a'], ['fill', 'a', 'top', '0'],
             ['trace', 'x'], ['check', '-'], [b'\xff'], [b'run', b'\xff'])


class Look:
    """Runs the program and notes each run that does not end as it must."""

    def __init__(self, program):
        self.program, self.found = program, []

    def expect(self, what, words, data, status, out, err, **streams):
        """Runs it on the bytes, and compares the status and both streams, but for a stream that is given."""
        if 'stdin' not in streams:
            streams['input'] = data
        for name in ('stdout', 'stderr'):
            streams.setdefault(name, subprocess.PIPE)
        ran = subprocess.run([self.program, *words], timeout=SECONDS, **streams)
        ended = (('status', ran.returncode, status), ('output', ran.stdout, out), ('error', ran.stderr, err))
        for name, given, wanted in ended:
            if given is not None and wanted is not None and given != wanted:
                self.found.append(f'{what}: {name} {str(given)[:60]}, and not {str(wanted)[:60]}')
        return ran


def done(look):
    replies = b'rules 0\n'
    look.expect('run', ['run'], BOARD + b'rules\n', 0, replies, b'')
    look.expect('run without a command', ['run', '--quiet'], BOARD, 0, b'', b'')
    look.expect('check', ['check'], BOARD + b'rules\n' + REPLIES + replies, 0, b'right 1\n', b'')
    look.expect('trace', ['trace'], BOARD + REPLIES, 0, None, b'')
    # A folder as input: what reads it ends with status 4, so these read nothing.
    folder = os.open('.', os.O_RDONLY)
    look.expect('gen', ['gen', '1'], None, 0, None, b'', stdin=folder)
    first = look.expect('demo', ['demo', '3'], None, 0, None, b'', stdin=folder)
    look.expect('demo again', ['demo', '3'], None, 0, first.stdout, b'', stdin=folder)
    os.close(folder)


def wrong(look):
    text = BOARD + b'rules\nall\n' + REPLIES
    violation = b'rules 1\noutline top net a 1000 700 1000 700\n'
    look.expect('a wrong reply', ['check'], text + violation, 1, b'', b'wrong reply 1\n')
    look.expect('a reply that is missing', ['check'], text + b'rules 0\n', 1, b'', b'wrong reply 2\n')
    look.expect('a report on wrong replies', ['trace'], text + b'rules 0\n', 1, b'', b'wrong reply 2\n')
    look.expect('gerber on wrong replies', ['gerber', 'top'], text + b'rules 0\n', 1, b'', b'wrong reply 2\n')


def bad_words(look):
    for words in BAD_WORDS:
        with_folder = os.open('.', os.O_RDONLY)
        look.expect(f'words {words}', words, None, 2, b'', USAGE, stdin=with_folder)
        os.close(with_folder)


def bad_input(look):
    for what, text, line, kind in REFUSED:
        said = b'line %d kind %d\n' % (line, kind)
        look.expect(what, ['run'], text, 3, b'', said)
        look.expect(f'{what}, upgraded', ['upgrade'], text, 3, b'', said)
    for words, kind in WRONG_NAMES:
        text = BOARD if words[0] == 'through' else BOARD + REPLIES
        look.expect(f'words {words}', words, text, 3, b'', b'line 0 kind %d\n' % kind)
    look.expect('no line of replies', ['check'], BOARD, 3, b'', b'line 14 kind 9\n')
    look.expect('replies that are none', ['check'], BOARD + REPLIES + b'rules\n', 3, b'', b'line 15 kind 13\n')
    zero = os.open('/dev/zero', os.O_RDONLY)
    look.expect('an input without end', ['run'], None, 3, b'', b'too long\n', stdin=zero)
    os.close(zero)


def faults_of_streams(look):
    folder = os.open('.', os.O_RDONLY)
    for words in (['run'], ['check'], ['upgrade'], ['trace'], ['auto', '1']):
        look.expect(f'{words[0]} of a folder', words, None, 4, b'', b'read fault\n', stdin=folder)
    os.close(folder)
    full = os.open('/dev/full', os.O_WRONLY)
    for words, data in ((['run'], BOARD + b'rules\n'), (['gen', '3'], b''), (['demo', '3'], b''), (['upgrade'], BOARD),
                        (['trace'], BOARD + REPLIES), (['check'], BOARD + REPLIES)):
        look.expect(f'{words[0]} to a full device', words, data, 5, None, b'write fault\n', stdout=full)
    # A fault of standard error changes no status.
    look.expect('a line that cannot be written', ['run'], b'', 3, b'', None, stderr=full)
    look.expect('nothing to write', ['run'], BOARD, 0, None, b'', stdout=full)
    os.close(full)
    reading, writing = os.pipe()
    os.close(reading)
    look.expect('a closed pipe', ['run'], BOARD + b'rules\n', 5, None, b'write fault\n', stdout=writing)
    os.close(writing)


def no_memory(look):
    limit = lambda: resource.setrlimit(resource.RLIMIT_AS, (60_000_000, 60_000_000))
    look.expect('an input past the memory', ['run'], b'#' * 80_000_000, 6, b'', b'no memory\n', preexec_fn=limit)


def faults(program):
    look = Look(os.path.abspath(program))
    for case in (done, wrong, bad_words, bad_input, faults_of_streams, no_memory):
        case(look)
    return look.found
