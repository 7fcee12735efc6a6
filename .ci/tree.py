"""What stands in the tree: its documents, its crates in order, and the names that its sources define."""
import os
import re
import subprocess

TOP = os.path.dirname(os.path.dirname(os.path.abspath(__file__)))
# Documents that quote names of other programs.
UNCHECKED = ('tools/kicad/', 'docs/measured-kicad.md')
CODE = ('.rt', '.antt')
FILE = re.compile(r'[\w.-]*(?:/[\w.*-]+)*\.(?:rt|antt|md|py|txt|board|reply|svg|edit|1)'
                  r'|(?:crates|docs|bench|examples|tools|\.ci)(?:/[\w.-]+)*/?')
NAME = re.compile(r'[A-Za-z_]\w*(?:::[A-Za-z_]\w*)*')
CRATES_TEXT = re.compile(r'^([a-z]\w*)(?: [a-z_=0-9]+)*:', re.M)
# Words of the toolchain, of the system and of the texts' own examples, which no source of the tree defines.
OUTSIDE = set('''rt git python3 bash wc cc man std Vec String Option Result Global HostRuntime ExitCode SmallVec
    IndexMap Slab BTreeSet InvalidData OutOfMemory LD_PRELOAD NAME PATH FILE OUT COMMAND LICENSE HANDLES'''.split())
DEFINED_RT = re.compile(r'\b(?:fn|struct|enum|trait|const|type|mod|static)\s+(\w+)')
DEFINED_ANTT = re.compile(
    r'^(?:(?:pub|abbrev|unfoldable|opaque|record|data|use|private)\s+)*([^\s:(){},]+)\s*(?:[({][^\n]*)?:(?=\s)', re.M)
CLAUSE = re.compile(r'\b(?:ensures|requires|invariant)\s+(\w+)\s*\{')
NUMBERED = re.compile(r'\b(?:[TDR]\d{1,2}|[Ii]ssue \d+|[Rr]equest R?\d+)\b')
MACHINE = re.compile(r'(?<![\w.])/(?:work|root|home|opt|mnt)/')


def text_of(path):
    full = os.path.join(TOP, path)
    if not os.path.isfile(full):
        return ''
    with open(full, encoding='utf-8', errors='replace') as file:
        return file.read()


def files():
    """The files of the tree, those that git tracks or would, without links and folders."""
    said = subprocess.run(['git', 'ls-files', '-co', '--exclude-standard'], cwd=TOP, capture_output=True, text=True)
    found = said.stdout.split('\n') if not said.returncode else [
        os.path.relpath(os.path.join(at, name), TOP) for at, _, names in os.walk(TOP) for name in names]
    return sorted(path for path in set(found) if path and os.path.isfile(os.path.join(TOP, path)))


def documents():
    return [path for path in files() if path.endswith('.md')]


def crates():
    """The crates in the order of crates.txt."""
    return CRATES_TEXT.findall(text_of('crates.txt'))


def above(crate):
    """The crates that stand on a crate, in the order of crates.txt."""
    uses = {line.split(':')[0].split()[0]: line.split(':')[1].split()
            for line in text_of('crates.txt').split('\n') if ':' in line.split('#')[0]}
    found, count = {crate}, 0
    while len(found) > count:
        count = len(found)
        found |= {name for name in uses if found & set(uses[name])}
    return [name for name in crates() if name in found and name != crate]


def without_blocks(text):
    return re.sub(r'^```.*?^```', '', text, flags=re.M | re.S)


def code_words(text):
    """The names that stand alone in code spans, as `name` or `Type::name`."""
    return [span for span in re.findall(r'`([^`\n]+)`', without_blocks(text)) if NAME.fullmatch(span)]


class Names:
    """The names that sources of the tree define or use, and where."""

    def __init__(self):
        self.paths = files()
        self.base_names = {os.path.basename(path) for path in self.paths}
        self.crates = set(crates())
        self.defined, self.used, self.functions, self.traits = set(), set(), set(), set()
        self.of_crate = {}
        for path in self.paths:
            if path.endswith(CODE):
                self.take(path)
            elif path.endswith('.py') or path in ('contour', '.ci/run'):
                self.defined |= set(re.findall(r'\w+', text_of(path)))
        # The words of the texts, which have no underscore.
        self.formats = set(re.findall(r'[A-Za-z-]+', text_of('docs/FORMATS.md')))

    def take(self, path):
        text = text_of(path)
        code = re.sub(r'^\s*(?://|--).*$', '', text, flags=re.M)
        self.used |= set(re.findall(r"\w+", code))
        if path.endswith('.rt'):
            found = set(DEFINED_RT.findall(code)) | set(CLAUSE.findall(code))
            found |= set(re.findall(r'^\s+(?:pub )?(\w+)(?:[:,({]| =)', code, re.M))
            self.functions |= set(re.findall(r'\bfn\s+(\w+)', code))
            self.traits |= set(re.findall(r'\btrait\s+(\w+)', code))
        else:
            found = set(DEFINED_ANTT.findall(code)) | set(re.findall(r'^\s+(?:pub )?(\w+) :', code, re.M))
        self.defined |= found
        self.defined.add(os.path.basename(path).rsplit('.', 1)[0])
        crate = path.split('/')[1] if path.startswith('crates/') else ''
        self.of_crate.setdefault(crate, set()).update(found)

    def is_path(self, word, document):
        """Whether a file or folder is there, from the top, beside the document, or anywhere under this ending."""
        word = word.rstrip('/')
        if '*' in word or 'NAME' in word or '/out/' in word:
            return True
        near = os.path.normpath(os.path.join(os.path.dirname(document), word))
        return (any(os.path.exists(os.path.join(TOP, it)) for it in (word, near))
                or any(path.endswith('/' + word) for path in self.paths))

    def is_name(self, name):
        return any(name in known for known in (self.defined, self.crates, self.used, self.formats, OUTSIDE))

    def unknown_in(self, document):
        """The files and names of a document that are nowhere in the tree."""
        text = without_blocks(text_of(document))
        for span in re.findall(r'`([^`\n]+)`', text):
            for word in re.split(r'[\s,;()\[\]]+', span):
                if FILE.fullmatch(word) and not re.fullmatch(r'[\d.]+', word):
                    if not self.is_path(word, document):
                        yield word
                elif NAME.fullmatch(word) and looks_defined(word):
                    yield from (part for part in word.split('::') if not self.is_name(part))
        plain = re.sub(r'`[^`\n]*`|\]\([^)]*\)|https?://\S+|"[^"]*"', ' ', text)
        words = re.findall(r'(?<![\w/.-])[a-z]+(?:_[a-z0-9]+)+(?![\w/])', plain)
        yield from (word for word in words if not self.is_name(word))

    def is_function(self, name):
        return name in self.functions

    def is_else(self, crate, name):
        """Whether the crate has the name as a definition, a clause, a field or a module too, or it is a crate's."""
        return name in self.crates or name in self.formats or name in self.others(crate)

    def others(self, crate):
        found = set()
        for path in self.paths:
            if path.startswith(f'crates/{crate}/') and path.endswith('.antt') and '/specs/' in path:
                found |= set(DEFINED_ANTT.findall(text_of(path)))
        return found

    def public_with_contract(self, crate):
        """The functions of a crate that another crate can call and that have an `ensures`, and those of its traits."""
        top = text_of(f'crates/{crate}/src/lib.rt')
        shown = set(re.findall(r'\w+', ' '.join(re.findall(r'pub use [^;]+;', top))))
        open_modules = set(re.findall(r'^pub mod (\w+)', top, re.M))
        found = set()
        for path in self.paths:
            if not (path.startswith(f'crates/{crate}/src/') and path.endswith('.rt')):
                continue
            module = os.path.basename(path)[:-3]
            text = text_of(path)
            for head in re.finditer(r'^( *)(pub )?fn (\w+)', text, re.M):
                rest = text[head.end():]
                contract = re.split(r'^ *\{\}?$|^ *fn |;$', rest, maxsplit=1, flags=re.M)[0]
                indent, is_public, name = head.groups()
                kind, owner = last_head(text[:head.start()]) if indent else ('', '')
                # A method of a trait of the tree has the contract that the trait gives it.
                is_given = kind in self.traits and owner in shown
                if is_given or indent and 'ensures' in contract and (kind == 'trait' or is_public and owner in shown):
                    found.add(name)
                if indent or 'ensures' not in contract:
                    continue
                if is_public and (name in shown or module in open_modules or module == 'lib'):
                    found.add(name)
        return found


def last_head(text):
    """What the text ends within: ('trait', name), ('', type) for an `impl` of a type, (trait, type) of a trait's."""
    heads = re.findall(r'^(?:pub )?(impl|trait)\b([^{]*)', text, re.M)
    if not heads:
        return '', ''
    kind, rest = heads[-1]
    if kind == 'trait':
        return 'trait', re.match(r'\s*(\w+)', rest)[1]
    words = re.match(r'(?:<[^>]*(?:<[^>]*>[^>]*)*>)?\s*(\w+)(?:<[^>]*>)?(?:\s+for\s+(\w+))?', rest.strip())
    return (words[1], words[2]) if words and words[2] else ('', words[1] if words else '')


def looks_defined(word):
    """Whether a word of a code span is written as names of sources are, with an underscore, two capitals or ::."""
    return '::' in word or '_' in word.strip('_') or re.fullmatch(r'(?:[A-Z][a-z0-9]+){2,}', word) is not None


def comments(path, text):
    """The lines of a file that speak: all of a document, of a source its comments."""
    if path.endswith('.md'):
        return without_blocks(text)
    return '\n'.join(re.findall(r'(?:^|\s)(?://|--|#).*$', text, re.M))


def faults():
    """The lines of the tree that name a task's number or a path of a machine."""
    found = []
    for path in files():
        if path.startswith('examples/') or path.endswith(('.svg', '.png')) or path == '.ci/tree.py':
            continue
        text = text_of(path)
        if '\0' in text:
            continue
        found += [f'{path}: {match.group()}' for match in MACHINE.finditer(text)]
        if not path.startswith('tools/'):
            found += [f'{path}: {match.group()}' for match in NUMBERED.finditer(comments(path, text))]
    return found
