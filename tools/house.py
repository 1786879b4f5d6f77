"""What the tools know of the repository: its crates, their functions and their must-fail edits. Paths are below the folder that they are run in."""
import glob
import os
import re


def read(path):
    with open(path, encoding='utf-8') as file:
        return file.read()


def needs():
    """The crates of crates.txt in its order, and what each needs."""
    lines = (line.split('#')[0].partition(':') for line in read('crates.txt').split('\n'))
    return {name.split()[0]: after.split() for name, colon, after in lines if colon}


def libraries():
    """The names of the crates of crates.txt that are libraries, in its order."""
    return [name for name in needs() if os.path.exists('crates/%s/src/lib.rt' % name)]


class Function:
    """A function with its full name (`crate::module::name`), whether it is `pub`, and its contract's text ('' where it has none)."""

    def __init__(self, crate, module, name, public, contract):
        self.crate, self.name, self.public, self.contract = crate, name, public, contract
        self.full = '::'.join(part for part in (crate, module, name) if part)


def contract_after(text, at):
    """What stands between a function's parameters, which start at this place, and its body."""
    depth = 0
    while True:
        depth += {'(': 1, ')': -1}.get(text[at], 0)
        at += 1
        if depth == 0:
            break
    line_end = text.find('\n', at)
    if text[at:line_end].rstrip().endswith('{') or text[at:line_end].rstrip().endswith('}'):
        return ''
    body = re.compile(r'\n\s*\{[ \t]*\n').search(text, line_end)
    return text[line_end:body.start() if body else len(text)]


def functions(crate):
    """The functions of a crate's sources."""
    found = []
    for path in sorted(glob.glob('crates/%s/src/*.rt' % crate)):
        text = re.sub(r'//[^\n]*', '', read(path))
        module = os.path.basename(path)[:-3]
        for m in re.finditer(r'^[ \t]*(?:(pub)\s+|pub\(crate\)\s+)?(?:extern\s+"C"\s+)?fn\s+(\w+)[^(]*(?=\()', text, re.M):
            contract = contract_after(text, m.end())
            found.append(Function(crate, '' if module in ('lib', 'main') else module, m.group(2), bool(m.group(1)), contract))
    return found


class Edit:
    """A must-fail edit: its crate, its label, the file that it changes first, and its changes: of each the file, the text that goes and the text that comes."""

    def __init__(self, path):
        self.path, self.crate, self.label = path, path.split('/')[1], os.path.basename(path)[:-5]
        self.changes = list(self.read_changes())
        self.file = self.changes[0][0] if self.changes else None
        self.old = [old for _, old, _ in self.changes]

    def read_changes(self):
        """A `file:` line holds for the `old:` and `new:` lines behind it, as `rt` reads them."""
        file, old = '', ''
        for line in read(self.path).split('\n'):
            if line.startswith('file: '):
                file = os.path.join('crates', self.crate, line[6:].strip())
            elif line.startswith('old: '):
                old = line[5:]
            elif line.startswith('new:'):
                yield file, old, line[4:].removeprefix(' ')

    def fault(self):
        """Why it does not apply; '' where it does."""
        if not self.changes:
            return 'no old text'
        for file, old, _ in self.changes:
            if not os.path.exists(file):
                return 'no such file'
            if read(file).count(old) != 1:
                return 'its old text stands %d times' % read(file).count(old)
        return ''


def edits():
    return [Edit(path) for path in sorted(glob.glob('crates/*/must-fail/*.edit'))]
