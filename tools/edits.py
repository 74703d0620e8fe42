"""The must-fail edits, as check-edits, check-refused, check-traceability and figures read them.

A file crates/CRATE/must-fail/*.edit is one check of its crate, and holds one edit or several. With several, each begins with a line `edit: LABEL`,
changes one function, and is refused or not as if it stood alone: see `clash`. A file with one edit needs no such line: its label is the file's name.
"""
import glob, os, re

ROOT = os.path.dirname(os.path.dirname(os.path.abspath(__file__)))
CODE = 'src/lib.rt'


def read(path):
    with open(path) as f: return f.read()


def crates():
    """name -> what it stands on, in the order of crates.txt"""
    lines = [l.split('#')[0] for l in read(os.path.join(ROOT, 'crates.txt')).split('\n')]
    return {l.split(':')[0].split()[0]: l.split(':')[1].split() for l in lines if ':' in l}


class Function:
    def __init__(self, text):
        self.text = text
        self.name = re.search(r'fn (\w+)', text).group(1)
        self.public = text.startswith('pub ') and 'ensures' in text
        # the signature and the clauses stand before the body
        self.head = text[:re.search(r'^\{', text, re.M).start()] if re.search(r'^\{', text, re.M) else text.split('{')[0]

    def calls(self, all_):
        return {g for g in re.findall(r'(?<![\w:.])(\w+)\(', self.text[len(self.head):]) if g in all_ and g != self.name}


def functions(crate):
    """name -> Function, of a library's root file"""
    path = os.path.join(ROOT, 'crates', crate, CODE)
    parts = re.split(r'^(?=(?:pub )?(?:extern "C" )?fn )', read(path), flags=re.M)[1:] if os.path.exists(path) else []
    out = [Function(p[:re.search(r'^\}|^\{\}', p, re.M).end()]) for p in parts]
    return {f.name: f for f in out}


class Edit:
    def __init__(self, label):
        self.label, self.pairs, self.named = label, [], []

    def changed(self, all_):
        """the functions whose text it changes"""
        return [f for f in all_.values() if any(file == CODE and old in f.text for file, old, _ in self.pairs)]

    def function(self, all_):
        """the one function that it changes, where it changes nothing else but what is imported for it"""
        fs = self.changed(all_)
        return fs[0] if len(fs) == 1 and all(file == CODE and (old in fs[0].text or old.startswith('ghost use ')) for file, old, _ in self.pairs) else None

    def clause(self, f):
        """whether it changes f's signature or clauses"""
        return any(old in f.head for _, old, _ in self.pairs)


def clash(a, b, all_):
    """Why two edits of one file would not be refused or not as if each stood alone; None where they would. What is to be proved of a function is its own code
    against its own clauses, given the clauses of what it calls: so the two change different functions, and neither the clauses that the other calls."""
    f, g = a.function(all_), b.function(all_)
    if not f or not g: return 'an edit beside others changes one function, and else only what is imported for it'
    if f.name == g.name: return f'two edits of {f.name}'
    for x, fx, fy in ((a, f, g), (b, g, f)):
        if x.clause(fx) and fx.name in fy.calls(all_): return f'{fy.name} calls {fx.name}, whose clauses are changed'
    return None


def files(crate):
    """[(path, [Edit])]"""
    out = []
    for path in sorted(glob.glob(os.path.join(ROOT, 'crates', crate, 'must-fail', '*.edit'))):
        edits, file, old = [], None, None
        for line in read(path).split('\n'):
            if line.startswith('edit: '): edits.append(Edit(line[6:]))
            elif line.startswith('file: '): file = line[6:]
            elif line.startswith('old: '): old = line[5:]
            elif line.startswith(('for: ', 'new:')):
                if not edits: edits.append(Edit(os.path.basename(path)[:-5]))
                if line.startswith('for: '): edits[-1].named += line[5:].split()
                else: edits[-1].pairs.append((file, old, line[4:].removeprefix(' ')))
        out.append((path, edits))
    return out
