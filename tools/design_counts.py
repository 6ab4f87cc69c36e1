#!/usr/bin/env python3
# Counts, for docs/DESIGN-PASS.md, the places of the older forms in crates/*/src (and the walks over `Tie` in crates/*/proofs).
# design_counts.py [TREE] [-v]: TREE is a checkout (this one where none is named); -v lists the places.
import glob, os, re, sys

args = [a for a in sys.argv[1:] if a != '-v']
tree = args[0] if args else os.path.join(os.path.dirname(os.path.abspath(__file__)), '..')
verbose = '-v' in sys.argv

FN = re.compile(r'^[ ]*(?:pub(?:\([^)]*\))? )?(?:extern "C" )?fn (\w+)', re.M)


def functions(text):
    """(name, header with its clauses, body) of each function."""
    starts = [m for m in FN.finditer(text)]
    for i, m in enumerate(starts):
        end = starts[i + 1].start() if i + 1 < len(starts) else len(text)
        part = text[m.start():end]
        b = re.search(r'^[ ]*\{$|\{\n', part, re.M)
        if b:
            yield m.group(1), part[:b.start()], part[b.start():]


def kind(path):
    crate = path.split('/crates/')[1].split('/')[0]
    return 'tests' if crate.startswith('tests_') or crate.startswith('vault_tests') else 'library'


rows = {}


def found(point, what, path, line):
    rows.setdefault((point, what), []).append((kind(path), '%s %s' % (path.split('/crates/')[1], line)))


for path in sorted(glob.glob(os.path.join(tree, 'crates/*/src/*.rt'))):
    text = open(path).read()
    plain = re.sub(r'//[^\n]*', '', text)
    for m in re.finditer(r'enum (\w+) \{([^}]*)\}', plain):
        if re.search(r'\b(Done|Refused|Found|ScanRefused)\b', m.group(2)):
            found(1, 'enum of the shape of Option or Result', path, m.group(1))
    for m in re.finditer(r'struct (\w+)[^{;]*\{([^}]*)\}', plain):
        if re.search(r'\b(code: u8|missing: bool)', m.group(2)):
            found(1, 'struct of a number or flag with a value beside it', path, m.group(1))
        if len(re.findall(r'\b\w+: \[usize; 16\]', m.group(2))) > 1:
            found(6, 'struct of parallel arrays', path, m.group(1))
        if re.search(r'client0: u64', m.group(2)):
            found(6, 'fields numbered by hand', path, m.group(1))
    for name, head, body in functions(text):
        clean = re.sub(r'//[^\n]*', '', body)
        if re.search(r'-> u8\b', head) and re.search(r'_code|find_|first_number|Prepared|Examined', head) and 'extern "C"' not in head and 'told' not in name:
            found(1, 'function that answers the number of a refusal', path, name)
        comment = text[:text.index(head)].rstrip().split('\n')[-1] if head in text else ''
        if re.search(r'-> usize', head) and re.search(r'where there is none|[;,:] 0 (?:if|where)|[Oo]ne more than the', comment):
            found(1, 'number that stands for none', path, name)
        if re.search(r'\bmarks?: (?:&mut |&)?(?:\[u8|u8)', head):
            found(1, 'mark of 0 or 1 as a number', path, name)
        n = len(re.findall(r'\w+: ', head.split('requires')[0].split('ensures')[0]))
        if n > 6:
            found(5, 'function of more than six parameters', path, '%s %d' % (name, n))
        if re.search(r'\[\[usize; [45]\]; 16\]', head):
            found(6, 'record as a row of numbers with named columns', path, name)
        for m in re.finditer(r'while ([^\n]*) \{\n', clean):
            depth, at = 1, m.end()
            while depth and at < len(clean):
                depth += (clean[at] == '{') - (clean[at] == '}')
                at += 1
            counter = re.findall(r'\b(\w+) [+-]= 1;|\b(\w+) = next;', clean[m.end():at])
            names = {a or b for a, b in counter}
            if any(re.search(r'\b%s\b' % re.escape(c), m.group(1)) for c in names):
                found(3, 'loop that counts an index by hand', path, name)
            else:
                found(3, '(while loop that goes by the data)', path, name)
        if name in ('equal', 'same_key', 'same_counts', 'copy', 'copy_into', 'larger', 'smaller', 'capped', 'wide', 'is_upper', 'reach_of', 'marked'):
            found(4, 'equality, copy, minimum, conversion by hand', path, name)
    for m in re.finditer(r'\b(\w+): \1,', plain):
        found(4, 'field written twice (`x: x`)', path, m.group(0))
clauses = {}
for path in sorted(glob.glob(os.path.join(tree, 'crates/*/src/*.rt'))):
    for name, head, body in functions(open(path).read()):
        for m in re.finditer(r'requires (?:\w+ )?\{(.*?)\}\s*\n', head, re.S):
            key = re.sub(r'\s+', ' ', m.group(1)).strip()
            clauses.setdefault((path, key), []).append(name)
for (path, key), names in clauses.items():
    if len(names) > 2:
        found(5, 'clause in three or more functions of a file', path, '%s (%d)' % (key[:60], len(names)))
for path in sorted(glob.glob(os.path.join(tree, 'crates/*/proofs/*/Proof.antt')) + glob.glob(os.path.join(tree, 'crates/*/proofs/*/*/Proof.antt'))):
    found(8, 'proof that walks over a Tie', path, '')
for path in sorted(glob.glob(os.path.join(tree, 'crates/*/proofs/**/*.antt'), recursive=True)):
    for line in open(path):
        if re.search(r'= search rules$', line):
            found(8, 'answer `search rules`', path, '')
for (point, what), places in sorted(rows.items()):
    lib = sum(1 for k, _ in places if k == 'library')
    print('%d  %-55s library %4d  tests %4d' % (point, what, lib, len(places) - lib))
    if verbose:
        for _, p in places:
            print('       ' + p)
