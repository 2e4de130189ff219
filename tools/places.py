#!/usr/bin/env python3
"""Counts the places that docs/DESIGN-PASS.md speaks of, in crates/*/src of the folder given (this repository where none is).
With --list each place is printed. What is a place for a reader to judge is only listed here; the page says how it was judged."""
import collections, glob, os, re, sys

args = [a for a in sys.argv[1:] if a != '--list']
root = args[0] if args else os.path.join(os.path.dirname(os.path.abspath(__file__)), '..')
files = sorted(f for f in glob.glob(root + '/crates/*/src/**/*.rt', recursive=True))
text = {os.path.relpath(f, root): open(f, encoding='utf-8').read() for f in files}
found = collections.OrderedDict()


def lines(name, pattern):
    found[name] = [f'{f}:{i}: {l.strip()}' for f, t in text.items() for i, l in enumerate(t.split('\n'), 1) if re.search(pattern, l)]


def types():
    """Enums and structs: their fields or variants."""
    for f, t in text.items():
        for m in re.finditer(r'^(pub )?(enum|struct) (\w+)[^{;]*\{(.*?)^\}', t, re.S | re.M):
            parts = [p.strip().rstrip(',') for p in m.group(4).split('\n') if p.strip() and not p.strip().startswith('//')]
            yield f, bool(m.group(1)), m.group(2), m.group(3), parts


def functions():
    """Name, comment, head and body of each function."""
    for f, t in text.items():
        for m in re.finditer(r'((?:^ *//[^\n]*\n)*)^ *(?:pub(?:\(crate\))? )?(?:const )?(?:extern "C" )?fn (\w+)(.*?)^( *)\{\n(.*?)^\4\}', t, re.S | re.M):
            yield f, m.group(2), m.group(1), m.group(3), m.group(5)


# 1
found['1 enums of the shape of Option or Result'] = [
    f'{f}: {n}' for f, _, k, n, p in types()
    if k == 'enum' and len(p) == 2 and any('(' in x for x in p) and not all('(' in x and ',' in x for x in p)]
found['1 structs with a flag beside a value'] = [f'{f}: {n}' for f, _, k, n, p in types() if k == 'struct' and len(p) > 1 and any(x.endswith(': bool') for x in p)]
found['1 functions with a number or a mark for "none"'] = [
    f'{f}: {n}' for f, n, c, h, b in functions()
    if re.search(r'-> (u32|usize|Spot)\b', h) and re.search(r'(\b0 where|; 0 |, 0 |\. 0, or|END where|NONE where|else none|0 for any|0 in case|where there is none|number of segments where)', c)]
lines('1 refusals as bare numbers', r'Refused\(\d+\)')
lines('1 matches on the number of an operation or an answer', r'^\s*(match (k|n|s\.operation) \{)|^\s*if k <= 10 \{')
# 2
groups = collections.defaultdict(list)
for f, n, c, h, b in functions():
    body = re.sub(r'\b[A-Z][A-Z0-9_]+\b|\b\d+\b', '#', b)
    body = re.sub(r'\b\w+(::\w+)+', '@', re.sub(r'\s+', ' ', body))
    if len(body) > 60:
        groups[body].append(f'{f}: {n}')
found['2 groups of functions that differ in a constant or a callee'] = [' | '.join(g) for g in groups.values() if len(g) > 1]
# 3
lines('3 loops by while', r'^\s*while ')
# 4
lines('4 library functions written by hand', r'\bfn (both|one|wide|choose|smaller|copy|same_pair|between|earlier|later|sum|marked|would_be|decided|is_call)\b|wrapping_\w+_u\d+')
lines('4 conditions in a row that return a bool', r'^\s*return (true|false);')
# 5
atoms = collections.Counter()
for f, n, c, h, b in functions():
    for r in re.findall(r'requires \{(.*?)\}\n', h, re.S):
        for a in re.split(r' × ', re.sub(r'\s+', ' ', r)):
            a = a.strip().strip('()').strip()
            a = re.sub(r'\.(now|old)\b', '', a)
            if a:
                atoms[a] += 1
found['5 conditions asked by three functions or more'] = [f'{k}: {v} times' for k, v in atoms.most_common() if v >= 3]
found['5 functions with seven parameters or more'] = [f'{f}: {n}' for f, n, c, h, b in functions() if len(re.findall(r'\w+: [&\w\[]', h.split(') ')[0])) >= 7]
# 6
lines('6 buffers beside which a length is counted', r'let mut \w+ = \[0u(8|32|64); ')
# 7
found['7 private enums that only say which step to run'] = [
    f'{f}: {n}' for f, p, k, n, v in types() if k == 'enum' and not p and all('(' not in x for x in v)]
# 8
proofs = [f for f in glob.glob(root + '/crates/*/proofs/**/*.antt', recursive=True) if '/out/' not in f]
found['8 files of proofs'] = [os.path.relpath(f, root) for f in proofs]
found['8 lines of proofs'] = [''] * sum(1 for f in proofs for _ in open(f, encoding='utf-8'))

for name, places in found.items():
    print(f'{len(places):6} {name}')
    if '--list' in sys.argv and not name.startswith('8'):
        for p in places:
            print('         ' + p)
