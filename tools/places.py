#!/usr/bin/env python3
"""Counts the places that a design pass looks at, point by point: tools/places.py [-v] [FOLDER] [CRATE ...]

FOLDER is the top of a checkout (this one if none is given). With -v each place is printed. docs/DESIGN-PASS.md says what
the points are. Points 1 and 3 to 7 are found by a pattern on the lines of src/, point 2 by functions whose text is the same
once names, types and numbers are left out, and point 8 is counted in lines and files of proofs/."""
import collections, glob, os, re, sys

PATTERNS = {
    1: r'\b(side|owner): u(8|16)\b|clause: u8|fn number\(|\b(running|spent|other): bool|-> Option<u8>|refusal\(heap, \d|refused 1[13]|number: u8|^pub fn \w+\(\) -> u8',
    3: r"^\s*(for \w+ in \d+\.\.|while |loop \{|'\w+: (for|loop)\b|let \w+ = loop)",
    4: r'fn (number|digit|value|pair|refusal_of|push_answer|push_refusal|owner_in|is_between|bytes_of|numbers_of|say|tell)\b|[/%] 256\) as u8|256 \*|refused \{number',
    5: r'\brequires\b|(arena|a): &A, (bytes|work): &|^    arena: &A,$|\bwork: &(mut )?\[u16\], n: u16|\b(sheet_of|row_of) \(?(self|draft|s)\b',
    6: r'\b(at|from|near|place|off|offset): usize|\bcount: usize|\[\w+ \+ |\bn as usize|\[u16; \d+\]|\[\w+ as usize',
    7: r'\bif (side == 0|other)\b|\bother: bool|match name\b',
}

def code(path):
    return [(i, l.rstrip('\n')) for i, l in enumerate(open(path), 1) if not l.lstrip().startswith(('//', 'ghost use'))]

def functions(path):
    """Each function's name, line and text without its clauses."""
    text, out = open(path).read(), []
    for m in re.finditer(r'^( *)(?:pub(?:\(crate\))? )?fn (\w+)', text, re.M):
        end = re.search(r'^%s\}' % m.group(1), text[m.start():], re.M)
        if not end:
            continue
        body = text[m.start():m.start() + end.end()]
        lines = [l for l in body.split('\n') if not re.match(r'\s*(//|requires|ensures)', l)]
        out.append((m.group(2), text.count('\n', 0, m.start()) + 1, '\n'.join(lines)))
    return out

def shape(text):
    text = re.sub(r'"[^"]*"', '"', text)
    text = re.sub(r'\b(0x)?\d\w*\b', '0', text)
    keep = {'fn', 'for', 'if', 'else', 'match', 'loop', 'return', 'let', 'mut', 'in', 'as', 'self', 'break', 'while', 'Some', 'None', 'Ok', 'Err'}
    text = re.sub(r'\b[A-Za-z_]\w*\b', lambda m: m.group(0) if m.group(0) in keep else 'x', text)
    return re.sub(r'\s+', '', text)

def main():
    args = [a for a in sys.argv[1:] if a != '-v']
    verbose = '-v' in sys.argv
    top = args.pop(0) if args and os.path.isdir(os.path.join(args[0], 'crates')) else os.path.join(os.path.dirname(os.path.abspath(__file__)), '..')
    crates = args or sorted(os.path.basename(c) for c in glob.glob(os.path.join(top, 'crates', '*')) if os.path.isdir(c))
    found, groups = collections.defaultdict(list), collections.defaultdict(list)
    for crate in crates:
        for path in sorted(glob.glob(os.path.join(top, 'crates', crate, 'src', '**', '*.rt'), recursive=True)):
            where = os.path.relpath(path, os.path.join(top, 'crates'))
            for i, line in code(path):
                for point, pattern in PATTERNS.items():
                    if re.search(pattern, line):
                        found[point].append('%s:%d: %s' % (where, i, line.strip()))
            for name, i, text in functions(path):
                if text.count('\n') >= 2:
                    groups[shape(text)].append('%s:%d: %s' % (where, i, name))
    twins = [g for g in groups.values() if len(g) > 1]
    found[2] = [p for g in twins for p in g]
    for point in sorted(found):
        print('point %d: %d places' % (point, len(found[point])) + (' in %d groups' % len(twins) if point == 2 else ''))
        if verbose:
            for p in (found[point] if point != 2 else [', '.join(g) for g in twins]):
                print('   ', p)
    answers = [f for c in crates for f in glob.glob(os.path.join(top, 'crates', c, 'proofs', '**', '*.antt'), recursive=True)]
    print('point 8: %d lines of proofs, %d files, %d of answers' % (
        sum(len(open(f).readlines()) for f in answers), len(answers), sum(f.endswith('Answers.antt') for f in answers)))

main()
