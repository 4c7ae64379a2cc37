#!/usr/bin/env python3
"""The places of older forms in crates/*/src, by the points of docs/DESIGN-PASS.md.

Usage: tools/forms.py [POINT ..]   from the top of a tree; a line a place, then the counts.
It reads the text alone: it finds what looks like an older form, and takes no account of reasons.
"""
import os
import re
import sys
from collections import defaultdict

FN = re.compile(r'^(?P<in>[ ]*)(?P<vis>pub(?:\(crate\))? )?(?:const )?fn (?P<name>\w+)(?P<gen><[^(]*>)?\(')


def sources():
    for top, _, files in sorted(os.walk('crates')):
        if os.sep + 'src' in top and os.sep + 'out' not in top:
            for f in sorted(files):
                if f.endswith('.rt'):
                    yield os.path.join(top, f)


def functions(path):
    """(name, line, signature, contract, body lines) of each function of a file."""
    lines = open(path).read().split('\n')
    i = 0
    while i < len(lines):
        m = FN.match(lines[i])
        if not m:
            i += 1
            continue
        start, pad = i, m.group('in')
        head = []
        while i < len(lines) and not (lines[i].rstrip().endswith('{') and not lines[i].lstrip().startswith(('ensures', 'requires')) or lines[i] == pad + '{'):
            head.append(lines[i])
            i += 1
        head.append(lines[i] if i < len(lines) else '')
        i += 1
        body = []
        while i < len(lines) and lines[i] != pad + '}':
            body.append(lines[i])
            i += 1
        text = '\n'.join(head)
        cut = re.search(r'\n\s*(requires|ensures)', text)
        sign, contract = (text[:cut.start()], text[cut.start():]) if cut else (text, '')
        yield m.group('name'), start + 1, sign, contract, body
        i += 1


def code(lines):
    return [l for l in lines if l.strip() and not l.strip().startswith('//')]


def params(sign):
    inner = sign[sign.index('(') + 1:]
    return [re.sub(r'\s+', ' ', p).strip() for p in re.findall(r'(\w+: (?:[^,()\[\]<>]|\[[^\]]*\]|<[^>]*>)+)', inner.split(') ->')[0])]


def point1():
    """Enums of two variants, 0 for none, numbers for refusals and for kinds."""
    for p in sources():
        t = open(p).read()
        for m in re.finditer(r'^[ ]*(?:pub(?:\(crate\))? )?enum (\w+)[^{]*\{\n(.*?)\n[ ]*\}', t, re.M | re.S):
            v = [x.strip() for x in m.group(2).split('\n') if x.strip() and not x.strip().startswith('//')]
            if len(v) == 2 and any('(' in x for x in v) or any(re.match(r'(Refused|Failed)\(u8', x) for x in v):
                yield p, t[:m.start()].count('\n') + 1, 'enum ' + m.group(1)
        for m in re.finditer(r'^\s*(?:pub )?(question|refusal|fault|number): u8,', t, re.M):
            yield p, t[:m.start()].count('\n') + 2, 'field ' + m.group(1)
        for m in re.finditer(r'^\s*//[^\n]*\bor 0\b[^\n]*\n\s*(?:pub )?(\w+): (?:usize|u8|u64),', t, re.M):
            yield p, t[:m.start()].count('\n') + 2, '0 for none, ' + m.group(1)
        for m in re.finditer(r'^\s*(?:pub )?(more|found|agreed|odd): bool,', t, re.M):
            yield p, t[:m.start()].count('\n') + 2, 'flag ' + m.group(1)
        for name, line, sign, _, body in functions(p):
            if re.search(r'-> u8\b', sign) and any('questions::' in l for l in body):
                yield p, line, 'refusal as a number, ' + name
            if re.search(r'^\s*match\b', '\n'.join(body), re.M) and any(re.search(r'=> 0,', l) for l in body) and '-> u8' in sign:
                yield p, line, '0 for none, ' + name
        run = 0
        for k, l in enumerate(t.split('\n') + ['']):
            if re.match(r'\s*(pub(\(crate\))? )?const \w+: u(8|64|size) = \d+;', l):
                run += 1
            elif l.strip() and not l.strip().startswith('//'):
                if run > 2:
                    yield p, k, 'kinds as numbers, %d constants' % run
                run = 0


def shape(body):
    """A body with its types, constants, numbers and called names blotted out."""
    s = ' '.join(x.strip() for x in code(body))
    s = re.sub(r'\b[A-Z]\w*(?:::\w+)*', 'T', s)
    s = re.sub(r"b?'[^']*'|b?\"[^\"]*\"|\b\d[\w]*", 'N', s)
    s = re.sub(r'\b\w+::(?=\w)', '', s)
    names = {}
    return re.sub(r'\b[a-z_]\w*\b', lambda m: names.setdefault(m.group(0), 'v%d' % len(names)) if m.group(0) not in KEEP else m.group(0), s)


KEEP = set('if else while loop for in let mut return match true false as fn self break continue len u8 u64 usize i64 bool'.split())


def point2():
    """Functions of three lines or more, or of a loop, whose bodies differ only in types, names and constants."""
    same = defaultdict(list)
    for p in sources():
        for name, line, sign, _, body in functions(p):
            if len(code(body)) >= 3 and 'fn main' not in sign:
                same[shape(body)].append((p, line, name))
    for s, places in sorted(same.items(), key=lambda x: x[1]):
        if len(places) > 1:
            for p, line, name in places:
                yield p, line, 'twin %s of %s' % (name, ', '.join(n for q, l, n in places if (q, l) != (p, line))[:90])


def point3():
    """`while` and `loop`."""
    for p in sources():
        for k, l in enumerate(open(p).read().split('\n')):
            if re.match(r"\s*('\w+: )?(while|loop)\b", l):
                yield p, k + 1, l.strip()


def point4():
    """Comparing, converting and ordering by hand."""
    for p in sources():
        for name, line, sign, _, body in functions(p):
            b = code(body)
            t = '\n'.join(b)
            arms = re.findall(r'=> ([^\n]*?),?$', t, re.M)
            if b and b[0].strip().startswith('match') and len(arms) > 1 and all(re.fullmatch(r'[\w:]+(\(\w+\))?|[\w:]+::\w+\(.*\)', a) for a in arms):
                yield p, line, 'conversion by match, ' + name
            elif len(b) == 1 and re.fullmatch(r'\s*[\w.]+ (==|!=|<=|<) [\w.]+', b[0]):
                yield p, line, 'comparison by hand, ' + name
            elif re.search(r'-> bool', sign) and re.search(r'\.len\(\) != \w+\.len\(\)', t):
                yield p, line, 'equality by hand, ' + name
        t = open(p).read()
        for m in re.finditer(r'^impl (PartialEq|PartialOrd|Ord|Clone|Debug)\b', t, re.M):
            yield p, t[:m.start()].count('\n') + 1, m.group(0)


def point5():
    """Four parameters or more that stand together in three functions; a clause that stands in three."""
    sets, clauses = defaultdict(list), defaultdict(list)
    for p in sources():
        crate = p.split(os.sep)[1]
        for name, line, sign, contract, _ in functions(p):
            ps = params(sign)
            for a in range(len(ps) - 2):
                sets[(crate, tuple(ps[a:a + 3]))].append((p, line, name))
            for c in re.findall(r'requires(?: \w+)? \{ (.*?) \}\s*$', contract, re.M):
                clauses[(crate, c)].append((p, line, name))
    for (crate, k), v in sorted(sets.items()):
        if len(v) > 2:
            yield v[0][0], v[0][1], '%d functions take %s' % (len(v), ', '.join(k))
    for (crate, k), v in sorted(clauses.items()):
        if len(v) > 2:
            yield v[0][0], v[0][1], '%d functions require %s' % (len(v), k[:100])


def point6():
    """An array with a count beside it, arrays of one length, a buffer with a place, beside each other."""
    for p in sources():
        t = open(p).read()
        for m in re.finditer(r'^[ ]*(?:pub(?:\(crate\))? )?struct (\w+)[^{;]*\{\n(.*?)\n[ ]*\}', t, re.M | re.S):
            arrays = re.findall(r'(\w+): \[[^;\]]+; ([^\]]+)\]', m.group(2))
            counts = re.findall(r'(\w+): usize', m.group(2))
            line = t[:m.start()].count('\n') + 1
            if arrays and counts:
                yield p, line, 'array and count, struct ' + m.group(1)
            if len(arrays) > len(set(n for _, n in arrays)):
                yield p, line, 'parallel arrays, struct ' + m.group(1)
        for name, line, sign, _, _ in functions(p):
            ps = ' '.join(params(sign))
            if re.search(r'\w+: &mut \[\w+\] \w+: usize', ps):
                yield p, line, 'buffer and place, ' + name
            elif len(re.findall(r': &(?:mut )?\[', ps)) > 1 and re.search(r'numbers: &(mut )?\[\w+\] integers', ps):
                yield p, line, 'parallel slices, ' + name


def point7():
    """A match or a row of tests that chooses which function to call with the same arguments."""
    for p in sources():
        for name, line, _, _, body in functions(p):
            calls = re.findall(r'=> (?:return )?[\w:]+\((\w+(?:, \w+)*)\),', '\n'.join(body))
            if len(calls) > 2 and max(calls.count(c) for c in calls) > 2:
                yield p, line, 'switch, ' + name


def point8():
    """Folders of proofs, by the functions that they belong to."""
    for c in sorted(os.listdir('crates')):
        d = os.path.join('crates', c, 'proofs')
        for top, _, files in sorted(os.walk(d)):
            for f in sorted(files):
                if f in ('Answers.antt', 'Invariants.antt', 'Proof.antt'):
                    yield os.path.join(top, f), 1, '%d lines' % sum(1 for _ in open(os.path.join(top, f)))


POINTS = {str(n): globals()['point%d' % n] for n in range(1, 9)}


def kept(path, line):
    """Whether a reason (`Kept: `) stands at the place: above it or above the item that it is in."""
    if not path.endswith('.rt'):
        return False
    lines = open(path).read().split('\n')
    i = line - 1
    while i >= 0 and not (re.match(r'(pub(\(crate\))? )?(fn|struct|enum|const|impl|mod)\b', lines[i]) or (i < line - 1 and lines[i] == '}')):
        i -= 1
    top = i - 1
    while top >= 0 and (lines[top].startswith(('//', '#')) or (lines[top] == '' and lines[top - 1].startswith('//'))):
        top -= 1
    return any('Kept: ' in l for l in lines[max(top, 0):line])


def main():
    chosen = sys.argv[1:] or sorted(POINTS)
    for n in chosen:
        places = list(POINTS[n]())
        reasons = 0
        for p, line, what in places:
            k = kept(p, line)
            reasons += k
            print('%s %s:%d: %s%s' % (n, p, line, what, ' (kept)' if k else ''))
        print('point %s: %d places, %d of them with a reason' % (n, len(places), reasons))


if __name__ == '__main__':
    main()
