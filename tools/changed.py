#!/usr/bin/env python3
"""What a reader of the crates meets otherwise than at an earlier commit: public functions with their clauses, public types and constants,
theorems that pages name, and definitions; old and new side by side.

Usage: tools/changed.py COMMIT [functions|types|theorems|definitions ..]   from the top of a tree; prints Markdown.
It reads the text alone. A theorem is a `pub NAME :` of a crate's proofs/; where several have a name, the first of each crate is shown.
"""
import difflib
import os
import re
import subprocess
import sys
import tempfile

FN = re.compile(r'^(?P<in>[ ]*)pub (?:const )?(?:unsafe )?fn (?P<name>\w+)')
TYPE = re.compile(r'^(?P<in>[ ]*)pub (?P<kind>struct|enum|const|type|trait) (?P<name>\w+)')


def files(top, part, ending):
    for crate in sorted(os.listdir(os.path.join(top, 'crates'))):
        for d, _, fs in sorted(os.walk(os.path.join(top, 'crates', crate, part))):
            for f in sorted(fs):
                if f.endswith(ending):
                    yield crate, os.path.join(d, f)


def joined(lines):
    return re.sub(r'\s+', ' ', ' '.join(l for l in lines if not l.strip().startswith('//'))).strip()


def owners(lines):
    """The type whose impl each line stands in, if it does."""
    own = ''
    for l in lines:
        m = re.match(r'impl(?:<[^>]*>)? (?:.* for )?(\w+)', l)
        if m:
            own = m.group(1) + '::'
        yield own
        if l.startswith('}'):
            own = ''


def functions(top):
    found = {}
    for crate, p in files(top, 'src', '.rt'):
        lines = open(p).read().split('\n')
        own = list(owners(lines))
        for i, l in enumerate(lines):
            m = FN.match(l)
            if m:
                j = i
                while lines[j] != m.group('in') + '{' and not (lines[j].endswith('{') and not lines[j].lstrip().startswith(('ensures', 'requires'))):
                    j += 1
                text = joined(lines[i:j + 1])
                found[(crate, (own[i] if m.group('in') else '') + m.group('name'))] = text[:-1].strip() if text.endswith('{') else text
    return found


def types(top):
    found = {}
    for crate, p in files(top, 'src', '.rt'):
        lines = open(p).read().split('\n')
        own = list(owners(lines))
        for i, l in enumerate(lines):
            m = TYPE.match(l)
            if m:
                j = i
                while not (lines[j].endswith(';') and j == i) and lines[j] != m.group('in') + '}' and not lines[j].endswith(('{}', '};', '];', ');')):
                    j += 1
                before = lines[i - 1].strip() + ' ' if lines[i - 1].strip().startswith('#[derive') else ''
                name = m.group('name') if m.group('kind') != 'const' else 'const ' + (own[i] if m.group('in') else '') + m.group('name')
                found[(crate, name)] = before + joined(lines[i:j + 1])
    return found


def theorems(top, names):
    found = {}
    for crate, p in files(top, 'proofs', '.antt'):
        lines = open(p).read().split('\n')
        for i, l in enumerate(lines):
            m = re.match(r'\s*pub (\w+) : ', l)
            if m and m.group(1) in names and (crate, m.group(1)) not in found:
                j = i + 1
                while j < len(lines) and not re.match(r'\s*(unfolding\b|%s\b|$)' % m.group(1), lines[j]):
                    j += 1
                found[(crate, m.group(1))] = joined(lines[i:j]).split(' : ', 1)[1]
    return found


def named(top):
    """Words in backticks of README and docs/."""
    pages = [os.path.join(top, 'README.md')] + [os.path.join(top, 'docs', f) for f in sorted(os.listdir(os.path.join(top, 'docs')))]
    text = ''.join(open(p).read() for p in pages if p.endswith('.md') and not p.endswith(('DESIGN-PASS.md', 'PORT.md')))
    return set(re.findall(r'`(\w+)`', text))


def show(title, old, new, extra):
    print('## %s\n' % title)
    for k in sorted(k for k in old if k in new and old[k] != new[k]):
        print('- %s `%s`\n  - old: `%s`\n  - new: `%s`' % (k[0], k[1], old[k], new[k]))
    for word, ks, src in (('Gone', sorted(k for k in old if k not in new), old), ('New', sorted(k for k in new if k not in old), new)):
        if extra and ks:
            print('\n%s:\n' % word)
            for k in ks:
                print('- %s `%s`: `%s`' % (k[0], k[1], src[k]))
    print()


def definitions(old, new):
    print('## Definitions, old and new\n')
    print('Of each file of specs/ that reads otherwise, the lines that differ, without imports.\n')
    a = {os.path.relpath(p, old): p for _, p in files(old, 'specs', '.antt')}
    b = {os.path.relpath(p, new): p for _, p in files(new, 'specs', '.antt')}
    for k in sorted(set(a) | set(b)):
        x = open(a[k]).read().split('\n') if k in a else []
        y = open(b[k]).read().split('\n') if k in b else []
        keep = [l for l in difflib.unified_diff(x, y, n=0, lineterm='') if not l.startswith(('---', '+++', '@@'))
                and not re.match(r'[-+](use |pub mod |mod |\s*$)', l)]
        if keep:
            print('%s%s\n\n```diff\n%s\n```\n' % (k, '' if k in a and k in b else ' (new)' if k in b else ' (gone)', '\n'.join(keep)))


def main():
    commit, parts = sys.argv[1], sys.argv[2:] or ['functions', 'types', 'theorems', 'definitions']
    with tempfile.TemporaryDirectory() as old:
        archive = subprocess.run(['git', 'archive', commit, 'crates', 'docs', 'README.md'], check=True, stdout=subprocess.PIPE).stdout
        subprocess.run(['tar', '-x', '-C', old], input=archive, check=True)
        if 'functions' in parts:
            show('Public functions, old and new', functions(old), functions('.'), True)
        if 'types' in parts:
            show('Public types and constants, old and new', types(old), types('.'), True)
        if 'theorems' in parts:
            names = named(old) | named('.')
            show('Theorems that pages name, old and new', theorems(old, names), theorems('.', names), False)
        if 'definitions' in parts:
            definitions(old, '.')


if __name__ == '__main__':
    main()
