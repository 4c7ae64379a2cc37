#!/usr/bin/env python3
"""Takes the answers of a crate's proofs away, checks it, and puts back those whose goals the check leaves open.

Usage: tools/answers.py CRATE   from the top of a tree whose crates below CRATE are checked. Prints how many answers there were and are.
An answer is a `pub NAME : goal.NAME` of an Answers.antt with its lines. Run `rt check` and `rt tidy` in the crate afterwards.
"""
import os
import re
import subprocess
import sys


def blocks(text):
    """The head of a file, and (name, text) of each answer."""
    parts = re.split(r'^(?=pub [\w.-]+ : goal\.)', text, flags=re.M)
    out = []
    for p in parts[1:]:
        out.append((re.match(r'pub ([\w.-]+) :', p).group(1), p))
    return parts[0], out


def main():
    crate = os.path.join('crates', sys.argv[1])
    files = {}
    for d, _, fs in os.walk(os.path.join(crate, 'proofs')):
        for f in fs:
            if f == 'Answers.antt':
                p = os.path.join(d, f)
                files[p] = open(p).read()
                os.remove(p)
    log = subprocess.run(['rt', 'check', '--allow-holes'], cwd=crate, stdout=subprocess.PIPE, stderr=subprocess.STDOUT).stdout.decode()
    opened, at = {}, None
    for l in log.split('\n'):
        m = re.search(r'(?:write|to) \./(proofs/\S+/Answers\.antt)', l)
        if m:
            at = os.path.join(crate, m.group(1))
        m = re.match(r'\s+pub ([\w.-]+) : goal\.', l)
        if m and at:
            opened.setdefault(at, set()).add(m.group(1))
    before = after = 0
    for p, text in sorted(files.items()):
        head, answers = blocks(text)
        before += len(answers)
        want = opened.get(p, set())
        function = '::'.join([sys.argv[1]] + [x.lstrip('+') for x in os.path.relpath(os.path.dirname(p), os.path.join(crate, 'proofs')).split(os.sep)])
        if not want and 'fn %s: no holes' % function not in log:
            keep = answers  # the check came to nothing of it, since what it calls had no proof
        else:
            keep = [(n, t) for n, t in answers if any(g == n or g.startswith(n + '-clause-') or n.startswith(g + '-clause-') for g in want)]
        missing = [g for g in want if not any(g == n or g.startswith(n + '-clause-') or n.startswith(g + '-clause-') for n, _ in answers)]
        if missing:
            keep = answers
        after += len(keep)
        if keep:
            open(p, 'w').write(head + ''.join(t for _, t in keep).rstrip('\n') + '\n')
        else:
            print('gone', p)
    print('%s: %d answers, %d left' % (sys.argv[1], before, after))


if __name__ == '__main__':
    main()
