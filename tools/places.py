#!/usr/bin/env python3
"""Counts the places in src/ that an older form may have left, point by point (docs/DESIGN-PASS.md), and lists them with -l.

    tools/places.py [-l] [FOLDER]       # FOLDER is a checkout; the one that this script stands in if none is given
"""
import difflib
import glob
import itertools
import os
import re
import sys

# Variants that say what None or Err says.
NOTHING = ('Nothing', 'Refused', 'Unreadable', 'Empty', 'Stopped', 'Accepted', 'Missing')


def functions(text):
    """Each function as (name, head, clauses, body, line)."""
    out = []
    for m in re.finditer(r'^( *)((?:pub )?(?:extern "C" )?fn (\w+))', text, re.M):
        indent = m.group(1)
        end = re.search(r'^%s\}' % indent, text[m.start():], re.M)
        item = text[m.start():m.start() + end.end()] if end else text[m.start():]
        cut = re.search(r'\n%s\{\n' % indent, item)
        one = re.search(r'\{\n', item)
        at = cut.start() if cut else one.start()
        head, body = item[:at], item[at:]
        clauses = re.findall(r'^ +(?:requires|ensures)\b.*$', head, re.M)
        signature = re.sub(r'^ +(?:requires|ensures)\b.*$', '', head, flags=re.M)
        out.append((m.group(3), signature, clauses, body, text[:m.start()].count('\n') + 1))
    return out


def parameters(signature):
    inner = signature[signature.index('(') + 1:signature.rindex(')')] if ')' in signature else ''
    return [re.sub(r'\s+', ' ', p).strip() for p in re.split(r',(?![^<\[(]*[>\])])', inner) if p.strip()]


def same_shape(body):
    """A body without its names: what is left when types, sizes and constants are taken out."""
    return re.findall(r"[a-z_]+\(|\w+|[^\w\s]", re.sub(r'//.*', '', body))


def count(root):
    places = {}

    def add(point, where):
        places.setdefault(point, []).append(where)

    for path in sorted(glob.glob(os.path.join(root, 'crates/*/src/*.rt'))):
        crate = path.split(os.sep)[-3]
        text = open(path, encoding='utf-8').read()
        code = [re.sub(r'//.*', '', line) for line in text.split('\n')]

        def lines(point, pattern):
            for i, line in enumerate(code):
                if re.search(r'^\s*(ghost|requires|ensures)\b', line):
                    continue
                for _ in re.findall(pattern, line):
                    add(point, '%s:%d: %s' % (crate, i + 1, line.strip()))

        for m in re.finditer(r'^(?:pub )?enum (\w+) \{(.*?)^\}', text, re.M | re.S):
            if any(re.search(r'^    %s\b' % v, m.group(2), re.M) for v in NOTHING):
                add('1 enums of the shape of Option or Result', '%s: %s' % (crate, m.group(1)))
        lines('1 a number or a flag beside values', r'^\s+(?:pub )?(?:number: u8|opened: bool|is_error: bool|fault: u8)\b|\{ number: u8')
        found = functions(text)
        for name, head, clauses, body, at in found:
            answer = head[head.rindex(')'):] if ')' in head else ''
            # A metric is a number, and so is what `From` makes of a fault.
            if re.search(r'-> u8\b', answer) and 'metric' not in name and name != 'from':
                add('1 functions that answer a number', '%s:%d: %s' % (crate, at, name))
            for p in parameters(head):
                if re.match(r'(number|kind|fault): u8$|\w+: bool$', p):
                    add('1 parameters that are a number or a flag', '%s:%d: %s, %s' % (crate, at, name, p))
            if 'out: &mut [u8]' in head and re.search(r'\b(at|start): usize', head):
                add('6 buffers with a place beside', '%s:%d: %s' % (crate, at, name))
        lines('6 buffers with a place beside', r'= \[0u?8?u?3?2?; [^\]]+\];')
        for (a, b) in itertools.combinations([f for f in found if len(same_shape(f[3])) >= 24], 2):
            x, y = same_shape(a[3]), same_shape(b[3])
            if abs(len(x) - len(y)) <= 6 and difflib.SequenceMatcher(None, x, y, autojunk=False).ratio() >= 0.75:
                add('2 pairs of functions alike', '%s: %s, %s' % (crate, a[0], b[0]))
        lines('3 loops that are no for', r'^\s*(?:while|loop)\b')
        lines('4 casts', r'\bas (?:u8|u16|u32|u64|usize)\b')
        lines('4 derives of Drop alone', r'#\[derive\(Drop\)\]')
        names = {}
        for name, head, clauses, body, at in found:
            for c in clauses:
                fact = re.sub(r'^ +(requires|ensures) ?\w* ?', r'\1 ', c)
                if fact.startswith('requires'):
                    names.setdefault(fact, []).append(name)
        for fact, who in sorted(names.items()):
            if len(who) >= 3:
                add('5 facts required by three functions or more', '%s: %s (%d)' % (crate, fact, len(who)))
        pairs = {}
        for name, head, clauses, body, at in found:
            for two in itertools.combinations(parameters(head), 2):
                pairs.setdefault(two, []).append(name)
        for two, who in sorted(pairs.items()):
            if len(who) >= 3:
                add('5 parameters together in three functions or more', '%s: %s (%d)' % (crate, ' and '.join(two), len(who)))
        lines('7 switches on which step to run', r'\bif (?:kind ==|full\b|told\b|marked\b|present\b|error\b)')
    answers = lines_of = files = 0
    for path in glob.glob(os.path.join(root, 'crates/*/proofs/**/*.antt'), recursive=True):
        text = open(path, encoding='utf-8').read()
        lines_of += text.count('\n')
        files += 1
        if path.endswith('Answers.antt'):
            answers += len(re.findall(r'^pub \S+ : ', text, re.M))
    return places, (lines_of, answers, files)


def main():
    arguments = sys.argv[1:]
    listed = '-l' in arguments
    folders = [a for a in arguments if a != '-l']
    root = folders[0] if folders else os.path.join(os.path.dirname(os.path.abspath(__file__)), '..')
    places, proofs = count(root)
    for point in sorted(places):
        print('%s: %d' % (point, len(places[point])))
        if listed:
            for where in places[point]:
                print('    ' + where)
    print('8 lines of proofs, answers, files of proofs: %d, %d, %d' % proofs)


main()
