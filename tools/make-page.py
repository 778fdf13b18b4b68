#!/usr/bin/env python3
"""Writes the lines of crates/page/src/lib.rt from the page of crates/page/specs/Page.antt.

In code a line has before each run of bytes that stand for themselves the length of the run; a mark, or the end, comes after it.
The check proves that the lines are those of the page, so this only spares the counting. Usage: tools/make-page.py, in the repository's root.
"""
import re

MARKS = '#$:-()[]?*%@^+!&~_\',{|'
SPEC, CODE = 'crates/page/specs/Page.antt', 'crates/page/src/lib.rt'

def texts(spec):
    """The lines of the page, from the definitions of the spec."""
    names = {}

    def value(expression):
        parts = re.findall(r'bytes "((?:[^"\\]|\\.)*)"|([A-Za-z_]+)', expression)
        return ''.join(names[name] if name else text.replace('\\"', '"') for text, name in parts)

    for name, expression in re.findall(r'^(\w+) = (bytes ".*")$', spec, re.M):
        names[name] = value(expression)
    body = spec[spec.index('\npage =\n'):spec.index('-- the shape of a line')]
    lines = [line.strip()[2:] for line in body.splitlines() if line.strip().startswith('∷ ')]
    return [''] + [value(line) for line in lines if line != '[]']

def coded(line):
    """A line as pairs of a run and the mark after it."""
    out, run = [], ''
    for c in line:
        if c in MARKS:
            out.append((run, c))
            run = ''
        else:
            run += c
    return out + [(run, '')]

def arm(k, line):
    text = ''.join('\\x%02x' % len(run) + run.replace('"', '\\"') + mark for run, mark in coded(line))
    one = f'        {k} => b"{text}",\n'
    return one if len(one) <= 101 else f'        {k} =>\n            b"{text}",\n'

lines = texts(open(SPEC).read())
assert len(lines) == 28, len(lines)
code = open(CODE).read()
begin, end = code.index('        1 =>'), code.index('        _ => b"",')
open(CODE, 'w').write(code[:begin] + ''.join(arm(k, line) for k, line in enumerate(lines) if k) + code[end:])
