#!/usr/bin/env python3
"""What libexpat finds in the messages that the two sides write. Usage: texts.py SEED TEXTS COMMAND..

COMMAND runs the program `bench`, TEXTS is benchmark/texts.c. Scripts, the same for the same seed, add, edit and delete cards on both sides, with texts of all
bytes that a text may have and many that references are for; sessions run through or break after each package, and the tables are shown on the way. Then:
- each table has the texts and stations of the edits before the session, and after a whole one both have the same;
- libexpat takes every message; in Pkg 3 it finds each text that the press has to tell, with its station and under the LUID of its card, and no other; in Pkg 4
  each that the server offers, under the LUID or GUID of its record. They are those of the tables at that moment, and libexpat decodes what spells them.
One line tells what was compared. At the first difference it says which, and ends with 1.
"""
import collections
import random
import re
import subprocess
import sys
from scripts import answers

seed, texts, bench = sys.argv[1], sys.argv[2], sys.argv[3:]
ROUNDS, SESSIONS = 60, 18
draw = random.Random(seed)
ANY = ''.join(map(chr, range(32, 127)))
PARTS = ['&', '<', '>', ']', ']]', ']]>', '"', "'", '&amp;', '&lt;', '&gt;', '&quot;', '&#38;', '&', ';', '<Data/>', '</Data>', '<![CDATA[', '<!--', '-->', '<?', '\\', ' ', '  ']

def text():
    """Up to 24 bytes: parts that stand in the way of a writer, and any bytes between them. The empty text and the longest come often."""
    length = draw.choice((0, 1, 2, 3, 8, 16, 23, 24, 24, 24))
    made = ''
    while len(made) < length:
        made += draw.choice(PARTS) if draw.randrange(3) else draw.choice(ANY)
    return made[:length]

def edits(given):
    """Some edits, where each side has given about so many numbers; those of cards that are not there will be refused."""
    for _ in range(draw.randrange(14)):
        side, number = draw.choice(('press', 'server')), draw.randrange(max(1, given - 40), given + 2)
        yield draw.choice((f'{side} add {text()}', f'{side} edit {number} {text()}', f'{side} add {text()}', f'{side} edit {number} {text()}', f'{side} delete {number}'))

def script():
    """Each session is shown package by package, with the table of the side that has written Pkg 3 or Pkg 4."""
    for _ in range(ROUNDS):
        yield f'fresh {draw.randrange(1, 256)}'
        given = 0
        for turn in range(SESSIONS):
            some = list(edits(given))
            given += sum(line.split()[1] == 'add' for line in some)
            yield from (*some, 'press tables', 'server tables', 'start')
            # one in three runs through, the others break after each package in turn
            last = 6 if draw.randrange(3) == 0 else 1 + turn % 6
            for k in range(2, last + 1):
                yield 'step'
                if k in (3, 4):
                    yield 'press tables' if k == 3 else 'server tables'
            yield 'step' if last == 6 and draw.randrange(2) else 'cut'
            yield from ('press tables', 'server tables')

def told(lines, said):
    """Each command with its answer: a line, or a block up to `end`."""
    said = iter(said)
    for line in lines:
        answer = [next(said)]
        while line.endswith('tables') and answer[-1] != 'end':
            answer.append(next(said))
        yield line, answer

def table(block):
    """Of each card or record in a block: its number, LUID and mark, and what it says: station and text."""
    found = [re.match(r'place \d+ (?:card|record) (\d+) (?:fp=\d+ |luid=(\w+) known=\d+ )mark=(\w+) (?:report=\S+ )?station=(\d+) text=(.*)$', line) for line in block]
    return [(f[1], f[2] or f[1], f[3], f'{f[4]} {f[5]}') for f in found if f]

def due(package, valid, block):
    """What a package has to tell of the table of the side that wrote it."""
    for number, luid, mark, its in table(block):
        if package == 3 and not (valid and mark == 'clean'):
            yield 'Add' if valid and mark == 'added' else 'Replace', number, its
        if package == 4 and mark == 'offered':
            yield ('Add', number, its) if luid == 'none' else ('Replace', luid, its)

def differ(what, *values):
    print(f'expat: {what}', *values, sep='\n    ')
    sys.exit(1)

lines = list(script())
messages, expected, counts, met = [], [], collections.Counter(), collections.Counter()
latest, valid, whole, station = {}, True, [], {'press': '1', 'server': '0'}
for line, answer in told(lines, answers(bench, lines)):
    word = line.split()
    if re.match('(press|server) (add|edit|delete)', line):
        if answer[0][:2] == 'ok' and word[1] == 'add':
            latest[word[0], answer[0][3:]] = station[word[0]] + ' ' + line.split(' ', 2)[2]
        elif answer[0] == 'ok' and word[1] == 'edit':
            latest[word[0], word[2]] = station[word[0]] + ' ' + line.split(' ', 3)[3]
        elif answer[0] == 'ok':
            latest.pop((word[0], word[2]), None)
        elif answer[0] not in ('refused 2', 'refused 3'):
            differ(line, *answer)
    elif word[-1] == 'tables':
        have = {number: its for number, _, mark, its in table(answer) if mark != 'deleted'}
        for (side, number), its in latest.items():
            if side == word[0] and have.get(number) != its:
                differ(f'{side} {number} says another than its edit', repr(its), repr(have.get(number)))
        if messages and not isinstance(expected[-1], list):
            expected[-1] = sorted(due(expected[-1], valid, answer))
        if whole:
            # a card for which the other side has no place stays on its own
            whole.append({luid: its for _, luid, mark, its in table(answer) if mark == 'clean'})
            if len(whole) == 3:
                if whole[1] != whole[2]:
                    differ('the tables differ after a whole session', *whole[1:])
                whole = []
    elif answer[0].startswith('<SyncML'):
        latest = {}
        messages.append(answer[0])
        package = 1 if line == 'start' else package + 1
        if package == 2:
            valid = 'ChangeLogValidity="true"' in answer[0]
        expected.append(package if package in (3, 4) else [])
    elif answer[0] == 'done':
        counts['whole'] += 1
        whole = ['done']
    elif word[0] in ('fresh', 'cut') and answer[0] == 'ok':
        latest = {}
        counts[word[0]] += 1
        if word[0] == 'fresh':
            station['press'] = word[1]
    else:
        differ(line, *answer)

read = subprocess.run([texts], input=('\n'.join(messages) + '\n').encode(), capture_output=True, check=True)
found, each = [], []
for line in read.stdout.decode().splitlines():
    if line == 'end':
        found.append(sorted(each))
        each = []
    elif line.startswith('refused'):
        differ(line, messages[len(found)])
    else:
        name, number, its = line.split(' ', 2)
        each.append((name, number, re.sub(r'\\x(..)', lambda byte: chr(int(byte[1], 16)), its)))
if len(found) != len(messages):
    differ(f'{len(found)} of {len(messages)} messages are read')
for message, want, got in zip(messages, expected, found):
    if want != got:
        differ('other texts or stations than in the table', message, *map(repr, (want, got)))
    for _, _, its in got:
        counts['texts'] += 1
        its = its.split(' ', 1)[1]
        met.update(set(its) | ({']]>'} if ']]>' in its else set()))
if set(ANY) - set(met) or not met[']]>']:
    differ('bytes that were never met:', repr(sorted(set(ANY) - set(met))))
print(f"{read.stderr.decode().strip()} reads {len(messages)} messages of {counts['whole'] + counts['cut']} sessions, {counts['cut']} of them broken, and finds the {counts['texts']} texts and stations of the tables:",
      f"{met['&']} with &, {met['<']} with <, {met['>']} with >, {met[']]>']} with ]]>")
