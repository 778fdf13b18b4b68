#!/usr/bin/env python3
"""The instructions of a session of 32 cards in which every card is changed on both sides and the server wins, and which part of them copies. Usage: instructions.py LOADER FINDER PROFILE PROGRAM

PROGRAM is `bench`, FINDER is memcpy.c compiled, LOADER runs both. valgrind's callgrind counts: the same numbers every time, whatever else the machine does. A script adds
32 cards at the press and runs a session, then 30 times edits every card on both sides and runs a session; another has the same edits and the first session alone. What
callgrind finds is left in PROFILE.
"""
import os
import re
import subprocess
import sys
from collections import Counter
from scripts import SERVER_WINS, changed, each

loader, finder, profile, program = sys.argv[1:]
CARDS = range(1, 33)
TURNS = 30

def script(session):
    """32 cards in step, then edits and what session says, that many times."""
    return SERVER_WINS + each('press add', CARDS) + ['run'] + (changed(CARDS) + session) * TURNS

def under(tool, words, lines=()):
    """What a program says under a tool of valgrind, and what the tool says."""
    command = ['valgrind', '--tool=' + tool, '--trace-children=yes', *words]
    ran = subprocess.run(command, input=('\n'.join(lines) + '\n').encode(), capture_output=True, check=True, env={'PATH': os.environ['PATH']})
    return ran.stdout.decode(), ran.stderr.decode()

def counted(lines, out):
    """The instructions of bench on a script."""
    return int(re.search(r'Collected : (\d+)', under('callgrind', ['--callgrind-out-file=' + out, loader, program], lines)[1])[1])

def copies(memcpy):
    """What memcpy takes when each function calls it; the C library has no names for its functions, so it goes by its place."""
    names, found, function, called, calls = {}, Counter(), '', '', False

    def name(text):
        number, _, own = text.partition(' ')
        return names.setdefault(number, own) if own else names.get(number, number)

    for line in open(profile):
        if line.startswith('fn='):
            function = name(line[3:].strip())
        elif line.startswith('cfn='):
            called = name(line[4:].strip())
        elif line.startswith('calls='):
            calls = True
        elif calls:
            calls = False
            if called == memcpy:
                found[function] += int(line.split()[1])
    return found

whole, edits = counted(script(['run']), profile), counted(script([]), '/dev/null')
print(f'{whole} for the script of {TURNS + 1} sessions, {edits} without {TURNS} of them: {(whole - edits) / TURNS:.0f} a session')
found = copies(under('none', [loader, finder])[0].strip())
print(f'{sum(found.values())} of the {whole} copy (memcpy): {100 * sum(found.values()) / whole:.1f} %; most of them ' + ', '.join(f'{f} {n}' for f, n in found.most_common(5)))
