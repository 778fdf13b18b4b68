#!/usr/bin/env python3
"""Writes the messages of three sessions of 32 cards, one to a file. Usage: messages.py FOLDER COMMAND..

COMMAND runs the program `bench`, which writes the messages. Changed: the server has added all cards and their Pkg 5 was lost, so that the press
has a report for each; then every card is edited on both sides, and the server wins. Added: each side adds half of the cards. Deleted: each side deletes half of them.
"""
import os
import sys
from scripts import SERVER_WINS, WHOLE, changed, each, packages

folder, bench = sys.argv[1], sys.argv[2:]
ALL, LOW, HIGH = range(1, 33), range(1, 17), range(17, 33)
sessions = {
    'changed': (SERVER_WINS + each('server add', ALL) + ['break 5'] + changed(ALL), range(1, 7)),
    'added': (each('press add', LOW) + each('server add', HIGH), range(3, 6)),
    'deleted': (each('server add', ALL) + ['run'] + [f'press delete {i}' for i in LOW] + [f'server delete {i}' for i in HIGH], range(3, 6)),
}
for name, (lines, wanted) in sessions.items():
    written = packages(bench, lines + WHOLE)
    assert len(written) == 6, f'{name}: {len(written)} packages'
    for pkg in wanted:
        with open(os.path.join(folder, f'{pkg}-{name}'), 'w') as f:
            f.write(written[pkg - 1])
