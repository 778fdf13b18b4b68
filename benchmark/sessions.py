#!/usr/bin/env python3
"""The cost of a session in which every card is changed on both sides and the server wins, at 1, 8 and 32 cards. Usage: sessions.py COMMAND..

COMMAND runs the program `bench`. A script edits every card on both sides and runs a session, many times over; another has the same edits
and no sessions. The difference of their processor times is what the sessions cost: six packages each, written, carried over the bench's
wire and read, and both tables. How many bytes that are is counted where bench shows its packages.
"""
import resource
import sys
from scripts import SERVER_WINS, WHOLE, answers, changed, each, packages

bench = sys.argv[1:]

def script(cards, turns, session):
    """Edits and a session, that many times."""
    all_cards = range(1, cards + 1)
    return SERVER_WINS + each('server add', all_cards) + ['run'] + (changed(all_cards) + session) * turns

def spent(lines, sessions):
    """Processor time of bench on a script; each session must end."""
    before = resource.getrusage(resource.RUSAGE_CHILDREN)
    done = answers(bench, lines).count('done')
    after = resource.getrusage(resource.RUSAGE_CHILDREN)
    assert done == sessions, f'{done} sessions of {sessions} ended'
    return after.ru_utime + after.ru_stime - before.ru_utime - before.ru_stime

print(f'{"cards":>5} {"sessions a second":>18} {"bytes a second":>15} {"a session":>14} {"a card":>14}')
for cards in (1, 8, 32):
    turns = 20000 // cards + 1000
    carried = sum(map(len, packages(bench, script(cards, turns, WHOLE))))
    cost = min(spent(script(cards, turns, ['run']), turns + 1) - spent(script(cards, turns, []), 1) for _ in range(5))
    each_one = cost / turns * 1e6
    print(f'{cards:>5} {turns / cost:>18.0f} {carried / cost:>15.0f} {each_one:>11.1f} us {each_one / cards:>11.1f} us')
