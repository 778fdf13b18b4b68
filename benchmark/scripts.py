"""Scripts for the program bench: tables of cards, and edits of every card. Each text has 24 bytes."""
import subprocess

WHOLE = ['start'] + ['step'] * 6
# of two edits of one card the server's is sent to the press, so that all six packages have their full lists
SERVER_WINS = ['rule server']

def text(i, side):
    return f'{side} card {i:02d}, edited.....'[:24].ljust(24, '.')

def each(words, cards):
    """A command with a text for each card of a side; words has the card's number, or none."""
    side = words.split()[0]
    return [f'{words.format(i)} {text(i, side)}' for i in cards]

def changed(cards):
    """Every card is edited on both sides."""
    return [line for i in cards for line in each('press edit {}', [i]) + each('server edit {}', [i])]

def answers(bench, lines):
    """What bench answers to a script."""
    script = '\n'.join(lines) + '\n'
    return subprocess.run(bench, input=script.encode(), capture_output=True, check=True).stdout.decode().splitlines()

def packages(bench, lines):
    """The messages among its answers."""
    return [line for line in answers(bench, lines) if line.startswith('<SyncML')]
