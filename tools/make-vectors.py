#!/usr/bin/env python3
"""Writes the messages that the program `vectors` runs: crates/vectors/stdin and stdout.

Each is judged here by a description of the written form of its own (regular expressions over whole elements), apart from the
Rattle sources; one that reads is written again from it, each number by its value, each text by its bytes, and station 0 where none stood. Usage: tools/make-vectors.py, in the repository's root.
"""
import collections
import itertools
import re

U32, U16, U8 = 4294967295, 65535, 255

# ---- messages, from their values
def header(to_server, session, message):
    target, source = (('Server', './plant'), ('Client', './press')) if to_server else (('Client', './press'), ('Server', './plant'))
    return (f'<SyncML Version="2.0"><SyncHdr SessionID="{session}" MsgID="{message}"><Target{target[0]}URI>{target[1]}</Target{target[0]}URI>'
            f'<Source{source[0]}URI>{source[1]}</Source{source[0]}URI></SyncHdr><SyncBody>')

def stores(to_server):
    t, s = ('Server', 'Client') if to_server else ('Client', 'Server')
    return f'<Target{t}URI>./cards</Target{t}URI><Source{s}URI>./cards</Source{s}URI>'

def status(i, msg, ref, cmd, code=200, item=None):
    attributes = f'<Status CmdID="{i}" MsgRef="{msg}" CmdRef="{ref}" Cmd="{cmd}" Code="{code}"'
    return attributes + ('/>' if item is None else f'><StatusItem>{item}</StatusItem></Status>')

def named(luid, fp, guid=None):
    return ('' if guid is None else f'<ServerURI>{guid}</ServerURI>') + f'<ClientURI FP="{fp}">{luid}</ClientURI>'

# what the writer puts for a byte of a text; every other byte is put as it is
PUT = {'&': '&amp;', '<': '&lt;', '>': '&gt;'}

def put(text):
    return ''.join(PUT.get(byte, byte) for byte in text)

def meta(station):
    return f'<Meta Type="text/plain;station={station}"/>'

def data(text, station=0):
    return meta(station) + (f'<Data>{put(text)}</Data>' if text else '<Data/>')

def alert(i, to_server, last, following, valid):
    return (f'<SyncAlert CmdID="{i}"><Anchor Last="{last}" Next="{following}"/>{stores(to_server)}<SyncType Direction="twoWay" Behaviour="Preserve" '
            f'IDValidity="true" ChangeLogValidity="{valid}"/></SyncAlert>')

def sync(i, to_server, changes):
    return f'<Sync CmdID="{i}" NumberOfChanges="{changes}">' + stores(to_server)

def command(i, name, inside):
    return f'<{name} CmdID="{i}"><Item>{inside}</Item></{name}>'

END = '<Final/></SyncBody></SyncML>'

def pkg1(session=2, message=1, last=1, following=2, valid='true'):
    return header(True, session, message) + alert(1, True, last, following, valid) + END

def pkg2(session=2, message=1, ref=1, ref2=1, cmd=1, last=1, following=2, valid='true'):
    return header(False, session, message) + status(1, ref, 0, 'SyncHdr') + status(2, ref2, cmd, 'SyncAlert') + alert(3, False, last, following, valid) + END

def pkg3(session=2, message=2, ref=1, ref2=1, cmd=3, reports=(), commands=(), changes=None):
    """Where changes is None the Sync has the number of its commands, and a command that names no station has 0; so in pkg4."""
    out = header(True, session, message) + status(1, ref, 0, 'SyncHdr') + status(2, ref2, cmd, 'SyncAlert')
    i = 3
    for guid, luid, fp in reports:
        out += status(i, 1, 1, 'Replace' if guid is None else 'Add', 200, named(luid, fp, guid)); i += 1
    out += sync(i, True, len(commands) if changes is None else changes); i += 1
    for c in commands:
        name, luid = c[0], c[1]
        out += command(i, name, f'<SourceClientURI>{luid}</SourceClientURI>' if name == 'Delete' else f'<SourceClientURI FP="{c[2]}">{luid}</SourceClientURI>{data(*c[3:])}'); i += 1
    return out + '</Sync>' + END

def pkg4(session=2, message=2, ref=2, ref2=2, cmd=3, statuses=(), commands=(), changes=None):
    out = header(False, session, message) + status(1, ref, 0, 'SyncHdr') + status(2, ref2, cmd, 'Sync')
    i = 3
    for s in statuses:
        out += status(i, *s); i += 1
    out += sync(i, False, len(commands) if changes is None else changes); i += 1
    for c in commands:
        name, number = c[0], c[1]
        inside = {'Delete': f'<TargetClientURI>{number}</TargetClientURI>', 'Replace': f'<TargetClientURI>{number}</TargetClientURI>', 'Add': f'<SourceServerURI>{number}</SourceServerURI>'}[name]
        out += command(i, name, inside if name == 'Delete' else inside + data(*c[2:])); i += 1
    return out + '</Sync>' + END

def pkg5(session=2, message=3, ref=2, ref2=2, cmd=3, statuses=()):
    out = header(True, session, message) + status(1, ref, 0, 'SyncHdr') + status(2, ref2, cmd, 'Sync')
    for i, s in enumerate(statuses, 3):
        out += status(i, *s)
    return out + END

def pkg6(session=7, message=3, ref=3):
    return header(False, session, message) + status(1, ref, 0, 'SyncHdr') + END

# ---- the written form, told by regular expressions and by hand
NUM = r'([+]?[0-9]+)'
TEXT = r'(?:<Data/>|<Data>(?P<text>[^<]*)</Data>)'
TAKEN = {'&amp;': '&', '&lt;': '<', '&gt;': '>', '&quot;': '"', '&apos;': "'"}

def decoded(spelling):
    """The text that is spelled between the tags of a Data, or None."""
    # ]]> is looked for in what stands there, before anything is decoded
    if ']]>' in spelling or not re.fullmatch(r"(?:&(?:amp|lt|gt|quot|apos);|[ -%'-;=-~]){1,24}", spelling):
        return None
    return re.sub('&[a-z]+;', lambda found: TAKEN[found.group()], spelling)

def within(*pairs):
    return all(len(x) <= 20 and low <= int(x) <= high for x, low, high in pairs)

def judge(m, spots, parts):
    """Whether the bytes m are in the written form. Their numbers come into spots: where each begins and ends, and its range.
    Their texts, and the places of stations left out, come into parts: where each begins and ends, and what is written there."""
    if len(m) > 32768:
        return False
    try:
        m = m.decode('ascii')
    except UnicodeDecodeError:
        return False
    at = 0

    def take(pattern):
        nonlocal at
        found = re.compile(pattern).match(m, at)
        if found:
            at = found.end()
        return found

    def numbers(found, *ranges):
        if not found:
            return False
        spots.extend((*found.span(k + 1), low, high) for k, (low, high) in enumerate(ranges))
        return within(*((found.group(k + 1), low, high) for k, (low, high) in enumerate(ranges)))

    one, zero, card, code = (1, U32), (0, U32), (1, U16), (100, 999)
    found = take(rf'<SyncML Version="2\.0"><SyncHdr SessionID="{NUM}" MsgID="{NUM}">')
    if not numbers(found, one, one):
        return False
    if take(re.escape('<TargetServerURI>./plant</TargetServerURI><SourceClientURI>./press</SourceClientURI></SyncHdr><SyncBody>')):
        to_server = True
    elif take(re.escape('<TargetClientURI>./press</TargetClientURI><SourceServerURI>./plant</SourceServerURI></SyncHdr><SyncBody>')):
        to_server = False
    else:
        return False
    due = 1

    def just(value):
        return value, value

    def sync_alert():
        s = re.escape(stores(to_server))
        found = take(rf'<SyncAlert CmdID="{NUM}"><Anchor Last="{NUM}" Next="{NUM}"/>{s}<SyncType Direction="twoWay" Behaviour="Preserve" IDValidity="true" ChangeLogValidity="(?:true|false)"/></SyncAlert>')
        return numbers(found, just(due), one, one)

    def finished():
        return bool(take(re.escape(END))) and at == len(m)

    if to_server and m.startswith('<SyncAlert', at):
        return bool(sync_alert()) and finished()
    if not numbers(take(rf'<Status CmdID="{NUM}" MsgRef="{NUM}" CmdRef="{NUM}" Cmd="SyncHdr" Code="{NUM}"/>'), just(1), one, just(0), just(200)):
        return False
    due = 2
    if not to_server and m.startswith('<Final', at):
        return finished()
    found = take(rf'<Status CmdID="{NUM}" MsgRef="{NUM}" CmdRef="{NUM}" Cmd="SyncAlert" Code="{NUM}"/>')
    of_alert = bool(found)
    if not numbers(found or take(rf'<Status CmdID="{NUM}" MsgRef="{NUM}" CmdRef="{NUM}" Cmd="Sync" Code="{NUM}"/>'), just(2), one, zero, just(200)):
        return False
    due = 3
    if not to_server and of_alert:
        return bool(sync_alert()) and finished()
    while m.startswith('<Status', at):
        if to_server and of_alert:
            fixed = just(due), just(1), just(1), just(200)
            found = take(rf'<Status CmdID="{NUM}" MsgRef="{NUM}" CmdRef="{NUM}" Cmd="Add" Code="{NUM}"><StatusItem><ServerURI>{NUM}</ServerURI><ClientURI FP="{NUM}">{NUM}</ClientURI></StatusItem></Status>')
            if found:
                if not numbers(found, *fixed, card, one, card):
                    return False
            elif not numbers(take(rf'<Status CmdID="{NUM}" MsgRef="{NUM}" CmdRef="{NUM}" Cmd="Replace" Code="{NUM}"><StatusItem><ClientURI FP="{NUM}">{NUM}</ClientURI></StatusItem></Status>'), *fixed, one, card):
                return False
        else:
            found = take(rf'<Status CmdID="{NUM}" MsgRef="{NUM}" CmdRef="{NUM}" Cmd="(?:Add|Replace|Delete)" Code="{NUM}"')
            if not numbers(found, just(due), one, zero, code):
                return False
            if not take('/>'):
                if not to_server:
                    return False
                found = take(rf'><StatusItem><ServerURI>{NUM}</ServerURI>')
                if found:
                    if not numbers(found, card):
                        return False
                elif not take('><StatusItem>'):
                    return False
                if not numbers(take(rf'<ClientURI FP="{NUM}">{NUM}</ClientURI></StatusItem></Status>'), one, card):
                    return False
        due += 1
    if to_server and not of_alert:
        return finished()
    if not numbers(take(rf'<Sync CmdID="{NUM}" NumberOfChanges="{NUM}">' + re.escape(stores(to_server))), just(due), zero):
        return False
    due += 1
    while not take('</Sync>'):
        for pattern, ranges in commands_of(to_server):
            found = take(pattern)
            if found:
                break
        if not numbers(found, just(due), *ranges):
            return False
        groups = found.groupdict()
        if groups.get('left') is not None:
            parts.append((*found.span('left'), meta(0)))
        if groups.get('text') is not None:
            text = decoded(groups['text'])
            if text is None:
                return False
            parts.append((*found.span('text'), put(text)))
        due += 1
    return finished()

def commands_of(to_server):
    """The commands of one side with the ranges of the numbers after CmdID; the first whose pattern fits is taken."""
    fp, card = (1, U32), (1, U16)

    def whole(name, inside):
        return f'<{name} CmdID="{NUM}"><Item>{inside}</Item></{name}>'

    def said(name, address, *ranges):
        yield whole(name, f'{address}<Meta Type="text/plain;station={NUM}"/>{TEXT}'), (*ranges, (0, U8))
        yield whole(name, f'{address}(?P<left>){TEXT}'), ranges

    if to_server:
        yield whole('Delete', f'<SourceClientURI>{NUM}</SourceClientURI>'), (card,)
        for name in ('Replace', 'Add'):
            yield from said(name, f'<SourceClientURI FP="{NUM}">{NUM}</SourceClientURI>', fp, card)
    else:
        yield whole('Delete', f'<TargetClientURI>{NUM}</TargetClientURI>'), (card,)
        yield from said('Replace', f'<TargetClientURI>{NUM}</TargetClientURI>', card)
        yield from said('Add', f'<SourceServerURI>{NUM}</SourceServerURI>', card)

def exchanged(m, parts):
    """The bytes m with other bytes for some of their parts; each part is where it begins and ends, and what comes there."""
    for start, end, new in sorted(parts, reverse=True):
        m = m[:start] + new.encode('latin-1') + m[end:]
    return m

def respelled(m, spots, how):
    """The bytes m with each of these numbers spelled as how says of its value."""
    return exchanged(m, [(start, end, how(int(m[start:end]))) for start, end, _, _ in spots])

def rewritten(m):
    """What the writer makes of the bytes m, or None where they are not in the written form."""
    spots, parts = [], []
    if not judge(m, spots, parts):
        return None
    return exchanged(m, [(start, end, str(int(m[start:end]))) for start, end, _, _ in spots] + parts)

# ---- the vectors
vectors = []

def vector(name, message):
    message = message.encode('latin-1') if isinstance(message, str) else message
    vectors.append((name, message))

def bad(name, good, old, new, count=1):
    assert old in good, (name, old)
    vector(name, good.replace(old, new, count))

TOP = dict(session=U32, message=U32)
LOW = dict(session=1, message=1)
T24 = 'Cream beige, "24" = long'
assert len(T24) == 24
P3 = [('Delete', 1), ('Delete', U16), ('Replace', 2, 1, 'Brown', 1), ('Replace', U16, U32, '', U8), ('Add', 1, U32, T24, 7), ('Add', 3, 2, ' ')]
P4 = [('Delete', 1), ('Replace', U16, 'Beige', 7), ('Replace', 2, ''), ('Add', 1, T24, 1), ('Add', U16, '~', U8)]
R3 = [(1, 1, 1), (U16, U16, U32), (None, 1, 1), (None, U16, U32)]
S4 = [(2, 3, 'Delete', 200), (1, 0, 'Add', 100), (U32, U32, 'Replace', 999)]
S5 = [(2, 3, 'Delete', 211), (1, 0, 'Replace', 200, named(1, 1)), (U32, U32, 'Add', 200, named(U16, U32, U16)), (2, 5, 'Add', 420), (2, 4, 'Delete', 200, named(3, 4, 5)), (2, 4, 'Add', 200, named(3, 4))]

def every(n, kinds):
    return [kinds(k) for k in range(1, n + 1)]

# good ones
vector('pkg 1', pkg1())
vector('pkg 1 least', pkg1(**LOW, last=1, following=1, valid='false'))
vector('pkg 1 greatest', pkg1(**TOP, last=U32, following=U32))
vector('pkg 2', pkg2())
vector('pkg 2 least', pkg2(**LOW, ref=1, ref2=1, cmd=0, last=1, following=1, valid='false'))
vector('pkg 2 greatest', pkg2(**TOP, ref=U32, ref2=U32, cmd=U32, last=U32, following=U32))
vector('pkg 3 no lists', pkg3())
vector('pkg 3 least', pkg3(**LOW, ref=1, ref2=1, cmd=0, reports=[(1, 1, 1)], commands=[('Add', 1, 1, '')], changes=0))
vector('pkg 3 greatest', pkg3(**TOP, ref=U32, ref2=U32, cmd=U32, reports=[(U16, U16, U32)], commands=[('Add', U16, U32, T24, U8)], changes=U32))
vector('pkg 3 reports', pkg3(reports=R3))
vector('pkg 3 commands', pkg3(commands=P3))
vector('pkg 3 both', pkg3(reports=R3, commands=P3))
vector('pkg 3 other order', pkg3(reports=R3[::-1], commands=P3[::-1]))
for n in (1, 8, 9, 32, 33, 34, 100):
    vector(f'pkg 3 with {n} reports', pkg3(reports=every(n, lambda k: (k, k, k))))
    vector(f'pkg 3 with {n} commands', pkg3(commands=every(n, lambda k: ('Add', k, k, 'Ink %d' % k, k))))
vector('pkg 3 with 300 deletes', pkg3(commands=every(300, lambda k: ('Delete', k))))
vector('pkg 3 with 32 and 32', pkg3(reports=every(32, lambda k: (k, k, k)), commands=every(32, lambda k: ('Replace', k, k, T24, 8 * k - 1))))
vector('pkg 4 no lists', pkg4())
vector('pkg 4 least', pkg4(**LOW, ref=1, ref2=1, cmd=0, statuses=[(1, 0, 'Add', 100)], commands=[('Add', 1, '')], changes=0))
vector('pkg 4 greatest', pkg4(**TOP, ref=U32, ref2=U32, cmd=U32, statuses=[(U32, U32, 'Delete', 999)], commands=[('Replace', U16, T24, U8)], changes=U32))
vector('pkg 4 statuses', pkg4(statuses=S4))
vector('pkg 4 commands', pkg4(commands=P4))
vector('pkg 4 both', pkg4(statuses=S4, commands=P4))
for n in (1, 32, 33, 34, 150):
    vector(f'pkg 4 with {n} statuses', pkg4(statuses=every(n, lambda k: (2, k, 'Replace', 200))))
    vector(f'pkg 4 with {n} commands', pkg4(commands=every(n, lambda k: ('Add', k, 'Ink %d' % k, U8 - k))))
vector('pkg 4 with 32 and 32', pkg4(statuses=every(32, lambda k: (2, k, 'Add', 419)), commands=every(32, lambda k: ('Replace', k, T24, 8 * k - 1))))
# the number of changes may differ from the commands: the form has it, and a side that takes the message judges it
for k, lists in ((3, dict(reports=R3, commands=P3)), (4, dict(statuses=S4, commands=P4))):
    written, n = {3: pkg3, 4: pkg4}[k], len(lists['commands'])
    vector(f'pkg {k} no commands and number 1', written(changes=1))
    vector(f'pkg {k} no commands and number greatest', written(changes=U32))
    for name, changes in (('0', 0), ('one more', n + 1), ('one less', n - 1), ('of the other list', len(lists['reports' if k == 3 else 'statuses'])), ('33', 33), ('greatest', U32)):
        vector(f'pkg {k} number {name}', written(**lists, changes=changes))
for n in (32, 33, 34):
    vector(f'pkg 3 with {n} commands and number 32', pkg3(commands=every(n, lambda k: ('Delete', k)), changes=32))
    vector(f'pkg 4 with {n} commands and number 33', pkg4(commands=every(n, lambda k: ('Delete', k)), changes=33))
vector('pkg 5 no list', pkg5())
vector('pkg 5 least', pkg5(**LOW, ref=1, ref2=1, cmd=0, statuses=[(1, 0, 'Add', 100, named(1, 1, 1))]))
vector('pkg 5 greatest', pkg5(**TOP, ref=U32, ref2=U32, cmd=U32, statuses=[(U32, U32, 'Add', 999, named(U16, U32, U16))]))
vector('pkg 5 statuses', pkg5(statuses=S5))
for n in (1, 32, 33, 34, 150):
    vector(f'pkg 5 with {n} statuses', pkg5(statuses=every(n, lambda k: (2, k, 'Add', 200, named(k, k, k)))))
vector('pkg 6', pkg6())
vector('pkg 6 least', pkg6(**LOW, ref=1))
vector('pkg 6 greatest', pkg6(**TOP, ref=U32))
for c in ' !"#$%&\'()*+,-./09:;<=>?@AZ[\\]^_`az{|}~':
    vector(f'a text of byte {ord(c)}', pkg3(commands=[('Add', 1, 1, c)]))
vector('a text of marks', pkg4(commands=[('Add', 1, '#$:-()[]?*%@^+~')]))

# a message of exactly 32768 bytes, and of one more
def filled(size, text=T24, last=8, written=pkg3, form=str):
    """A Pkg 3 or 4 that has that many bytes in this form: Adds with this text, and a few last ones with texts that make up the rest."""
    for n in range(400):
        def made(lengths):
            adds = every(n, lambda k: (k, k, text)) + [(1, 1, 'x' * k) for k in lengths]
            return form(written(commands=[('Add', *add[written is pkg4:]) for add in adds]))
        rest = size - len(made([1] * last))
        if 0 <= rest <= last * 23:
            return made([1 + min(23, max(0, rest - 23 * k)) for k in range(last)])
    raise SystemExit('no message of that size')
vector('32768 bytes', filled(32768))
vector('32769 bytes', filled(32769))
vector('65536 bytes', pkg6() + ' ' * (65536 - len(pkg6())))

# each attribute missing, doubled, in other order; white space, quotes, and the session and the first CmdID in other spellings
full = {1: pkg1(), 2: pkg2(), 3: pkg3(reports=R3, commands=P3), 4: pkg4(statuses=S4, commands=P4), 5: pkg5(statuses=S5), 6: pkg6()}
for k, m in full.items():
    for attribute in sorted(set(re.findall(r' [A-Za-z]+="[^"]*"', m)), key=m.index):
        name = attribute.split('=')[0].strip()
        bad(f'pkg {k} without {name} at {m.index(attribute)}', m, attribute, '')
        bad(f'pkg {k} twice {name} at {m.index(attribute)}', m, attribute, attribute * 2)
    for element in sorted(set(re.findall(r'<[A-Za-z]+(?: [^>]*)?/>', m)), key=m.index):
        bad(f'pkg {k} without element at {m.index(element)}', m, element, '')
    bad(f'pkg {k} single quotes', m, 'Version="2.0"', "Version='2.0'")
    bad(f'pkg {k} version', m, 'Version="2.0"', 'Version="1.2"')
    bad(f'pkg {k} a declaration', m, '<SyncML', '<?xml version="1.0"?><SyncML')
    bad(f'pkg {k} space in a tag', m, '<Final/>', '<Final />')
    bad(f'pkg {k} final open', m, '<Final/>', '<Final></Final>')
    bad(f'pkg {k} no final', m, '<Final/>', '')
    bad(f'pkg {k} two finals', m, '<Final/>', '<Final/><Final/>')
    bad(f'pkg {k} line feed', m, '</SyncHdr><SyncBody>', '</SyncHdr>\n<SyncBody>')
    bad(f'pkg {k} space', m, '<SyncBody>', '<SyncBody> ')
    bad(f'pkg {k} other address', m, './press', './press1')
    vector(f'pkg {k} and a line feed', m + '\n')
    vector(f'pkg {k} and a byte', m + '>')
    vector(f'pkg {k} after a space', ' ' + m)
    bad(f'pkg {k} session 0', m, re.search(r'SessionID="\d+"', m).group(), 'SessionID="0"')
    bad(f'pkg {k} session above', m, re.search(r'SessionID="\d+"', m).group(), 'SessionID="4294967296"')
    bad(f'pkg {k} message 0', m, re.search(r'MsgID="\d+"', m).group(), 'MsgID="0"')
    bad(f'pkg {k} message above', m, re.search(r'MsgID="\d+"', m).group(), 'MsgID="4294967296"')
    for sign in ('+', '-', ' ', '0'):
        bad(f'pkg {k} session with {sign!r}', m, 'SessionID="', f'SessionID="{sign}')
    bad(f'pkg {k} session empty', m, re.search(r'SessionID="\d+"', m).group(), 'SessionID=""')
    bad(f'pkg {k} order of the header', m, re.search(r'SessionID="\d+" MsgID="\d+"', m).group(), 'MsgID="3" SessionID="7"')
    first = re.search(r'CmdID="1"', m).group()
    bad(f'pkg {k} CmdID 2 first', m, first, 'CmdID="2"')
    bad(f'pkg {k} CmdID 01', m, first, 'CmdID="01"')
    bad(f'pkg {k} unknown element', m, '<Final/>', '<Put/><Final/>')

# ranges passed by one, other ways out of the form, and beside them a zero in front, which is none
g3, g4, g5 = full[3], full[4], full[5]
for name, old, new in (('last 0', 'Last="1"', 'Last="0"'), ('next 0', 'Next="2"', 'Next="0"'), ('last above', 'Last="1"', 'Last="4294967296"'), ('next above', 'Next="2"', 'Next="4294967296"'),
                       ('anchors in other order', 'Last="1" Next="2"', 'Next="2" Last="1"'), ('IDValidity false', 'IDValidity="true"', 'IDValidity="false"'),
                       ('direction', 'twoWay', 'fromClient'), ('behaviour', 'Preserve', 'Refresh'), ('validity', 'ChangeLogValidity="true"', 'ChangeLogValidity="True"'),
                       ('store', './cards', './card')):
    bad(f'alert {name}', pkg1(), old, new)
    bad(f'pkg 2 alert {name}', pkg2(), old, new)
for name, old, new in (('header status code', 'Cmd="SyncHdr" Code="200"', 'Cmd="SyncHdr" Code="212"'), ('header CmdRef', 'CmdRef="0"', 'CmdRef="1"'), ('header CmdRef 00', 'CmdRef="0"', 'CmdRef="00"'),
                       ('header MsgRef 0', 'MsgRef="3"', 'MsgRef="0"'), ('header MsgRef above', 'MsgRef="3"', 'MsgRef="4294967296"'), ('header Cmd', 'Cmd="SyncHdr"', 'Cmd="Sync"'),
                       ('code of two digits', 'Code="200"', 'Code="20"'), ('no status', status(1, 3, 0, 'SyncHdr'), ''), ('two statuses', '<Final/>', status(2, 3, 0, 'SyncHdr') + '<Final/>')):
    bad(f'pkg 6 {name}', pkg6(), old, new)
for name, old, new in (('report GUID 0', '<ServerURI>1</ServerURI>', '<ServerURI>0</ServerURI>'), ('report GUID above', '<ServerURI>65535</ServerURI>', '<ServerURI>65536</ServerURI>'),
                       ('report LUID 0', '<ClientURI FP="1">1<', '<ClientURI FP="1">0<'), ('report LUID above', '<ClientURI FP="4294967295">65535<', '<ClientURI FP="4294967295">65536<'),
                       ('report FP 0', '<ClientURI FP="1">', '<ClientURI FP="0">'), ('report FP above', '<ClientURI FP="4294967295">', '<ClientURI FP="4294967296">'),
                       ('report MsgRef', 'MsgRef="1" CmdRef="1" Cmd="Add"', 'MsgRef="2" CmdRef="1" Cmd="Add"'), ('report code', 'Cmd="Add" Code="200"', 'Cmd="Add" Code="201"'),
                       ('report Add without GUID', '<ServerURI>1</ServerURI>', ''), ('report Cmd Delete', 'CmdRef="1" Cmd="Add"', 'CmdRef="1" Cmd="Delete"'),
                       ('report without item', named(1, 1, 1).join(('<StatusItem>', '</StatusItem>')), ''), ('items in other order', named(1, 1, 1), '<ClientURI FP="1">1</ClientURI><ServerURI>1</ServerURI>'),
                       ('command LUID 0', '<SourceClientURI>1<', '<SourceClientURI>0<'), ('command LUID above', '<SourceClientURI>65535<', '<SourceClientURI>65536<'), ('command LUID 01', '<SourceClientURI>1<', '<SourceClientURI>01<'),
                       ('command FP 0', '<SourceClientURI FP="1">', '<SourceClientURI FP="0">'), ('command FP above', '<SourceClientURI FP="4294967295">', '<SourceClientURI FP="4294967296">'),
                       ('Replace without FP', '<SourceClientURI FP="1">', '<SourceClientURI>'), ('Delete with FP', '<SourceClientURI>1<', '<SourceClientURI FP="1">1<'),
                       ('Replace without Data', '<Data>Brown</Data>', ''), ('Delete with Data', '<SourceClientURI>1</SourceClientURI>', '<SourceClientURI>1</SourceClientURI><Data>x</Data>'),
                       ('empty Data', '<Data/>', '<Data></Data>'), ('Data of 25', T24, T24 + 'x'), ('Data with 31', 'Brown', 'Bro\x1fwn'), ('Data with 127', 'Brown', 'Bro\x7fwn'), ('Data with 200', 'Brown', 'Bro\xc8wn'),
                       ('Data with &', 'Brown', 'Bro&wn'), ('Data with <', 'Brown', 'Bro<wn'), ('Data with ]]>', 'Brown', 'Bro]]>wn'), ('Data with a reference to a number', 'Brown', 'B&#38;n'), ('Data with a line feed', 'Brown', 'Bro\nwn'),
                       ('Data with a NUL', 'Brown', 'Bro\x00wn'), ('Meta', '<Item><SourceClientURI FP="1">', '<Meta/><Item><SourceClientURI FP="1">'), ('two items', '</Item></Delete>', '</Item><Item/></Delete>'),
                       ('unknown command', '<Delete CmdID="8">', '<Copy CmdID="8">'), ('other end', '</Delete>', '</delete>'), ('gap in CmdIDs', 'CmdID="8"', 'CmdID="9"'), ('target for source', 'SourceClientURI>1<', 'TargetClientURI>1<'),
                       ('sync doubled', '</Sync>', '</Sync>' + sync(14, True, 0) + '</Sync>'), ('sync without addresses', sync(7, True, 6), '<Sync CmdID="7" NumberOfChanges="6">'), ('empty sync', sync(7, True, 6), '<Sync CmdID="7" NumberOfChanges="6"/>'),
                       ('server add', '<Add CmdID="12"><Item><SourceClientURI FP="4294967295">1</SourceClientURI>', '<Add CmdID="12"><Item><SourceServerURI>1</SourceServerURI>'),
                       ('alert status code', 'Cmd="SyncAlert" Code="200"', 'Cmd="SyncAlert" Code="508"'), ('no alert status', status(2, 1, 3, 'SyncAlert'), ''), ('alert status twice', status(2, 1, 3, 'SyncAlert'), status(2, 1, 3, 'SyncAlert') + status(3, 1, 3, 'SyncAlert')),
                       ('statuses in other order', status(1, 1, 0, 'SyncHdr') + status(2, 1, 3, 'SyncAlert'), status(1, 1, 3, 'SyncAlert') + status(2, 1, 0, 'SyncHdr'))):
    bad(f'pkg 3 {name}', g3, old, new)
for name, old, new in (('status with an item', 'Cmd="Delete" Code="200"/>', 'Cmd="Delete" Code="200"><StatusItem>' + named(1, 1) + '</StatusItem></Status>'), ('code 99', 'Code="100"', 'Code="99"'), ('code 1000', 'Code="999"', 'Code="1000"'),
                       ('code 0200', 'Cmd="Delete" Code="200"', 'Cmd="Delete" Code="0200"'), ('cmd Sync among the statuses', 'Cmd="Delete"', 'Cmd="Sync"'), ('cmd Get', 'Cmd="Delete"', 'Cmd="Get"'), ('MsgRef 0', 'CmdID="4" MsgRef="1"', 'CmdID="4" MsgRef="0"'),
                       ('CmdRef above', 'CmdRef="4294967295"', 'CmdRef="4294967296"'), ('status attributes in other order', 'Cmd="Delete" Code="200"', 'Code="200" Cmd="Delete"'), ('add GUID 0', '<SourceServerURI>1<', '<SourceServerURI>0<'),
                       ('add GUID above', '<SourceServerURI>65535<', '<SourceServerURI>65536<'), ('replace LUID above', '<TargetClientURI>65535<', '<TargetClientURI>65536<'), ('with FP', '<TargetClientURI>65535<', '<TargetClientURI FP="1">65535<'),
                       ('add by LUID', 'SourceServerURI>1<', 'TargetClientURI>1<'), ('press add', '<SourceServerURI>1</SourceServerURI>', '<SourceClientURI FP="1">1</SourceClientURI>'), ('Data before the name', '<TargetClientURI>65535</TargetClientURI>' + data('Beige', 7), data('Beige', 7) + '<TargetClientURI>65535</TargetClientURI>'),
                       ('status after the Sync', '</Sync>', '</Sync>' + status(12, 2, 3, 'Add')), ('no Sync', re.search('<Sync .*</Sync>', g4).group(), '')):
    bad(f'pkg 4 {name}', g4, old, new)
for name, old, new in (('an empty status open', 'Cmd="Delete" Code="211"/>', 'Cmd="Delete" Code="211"></Status>'), ('an item without ClientURI', '<ServerURI>5</ServerURI><ClientURI FP="4">3</ClientURI>', '<ServerURI>5</ServerURI>'), ('two items', '</StatusItem></Status>', '</StatusItem><StatusItem/></Status>'),
                       ('LUID without FP', '<ClientURI FP="1">', '<ClientURI>'), ('LUID 0', '<ClientURI FP="1">1<', '<ClientURI FP="1">0<'), ('FP above', 'FP="4294967295"', 'FP="4294967296"'), ('GUID above', '<ServerURI>65535<', '<ServerURI>65536<'), ('GUID after LUID', named(3, 4, 5), '<ClientURI FP="4">3</ClientURI><ServerURI>5</ServerURI>'),
                       ('a Sync', '<Final/>', sync(9, True, 0) + '</Sync><Final/>'), ('sync status code', 'Cmd="Sync" Code="200"', 'Cmd="Sync" Code="201"'), ('cmd SyncHdr', 'CmdRef="3" Cmd="Delete"', 'CmdRef="3" Cmd="SyncHdr"')):
    bad(f'pkg 5 {name}', g5, old, new)
# the number of changes out of its range, in another spelling, and elsewhere than in the Sync after its CmdID
one = {3: pkg3(reports=[(1, 1, 1)], commands=[('Add', 2, 2, 'Brown')]), 4: pkg4(statuses=[(2, 4, 'Add', 200)], commands=[('Add', 1, 'Beige')])}
none = {3: pkg3(), 4: pkg4()}
NUMBER = 'NumberOfChanges="1"'
for k, m in one.items():
    bad(f'pkg {k} no commands without number', none[k], ' NumberOfChanges="0"', '')
    bad(f'pkg {k} no commands and number 00', none[k], 'NumberOfChanges="0"', 'NumberOfChanges="00"')
    bad(f'pkg {k} no commands and number empty', none[k], 'NumberOfChanges="0"', 'NumberOfChanges=""')
    bad(f'pkg {k} no commands and number -0', none[k], 'NumberOfChanges="0"', 'NumberOfChanges="-0"')
    for spelled in ('4294967296', '4294967297', '10000000001', '18446744073709551617', '+1', '-1', '01', '', ' ', ' 1', '1 ', '1.0', '0x1', 'one'):
        bad(f'pkg {k} number spelled {spelled!r}', m, NUMBER, f'NumberOfChanges="{spelled}"')
    for name, old, new in (('before CmdID', f'CmdID="4" {NUMBER}', f'{NUMBER} CmdID="4"'), ('for CmdID', f' CmdID="4" {NUMBER}', f' {NUMBER}'), ('twice and different', NUMBER, f'{NUMBER} NumberOfChanges="0"'),
                           ('in single quotes', NUMBER, "NumberOfChanges='1'"), ('without quotes', NUMBER, 'NumberOfChanges=1'), ('after two blanks', f' {NUMBER}', f'  {NUMBER}'), ('after no blank', f' {NUMBER}', NUMBER),
                           ('and a blank', f'{NUMBER}>', f'{NUMBER} >'), ('round blanks', 'NumberOfChanges=', 'NumberOfChanges = '), ('named NumberOfChange', 'NumberOfChanges', 'NumberOfChange'), ('named numberofchanges', 'NumberOfChanges', 'numberofchanges'),
                           ('as an element', f' {NUMBER}>', '><NumberOfChanges>1</NumberOfChanges>'), ('on the header', ' MsgID="2"', f' MsgID="2" {NUMBER}'), ('on the header status', 'Cmd="SyncHdr"', f'{NUMBER} Cmd="SyncHdr"'),
                           ('at the end of a status', 'Cmd="Add" Code="200"', f'Cmd="Add" Code="200" {NUMBER}'), ('on a command', '<Add CmdID="5"', f'<Add CmdID="5" {NUMBER}'), ('on a command alone', f' {NUMBER}>' + stores(k == 3) + '<Add CmdID="5"', '>' + stores(k == 3) + f'<Add CmdID="5" {NUMBER}'),
                           ('and another attribute', f'{NUMBER}>', f'{NUMBER} FreeID="81">'), ('after another attribute', NUMBER, f'Sequence="true" {NUMBER}')):
        bad(f'pkg {k} number {name}', m, old, new)
bad('pkg 1 number on the alert', pkg1(), '<SyncAlert CmdID="1"', '<SyncAlert CmdID="1" NumberOfChanges="0"')
bad('pkg 2 number on the alert', pkg2(), '<SyncAlert CmdID="3"', '<SyncAlert CmdID="3" NumberOfChanges="0"')
bad('pkg 5 number on the Sync status', pkg5(), 'Cmd="Sync" Code="200"', 'Cmd="Sync" Code="200" NumberOfChanges="0"')
# numbers in other spellings: in these six each kind of line of the page is met, and a number that may be another than its neighbours is another
shown = {1: pkg1(session=5, message=4, last=6, following=7), 2: pkg2(session=5, message=4, ref=6, ref2=7, cmd=8, last=9, following=10),
         3: pkg3(session=5, message=4, ref=6, ref2=7, cmd=8, reports=[(11, 12, 13), (None, 14, 15)], commands=[('Delete', 16), ('Replace', 17, 18, 'Brown', 29), ('Add', 19, 20, '', 30)], changes=21),
         4: pkg4(session=5, message=4, ref=6, ref2=7, cmd=8, statuses=[(22, 23, 'Delete', 211)], commands=[('Delete', 16), ('Replace', 17, 'Beige', 31), ('Add', 24, '', 0)], changes=21),
         5: pkg5(session=5, message=4, ref=6, ref2=7, cmd=8, statuses=[(22, 23, 'Delete', 211), (25, 26, 'Replace', 208, named(12, 13)), (27, 28, 'Add', 419, named(14, 15, 11))]), 6: pkg6(session=5, message=4, ref=6)}
ends = {}
for name, head, number, ref, card, code, station in (('least', LOW, 1, 0, 1, 100, 0), ('greatest', TOP, U32, U32, U16, 999, U8)):
    refs, anchors = dict(ref=number, ref2=number, cmd=ref), dict(last=number, following=number)
    answers = [(number, ref, 'Add', code), (number, ref, 'Add', code, named(card, number)), (number, ref, 'Add', code, named(card, number, card))]
    ends[name] = {1: pkg1(**head, **anchors), 2: pkg2(**head, **refs, **anchors),
                  3: pkg3(**head, **refs, reports=[(card, card, number), (None, card, number)], commands=[('Delete', card), ('Replace', card, number, '', station), ('Add', card, number, '', station)], changes=ref),
                  4: pkg4(**head, **refs, statuses=answers[:1], commands=[('Delete', card), ('Replace', card, '', station), ('Add', card, '', station)], changes=ref), 5: pkg5(**head, **refs, statuses=answers), 6: pkg6(**head, ref=number)}
# the second and third keep to 20 characters, with which a number just reads
READ = [('plus', lambda v: f'+{v}'), ('zeros', lambda v: f'{v:020}'), ('plus, zeros', lambda v: f'+{v:019}')]
# these are met with every number of every package
EACH = READ[:2] + [('21 zeros', lambda v: f'{v:021}'), ('two signs', lambda v: f'++{v}'), ('minus', lambda v: f'-{v}'), ('blank before', lambda v: f' {v}'), ('blank after', lambda v: f'{v} '), ('plus alone', lambda v: '+')]
# and these by turns. Two powers more: what a reader would take for the value itself if it counted in so many bits
TURNS = [READ[2], ('plus and minus', lambda v: f'+-{v}'), ('nothing', lambda v: ''),
         ('plus after zero', lambda v: f'0+{v}'), ('plus after', lambda v: f'{v}+'), ('2^64 more', lambda v: f'{2 ** 64 + v}'), ('2^32 more', lambda v: f'{2 ** 32 + v:020}'), ('plus in 21', lambda v: f'+{v:020}'), ('point', lambda v: f'{v}.0'), ('hexadecimal', lambda v: f'0x{v:x}')]

def numbers_of(m):
    """The numbers of a message that reads: those between quotes or tags and those of stations, and no other."""
    spots = []
    assert judge(m, spots, [])
    assert [m[start:end] for start, end, _, _ in spots] == re.findall(rb'(?<=[">=])[+0-9]+(?=["<])', re.sub(b'<Data>.*?</Data>', b'', m))
    return spots

def by_turns(places, cases):
    """Each place with a case and each case at a place, by turns, until all have been there."""
    for i in range(max(len(places), len(cases))):
        yield *places[i % len(places)], *cases[i % len(cases)]

def name_of(m, spot):
    """The name of the element or attribute that has the number."""
    return re.search(rb'([A-Za-z]+)(?:="?|(?: FP="[0-9]+")?>)$', m[:spot[0]]).group(1).decode()

# a kind: the numbers of one name that are free, or those that have to be one value
kinds = {}
for k, m in shown.items():
    m = m.encode()
    for spot in numbers_of(m):
        name = name_of(m, spot)
        kinds.setdefault((name, spot[2] == spot[3]), []).append((f'pkg {k} {name} at {spot[0]}', m, spot))

def spelled_at(places):
    """Each number of one kind in other spellings, and out of its range."""
    for (name, m, spot), (how, spelling) in itertools.product(places, EACH):
        vector(f'{name} {how}', respelled(m, [spot], spelling))
    for name, m, spot, how, spelling in by_turns(places, TURNS):
        vector(f'{name} {how}', respelled(m, [spot], spelling))
    for name, m, spot, how, spelling, end in by_turns(places, [(*case, end) for case in READ for end in ('below', 'above')]):
        # nothing is below zero
        end = end if spot[2] else 'above'
        vector(f'{name} {how} {end}', respelled(m, [spot], lambda _: spelling(spot[2] - 1 if end == 'below' else spot[3] + 1)))

for places in kinds.values():
    spelled_at(places)
valued = (('', shown), ('least ', ends['least']), ('greatest ', ends['greatest']))
for name, messages in valued:
    for k, m in messages.items():
        m = m.encode()
        for how, spelling in READ:
            vector(f'pkg {k} {name}all with {how}', respelled(m, numbers_of(m), spelling))
        turn = itertools.cycle((str, *(spelling for _, spelling in READ)))
        vector(f'pkg {k} {name}all by turns', respelled(m, numbers_of(m), lambda v: next(turn)(v)))
for name, m in (('pkg 3 with 32 and 32', pkg3(reports=every(32, lambda k: (k, k, k)), commands=every(32, lambda k: ('Replace', k, k, T24, 8 * k - 1)))), ('pkg 3 with 100 commands', pkg3(commands=every(100, lambda k: ('Add', k, k, 'Ink %d' % k, k)))),
                ('pkg 4 with 32 and 32', pkg4(statuses=every(32, lambda k: (2, k, 'Add', 419)), commands=every(32, lambda k: ('Replace', k, T24, 8 * k - 1)))), ('pkg 5 with 34 statuses', pkg5(statuses=every(34, lambda k: (2, k, 'Add', 200, named(k, k, k)))))):
    vector(f'{name} all with zeros', respelled(m.encode(), numbers_of(m.encode()), READ[1][1]))
# a text keeps its digits and signs, and a version is no number
for text in ('+2', '002', '+002', '-0', '+', '0' * 20, '0' * 21, '+' * 24):
    m = pkg3(commands=[('Replace', 1, 1, text, 3), ('Add', 2, 2, '1', 4)]).encode()
    vector(f'a text {text!r}', m)
    vector(f'a text {text!r} beside zeros', respelled(m, numbers_of(m), READ[1][1]))
for k, m in full.items():
    for version in ('+2.0', '02.0', '2.00', '2', '+2'):
        bad(f'pkg {k} version {version}', m, 'Version="2.0"', f'Version="{version}"')
for spelling in ('+ 7', '7 7', '\t7', '7\n', '\x007', '7,', '7e0', '1_0', '\xb2', '&#55;', '07"7', "'7'", '+' * 20, '9' * 20, '1' + '0' * 19, '0' * 20, '+' + '0' * 19, '0' * 100 + '7', '0' * 300 + '7'):
    bad(f'session {spelling!a}' if len(spelling) <= 20 else f'session in {len(spelling)} characters', pkg6(), 'SessionID="7"', f'SessionID="{spelling}"')
bad('session with plus before the quotes', pkg6(), 'SessionID="7"', 'SessionID=+"7"')
bad('session with plus after the quotes', pkg6(), 'SessionID="7"', 'SessionID="7"+')

# what is read counts for 32768 bytes, not what is written
def stretched(size, m):
    """The message with zeros before its numbers, from the last one on, as many as make up the size."""
    for start, end, _, _ in reversed(numbers_of(m)):
        m = m[:start] + b'0' * min(size - len(m), 20 - (end - start)) + m[start:]
    assert len(m) == size
    return m
for size in (32768, 32769):
    vector(f'zeros to {size} bytes', stretched(size, filled(32000).encode()))
    vector(f'a plus to {size} bytes', filled(size - 1).replace('SessionID="', 'SessionID="+'))

# texts and what spells them (02, 4). Each command that has a text stands in a message by itself
texted = {'press Replace': pkg3(commands=[('Replace', 1, 1, 'Brown', 7)]), 'press Add': pkg3(commands=[('Add', 1, 1, 'Brown', 7)]),
          'server Replace': pkg4(commands=[('Replace', 1, 'Brown', 7)]), 'server Add': pkg4(commands=[('Add', 1, 'Brown', 7)])}
at_turn = itertools.cycle(texted)

def data_in(place, name, inside):
    """The message of that command with other bytes between the tags of its Data."""
    bad(f'{place} {name}', texted[place], 'Brown', inside)

for place in texted:
    for inside in (*TAKEN, '>'):
        for where, around in (('alone', '{}'), ('first', '{}Blue'), ('amid', 'Blue A{}B'), ('last', 'Blue {}')):
            data_in(place, f'{inside} {where}', around.format(inside))
        # the 24 counts what is spelled
        for n in (24, 25):
            data_in(place, f'{n} times {inside}', inside * n)
    for first in range(32, 127, 24):
        data_in(place, f'all bytes from {first} on', put(''.join(map(chr, range(first, min(first + 24, 127))))))
    for inside in ('"', "'", '""', "''", '"\'"', '5" x 7"', "O'Brien's", '&quot;"', "'&apos;"):
        data_in(place, f'with {inside}', inside)
    # ]]> as it stands is out of the form; all that comes close to it is in it
    for inside in (']]>', 'a]]>', ']]>a', 'a]]>b', ']]]>', ']]]]>', ']]&gt;]]>', '&amp;]]>', ']]&gt;', ']&gt;>', ']]&gt;>', ']] >', '] ]>', ']&amp;]>', ']]&amp;>', ']]', 'a]]', ']]]', 'Red &lt;5&gt; ]]&gt;', 'Red &lt;5> ]]&gt;', 'Red &lt;5> ]]>'):
        data_in(place, f'with {inside}', inside)
    for name, inside in (('nothing', ''), ('a blank', ' '), ('an element', '<b/>'), ('an end', '</Data>'), ('a section', '<![CDATA[Brown]]>'), ('an empty section', '<![CDATA[]]>'), ('a comment', '<!--x-->'), ('an instruction', '<?x?>'), ('<', 'a<b')):
        data_in(place, f'inside {name}', inside)
for inside in (*TAKEN, '>'):
    for name, written in (('twice', inside * 2), ('twice apart', f'{inside} {inside}'), *((f'{where} {n}', text) for n in (23, 24) for where, text in (('before', inside + 'x' * n), ('after', 'x' * n + inside)))):
        data_in(next(at_turn), f'{inside} {name}', written)
for name, inside in (('all five and >', ''.join(TAKEN) + '>'), ('24 mixed', (''.join(TAKEN) + 'x') * 4), ('25 mixed', (''.join(TAKEN) + 'x') * 4 + '>'), ('24 mixed with >', '&amp;>&lt;x' * 6), ('25 mixed with >', '&amp;>&lt;x' * 6 + '&gt;'),
                     ('23 and a wrong reference', 'x' * 23 + '&nbsp;'), ('24 and a wrong reference', 'x' * 24 + '&nbsp;'), ('23 and &', 'x' * 23 + '&'), ('24 and &', 'x' * 24 + '&'), ('23 and <', 'x' * 23 + '<'), ('24 and <', 'x' * 24 + '<'), ('22 and ]]', 'x' * 22 + ']]'), ('23 and ]]', 'x' * 23 + ']]'),
                     ('21 and ]]>', 'x' * 21 + ']]>'), ('22 and ]]>', 'x' * 22 + ']]>'), ('21 and ]]&gt;', 'x' * 21 + ']]&gt;'), ('22 and ]]&gt;', 'x' * 22 + ']]&gt;'), ('24 times ]', ']' * 24), ('25 times ]', ']' * 25), ('24 blanks', ' ' * 24), ('25 blanks', ' ' * 25)):
    data_in(next(at_turn), name, inside)
for n in (1, 2, 3, 4):
    for parts in itertools.product((']', '>', '&gt;'), repeat=n):
        data_in(next(at_turn), 'of ' + ''.join(parts), ''.join(parts))
for inside in (']]>>', ']]>&gt;', ']]&quot;>', ']]a>', '] ] >', ']]&lt;>', ']]&#62;', ']]&#x3e;', '&#93;]>', '&rsqb;]>', ']&rsqb;>', ']]</Data>>', ']]</Data >'):
    data_in(next(at_turn), f'with {inside}', inside)
# no other reference, however it is spelled; & stands for itself nowhere
for inside in ('&#38;', '&#x26;', '&#X26;', '&#038;', '&#x026;', '&#60;', '&#x3c;', '&#x3C;', '&#62;', '&#x3E;', '&#34;', '&#39;', '&#65;', '&#x41;', '&#0;', '&#10;', '&#127;', '&#;', '&#x;', '&#', '&#38', '&#x26', '&# 38;', '&#38.', '&##38;', '&#amp;', '&x26;', '&38;',
               '&AMP;', '&Amp;', '&aMP;', '&LT;', '&Lt;', '&GT;', '&gT;', '&QUOT;', '&Quot;', '&APOS;', '&apoS;', '&amp', '&lt', '&gt', '&quot', '&apos', '&amp ;', '& amp;', '&a mp;', '&amp.;', '&amp:', '&amp,', '&amp&', '&amp&amp;', '&amp<', '&amplt;', '&ampamp;', '&lt>', '&gt&gt;',
               '&nbsp;', '&auml;', '&copy;', '&euro;', '&shy;', '&ink;', '&ltt;', '&llt;', '&gtt;', '&g;', '&t;', '&p;', '&l;', '&quo;', '&quott;', '&qout;', '&apo;', '&aposs;', '&amps;', '&aamp;', '&-;', '&;', '&', '&&', '&&&', '&&amp;', '&amp;&', '&lt;&', '& ', ' &', '&>', '>&', '&]]>', "&'", '&"', '& B', 'AT&T;', '&amp;&nbsp;', '&nbsp;&amp;'):
    data_in(next(at_turn), f'of {inside!r}', inside)
    data_in(next(at_turn), f'amid {inside!r}', f'A{inside}B')
for byte in (0, 9, 10, 13, 31, 127, 128, 160, 195, 255):
    data_in(next(at_turn), f'byte {byte} after &amp;', f'&amp;{chr(byte)}')
for n in range(1, len('&quot;')):
    data_in(next(at_turn), f'&quot; cut at {n}', '&quot;'[:n])
    data_in(next(at_turn), f'&quot; without byte {n}', '&quot;'[:n] + '&quot;'[n + 1:])
# what is decoded is not decoded again, and what only looks like a reference is a text
for inside in ('&amp;amp;', '&amp;lt;', '&amp;gt;', '&amp;quot;', '&amp;apos;', '&amp;amp;amp;', '&amp;amp;lt;', '&amp;#38;', '&amp;#x26;', '&amp;nbsp;', '&amp;amp', '&amp;;', '&amp;&amp;', '&amp;&amp;amp;', '&lt;&lt;', '&lt;;', '&gt;;', ';&amp;', ';', ';;', 'amp;', 'lt;', '#38;', '%amp;', '%26', '\\u0026', '&amp;a&amp;mp;',
               '&lt;Data/&gt;', '&lt;Data/>', '&lt;/Data&gt;', '&lt;/Data>', '&lt;Data&gt;x', '&lt;!--x--&gt;', '&lt;!--x-->', '&lt;?x?&gt;', '&lt;?x?>', '&lt;![CDATA[x]]&gt;', '&lt;![CDATA[x]]>', '&lt;![CDATA[x] ]>', '&lt;Final/>', '&lt;5&gt;', '&lt;5>', 'a>b', '->', '=>', '/>', '">', "'>", '>>=', '&gt;>&gt;', '>&gt;>'):
    data_in(next(at_turn), f'text {inside}', inside)
# no < stands for itself, and a Data has no elements, sections, comments or instructions
for inside in ('<', '<<', 'a<', '<b', 'a < b', '< ', '<>', '<b>', 'a<b>c', '<b>x</b>', '<Data/>', '<Data>', '<Data>x</Data>', 'x</Data>y', 'x</Data><Data>y', 'x</data>', 'x</Dat', 'x<Data/>', 'x<lt;', '<amp;', '&amp;<', '<&amp;', '&lt;<', '<]]>',
               'Br<![CDATA[ow]]>n', '<![CDATA[&]]>', '<![CDATA[<]]>', '<![CDATA[x]]&gt;', 'Brown<![CDATA[]]>', '<!---->', 'Brown<!--x-->', '<!--x-->Brown', '<?x y?>', 'Bro<?x?>wn', '<!x>'):
    data_in(next(at_turn), f'inside {inside!r}', inside)
for name, new in (('none', ''), ('/> and a blank', '<Data />'), ('/> and a text', '<Data/>Brown'), ('/> twice', '<Data/><Data/>'), ('two of them', '<Data>Br</Data><Data>own</Data>'), ('/> and >', '<Data/>>'), ('/> after &amp;', '&amp;<Data/>'), ('a blank in its tag', '<Data >Brown</Data>'), ('a blank in its end', '<Data>Brown</Data >'),
                  ('an attribute', '<Data x="&amp;">Brown</Data>'), ('another name', '<data>Brown</data>'), ('its tag spelled', '&lt;Data>Brown</Data>'), ('its end spelled', '<Data>Brown&lt;/Data>'), ('> for its tag', '>Brown</Data>'), ('> twice', '<Data>>Brown</Data>'), ('> before its end', '<Data>Brown></Data>')):
    place = next(at_turn)
    bad(f'{place} Data: {name}', texted[place], '<Data>Brown</Data>', new)

def gaps(m):
    """Where two tags stand side by side, and the message up to there and from there on."""
    for found in re.finditer('><', m):
        yield found.start(), m[:found.start() + 1], m[found.start() + 1:]

# references, and what may be bare in a text, elsewhere: in every number, address and value, and between elements
ELSEWHERE = [('as &#..', lambda v: ''.join(f'&#{ord(digit)};' for digit in str(v))), ('as &#x..', lambda v: ''.join(f'&#x{ord(digit):x};' for digit in str(v))), ('before &amp;', lambda v: f'{v}&amp;'), ('after &gt;', lambda v: f'&gt;{v}'),
             ('before >', lambda v: f'{v}>'), ('after >', lambda v: f'>{v}'), ('for &lt;', lambda v: '&lt;'), ('in a section', lambda v: f'<![CDATA[{v}]]>')]
for places in kinds.values():
    for name, m, spot, how, spelling in by_turns(places, ELSEWHERE):
        vector(f'{name} {how}', respelled(m, [spot], spelling))
ways = itertools.cycle((('as a reference', lambda value: value[:-1] + f'&#{ord(value[-1])};'), ('and &amp;', '{}&amp;'.format), ('after &apos;', '&apos;{}'.format), ('and >', '{}>'.format), ('and ]]>', '{}]]>'.format)))
between = itertools.cycle(('&amp;', '>', '&gt;', ']]>', '&#32;', '<![CDATA[]]>', '<!-- -->', '<?x?>', '&', '"', '&apos;'))
for k, m in shown.items():
    for found in re.finditer(r'(?<=>)\./[a-z]+(?=<)|(?<=")[A-Za-z2][A-Za-z.]+[A-Za-z0](?=")|text/plain;station(?==)', m):
        how, way = next(ways)
        vector(f'pkg {k} {found.group()} at {found.start()} {how}', m[:found.start()] + way(found.group()) + m[found.end():])
    for at, before, after in gaps(m):
        inside = next(between)
        vector(f'pkg {k} at {at} {inside}', before + inside + after)
    for inside in ('&amp;', '&gt;', '<!-- -->', '<?x?>', '<!DOCTYPE SyncML>', '<!DOCTYPE SyncML [<!ENTITY ink "Brown">]>'):
        vector(f'pkg {k} after {inside[:20]}', inside + m)
        vector(f'pkg {k} before {inside[:20]}', m + inside)
# such texts in lists, as many as are kept and one more, beside each other and beside other spellings of numbers
for n in (32, 33, 34):
    for name, text in (('&', '&' * 24), ('>', '>' * 24), ('mixed', 'Red <5> ]]> & "Blue" \'5')):
        for k, m in ((3, pkg3(commands=every(n, lambda k: ('Add', k, k, text, 7 * k)))), (4, pkg4(commands=every(n, lambda k: ('Replace', k, text, U8 - k))))):
            vector(f'pkg {k} with {n} of {name}', m)
            if n < 34:
                vector(f'pkg {k} with {n} of {name}, otherwise', re.sub(r'(?<!\]\])&gt;', '>', m).replace('"B', '&quot;B').replace("'", '&apos;').replace('&amp;' * 24, '&quot;&apos;' * 12))
m = pkg3(reports=R3, commands=[('Delete', 1), ('Replace', 2, 3, 'Blue A&B', 10), ('Replace', 4, 5, '', 11), ('Add', 6, 7, 'Red <5> ]]>', 12), ('Add', 8, 9, '+1')]).encode()
for how, spelling in READ:
    vector(f'texts beside {how}', respelled(m, numbers_of(m), spelling))
    vector(f'other texts beside {how}', respelled(m, numbers_of(m), spelling).replace(b'5&gt;', b'5>').replace(b'+1', b'&quot;+01&apos;'))
most = dict(session=U32, message=U32, ref=U32, ref2=U32, cmd=U32, changes=U32)
vector('pkg 3 with 32 and 32 of the longest', pkg3(**most, reports=every(32, lambda k: (U16 - k, U16 - k, U32)), commands=every(32, lambda k: ('Replace', U16 - k, U32, '&' * 24, U8))))
vector('pkg 4 with 32 and 32 of the longest', pkg4(**most, statuses=every(32, lambda k: (U32, U32, 'Replace', 419)), commands=every(32, lambda k: ('Replace', U16 - k, '&' * 24, U8))))

# stations (02, 5). Each stands in the Meta of a command, and all of them are met
M7 = meta(7)

def metas(m, how):
    """The message with other bytes for its Metas: what how makes of each, and of how many were before it."""
    count = itertools.count()
    return re.sub('<Meta [^>]*>', lambda found: how(next(count), found.group()), m)

def unsaid(m):
    """The message with all stations left out."""
    return metas(m, lambda n, old: '')

def meta_in(place, name, new):
    """The message of that command with other bytes for its Meta."""
    bad(f'{place} {name}', texted[place], M7, new)

for low in range(0, 256, 32):
    vector(f'pkg 3 stations from {low}', pkg3(commands=every(32, lambda k: (('Replace', 'Add')[k % 2], k, k, 'Ink', low + k - 1))))
    vector(f'pkg 4 stations from {low}', pkg4(commands=every(32, lambda k: (('Add', 'Replace')[k % 2], k, 'Ink', low + k - 1))))
# numbers around 255, and those that a reader in fewer bits would take for 7
for place in texted:
    for n in (0, 1, 9, 10, 99, 100, 127, 128, 199, 200, 249, 250, 254, 255, 256, 257, 260, 263, 300, 511, 512, 999, 1000, 2550, 32775, 65535, 65536, 65543, U32, 2 ** 32, 2 ** 32 + 7, 2 ** 63 + 7, 2 ** 64 - 1, 2 ** 64 + 7, 10 ** 20 - 1, 10 ** 20 + 7):
        meta_in(place, f'station {n}', meta(n))
    for (how, spelling), n in itertools.product((*EACH, *TURNS), (0, 255, 256)):
        meta_in(place, f'station {n} {how}', meta(spelling(n)))
    for spelling in ('007', '+007', '00', '+00', '000255', '000256', '+' + '0' * 18 + '7', '0' * 20, '0' * 21, '+' + '0' * 20, '-0', '-1', ' ', '\t7', '7\n', '\x007', '7,', '7;', '7e0', '1_0', '\xb2', '\xb77', '&#55;', '7&gt;', "'7'", '"7"', '7/', '7 7', '7,8', '7-8', 'seven', 'A', 'x7', '7x', '#7', '%37', 'true'):
        meta_in(place, f'station {spelling!a}', meta(spelling))
# another Type, and another element, is not the same as none
TYPES = ('', '7', 'station=7', ';station=7', 'text;station=7', 'text/;station=7', '/plain;station=7', 'text/plain', 'text/plain;', 'text/plain;station', 'text/plain;7', 'text/plain;=7', 'text/plain=7', 'text/plainstation=7', 'text/plain,station=7', 'text/plain:station=7', 'text/plain;station:7', 'text/plain;station7',
         'text/plain;;station=7', 'text/plain;station==7', 'text/plain;station=7;', 'text/plain;station=7;station=7', 'text/plain;station=7;q=1', 'text/plain;q=1;station=7', 'text/plain;q=1', 'station=7;text/plain', 'text/plain;stations=7', 'text/plain;statio=7', 'text/plain;press=7', 'text/plain;station=7/', 'text/plain/station=7',
         ' text/plain;station=7', 'text/plain;station=7 ', 'text/plain ;station=7', 'text/plain; station=7', 'text/plain;station =7', 'text/plain;station= 7', 'text /plain;station=7', 'text/ plain;station=7', 'text/plain station=7', 'text/plain;\tstation=7', 'text/plain;\nstation=7',
         'Text/plain;station=7', 'text/Plain;station=7', 'TEXT/PLAIN;station=7', 'text/plain;Station=7', 'text/plain;STATION=7', 'text/plain;statioN=7', 'text/html;station=7', 'text/xml;station=7', 'text/x-vcard', 'text/plain2;station=7', 'text/*;station=7', '*/*;station=7', 'text\\plain;station=7',
         'text/plain&#59;station=7', 'text/plain;station&#61;7', 'text&#47;plain;station=7', '&quot;text/plain;station=7', 'text/plain;station=7&quot;', 'text/plain;station=&quot;7&quot;', 'text/plain;station=7&amp;', 'text/plain;station=7>', 'text/plain;station=7<')
ELEMENTS = (('empty', '<Meta/>'), ('empty and open', '<Meta></Meta>'), ('open', M7[:-2] + '></Meta>'), ('open round a blank', M7[:-2] + '> </Meta>'), ('open round an element', M7[:-2] + '><Mark/></Meta>'), ('without an end', M7[:-2] + '>'), ('ended twice', M7 + '</Meta>'), ('only ended', '</Meta>'), ('cut before >', M7[:-1]), ('and >', M7 + '>'),
            ('blank before its end', M7[:-2] + ' />'), ('blank in its end', M7[:-1] + ' >'), ('two blanks', M7.replace(' ', '  ')), ('a tab', M7.replace(' ', '\t')), ('a line feed', M7.replace(' ', '\n')), ('blank before =', M7.replace('Type=', 'Type =')), ('blank after =', M7.replace('Type=', 'Type= ')), ('blank before its name', '< ' + M7[1:]), ('no blank', M7.replace(' ', '')),
            ('single quotes', M7.replace('"', "'")), ('two kinds of quotes', M7.replace('7"', "7'")), ('no quotes', M7.replace('"', '')), ('no first quote', M7.replace('"', '', 1)), ('no last quote', M7.replace('7"', '7')), ('named meta', M7.replace('Meta', 'meta')), ('named META', M7.replace('Meta', 'META')), ('named Metas', M7.replace('Meta', 'Metas')), ('named Met', M7.replace('Meta', 'Met')),
            ('named MetInf', M7.replace('Meta', 'MetInf')), ('with a prefix', M7.replace('Meta', 'm:Meta')), ('and type', M7.replace('Type', 'type')), ('and TYPE', M7.replace('Type', 'TYPE')), ('and Types', M7.replace('Type', 'Types')), ('and Format after', M7[:-2] + ' Format="chr"/>'), ('and Format before', M7.replace(' ', ' Format="chr" ')), ('and Size after', M7[:-2] + ' Size="5"/>'), ('and Size before', M7.replace(' ', ' Size="5" ')),
            ('and Format for Type', '<Meta Format="chr"/>'), ('and Size for Type', '<Meta Size="5"/>'), ('and Type twice', M7[:-2] + M7[5:]), ('and two Types', M7[:-2] + meta(8)[5:]), ('and a namespace', M7[:-2] + ' xmlns="syncml:metinf"/>'), ('and a station apart', '<Meta Type="text/plain" station="7"/>'), ('and a station alone', '<Meta station="7"/>'), ('and a station twice', M7[:-2] + ' station="7"/>'),
            ('with Type inside', '<Meta><Type>text/plain;station=7</Type></Meta>'), ('for Type', '<Type>text/plain;station=7</Type>'), ('for Station', '<Station>7</Station>'), ('for its value', 'text/plain;station=7'), ('for its number', '7'), ('twice', M7 * 2), ('twice, 0 first', meta(0) + M7), ('twice, another last', M7 + meta(8)), ('twice, above last', M7 + meta(256)), ('twice, empty first', '<Meta/>' + M7), ('twice, empty last', M7 + '<Meta/>'),
            ('after a blank', ' ' + M7), ('before a blank', M7 + ' '), ('before a line feed', M7 + '\n'), ('before a text', M7 + '7'), ('before &amp;', M7 + '&amp;'), ('after a comment', '<!--x-->' + M7), ('in a comment', f'<!--{M7}-->'), ('after an instruction', '<?x?>' + M7), ('in a section', f'<![CDATA[{M7}]]>'), ('spelled', f'&lt;{M7[1:-1]}&gt;'), ('spelled to its end', '&lt;' + M7[1:]))
for place in texted:
    for kind in TYPES:
        meta_in(place, f'Type {kind.replace("text/plain", "..")!r}', f'<Meta Type="{kind}"/>')
    for name, new in ELEMENTS:
        meta_in(place, f'Meta {name}', new)
for n, byte in enumerate(M7):
    for name, new in (('no', ''), ('twice', byte * 2), ('another for', chr(ord(byte) ^ 1)), *([('other case of', byte.swapcase())] if byte.isalpha() else [])):
        meta_in(next(at_turn), f'{name} byte {n} of Meta', M7[:n] + new + M7[n + 1:])
    place = next(at_turn)
    vector(f'{place} cut at byte {n} of Meta', texted[place].split(M7)[0] + M7[:n])
# elsewhere than between address and Data: of the command, of what is round it, and of every other element of the six
for place, m in texted.items():
    m = unsaid(m)
    for at, before, after in gaps(m):
        vector(f'{place} Meta moved to {at}', before + M7 + after)
    for found in re.compile('<[A-Z][A-Za-z]+').finditer(m, m.index('<Sync ')):
        for name, attribute in (('Type', M7[5:-2]), ('station', ' station="7"')):
            vector(f'{place} {name} on {found.group()[1:]} {found.start()}', m[:found.end()] + attribute + m[found.end():])
    for name, new in (('round Data', M7[:-2] + '><Data>Brown</Data></Meta>'), ('first in Data', f'<Data>{M7}Brown</Data>'), ('last in Data', f'<Data>Brown{M7}</Data>'), ('for Data', M7), ('for Data and open', M7[:-2] + '>Brown</Meta>'), ('both sides of Data', f'{M7}<Data>Brown</Data>{M7}'), ('between two Data', f'<Data>Br</Data>{M7}<Data>own</Data>')):
        bad(f'{place} Meta {name}', m, '<Data>Brown</Data>', new)
for k, m in shown.items():
    # the two are one where a package has no commands
    for given, name in {m: 'another Meta', unsaid(m): 'a Meta'}.items():
        for at, before, after in gaps(given):
            vector(f'pkg {k} {name} at {at}', before + M7 + after)
for side, m in (('press', pkg3(commands=[('Delete', 1)])), ('server', pkg4(commands=[('Delete', 1)]))):
    for name, new in (('station 0', meta(0)), ('station 7', M7), ('station 256', meta(256)), ('an empty Meta', '<Meta/>'), ('text/plain', '<Meta Type="text/plain"/>'), ('station and text', data('Brown', 7)), ('station and no text', data('', 7))):
        for where, old, form in (('before Item', '<Item>', '{1}{0}'), ('first', '<Item>', '{0}{1}'), ('last', '</Item>', '{1}{0}'), ('after Item', '</Item>', '{0}{1}')):
            bad(f'{side} Delete {name} {where}', m, old, form.format(old, new))
# a text that looks like a station is a text
for inside in ('station=7', ';station=256', 'text/plain;station=7', 'Type="text/plain"', '&lt;Meta/&gt;', '&lt;Meta/>', '&lt;Meta Type="x"/>', '/>', 'Meta'):
    for place in texted:
        data_in(place, f'says {inside}', inside)
        bad(f'{place} unsaid says {inside}', unsaid(texted[place]), 'Brown', inside)
# left out it is 0, whatever the text and however it and the numbers are spelled; all else is in the form or not as before
for place, m in texted.items():
    m = unsaid(m)
    vector(f'{place} unsaid', m)
    bad(f'{place} unsaid without text', m, '<Data>Brown</Data>', '<Data/>')
    for inside in (*TAKEN, '>', 'Blue A&amp;B', '&quot;"\'&apos;', ']]&gt;', ']]>', '&', '&nbsp;', '&#38;', '<', '', ' ', '</Data>', '<b/>', '\x1f', '\x7f', '\xc8'):
        bad(f'{place} unsaid with {inside!a}', m, 'Brown', inside)
    for inside, n in itertools.product(('x', '&amp;', '>'), (24, 25)):
        bad(f'{place} unsaid {n} times {inside}', m, 'Brown', inside * n)
    for name, new in (('no Data', ''), ('Data of a blank', '<Data />'), ('two Data', '<Data/><Data/>'), ('another name', '<data>Brown</data>'), ('an attribute', '<Data x="1">Brown</Data>'), ('a blank before', ' <Data/>'), ('a blank after', '<Data/> ')):
        bad(f'{place} unsaid {name}', m, '<Data>Brown</Data>', new)
for k in (3, 4):
    m = unsaid(shown[k]).encode()
    spelled_at([(f'unsaid {k} {name_of(m, spot)} {spot[0]}', m, spot) for spot in numbers_of(m) if spot[0] > m.index(b'<Replace')])
    for (name, messages), (how, spelling) in itertools.product(valued, READ):
        m = unsaid(messages[k]).encode()
        vector(f'unsaid {k} {name}all with {how}', respelled(m, numbers_of(m), spelling))
# each command by itself: some of a message have one and some none, and one that is out of the form is so beside either
several = {3: pkg3(reports=R3[1:3], commands=[('Delete', 1), ('Replace', 2, 3, 'Brown', 4), ('Add', 5, 6, '', 7), ('Delete', 8), ('Replace', 9, 10, '', 11), ('Add', 12, 13, 'Blue A&B', 255)]),
           4: pkg4(statuses=S4[:1], commands=[('Delete', 1), ('Replace', 2, 'Beige', 3), ('Add', 4, '', 5), ('Delete', 6), ('Replace', 7, '', 8), ('Add', 9, 'Blue A&B', 255)])}
for k, m in several.items():
    for here in itertools.product((True, False), repeat=4):
        vector(f'pkg {k} stations in ' + ' '.join('yes' if x else 'no' for x in here), metas(m, lambda n, old: old if here[n] else ''))
    for at, (name, new) in itertools.product(range(4), (('above', meta(256)), ('empty', '<Meta/>'), ('twice', M7 * 2), ('plus', meta('+7')), ('zeros', meta('0' * 20)))):
        vector(f'pkg {k} {name} in {at}', metas(m, lambda n, old: new if n == at else old))
        vector(f'pkg {k} {name} in {at} alone', metas(m, lambda n, old: new if n == at else ''))
for n in (32, 33, 34):
    for k, m in ((3, pkg3(commands=every(n, lambda k: ('Add', k, k, 'Ink %d' % k, 7 * k)))), (4, pkg4(commands=every(n, lambda k: ('Replace', k, 'Ink %d' % k, U8 - k))))):
        for name, gone in (('any', lambda j: True), ('every other', lambda j: j % 2), ('the last', lambda j: j == n - 1)):
            vector(f'pkg {k} with {n} without {name}', metas(m, lambda j, old: '' if gone(j) else old))
for n in (1, 100):
    vector(f'pkg 3 with {n} unsaid', unsaid(pkg3(commands=every(n, lambda k: ('Add', k, k, 'Ink %d' % k)))))
    vector(f'pkg 4 with {n} unsaid', unsaid(pkg4(commands=every(n, lambda k: ('Replace', k, 'Ink %d' % k)))))

# what is read counts for 32768 bytes here too: with &quot; it may be longer than what is written, with a bare > shorter
vector('&quot; to 32768 bytes', filled(32768, 'x' * 12, 12).replace('x' * 12, '&quot;&apos;'))
vector('&quot; to 32769 bytes', filled(32769, 'x' * 12, 12).replace('x' * 12, '&quot;&apos;'))
vector('&amp; to 32768 bytes', filled(32768, '&' * 24, 12))
vector('&amp; to 32769 bytes', filled(32769, '&' * 24, 12))
vector('bare > to 32768 bytes written', filled(32768, '>' * 24, 12).replace('&gt;', '>'))
vector('one bare > to 32768 bytes written', filled(32768, '>' * 24, 12).replace('&gt;', '>', 1))
vector('bare > to 32767 bytes written', filled(32767, '>' * 24, 12).replace('&gt;', '>'))
vector('bare > to 32769 bytes written', filled(32769, '>' * 24, 12).replace('&gt;', '>'))
vector('one bare > to 32769 bytes written', filled(32769, '>' * 24, 12).replace('&gt;', '>', 1))
vector('bare > in 32768 bytes', filled(32768, 'x' * 24).replace('x' * 24, '>' * 24))
vector('bare > in 32769 bytes', filled(32769, 'x' * 24).replace('x' * 24, '>' * 24))
# so too where stations are left out: what is written has at most 32768 bytes, or is refused
def first_unsaid(m):
    return m.replace(meta(0), '', 1)
for size in (32767, 32768, 32769):
    vector(f'pkg 3 unsaid to {size} bytes written', unsaid(filled(size)))
    vector(f'pkg 4 unsaid to {size} bytes written', unsaid(filled(size, written=pkg4)))
    vector(f'pkg 3 first unsaid to {size} written', first_unsaid(filled(size)))
    vector(f'pkg 4 last unsaid to {size} written', ''.join(filled(size, written=pkg4).rsplit(meta(0), 1)))
    vector(f'one bare >, one unsaid to {size} written', first_unsaid(filled(size, '>' * 24, 12)).replace('&gt;', '>', 1))
for size in (32768, 32769):
    vector(f'pkg 3 unsaid in {size} bytes', filled(size, form=unsaid))
    vector(f'pkg 4 unsaid in {size} bytes', filled(size, written=pkg4, form=unsaid))
    vector(f'first unsaid in {size} bytes', filled(size, form=first_unsaid))
    vector(f'stations 255 to {size} bytes', filled(size, form=lambda m: m.replace('=0"/>', '=255"/>')))
    vector(f'stations in 20 zeros to {size} bytes', filled(size, form=lambda m: m.replace('=0"/>', f'={0:020}"/>')))
    vector(f'station 00 to {size} bytes', filled(size - 1).replace('=0"/>', '=00"/>', 1))
    vector(f'zeros to {size} bytes unsaid', stretched(size, filled(25000, form=unsaid).encode()))
vector('nothing', '')
vector('an empty body', header(True, 2, 1) + END)
vector('only a header', header(True, 2, 1))
vector('pkg 1 to the press', header(False, 2, 1) + alert(1, False, 1, 2, 'true') + END)
vector('pkg 1 with stores of the press', header(True, 2, 1) + alert(1, False, 1, 2, 'true') + END)
vector('pkg 6 to the server', header(True, 2, 1) + status(1, 3, 0, 'SyncHdr') + END)
whole = pkg6().encode()
for n in range(len(whole)):
    vector(f'pkg 6 cut at {n}', whole[:n])

# ---- the files: of each vector a line of 64 bytes, the message, a line feed; where it is written otherwise, in the same way what is written
names = [name for name, _ in vectors]
assert len(set(names)) == len(names), [n for n in names if names.count(n) > 1]

def entry(word, name, m):
    assert len(name) <= 47 and name.isascii() and '\n' not in name and name == name.strip(), name
    return f'{word:9} {len(m):05} {name:47}\n'.encode() + m + b'\n'

out, said = b'', ''
counts = collections.Counter()
for name, m in vectors:
    w = rewritten(m)
    word = 'refused 7' if w is None else 'refused 9' if len(w) > 32768 else 'same' if w == m else 'plain'
    out += entry(word, name, m) + (entry('written', name, w) if word == 'plain' else b'')
    said += f'ok {word}: {name}\n'
    counts[word] += 1
said += f'{len(vectors)} messages, 0 failed\n'
open('crates/vectors/stdin', 'wb').write(out)
open('crates/vectors/stdout', 'w').write(said)
print(len(vectors), 'messages,', counts['same'], 'the same,', counts['plain'], 'written plain,', counts['refused 7'] + counts['refused 9'], 'refused,', len(out), 'bytes')
