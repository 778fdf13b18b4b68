#!/usr/bin/env python3
"""The stack that a call uses, at most: the frames of a compiled program's functions along the deepest way from each.

Usage: stack.py OBJDUMP PROGRAM.o FUNCTION.. . The frame of a function is what it pushes, what it puts back onto the stack pointer at its
end, and its return address. `token::put_number` calls itself, once for each digit: at most 10 times.
"""
import re
import subprocess
import sys

objdump, program, *wanted = sys.argv[1:]
text = subprocess.run([objdump, '-dr', '--no-show-raw-insn', program], check=True, capture_output=True, text=True).stdout
pushed, taken, calls, name = {}, {}, {}, None
for line in text.splitlines():
    if m := re.match(r'[0-9a-f]+ <(.+)>:$', line):
        name = m[1]
        pushed[name], taken[name], calls[name] = 0, 0, set()
    elif re.search(r'\tpush ', line):
        pushed[name] += 8
    elif m := re.search(r'\tadd +\$0x([0-9a-f]+),%rsp', line):
        taken[name] = max(taken[name], int(m[1], 16))
    elif m := re.search(r'\tcall +[0-9a-f]+ <([^+>]+)>$', line):
        calls[name].add(m[1])  # a call of itself has no relocation
    elif m := re.search(r'R_X86_64_(?:PLT32|PC32)\t(?:\.text\.)?(.+?)-0x4$', line):
        calls[name].add(m[1])
frames = {f: 8 + pushed[f] + taken[f] for f in calls}

def deepest(f, seen=()):
    """How deep f goes, and by which way; the C library's own functions count nothing."""
    if f not in frames:
        return 0, ()
    if f in seen:
        return 9 * frames[f], ()
    size, way = max((deepest(g, seen + (f,)) for g in calls[f]), default=(0, ()))
    return frames[f] + size, (f, *way)

for f in wanted:
    if f not in frames:
        print(f'{f}: not a function by itself in this program')
        continue
    size, way = deepest(f)
    print(f'{f}: {size} bytes, by ' + ' > '.join(f'{g} {frames[g]}' for g in way))
