#!/usr/bin/env python3
"""published_table.py CRATE: writes the crate's stdin and stdout. The rule has the control flow of the giftwrap function of document 004, Figure 9:
blocks b1 to b4 are 0 to 3, the variables cloud, p, p0 are 0, 1, 2, and the jumps go to b3. The expected plan is put together from the
last lines of that document's Table 1, not from any compiler of ours."""
import os, struct, sys

root = os.path.join(os.path.dirname(os.path.abspath(__file__)), '..')
sys.path.insert(0, os.path.join(root, 'second'))
import files

# Table 1's last lines, as masks: cloud is 1, p is 2, p0 is 4
COMMON, INPUTS, OUTPUTS, IN_J = 7, [7, 5, 7, 7], [5, 7, 7, 7], [1, 0, 1, 0]

header = bytes([1, 3, 1, 4])
blocks = [
    bytes([0x20, 2, 0x02, 0, 0x30, 1]),  # p0 from cloud
    bytes([0x20, 1, 0x02, 2, 0x30, 2]),  # p from p0
    bytes([0x20, 1, 0x02, 1, 0x30, 3]),  # p from p
    bytes([0x33, 0x11, 0x02, 1, 0x02, 2, 0x32, 0x31, 2]),  # until p is p0
]

def le16(n):
    return struct.pack('<H', n)

plan, place = header + le16(COMMON), 6 + 8 * len(blocks)
for block, i, o, j in zip(blocks, INPUTS, OUTPUTS, IN_J):
    plan += le16(place) + le16(i) + le16(o) + le16(j)
    place += len(block)
plan += b''.join(blocks)

rule = header + b''.join(blocks)
file = files.pages_of(rule)
folder = sys.argv[1]
with open(os.path.join(folder, 'stdin'), 'wb') as out:
    out.write(struct.pack('<III', 3, len(plan), len(file)) + file)
with open(os.path.join(folder, 'stdout'), 'w') as out:
    out.write('ok %d %s\n' % (len(plan), plan.hex()))
