#!/usr/bin/env python3
"""Writes some of the judged lists as inputs of fuzz.c: four bytes for what is done, and a byte a token."""
import os
import sys

*files, folder = sys.argv[1:]
count = 0
for name in files:
    with open(name, encoding='utf-8') as lines:
        for line in lines:
            if line[0] not in 'rp' or count >= 2000:
                continue
            _, kinds, flags = line.split(' > ')[0].split()[:3]
            kinds, flags = bytes.fromhex(kinds), bytes.fromhex(flags)
            data = bytes([0, 3, 0, 0]) + bytes(kind - 1 + 128 * flag for kind, flag in zip(kinds, flags))
            with open(os.path.join(folder, '%04d' % count), 'wb') as out:
                out.write(data)
            count += 1
