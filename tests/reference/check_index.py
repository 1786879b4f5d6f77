#!/usr/bin/env python3
"""check_index.py COMMAND..: the index of tags (C-14) that the library builds against tag_index.py, on the files of tests/cases.txt and on random and damaged ones, high first at
level 1023. COMMAND is hosts/test_index.c, built. Exits 1 on a difference."""

import random
import subprocess
import sys

sys.dont_write_bytecode = True

import check_cases  # noqa: E402
import fuzz  # noqa: E402
import pag_reference as pag  # noqa: E402
import tag_index  # noqa: E402


def files():
    rng = random.Random(14)
    found = [data for _, _, _, data, _, _ in check_cases.load() if len(data) < 1 << 16]
    for _ in range(300):
        good = fuzz.random_file(rng)
        found += [good, fuzz.damage(rng, good)]
    return found


def expected(data):
    answer = pag.read(pag.TOP_LEVEL, pag.HIGH_FIRST, data)
    if answer[0] == 'refused':
        return '%d %d' % answer[1:]
    index = tag_index.index_of(answer[2])
    return ' '.join(map(str, [0, len(index), *index]))


def main(command):
    if not command:
        sys.exit(__doc__)
    all_files = files()
    given = b''.join(len(data).to_bytes(4, 'little') + bytes(data) for data in all_files)
    lines = subprocess.run([*command, '--print'], input=given, stdout=subprocess.PIPE, check=True).stdout.decode().splitlines()
    wrong = [number for number, data in enumerate(all_files) if number >= len(lines) or lines[number] != expected(data)]
    read = sum(line.startswith('0 ') for line in lines)
    print('%d files, %d of them with an index, %d differences' % (len(all_files), read, len(wrong) + abs(len(lines) - len(all_files))))
    return 1 if wrong or len(lines) != len(all_files) or not read else 0


if __name__ == '__main__':
    sys.exit(main(sys.argv[1:]))
