"""example.py FOLDER: how many tags of each code the PAG files of a suite have."""
import collections
import pathlib
import sys

import pag

counts: collections.Counter[int] = collections.Counter()
for path in sorted(pathlib.Path(sys.argv[1]).rglob('*.pag')):
    try:
        counts.update(tag.code for tag in pag.tags(path))
    except pag.Refused as why:
        print(f'{path}: {why}', file=sys.stderr)
for code, count in sorted(counts.items()):
    print(code, count, sep='\t')
