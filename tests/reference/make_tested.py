#!/usr/bin/env python3
"""Writes crates/format/proofs/Tested.antt: the cases that tests/cases.txt marks as proved, as one table that the definitions compute.
They are those that a must-fail edit of the definitions is refused by; all cases are run by programs.
`make_tested.py --check` writes nothing, and says whether the file is what the cases make."""

import os
import sys

import check_cases

MOST = 16
HERE = os.path.dirname(os.path.abspath(__file__))
OUT = os.path.join(HERE, '..', '..', 'crates', 'format', 'proofs', 'Tested.antt')

TOP = """-- Test files that wrong definitions would fail on (must-fail/), with what document 01 makes of them, as one table that the definitions compute.
-- Made by tests/reference/make_tested.py from the lines of tests/cases.txt that are marked as proved. All of its lines are run by programs.
use Prim.Native.Nat.{ℕ}
use mathlib.Core.List.{List, [], ◌∷◌, map}
use mathlib.Core.Path.{◌≡◌, refl}
use Rattle.format.specs.Bits.{bit_at, ub}
use Rattle.format.specs.Formats.{times}
use Rattle.format.specs.Items.{read_var, read_le, read_text, read_flag, read_item, run}
use Rattle.format.specs.Bodies.{all_flags, rows, read_block, read_part, read_body}
use Rattle.format.specs.FileAndTags.{class_of, eights, walk}
use Rattle.format.specs.Reasons.{start_fault, walk_file, Result, gives, refuses, read_file}

-- a file in an order and at a level, and what it gives
pub record Test : Type 0 where
  pub order : ℕ
  pub level : ℕ
  pub file : List ℕ
  pub result : Result

abbrev pub tests : List Test
tests =
"""

BOTTOM = """
pub tested : map (λ (t : Test). read_file t.order t.level t.file) tests ≡ map (λ (t : Test). t.result) tests
unfolding read_file walk_file start_fault class_of walk read_body read_part read_block all_flags rows run times read_item read_var read_le read_text read_flag ub bit_at eights
tested = refl
"""


def antt_list(numbers):
    return '(' + ' ∷ '.join(list(numbers) + ['[]']) + ')'


def result(expected):
    if expected[0] == 'table':
        return 'gives ' + antt_list(map(str, expected[1]))
    return 'refuses %d %d' % expected[1:]


def row(case, cons):
    name, level, order, data, expected, note = case
    file = antt_list('0x%02X' % byte for byte in data)
    return ('    -- %s: %s\n    %srecord { order = %d; level = %d; file = %s; result = %s }\n'
            % (name, note, cons, order, level, file, result(expected)))


def made(cases):
    rows = [row(case, '∷ ' if number else '') for number, case in enumerate(cases)]
    return TOP + ''.join(rows) + '    ∷ []\n' + BOTTOM


def difference(text):
    """The first line in which the file is not this text; 0 where it is."""
    with open(OUT, encoding='utf-8', newline='') as file:
        there = file.read()
    if there == text:
        return 0
    old, new = there.split('\n'), text.split('\n')
    same = [a == b for a, b in zip(old, new)]
    return (same.index(False) if False in same else len(same)) + 1


def main():
    if sys.argv[1:] not in ([], ['--check']):
        sys.exit(__doc__)
    marked = check_cases.proved()
    if not 0 < len(marked) <= MOST:
        sys.exit('%d cases are marked as proved, 1 to %d are meant' % (len(marked), MOST))
    cases = [case for case in check_cases.load() if case[0] in marked]
    text = made(cases)
    if sys.argv[1:]:
        line = difference(text)
        if line:
            print('crates/format/proofs/Tested.antt is not what tests/cases.txt makes, first in line %d: '
                  'run tests/reference/make_tested.py' % line)
            return 1
        print('%d of the cases are proved' % len(cases))
        return 0
    with open(OUT, 'w', encoding='utf-8') as out:
        out.write(text)
    print('%d of the cases written' % len(cases))
    return 0


if __name__ == '__main__':
    sys.exit(main())
