#!/usr/bin/env python3
"""archive.py OUT [RATTLE_WORD..] [-- CLANG_WORD..]: proves the crate pag and compiles it into the static library OUT; hosts/build calls it.
archive.py --passed: notes that rt ci has passed on the files that are there and built what is below pag; .ci/run calls it, where nothing was built before.

The kit's prover gets the words that `rt lib` gives it, and the CLANG_WORDs go to the kit's clang behind its own. The crates below pag are taken as they were
built: by rt, or by rt ci where it passed on just these files. Else `rt lib` proves and builds what is to be done there."""
import importlib.machinery
import os
import shlex
import shutil
import subprocess
import sys
import tempfile

sys.dont_write_bytecode = True
ROOT = os.path.dirname(os.path.dirname(os.path.abspath(__file__)))
PASSED = os.path.join(ROOT, 'target', 'passed')
KIT = os.path.dirname(os.path.dirname(os.path.realpath(shutil.which('rt') or sys.exit("the Rattle kit's command rt is not on the PATH"))))
rtlib = importlib.machinery.SourceFileLoader('rtlib', os.path.join(KIT, 'bin', 'rtlib.py')).load_module()


def state(pag):
    """The sums of all that pag is made from, and of what is built below it."""
    return '\n'.join([pag.stamp(), *[rtlib.sum_of(os.path.join(crate.rlib, 'format')) for crate in pag.below()]])


def note(pag):
    os.makedirs(os.path.dirname(PASSED), exist_ok=True)
    with open(PASSED, 'w', encoding='utf-8') as file:
        file.write(state(pag))


def are_built(pag):
    """Whether what is below pag was built from the files that are there: by rt, which keeps a stamp, or by rt ci, which keeps none."""
    return all(crate.is_built() for crate in pag.below()) or rtlib.text_of(PASSED) == state(pag)


def toolchain(folder, words):
    """The kit's toolchain, made again of links in this folder, with a clang that takes these words, too. rt ci wants no links in the repository."""
    theirs = os.path.join(KIT, 'toolchain')
    os.symlink(os.path.join(theirs, 'lib'), os.path.join(folder, 'lib'))
    os.mkdir(os.path.join(folder, 'bin'))
    for name in os.listdir(os.path.join(theirs, 'bin')):
        if name != 'clang':
            os.symlink(os.path.join(theirs, 'bin', name), os.path.join(folder, 'bin', name))
    clang = os.path.join(folder, 'bin', 'clang')
    with open(clang, 'w', encoding='utf-8') as out:
        out.write('#!/bin/sh\nexec %s "$@" %s\n' % (shlex.quote(os.path.join(theirs, 'bin', 'clang')), shlex.join(words)))
    os.chmod(clang, 0o755)
    return folder


def build(pag, out, words, clang_words):
    """The status of the kit's build, while no other command of the kit works in the crate."""
    held = rtlib.lock([pag])
    with tempfile.TemporaryDirectory() as folder:
        given = [*pag.words(['--jobs', '2', *words]), *rtlib.KEPT, '--backend', 'llvm', '--toolchain', toolchain(folder, clang_words), '-o', os.path.abspath(out)]
        status = subprocess.run([rtlib.RATTLE, 'build', *given], cwd=pag.folder).returncode
    for it in held:
        os.close(it)
    return status


def main(out, *words):
    pag = next(crate for crate in rtlib.crates_below(ROOT) if crate.name == 'pag')
    if out == '--passed':
        return note(pag)
    cut = words.index('--') if '--' in words else len(words)
    if are_built(pag) and build(pag, out, words[:cut], words[cut + 1:]) == 0:
        return 0
    status = subprocess.run(['rt', 'lib'], cwd=pag.folder).returncode
    return status or build(pag, out, words[:cut], words[cut + 1:])


if __name__ == '__main__':
    sys.exit(main(*sys.argv[1:]))
