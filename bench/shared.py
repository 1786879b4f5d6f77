"""What the scripts of this folder share: where things are, and programs linked with the library."""

import os
import platform
import shutil
import subprocess
import sys

ROOT = os.path.dirname(os.path.dirname(os.path.abspath(__file__)))
INCLUDE = os.path.join(ROOT, 'include')


def source(name):
    return os.path.join(ROOT, 'bench', name)


def need(command, *packages):
    """Installs Debian's packages where the command is missing and we may; ends the script where it stays missing."""
    if shutil.which(command):
        return
    if os.geteuid() == 0 and shutil.which('apt-get'):
        for words in (['update', '-qq'], ['install', '-qq', '-y', *packages]):
            subprocess.run(['apt-get', *words], stdout=subprocess.DEVNULL, stderr=subprocess.DEVNULL)
    if not shutil.which(command):
        sys.exit('there is no %s: install %s' % (command, ' '.join(packages)))


def library(processor=platform.machine()):
    """The library as an archive for a processor, by default for the one that is there: hosts/build makes it."""
    subprocess.run([os.path.join(ROOT, 'hosts', 'build'), processor], stdout=subprocess.DEVNULL, check=True)
    folder = 'host' if processor == platform.machine() else 'host-' + processor
    return os.path.join(ROOT, 'target', folder, 'libpag.a')


def is_native():
    """Programs for x86-64 run as they are; on another processor they are cross-compiled, and run by Debian's emulator."""
    return platform.machine() == 'x86_64'


def compile_with(compiler, program, sources, flags):
    subprocess.run([*compiler, '-std=c11', '-Wall', '-Wextra', '-Werror', '-I', INCLUDE, *flags, *sources, '-o', program], check=True)


def compile_here(program, sources, flags):
    """A C program for the processor that is there."""
    compiler = os.environ.get('CC', 'gcc')
    need(compiler, 'gcc', 'libc6-dev')
    compile_with([compiler], program, sources, flags)


def compile_c(program, sources, flags):
    """A C program for x86-64."""
    if is_native():
        return compile_here(program, sources, flags)
    need('x86_64-linux-gnu-gcc', 'gcc-x86-64-linux-gnu', 'libc6-dev-amd64-cross')
    return compile_with(['x86_64-linux-gnu-gcc', '-static'], program, sources, flags)


def kit():
    """The folder of the Rattle kit."""
    guide = subprocess.run(['rt', 'doc'], stdout=subprocess.PIPE, check=True, text=True).stdout.strip()
    return os.path.dirname(guide)


def runner():
    """What stands before a program's name to run it."""
    if is_native():
        return []
    need('qemu-x86_64', 'qemu-user')
    return ['qemu-x86_64']
