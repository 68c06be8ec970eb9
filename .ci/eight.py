#!/usr/bin/env python3
"""Eight compilers at once, importers first, at a server that has eight links to give.

`eight.py ADDRESS` runs them: two import each other, and one is killed while it holds its unit. Each of the others ends by
itself. It prints what each was told, a line a reply, after the source that is compiled. `eight.py replayed FILE` prints the
same lines out of what `modmap replay` printed of the trace, and `eight.py project` the project."""

import os
import signal
import sys
import time

from clients import connect

PROJECT = """modmap-project 1
repo gcm
module a a.cc
module b b.cc
module c c.cc
module d d.cc
module killed killed.cc
plain main.cc
plain test.cc
plain tool.cc
end
"""

# What each compiler sends after its HELLO, block by block, in the order in which they begin.
COMPILERS = {
    'main.cc': ['MODULE-IMPORT a', 'MODULE-IMPORT d'],
    'test.cc': ['MODULE-IMPORT killed'],
    'tool.cc': ['MODULE-IMPORT b'],
    'b.cc': ['MODULE-EXPORT b', 'MODULE-IMPORT c', 'MODULE-COMPILED b'],
    'c.cc': ['MODULE-EXPORT c', 'MODULE-IMPORT b', 'MODULE-COMPILED c'],
    'killed.cc': ['MODULE-EXPORT killed'],
    'a.cc': ['MODULE-EXPORT a ;\nMODULE-IMPORT d', 'MODULE-COMPILED a'],
    'd.cc': ['MODULE-EXPORT d', 'MODULE-COMPILED d'],
}


def compile_unit(source, address, told):
    """Speaks for the source's compiler, and writes what it is told. A compiler ends at the first refusal."""
    link = connect(address)
    replies = link.makefile('r', newline='\n')
    for block in ['HELLO 1 GCC ' + source] + COMPILERS[source]:
        link.sendall(block.encode() + b'\n')
        for _ in block.split('\n'):
            reply = replies.readline().removesuffix('\n').removesuffix(' ;')
            told.write('%s %s\n' % (source, reply))
            told.flush()
            if reply.startswith('ERROR'):
                return
    if source == 'killed.cc':
        time.sleep(60)


def start(source, address):
    """The compiler of the source as a process, and where it writes what it is told."""
    read, write = os.pipe()
    process = os.fork()
    if process == 0:
        os.close(read)
        with os.fdopen(write, 'w') as told:
            compile_unit(source, address, told)
        os._exit(0)
    os.close(write)
    return process, os.fdopen(read)


def run_all(address):
    """Starts all, kills one once it holds its unit, and prints what they were told."""
    started = {}
    for source in COMPILERS:
        started[source] = start(source, address)
        time.sleep(0.1)
    process, told = started['killed.cc']
    held = [told.readline(), told.readline()]
    os.kill(process, signal.SIGKILL)
    lines = held
    for process, told in started.values():
        lines += told.readlines()
        os.waitpid(process, 0)
    sys.stdout.writelines(in_order(lines))


def in_order(lines):
    """The lines by their source; those of one source stay in order."""
    return sorted(lines, key=lambda line: line.split(' ', 1)[0])


def print_replayed(name):
    """Prints what each compiler was told, by a replayed trace."""
    units = [line.split()[-1] for line in PROJECT.splitlines()[2:-1]]
    asked, source_of, told = {}, {}, {}
    with open(name) as replayed:
        for line in replayed:
            words = line.split()
            if line.startswith('  '):
                place = int(words[0])
                told[place] = line.strip().split(' ', 1)[1]
            elif words[0].endswith(':'):
                asked[int(words[0][:-1])] = words[1]
                if words[2] == 'hello':
                    source_of[words[1]] = units[int(words[-1])]
    lines = ['%s %s\n' % (source_of[asked[place]], told[place]) for place in sorted(told)]
    sys.stdout.writelines(in_order(lines))


if sys.argv[1] == 'project':
    print(PROJECT, end='')
elif sys.argv[1] == 'replayed':
    print_replayed(sys.argv[2])
else:
    run_all(sys.argv[1])
