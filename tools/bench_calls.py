"""The calls that are stored of mcal_bench: makes them, and tells how each ended, as it is stored.

A file NAME.calls of crates/mcal_bench/data/calls has calls, one after another: a line `=== WORDS`, and the lines up to the
next are the input. What is out of the ordinary stands behind the words, each behind a semicolon; the page beside the
files has a table of it. NAME.answers has how each call ends: its first line again, and below that the status and what is
printed, or, for a call that is made again and again, a line for each stretch of turns that end alike.
"""

import concurrent.futures
import fcntl
import os
import re
import socket
import struct
import subprocess
import sys
import tempfile
import termios
import time
from collections import namedtuple

SECONDS = 300
PAUSE = 0.0002
MARK = b'===\n'
ACT = b' act\n'
STEPS = b'run *\n'
# The most bytes of a read, or of a write, where another one fails in each turn.
PIECE = 100
# How many devices mcal_bench has.
DEVICES = 2

# Runs a program whose output is a file that takes so many bytes, and a write beyond that fails.
LIMITED = """
import os, resource, signal, sys
signal.signal(signal.SIGXFSZ, signal.SIG_IGN)
resource.setrlimit(resource.RLIMIT_FSIZE, (int(sys.argv[1]), int(sys.argv[1])))
os.execv(sys.argv[2], sys.argv[2:])
"""

# A call: its first line, its words, its input, and what is out of the ordinary, each a name with numbers.
Call = namedtuple('Call', 'first words given oddities')
# How it ended: its status, and what it wrote.
Ended = namedtuple('Ended', 'status written')


def parts_of(text, mark=b'=== '):
    """The parts of a text that begin with a marked line, each by that line, without its mark, and what stands below it."""
    return [part.partition(b'\n')[::2] for part in re.split(rb'^' + mark, text, flags=re.M)[1:]]


def lines_of(text):
    """The lines of a text, each with its line feed."""
    return re.findall(rb'[^\n]*\n|[^\n]+', text)


def read_call(first, given):
    """A call by its first line and its input."""
    words, *odd = first.decode().split(';')
    oddities = []
    for name, *numbers in map(str.split, odd):
        if name == 'each':
            name = f'each {numbers.pop(0)}'
        oddities.append((name, [int(number) for number in numbers]))
    return Call(first, words.split(), given, oddities)


class Ends:
    """The ends of a call: its input, which of its reads and writes fails, and how many devices hang on the serial bus.

    `reads` and `writes` are the most bytes of one and the number of the one that fails, from 1.
    """

    def __init__(self, bench, given):
        self.bench, self.given = bench, given
        self.reads = self.writes = None
        self.devices = DEVICES

    def make(self, name, numbers):
        """Makes them odd in one way."""
        if name in ('reads', 'writes'):
            most, failing = numbers
            setattr(self, name, (most, failing))
        elif name == 'devices':
            [self.devices] = numbers
        elif name == 'cut':
            self.given = self.given[:-1]
        elif name == 'bad':
            self.given += b'bad\n'
        elif name == 'times':
            self.given += lines_of(self.given)[-1] * (numbers[0] - 1)
        elif name == 'spaces':
            self.given = b' ' * numbers[0] + self.given
        elif name == 'bytes':
            self.given = self.given[:numbers[0]]
        elif name == 'steps':
            self.given = b''.join(b'run %d\n' % numbers[0] if line == STEPS else line for line in lines_of(self.given))
        elif name == 'act':
            report = Ends(self.bench, self.given).played(['run', '--trace']).written
            self.given += moved(report, numbers[0])
        else:
            raise ValueError(f'nothing is out of the ordinary by the word {name}')

    def played(self, words):
        """How a call of these words over them ends."""
        if self.devices == DEVICES:
            return self.ran(words)
        fewer = Ends(self.bench, with_fewer(self.given, DEVICES - self.devices))
        status, written = fewer.ran(words)
        return Ended(status, without_detached(written, DEVICES - self.devices))

    def ran(self, words):
        """How the program ends."""
        with tempfile.TemporaryFile() as out:
            command = [self.bench, *words]
            if self.writes:
                most, failing = self.writes
                command = [sys.executable, '-c', LIMITED, str(most * (failing - 1)), *command]
            status = (run_on_pieces if self.reads else run_on_file)(command, self, out)
            out.seek(0)
            return Ended(status, out.read())


def run_on_file(command, ends, out):
    """The status of a program that reads its input from a file."""
    with tempfile.TemporaryFile() as given:
        given.write(ends.given)
        given.seek(0)
        return subprocess.run(command, stdin=given, stdout=out, stderr=subprocess.DEVNULL, timeout=SECONDS, check=False).returncode


def left_in(end):
    """How many bytes wait to be read."""
    return struct.unpack('i', fcntl.ioctl(end, termios.FIONREAD, b'\0' * 4))[0]


def run_on_pieces(command, ends, out):
    """The status of a program whose input comes through a socket, piece by piece, each after the one before was read.

    The read of the number that is to fail finds that the other end is gone without having read what was written to it: an
    error of the socket. One behind the end of the input is not made, so that none fails.
    """
    most, failing = ends.reads
    pieces = [ends.given[place:place + most] for place in range(0, len(ends.given), most)]
    giver, source = socket.socketpair()
    with giver, source:
        if failing <= len(pieces) + 1:
            source.send(b'unread')
        with subprocess.Popen(command, stdin=source, stdout=out, stderr=subprocess.DEVNULL) as process:
            for piece in pieces[:failing - 1]:
                giver.sendall(piece)
                while left_in(source) and process.poll() is None:
                    time.sleep(PAUSE)
            giver.close()
            return process.wait(SECONDS)


def moved(report, number):
    """A report behind its mark, with the act of this number, from 1, at the line before; as it is where there is none."""
    lines = [MARK, *lines_of(report)]
    acts = [place for place, line in enumerate(lines) if line.endswith(ACT)]
    if 0 < number <= len(acts):
        place = acts[number - 1]
        lines[place - 1] = lines[place - 1][:-1] + ACT
        lines[place] = lines[place][:-len(ACT)] + b'\n'
    return b''.join(lines)


def numbered(report, more):
    """A report in which the number of each directive is greater by so much."""
    return re.sub(rb'^\d+(?= )', lambda number: b'%d' % (int(number[0]) + more), report, flags=re.M)


def detached(count):
    """What a report has of so many directives `detach` at its front."""
    return b''.join(b'%d ok\n' % number for number in range(1, count + 1))


def with_fewer(given, count):
    """An input whose script drops so many devices before anything else, and a report behind it that tells so."""
    bench, mark, report = given.partition(b'\n' + MARK)
    bench = re.sub(rb'^---\n', b'---\n' + b'detach\n' * count, bench, count=1, flags=re.M)
    return bench + mark + (detached(count) + numbered(report, count) if mark else b'')


def without_detached(written, count):
    """What is written, without the lines of so many directives `detach` at the front of a script; the number of a line that an
    audit tells is less by so much."""
    if written.startswith(b'audit '):
        return re.sub(rb'\d+', lambda number: b'%d' % (int(number[0]) - count), written)
    front = detached(count)
    return numbered(written[len(front):] if written.startswith(front) else written, -count)


# What is out of the ordinary in the call of a number, by what is so in turn.
ODDITY_OF_TURN = {
    'each read': lambda number: ('reads', [PIECE, number]),
    'each write': lambda number: ('writes', [PIECE, number]),
    'each front': lambda number: ('bytes', [number]),
    'each step': lambda number: ('steps', [number]),
    'each act': lambda number: ('act', [number]),
}


def turns_of(call, kind, count):
    """The numbers of the calls that are made in turn."""
    if kind == 'each front':
        return range(len(call.given) + 1)
    return range(1 if kind in ('each read', 'each write') else 0, count[0] + 1)


def made(bench, call, more=None):
    """Makes a call, with one more thing out of the ordinary, where there is one."""
    ends = Ends(bench, call.given)
    for name, numbers in call.oddities:
        if name not in ODDITY_OF_TURN:
            ends.make(name, numbers)
    if more:
        ends.make(*more)
    return ends.played(call.words)


def told_turn(kind, first, last, ended, whole):
    """What is told of the calls of some turns: the status, and what was written, by its length and its first line; where numbers
    of steps are in turn, by all its lines."""
    status, written = ended
    told = b'%d to %d: status %d, %d bytes' % (first, last, status, len(written))
    if status == 3 and not whole.written.startswith(written):
        told += b' of other output'
    if kind == 'each step':
        return told + b'\n' + written
    return told + b': ' + written.partition(b'\n')[0] + b'\n'


def told_turns(bench, call, kind, count):
    """What is told of a call that is made again and again: a line for each stretch of calls that ended alike."""
    whole, told, stretch = made(bench, call), [], None
    for number in turns_of(call, kind, count):
        ended = made(bench, call, ODDITY_OF_TURN[kind](number))
        if stretch and stretch[2] == ended:
            stretch[1] = number
        else:
            stretch = [number, number, ended]
            told.append(stretch)
    return b''.join(told_turn(kind, *stretch, whole) for stretch in told)


def answer(bench, call):
    """What is told of a call below its first line."""
    for name, numbers in call.oddities:
        if name in ODDITY_OF_TURN:
            return told_turns(bench, call, name, numbers)
    status, written = made(bench, call)
    end = b' (cut off)\n' if written and not written.endswith(b'\n') else b''
    return b'status %d\n' % status + written + end


def answers(bench, calls):
    """What is told of each of some calls; several are made at once."""
    with concurrent.futures.ThreadPoolExecutor(os.cpu_count()) as pool:
        return list(pool.map(lambda call: answer(bench, call), calls))
