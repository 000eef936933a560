#!/usr/bin/env python3
"""What the program `formula` says where its input or its output fails, where the input comes in pieces, and where its scan fails before
its end. Each case gives the bytes on standard output and on standard error, and status 0. usage: program.py PROGRAM"""
import os
import platform
import subprocess
import sys
import time

INPUT, OUTPUT = b"input\n", b"output\n"
EMPTY, ONE = b"type 1 0\nrun 1 0 0 0\n", b"type 0 1 3\nrun 10 1 1 0\n"


def command(program):
    if platform.machine() == "x86_64":
        return [program]
    return ["qemu-x86_64"] + (["-L", "/usr/x86_64-linux-gnu"] if os.path.isdir("/usr/x86_64-linux-gnu") else []) + [program]


def said(program, pieces=(), at_its_end=True, given=subprocess.PIPE, taken=subprocess.PIPE, closed=None):
    """What the program writes to standard output and to standard error. The pieces are written to its input one after the other; the
    input ends after them, or stays open until the program has ended."""
    run = subprocess.Popen(command(program), stdin=given, stdout=taken, stderr=subprocess.PIPE,
                           preexec_fn=None if closed is None else lambda: os.close(closed))
    try:
        for piece in pieces:
            run.stdin.write(piece)
            run.stdin.flush()
            time.sleep(0.1)
    except BrokenPipeError:
        pass
    if at_its_end and run.stdin:
        try:
            run.stdin.close()
        except BrokenPipeError:
            pass
    if run.wait(timeout=60) != 0:
        sys.exit("the program ended with status %d" % run.returncode)
    return run.stdout.read() if run.stdout else b"", run.stderr.read()


def cases(program):
    """A name, what was said, and the bytes wanted on standard output and on standard error."""
    more = b" 0" * 2 ** 20
    with open(os.devnull, "rb") as nothing, open("/dev/full", "wb") as full:
        yield "an empty input", said(program, given=nothing), (EMPTY, b"")
        directory = os.open("/", os.O_RDONLY)
        yield "a directory as input", said(program, given=directory), (INPUT, b"")
        os.close(directory)
        yield "a closed input", said(program, given=nothing, closed=0), (INPUT, b"")
        yield "a full output", said(program, given=nothing, taken=full), (b"", OUTPUT)
        yield "a closed output", said(program, given=nothing, closed=1), (b"", OUTPUT)
        reading, writing = os.pipe()
        os.close(reading)
        yield "an output that nobody reads", said(program, given=nothing, taken=writing), (b"", OUTPUT)
        os.close(writing)
    yield "an input in pieces", said(program, [b"2", b" 1 ", b"0 ", b"0"]), (ONE, b"")
    yield "an input of many pieces", said(program, [b"2 1 0 " + b"0" * 10 ** 6]), (ONE, b"")
    yield "no number, and the input stays open", said(program, [b"2 1 0 x"], at_its_end=False), (INPUT, b"")
    yield "a word too many, and the input stays open", said(program, [b"0 " * 2049], at_its_end=False), (INPUT, b"")
    yield "no number, and more than a pipe holds", said(program, [b"x" + more]), (INPUT, b"")


def main():
    count = 0
    for name, got, wanted in cases(sys.argv[1]):
        if got != wanted:
            sys.exit("%s: wanted %r, the program says %r" % (name, wanted, got))
        count += 1
    print("%d failing, early and piecewise inputs and outputs are answered as they should be" % count)


if __name__ == "__main__":
    main()
