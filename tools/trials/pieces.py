"""Input that a process reads piece by piece: each read gives it one piece."""
import fcntl
import os
import struct
import subprocess
import termios


def left(pipe):
    """How many octets in a pipe weren't read yet."""
    return struct.unpack("i", fcntl.ioctl(pipe, termios.FIONREAD, bytes(4)))[0]


def feed(process, pieces):
    """Hands the pieces to a process, each once the one before it was read."""
    try:
        for piece in pieces:
            process.stdin.write(piece)
            process.stdin.flush()
            while left(process.stdin) and process.poll() is None:
                os.sched_yield()
    except BrokenPipeError:
        pass


def ran(words, pieces, seconds, **how):
    """Runs a program on the pieces; gives its status, output and error."""
    with subprocess.Popen(words, stdin=subprocess.PIPE, stdout=subprocess.PIPE,
                          stderr=subprocess.PIPE, **how) as process:
        feed(process, pieces)
        output, error = process.communicate(timeout=seconds)
    return process.returncode, output, error
