"""The pause of the sideband, which the port line may name and the Rust does not have.

What the Rust says with another pause is what it says with its own, with each wait directly behind a read of IOSF_CTRL replaced.
"""
import re

from .chip import CTRL
from .texts import pieces

RUST = 10
EDGES = '1', '2', '9', '11', '40', '99', '100'
PORT = re.compile(rb'[ \t]*port(?:[ \t]+[^ \t]+){3}[ \t]+([0-9]{1,10})[ \t]*\r?\n?')
READ = b'r %08x\n' % CTRL
END = re.compile(rb'(end .*micros )([0-9]+)\n')


def of(text):
    """The pause that an input names, the Rust's where it names none."""
    port = PORT.fullmatch((pieces(text) + [b''])[0])
    return int(port[1]) if port else RUST


def replaced(listing, pause):
    """The Rust's listing, with another pause."""
    if pause == RUST:
        return listing
    lines, waits = pieces(listing), 0
    for i in range(1, len(lines)):
        if lines[i - 1] == READ and lines[i] == b'd %d\n' % RUST:
            lines[i], waits = b'd %d\n' % pause, waits + 1
    ends = [i for i, line in enumerate(lines) if END.fullmatch(line)]
    for i in ends:
        end = END.fullmatch(lines[i])
        lines[i] = end[1] + b'%d\n' % (int(end[2]) + waits * (pause - RUST))
    return b''.join(lines)
