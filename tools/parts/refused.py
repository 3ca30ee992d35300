"""Inputs that the port turns away where the Rust does what they ask: a KR address above 0xffff, error 35.

Runs beside the Rust leave them out, and nothing that the Rust prints is a listing of theirs: that is LISTING.
"""
import re

from .operations import FIBER, OPERATIONS
from .texts import pieces

LISTING = b'end no 35 actions 0 micros 0\n'
LAST, LAN_1 = 0xffff, 0x4000  # the last address, and what kr_modify adds on lan 1
PORT = re.compile(rb'[ \t]*port[ \t]+(X55[23])[ \t]+([0-9a-fA-F]{4})[ \t]+([0-9a-fA-F]{1,8})(?:[ \t]+([0-9]{1,10}))?[ \t]*')
WHAT = re.compile(rb'[ \t]*(kr_read|kr_write|kr_modify)((?:[ \t]+[0-9a-fA-F]{8})+)[ \t]*')


def without_end(piece):
    return piece.removesuffix(b'\n').removesuffix(b'\r')


def kr_address(text):
    """Is this input turned away for its KR address? What cannot be read (25), a wrong lan (20) and fiber (21) come
    first, a bad pause (32) behind."""
    first, second = (without_end(piece) for piece in (pieces(text) + [b'', b''])[:2])
    port, what = PORT.fullmatch(first), WHAT.fullmatch(second)
    if not port or not what or int(port[4] or 0) > 0xffffffff:
        return False
    name, words, lan = what[1].decode(), [int(word, 16) for word in what[2].split()], int(port[3], 16)
    if len(words) != len(OPERATIONS[name].split()) or lan > 1 or (port[1].decode(), port[2].decode().lower()) in FIBER:
        return False
    return words[0] + LAN_1 * (name == 'kr_modify' and lan == 1) > LAST
