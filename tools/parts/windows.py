"""The minute and the windows that a poll's line may name and the Rust does not have.

Outside all windows the Rust's listing stands. Inside one, where the Rust forces the internal link anew, the listing is the
Rust's up to the first action of that, and an end of its own: held. Where it begins is told by the Rust itself: asked to poll a
Watch that is forced for this status already, it does the same actions, and ends there.
"""
import re

from .texts import line, pieces

WEEK, MOST = 10080, 32
SPEEDS = {7: 10000, 5: 1000}  # of the statuses for which the internal link is forced
POLL = re.compile(rb'[ \t]*poll((?:[ \t]+[0-9a-fA-F]{8}){5,})[ \t]*(\r?\n?)')
END = re.compile(rb'end ok 00000001 ([0-9a-f]{8}) 00000001 ([0-9a-f]{8}) ([0-9a-f]{8}) (actions [0-9]+ micros [0-9]+)\n')


def holds(start, end, minute):
    """Is the minute one of those from `start` on and before `end`, round the end of the week?"""
    return (minute - start) % WEEK < (end - start) % WEEK


def asked(text):
    """The words of an input's poll line before the minute, the minute and the windows; None where it names no minute."""
    found = POLL.fullmatch((pieces(text) + [b'', b''])[1])
    words = [int(word, 16) for word in found[1].split()] if found else []
    watch = 5 if words[2:3] == [1] else 4
    return (words[:watch], words[watch], words[watch + 1:]) if len(words) > watch else None


def is_inside(minute, windows):
    return any(holds(start, end, minute) for start, end in zip(windows[::2], windows[1::2]))


def listing(text, run):
    """What an input's listing is to be; `run` gives the Rust's."""
    whole, named = run(text), asked(text)
    if named is None or not is_inside(*named[1:]):
        return whole
    (phy, internal, *forced, reforced), minute, windows = named
    for status, megabits in SPEEDS.items():
        if forced == [1, status]:
            continue
        parts = pieces(text)
        parts[1] = line('poll', phy, internal, 1, status, reforced, minute, *windows) + POLL.fullmatch(parts[1])[2]
        *done, last = pieces(run(b''.join(parts)))
        end = END.fullmatch(last)
        if end and [int(word, 16) for word in end.groups()[:3]] == [megabits, status, reforced]:
            if not whole.startswith(b''.join(done)):
                raise RuntimeError(f'the Rust says something else with a Watch that is forced already: {text}')
            return b''.join(done) + line('end ok', 3, megabits, *forced, reforced, end[4].decode()) + b'\n'
    return whole
