"""Arguments, damaged lines, and the format of the stored list."""
import re

LONGEST = 5000  # characters in the longest line that is made, but for those of the longest blocks
MANY = 449      # words in it, one more than a host block may have
LISTS = (0, 1, 1, 2, 2, 3, 5, 9)  # pairs of most lists; some are long
LONG_LISTS = (40, 63, 64)

MASKS = (0, 1, 2, 4, 6, 8, 0xf, 0x10, 0x400, 0x401, 0x800, 0x1000, 0x1800, 0x1806, 0x1c0f, 0x80000000, 0x40000000,
         0x40000002, 0x40000004, 0x40000010, 0x40001806, 0xffffffff, 0xbfffffff)
ADDRESSES = (0x420c, 0x820c, 0x42a0, 0x5054, 0x4b00, 0, 0xbfff, 0xffff)
# Both sides of the last address, and of the last one to which kr_modify adds 4000 on lan 1; then some far above.
ADDRESS_EDGES = [0xffff], [0x10000], [0xbfff], [0xc000], [0x800c420c], [0xffffbfff], [0xffffc000], [0xfffffff0], [0xffffffff]
PHY_EDGES = [0x1f], [0x20], [0xff], [0x100], [0x10000], [0xffffffff]
TRUTH_EDGES = [0], [1], [2], [0xffffffff]
BLOCKS = [0, 1, 2, 2, 3, 6, 15, 16]  # how many words a host block has
LONG_BLOCKS = [16, 17, 17, 18, 32, 63, 64, 65, 66, 67, 100, 200, 447, 448]  # the same where long ones are asked for
# Each kind of argument: words that are read well, made from the rng r and the PHY in use; then words at
# the edge of the kind, good, refused or unreadable.
KINDS = {
    'word': (lambda r, phy: [r.choice((0, 1, 0xffffffff, 1 << 31, *[r.getrandbits(32)] * 4))], ()),
    'mask': (lambda r, phy: [r.choice((*MASKS, *[r.getrandbits(32) & 0x40001c0f] * 4, *[r.getrandbits(32)] * 4))], ()),
    'address': (lambda r, phy: [r.choice((*ADDRESSES, *[r.getrandbits(16)] * 8))], ADDRESS_EDGES),
    'half': (lambda r, phy: [r.choice((0, 1, 2, 7, 0x2c, 0x7fff, 0x8000, 0xc800, 0xffff, *[r.getrandbits(16)] * 3))],
             ([0xffff], [0x10000], [0xffffffff])),
    'phy': (lambda r, phy: [phy], PHY_EDGES),
    'device': (lambda r, phy: [r.choice((0, 1, 4, 7, 0x1e, 0x1f, r.randrange(32)))], PHY_EDGES),
    'pairs': (lambda r, phy: pairs(r, r.choice(LISTS if r.randrange(16) else LONG_LISTS)),
              ([], [1], [7, 1, 1], [0x1f, 0xffff], [0x20, 0], [0, 0x10000], [0, 0xffffffff], [0x20, 0x10000],
               [1, 2] * 40, [1, 2] * 63, [1, 2] * 64, [1, 2] * 65, [1, 2] * 64 + [0x20, 0], [0x20, 0] + [1, 2] * 64,
               [1, 2] * 64 + [1, 0x10000], [1, 2] * 64 + [1], [1, 2] * 219 + [0x100, 0])),
    'truth': (lambda r, phy: [r.getrandbits(1)], TRUTH_EDGES),
    'place': (lambda r, phy: [r.getrandbits(1)], TRUTH_EDGES),
    'option_truth': (lambda r, phy: r.choice(([0], [1, 0], [1, 1])), ([0], [1, 0], [1, 1], [1, 2], [2], [2, 0], [0, 0], [1])),
    'option_half': (lambda r, phy: r.choice(([0], [0], [1, 7], [1, 5], [1, 3], [1, r.getrandbits(16)])),
                    ([0], [1, 0xffff], [1, 0x10000], [2], [2, 0], [0, 0], [1])),
    'windows': (lambda r, phy: windows(r), (
        [], [0x275f], [0x2760], [0xffffffff], [600, 1], [600, 5, 5], [600, 0x2760, 5], [600, 5, 0x2760], [600, 600, 601], [600, 599, 600],
        [0x2755, 0x2756, 5], [0x2756, 0x2756, 5], [0x275f, 0x2756, 5], [0, 0x2756, 5], [4, 0x2756, 5], [5, 0x2756, 5], [600, 601, 600],
        [600, 1, 2, 600, 601], [600] + [1, 2] * 32, [600] + [1, 2] * 33, [600] + [1, 2] * 32 + [1], [600] + [1, 2] * 33 + [1],
        [600] + [1, 2] * 200, [600] + [1, 2] * 200 + [1])),
    'block': (lambda r, phy: [r.choice((0, 0xffffffff, *[r.getrandbits(32)] * 3)) for _ in range(r.choice(BLOCKS))],
              ([], [0] * 15, [0] * 16, [0] * 17, [1] * 100, [7] * 447, [8] * 448, [0xffffffff] * MANY, [9] * 460)),
}


def pairs(rng, count):
    """As many pairs of device and register."""
    return [word for _ in range(count) for word in (rng.choice((1, 3, 4, 7, 0x1e, rng.randrange(32))), rng.getrandbits(16))]
def windows(rng):
    """A poll's minute and windows, none of either, or windows of which one may hold the minute, with the minute at one of its edges or not."""
    week, minute = 10080, rng.choice((0, 10079, rng.randrange(10080), rng.randrange(10080)))
    if rng.random() < 0.4:
        return rng.choice(([], [], [minute]))
    after = rng.choice((0, 1, rng.randrange(1, 600), rng.randrange(1, week - 1)))
    length = rng.choice((after + 1, after + 1, after + rng.randrange(1, 600), after, rng.randrange(1, week)))
    near = (minute - after) % week, (minute - after + length) % week
    others = [rng.sample(range(week), 2) for _ in range(rng.choice((0, 0, 1, 2, 4, 31)))]
    return [minute, *sum(rng.sample([*others, list(near)] if near[0] != near[1] else others, len(others) + (near[0] != near[1])), [])]


def line(*words):
    return ' '.join(w if isinstance(w, str) else '%08x' % w for w in words).encode('latin-1')


def arguments(kinds, rng, phy):
    return [KINDS[kind][0](rng, phy) for kind in kinds]


def edge_lines(name, kinds, rng):
    """Operation lines with each argument at its edges."""
    good = arguments(kinds, rng, 3)
    for place, kind in enumerate(kinds):
        for edge in KINDS[kind][1]:
            yield line(name, *sum(good[:place] + [edge] + good[place + 1:], []))


def second_lines(name, kinds, rng):
    """Operation lines with a wrong number of words, damaged words, other forms."""
    words = sum(arguments(kinds, rng, 3), [])
    for count in range(min(len(words), 17)):
        yield line(name, *words[:count])
    for more in (1, 2, 17, MANY - len(words)):
        yield line(name, *words, *[0] * more)
    yield line(name, *words, *[0] * 16, '0000000')
    for place in range(max(1, len(words))) if len(words) <= 16 else (0, 15, 16, len(words) - 1):
        for bad in ('0000000', '000000000', '0000000g', '0x000000', '+0000001', '-', '00000 00', '\x0000000000'):
            yield line(name, *words[:place], bad, *words[place + 1:])
    for bad in (name.upper(), name[:-1], name + 's', name + '\x0b', 'nothing', '', '-', 'port', '\xe4'):
        yield line(bad, *words)
    for form in FORMS:
        yield form(line(name, *words))


def first_lines(family, device, lan):
    """Port lines that are damaged, or unusual and still readable."""
    for words in (('port',), ('port', family), ('port', family, device), ('port', family, device, lan, lan),
                  ('port', family, device, lan, 'x'), ('ports', family, device, lan), ('PORT', family, device, lan),
                  (family, device, lan), ('port', family, lan, device), ('',), ('v', '00000000')):
        yield line(*words)
    for bad in ('X550', 'X540', 'x552', 'x553', 'X55', 'X5520', '82599', '0', '\xff'):
        yield line('port', bad, device, lan)
    for bad in ('15a', '015ad', '15ag', '0x15', '00015ad', '1', '+5ad', '00000000', '15aD', '15AA', 'FFFF', '0000'):
        yield line('port', family, bad, lan)
    for bad in ('00', '01', '00000000', '00000001', '000000001', '000000000', '2', '02', '10', 'a', 'F', '1f', '100', '101',
                '10001', '80000000', 'ffffffff', 'FFFFFFFE', '100000000', 'g', '-1', '+1', '0x1', '1.', '1 0'):
        yield line('port', family, device, bad)
    for bad in ('0', '1', '2', '40', '100', '101', '00', '010', '0000000040', '00000000040', '4294967295', '4294967296', '9999999999',
                '10000000000', 'a', '1a', '-1', '+1', '0x10', '1.', '10 10', '10 x', '\xb2', '1,0'):
        yield line('port', family, device, lan, bad)
    for form in FORMS:
        yield form(line('port', family, device, lan))


# A line in other forms: some are read as before, some cannot be read.
FORMS = [lambda l, a=a, b=b: a + l + b for a, b in (
    (b'', b'\r'), (b'', b'\r\r'), (b'', b' \r'), (b'', b'\r '), (b'\r', b''), (b' ', b''), (b'\t ', b''), (b'', b' '),
    (b'', b'\t'), (b'', b'\x00'), (b'\x00', b''), (b'', b'\x80'), (b'', b' x'), (b'x ', b''), (b'# ', b''),
    (b'\xef\xbb\xbf', b''), (b'', b'0'), (b'\n', b''), (b'', b'\n'))]
FORMS += [lambda l, b=b: l.replace(b' ', b) for b in (
    b'\t', b'   ', b' \t \t', b'\r', b'', b'\x0b', b'\x0c', b'\xc2\xa0', b',', b'\n', b'\x1f', b'!')]
FORMS += [lambda l, b=b: b for b in (b'', b' ', b'\t', b'\r')]
FORMS += [bytes.upper, bytes.swapcase, lambda l: l[:-1], lambda l: l[1:], lambda l: l.replace(b' ', b' ' * 300, 1),
          lambda l: b' ' * (LONGEST - len(l)) + l, lambda l: l + b'\t' * (LONGEST - len(l))]
# The same for a reply: kind letters, then words (k the kind, w the word).
REPLY_FORMS = FORMS + [lambda l, k=k: k + l[1:] for k in (b'x', b'V', b'F', b'vv', b'0', b'd', b'r', b'/', b'v', b'f', b'', b'g')]
REPLY_FORMS += [lambda l, form=form: form(l[:1], l[2:]) for form in (
    lambda k, w: k, lambda k, w: k + b' ', lambda k, w: w, lambda k, w: w + b' ' + k, lambda k, w: k + b' ' + w.upper(),
    lambda k, w: k + b' ' + w[:4] + w[4:].upper(), lambda k, w: k + b' ' + w[1:], lambda k, w: k + b' 0' + w,
    lambda k, w: k + b' 0x' + w[2:], lambda k, w: k + b' 0x' + w, lambda k, w: k + b' +' + w[1:], lambda k, w: k + b' -' + w[1:],
    lambda k, w: k + b' ' + w[:4] + b' ' + w[4:], lambda k, w: k + b' ' + w[:4] + b'_' + w[5:], lambda k, w: k + b' ' + w + w,
    lambda k, w: k + b' ' + w + b' ' + w, lambda k, w: k + b' ' + k + b' ' + w)]
REPLY_FORMS += [lambda l, b=b: l[:-1] + b for b in (b'g', b'G', b'/', b':', b'@', b'`', b'\xff')]
BEHIND = (b'v 00000000\n', b'f 00000001\nv 1\n', b'nonsense\n', b'\n\n\n', b'\x00\xff', b'v', b'port X552 15ad 0\nveto\n',
          b'x' * LONGEST + b'\n')


def pieces(text):
    """The lines with their ends; only a line feed ends a line."""
    parts = text.split(b'\n')
    return [part + b'\n' for part in parts[:-1]] + [parts[-1]] * (parts[-1] != b'')


def shown(piece):
    """A line as plain characters: \\\\, \\t, \\r and \\xNN stand for bytes, and
    a closing \\- for a missing line end."""
    plain = {9: '\\t', 10: '', 13: '\\r', 92: '\\\\'}
    text = ''.join(plain.get(b, chr(b) if 32 <= b < 127 else '\\x%02x' % b) for b in piece)
    return text if piece.endswith(b'\n') else text + '\\-'


def port_of(text):
    """Family and device id of an input; `other` where its first line has none."""
    words = pieces(text)[0].decode('latin-1').split() if text else []
    return (words[1], words[2].lower()) if len(words) in (4, 5) and words[1] in ('X552', 'X553') else ('other', '')


def can_be_stored(text):
    """A stored input is not empty, and has no line at which another case would begin."""
    return text != b'' and not any(piece.startswith(b'case ') for piece in pieces(text))


def with_end(text):
    return text + b'\n' * (not text.endswith(b'\n'))


def stored(operation, kind, text):
    """A case of the stored list: a `case` line, then an input or its listing. A last line that lacks its
    end gets it, which makes no other line of it."""
    line = 'case %s %s\n' % (operation, kind.replace(' ', '_'))
    return line.encode() + with_end(text)


def stored_cases(file):
    """(operation, kind, input) of each case of a stored list."""
    for piece in re.split(rb'(?m)^case ', file.read_bytes())[1:]:
        line, _, text = piece.partition(b'\n')
        operation, kind = line.decode().split()
        yield operation, kind.replace('_', ' '), text


def block_length(text):
    """The words behind the operation's name."""
    return len(text.split(b'\n', 2)[1].split()) - 1
