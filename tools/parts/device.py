"""A plausible device: it answers each action that the oracle asks for.

Without upsets its answers lead to a good end wherever there is one. An upset
changes the answer to one action, counted from 0 over reads and writes:
    ('f', code)        the action fails
    ('v', word)        this word is read instead
    ('flip', bits)     the word is read with these bits turned
    ('busy', bit, n)   n reads of the same register in a row show the bit
    ('held', bits, n)  these bits stand in SW_FW_SYNC for n tries
"""
from .chip import CTRL, DATA, FLEX, HICR, LINKS, MMNGC, MSCA, MSRWD, SEL, STATUS, Chip

BUSY = {MSCA: 1 << 30, CTRL: 1 << 31, HICR: 2, 0x10140: 1, 0x15f70: 1, 0x10160: 1 << 31, 0x15f78: 1 << 31}
# Bits on which much depends.
TELLING = {CTRL: 3 << 18, HICR: 5, MMNGC: 1, LINKS: 15 << 27, SEL: 17 << 20, FLEX[0]: 0x811f00, MSRWD: 0x80370000}
ONES = 0xffffffff
# Nothing is busy, held or missed.
QUIET = dict(strict=False, held=(0, 0), token=0, misses=0, reset=0, links=0, odd=0)


def swap(word):
    return int.from_bytes(word.to_bytes(4, 'little'), 'big')


class Device(Chip):
    def __init__(self, rng, family, phy, upsets, mood):
        """`mood` says how often the token is busy, an activity misses, a PHY
        reset goes on, LINKS is down; held: bits and tries; strict: reading a
        lock word takes it; odd: how likely the firmware's status is a bad one."""
        super().__init__(family)
        self.rng, self.phy, self.upsets = rng, phy, upsets
        self.s, self.y = rng.getrandbits(32) & ~1, rng.getrandbits(32) & ~0x80007fff
        few = lambda count: rng.choice((0, 0, 0, count))
        self.token, self.misses, self.reset = few(rng.randint(1, 2)), few(1), few(rng.randint(1, 2))
        self.held, self.strict, self.links = (few(rng.getrandbits(15)), 2), rng.random() < 0.3, rng.choice((0, 0, 1, 3, 10))
        self.odd = few(0.5)
        vars(self).update(mood)
        self.count, self.streak, self.resetting, self.was_reset = 0, None, 0, False
        self.copper, self.status = rng.random() < 0.8, rng.choice((7, 7, 5, 5, 3, 0)) | rng.getrandbits(16) & ~7

    def any(self, clear=0, put=0):
        """Any word, the two ends often, with some bits set right."""
        roll = self.rng.random()
        return (ONES if roll < 0.08 else 0 if roll < 0.16 else self.rng.getrandbits(32)) & ~clear | put

    def half(self):
        return self.rng.choice((0, 0xffff, self.rng.getrandbits(16), self.rng.getrandbits(16)))

    def answer(self, write, register, value):
        """The reply line to one read or write."""
        kind, *upset = self.upsets.get(self.count, ('',))
        self.count += 1
        if kind == 'busy':
            self.streak = [register, *upset]
        if kind == 'held':
            self.held = upset
        if kind in ('f', 'v') and register in (self.swsm, self.sync):  # whoever has the lock gives it back
            self.strict, self.s, self.y = False, self.s & ~1, self.y & ~(1 << 31)
        if write:
            self.streak = None
            self.store(register, value)
            word = self.any()
        elif self.streak and self.streak[0] == register and self.streak[2]:
            self.streak[2] -= 1
            word = self.any(1 << 20, self.streak[1])
        else:
            self.streak = None
            word = self.fetch(register)
        if kind in ('f', 'v'):
            return b'%s %08x' % (kind.encode(), upset[0])
        return b'v %08x' % (word ^ upset[0] if kind == 'flip' else word)

    def fetch(self, register):
        if register == self.swsm:
            word, self.s = self.s, self.s | self.strict
            return word
        if register == self.sync:
            word, self.y = self.y | self.held[0], self.y | self.strict << 31
            return word
        if register == MSCA:
            return self.any(1 << 30)
        if register == MSRWD:
            return self.mdio_read() << 16 | self.rng.getrandbits(16)
        if register == CTRL:
            return self.any(0x800c0000 if self.pending else 1 << 31)
        if register == DATA:
            return self.kr.setdefault(self.address, self.any())
        if register == HICR:
            return self.any(2, 4 if self.started else 1)
        if register in FLEX:
            return (self.reply + [self.any()] * len(FLEX))[FLEX.index(register)]
        if register == LINKS:
            self.links -= 1
            return self.rng.getrandbits(30) | (self.links < 0 and self.rng.random() < 0.8) << 30
        if register == MMNGC:
            return self.any(0x81, self.rng.random() < 0.25)
        if register == SEL:
            mode = self.rng.choice((0, 1 << 24)) | self.rng.choice((0, 0, 0, 0, 1 << 20)) | (self.phy or 0) << 3 | 1
            return self.rng.choice((0,) + (self.any(0x11000f8, mode),) * 6)
        return self.any() if register == STATUS else self.any(1 << 5)

    def store(self, register, value):
        if register == self.swsm:
            self.s = value
        elif register == self.sync:
            bits, tries = self.held
            self.y, self.pending = value & ~bits, False
            self.held = (bits, tries - 1) if tries > 1 else (0, 0)
        else:
            super().store(register, value)

    def store_phy(self):
        super().store_phy()
        if self.phy_place() == (4, 0) and self.data & 0x8000:
            self.resetting, self.was_reset = self.reset, True

    def mdio_read(self):
        """The PHY register that MSCA names."""
        phy, at = self.command >> 21 & 31, self.phy_place()
        if at == (1, 2):
            return 0x154 if phy == self.phy else self.rng.choice((0, 0xffff))
        if at in ((1, 0xcc02), (4, 0)) and self.resetting > 0:
            self.resetting -= 1
            return 0x8000
        if at == (1, 0xcc02):
            return self.half() & ~3 | self.rng.choice((1, 2, 3) if self.was_reset else (0, 0, 1, 2, 3))
        if at == (4, 0):
            return self.half() & 0x7fff
        if at == (7, 1):
            return self.half() & ~4 | (self.copper ^ (self.rng.random() < 0.15)) << 2
        return self.status if at == (7, 0xc800) else self.mdio.setdefault(at, self.half())

    def respond(self):
        """The firmware's reply to the block in FLEX_MNG."""
        size, code = len(self.flex), self.flex.get(0, 0) & 0xff
        words, status, most = [self.any() for _ in range(15)], self.rng.getrandbits(8), max(0, 4 * size - 4)
        length = self.rng.choice((0, most, most, most + 1, *[self.rng.randint(0, most)] * 3))
        if size > 16:  # a long block, and a reply of any length that its byte can say
            words += [self.any() for _ in range(50)]
            length = self.rng.choice((0, 1, 4, 255, 252, 251, 63, 64, min(most, 255), min(most + 1, 255), *[self.rng.randint(0, 255)] * 6))
        if (size, code) == (2, 0x0a):  # the PHY token
            busy = self.token > 0 and not self.flex[1] & 0x100
            self.token -= busy
            status, length = 0x80 if busy else 1, self.rng.choice((0, 2, 4))
        if (size, code) == (6, 0x05):  # a PHY activity
            miss, number = self.misses > 0, self.flex[1] >> 16
            self.misses -= miss
            status = self.rng.choice((0, 2, 0x80, 0xff)) if miss else 1
            length = self.rng.choice((20, 20, 16, 18, 4, 0))
            if number == 7:  # the PHY's id and speeds
                high, low = self.rng.choice(((0xffff, 0xffff), (0, 7)) + ((0x154, 0xb246),) * 8)
                words[:2] = swap(high << 16 | self.half()), swap(self.any(0xffff, low))
            if number == 2:  # 1: the PHY is down
                words[0] = swap(self.rng.choice((1, 3, *[self.any()] * 6)))
        if self.rng.random() < self.odd:
            status = self.rng.choice((0x80, 0x80, 0, 0xff))
        return [self.rng.getrandbits(8) << 24 | status << 16 | length << 8 | code] + words
