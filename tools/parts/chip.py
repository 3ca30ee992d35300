"""The registers of the simulated chips, and a chip whose answers are the same each time.

A chip here answers what the oracle asks for (Runner.drive in programs.py). `Steady` is the chip of c/example.c, which has it in C
once more because the example is read and copied as a whole; the device of tools/compare, in device.py, has random words.
"""
SYNC = {'X552': (0x10140, 0x10160), 'X553': (0x15f70, 0x15f78)}  # SWSM, SW_FW_SYNC
STATUS, MSCA, MSRWD, CTRL, DATA = 0x8, 0x425c, 0x4260, 0x11144, 0x11148
LINKS, MMNGC, SEL, HICR, FWSTS = 0x42a4, 0x42d0, 0x11178, 0x15f00, 0x15f0c
FLEX = range(0x15800, 0x15f00, 4)  # 448 words


class Chip:
    """What all have in common: the registers as they were last written, and which of the PHY's and of the KR PHY's is meant.
    A chip has beside it `fetch`, what a register is read as, and `respond`, the firmware's words to a block in FLEX_MNG."""

    def __init__(self, family):
        self.swsm, self.sync = SYNC[family]
        self.command, self.data, self.address = 0, 0, 0  # MSCA, MSRWD and CTRL of the sideband
        self.pending, self.started = False, False        # a sideband command, a block for the firmware
        self.mdio, self.kr, self.flex, self.reply = {}, {}, {}, []

    def answer(self, write, register, value):
        """The reply line to one read or write."""
        if write:
            self.store(register, value)
        return b'v %08x' % (0 if write else self.fetch(register))

    def phy_place(self):
        """The MDIO device and register that MSCA names."""
        return self.command >> 16 & 31, self.command & 0xffff

    def store(self, register, value):
        if register == MSRWD:
            self.data = value & 0xffff
        elif register == MSCA:
            self.command = value
            if value >> 26 & 3 == 1:
                self.store_phy()
        elif register == CTRL:
            self.address, self.pending = value, True
        elif register == DATA:
            self.kr[self.address] = value
        elif register == FWSTS:
            self.flex, self.started = {}, False
        elif register == HICR and value & 2:
            self.started, self.reply = True, self.respond()
        elif register in FLEX:
            self.flex[FLEX.index(register)] = value

    def store_phy(self):
        self.mdio[self.phy_place()] = self.data


class Steady(Chip):
    """A port with an X557 whose partner is there (`up`) at the speed of its `status` (7: 10 gigabits, 5: 1 gigabit), free locks,
    and a firmware that does what it is told. `busy`: how many reads of a register in a row show that it is, or no link."""

    def __init__(self, family, busy={}):
        super().__init__(family)
        self.up, self.status = True, 7
        self.busy, self.seen = busy, dict.fromkeys(busy, 0)

    def is_busy(self, register):
        if register not in self.busy:
            return False
        busy = self.seen[register] < self.busy[register]
        self.seen[register] = self.seen[register] + 1 if busy else 0  # the next wait begins anew
        return busy

    def fetch(self, register):
        if register == HICR and not self.started:  # no wait is for that
            return 1
        busy = self.is_busy(register)
        if register in (self.swsm, self.sync):
            return int(busy)
        if register == MSCA:
            return self.command & ~(1 << 30) | busy << 30
        if register == MSRWD:
            return self.phy_word() << 16
        if register == CTRL:
            return self.address & 0xffff | busy << 31
        if register == LINKS:
            return (not busy) << 30
        if register == HICR:
            return 5 | busy << 1
        if register in FLEX[:len(self.reply)]:
            return self.reply[FLEX.index(register)]
        return 0x20000000 if register == DATA else 0x40

    def phy_word(self):
        words = {(1, 2): 0x0154, (1, 3): 0xb242, (1, 4): 0x31, (1, 0xcc02): 1, (7, 1): self.up << 2, (7, 0xc800): self.status}
        return words.get(self.phy_place(), 0)

    def respond(self):
        """Done, and two bytes of no meaning."""
        return [1 << 16 | 2 << 8 | self.flex.get(0, 0) & 0xff]
