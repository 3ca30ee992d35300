/* A host that brings a copper port up and watches it, on a small simulated chip. */
#include <stdio.h>
#include <string.h>

#include "mansruoy.h"

/* ---- The chip: an X552 with an X557 PHY at address 0 ---- */

static uint32_t ctrl, msca;       /* what was last written there */
static uint32_t copper_up = 1;    /* does the PHY see a partner? */
static uint32_t copper_status = 7; /* 7: 10 gigabits, 5: 1 gigabit */

/* The PHY's register that MSCA names: MDIO device and register. */
static uint32_t phy_register(void)
{
    uint32_t device = msca >> 16 & 31, reg = msca & 0xffff;
    if (device == 1 && reg == 2) return 0x0154; /* identifier */
    if (device == 1 && reg == 3) return 0xb242;
    if (device == 1 && reg == 4) return 0x31;   /* speeds */
    if (device == 1 && reg == 0xcc02) return 1;
    if (device == 7 && reg == 1) return copper_up << 2;
    if (device == 7 && reg == 0xc800) return copper_status;
    return 0;
}

static uint32_t chip_read(uint32_t reg)
{
    switch (reg) {
    case 0x11144: return ctrl & 0xffff;   /* IOSF CTRL: not busy, response good */
    case 0x11148: return 0x20000000;      /* IOSF DATA */
    case 0x425c: return msca & ~(1u << 30); /* MSCA: the command is done */
    case 0x4260: return phy_register() << 16;
    case 0x42a4: return 1u << 30;         /* LINKS: the internal link is up */
    case 0x10140:
    case 0x10160: return 0;               /* both semaphores free */
    default: return 0x40;
    }
}

static void chip_write(uint32_t reg, uint32_t value)
{
    if (reg == 0x11144) ctrl = value;
    if (reg == 0x425c) msca = value;
}

/* ---- The host ---- */

enum { PAUSE = 10 }; /* microseconds between two reads of a busy sideband: what this board's needs */

/* One operation from its beginning to its end. */
static mansruoy_answered operate(const char *name, const uint32_t *arguments, size_t count)
{
    mansruoy_stepped s = mansruoy_begin(552, 0x15ad, 0, PAUSE, name, strlen(name), arguments, count);
    while (s.number == 0) {
        mansruoy_asked a = mansruoy_action(s.to);
        uint32_t value = 0;
        if (a.number != 0) break;
        if (a.kind == 1) value = chip_read(a.reg);
        if (a.kind == 2) chip_write(a.reg, a.value);
        /* a.kind == 3: a real host waits a.value microseconds */
        s = mansruoy_step(s.to, 0, value);
    }
    mansruoy_answered r = mansruoy_answer(s.to);
    printf("%-8s", name);
    if (s.number != 0) printf(" refused: %u\n", s.number);
    else if (r.error != 0) printf(" error %u", r.error);
    else printf(" ok");
    if (s.number == 0) {
        for (size_t i = 0; i < r.count; i++) printf(" %x", r.words[i]);
        printf(" (%llu actions, %llu microseconds)\n", (unsigned long long)r.actions, (unsigned long long)r.micros);
    }
    return r;
}

/* What is kept from one poll to the next. */
typedef struct {
    uint32_t phy, internal, is_forced, forced, reforced;
} watch;

/* A poll's answer is the copper's state (0 down, 1 up and megabits, 2 invalid and status), then forced and reforced. */
static void poll(watch *w)
{
    uint32_t arguments[5] = {w->phy, w->internal, w->is_forced, w->forced, w->reforced};
    if (!w->is_forced) arguments[3] = w->reforced;
    mansruoy_answered r = operate("poll", arguments, w->is_forced ? 5 : 4);
    if (r.number != 0 || r.error != 0) return; /* the watch stays as it was */
    const uint32_t *left = r.words + (r.words[0] == 0 ? 1 : 2);
    w->is_forced = left[0];
    w->forced = left[0] ? left[1] : 0;
    w->reforced = left[left[0] ? 2 : 1];
    printf("         reforced %u times\n", w->reforced);
}

int main(void)
{
    const uint32_t veto[1] = {0};
    mansruoy_answered r = operate("bringup", veto, 1);
    if (r.number != 0 || r.error != 0) return 1;

    watch w = {r.words[1], r.words[6], 0, 0, 0}; /* phy and internal link as bringup found them */
    poll(&w);          /* up at 10 gigabits: the internal link is forced to it */
    poll(&w);          /* the same: nothing is forced */
    copper_up = 0;
    poll(&w);          /* down */
    copper_up = 1;
    copper_status = 5;
    poll(&w);          /* up at 1 gigabit: forced anew */

    /* Calls that are wrong get a number, and change nothing. */
    const uint32_t phy[1] = {32};
    operate("bringdown", veto, 0); /* no such operation */
    operate("bringup", veto, 0);   /* an argument short */
    operate("probe", phy, 1);      /* a PHY address above 31 */
    mansruoy_conversation garbage;
    memset(&garbage, 0xa5, sizeof garbage);
    printf("garbage  action %u, step %u, answer %u\n", mansruoy_action(garbage).number,
           mansruoy_step(garbage, 0, 0).number, mansruoy_answer(garbage).number);
    return 0;
}
