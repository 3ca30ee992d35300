/* The driver part for the copper/KR port of Intel's X552 and X553, as C calls it.
 *
 * The part does no input and no output. An operation is a conversation: it asks for one action at a time, the host does it
 * and hands back a reply, and at the end there is an answer. The host holds the conversation as plain words, by value:
 * copy it, keep it, pass it back as it was given. Nothing is kept inside, so any number of conversations may run side by side.
 *
 *     mansruoy_stepped s = mansruoy_begin(552, 0x15ad, 0, 10, "kr_read", 7, &address, 1);
 *     for (mansruoy_asked a; s.number == 0 && (a = mansruoy_action(s.to)).number == 0;)
 *         s = mansruoy_step(s.to, 0, done_by_host(a));
 *     mansruoy_answered r = mansruoy_answer(s.to);
 *
 * Numbers of a call: 0 it went well; 20 lan above 1, 21 a fiber device, 22 a PHY or device address above 31, 35 a KR address
 * above 0xffff, 31 a list of more than 64 pairs, 23 a host block above 448 words, 32 a pause of 0 or above 100, 40 a poll's minute
 * or windows that are none; 24 the conversation has ended; 25 a reply's kind above 1, or in a run an odd number of reply words; 23 another
 * number of words lent than are to be; 26 no reply left, 27 no room for three words (both stop a run, which goes on from what it gives back); 100 no such family, device or
 * operation, or arguments that are not the operation's; 101 words that are no conversation; 102 it
 * has not ended. A call that is turned away changes nothing.
 *
 * A `command` of 17 to 448 words remembers how many they are and not what: the caller keeps them, and lends them to each step and run
 * (mansruoy_step_lent, mansruoy_run_lent), as the call before left them. The calls replace the words of the reply that have been read,
 * and no other. A shorter one keeps its words in `block`.
 *
 * No pointer may be null, also where its length is 0, and the buffers of a run do not overlap.
 *
 * Link with target/staticlib/libborder.a (tools/library builds it); x86-64. It needs memcpy and memset, and nothing else of a C library. */
#ifndef MANSRUOY_H
#define MANSRUOY_H

#include <stddef.h>
#include <stdint.h>

typedef struct {
    uint32_t words[68]; /* what they mean may change; words that are no conversation's are refused */
    uint32_t block[80]; /* a host block of up to 16 words, then a list's 64. At the end an answer's words are the first: a command's, with
                           those of its reply that were read, or a list's values */
} mansruoy_conversation;

/* number 0: the conversation as it is now; else what was handed in, and from `begin` words that are no conversation's */
typedef struct {
    uint32_t number;
    mansruoy_conversation to;
} mansruoy_stepped;

/* number 0: kind 1 read a register, 2 write value to a register, 3 wait value microseconds; 24: it has ended */
typedef struct {
    uint32_t number, kind, reg, value;
} mansruoy_asked;

/* number 0: it has ended, with an answer (error 0) or an error (1 to 9), count words that go with it, how many of the conversation's
 * block belong to it (of a list that a read ended, the values before it), and what was done for it */
typedef struct {
    uint32_t number, error;
    size_t count, block;
    uint64_t actions, micros;
    uint32_t words[12];
} mansruoy_answered;

/* number 0: it has ended; 26 or 27: go on from here; at: the next write place; used: how many reply words were used */
typedef struct {
    uint32_t number;
    mansruoy_conversation to;
    size_t at, used;
} mansruoy_ran;

/* Begins an operation. Family 552 or 553. Pause: the microseconds between two reads of a busy sideband, 1 to 100; 10 is the Rust's,
 * and every call of `begin` may have another. Name and arguments are those of the tracer's second line: for example "kr_read" with
 * the address, "bringup" with veto (0 or 1), "poll" with phy, internal (0 iXFI, 1 KR), forced (0, or 1 and the status), reforced,
 * and, where there are windows in which it is not to force, the minute of the week and each window's start and end.
 * docs/OPERATIONS.md has the arguments, the answer's words and the errors of each. */
mansruoy_stepped mansruoy_begin(uint32_t family, uint32_t device, uint32_t lan, uint32_t pause, const char *name,
                                size_t name_len, const uint32_t *arguments, size_t arguments_len);

/* The action that is due. */
mansruoy_asked mansruoy_action(mansruoy_conversation c);

/* The action is done: kind 0 and the value read (anything after a write or a wait), or kind 1 and the failure's code. */
mansruoy_stepped mansruoy_step(mansruoy_conversation c, uint32_t kind, uint32_t value);

/* The same of a `command` of more than 16 words, which are lent. */
mansruoy_stepped mansruoy_step_lent(mansruoy_conversation c, uint32_t kind, uint32_t value, uint32_t *words, size_t words_len);

/* The answer; 102 while it runs. */
mansruoy_answered mansruoy_answer(mansruoy_conversation c);

/* Many actions at once: replies are two words each (kind, value), none for a wait; each action is written to the transcript as three
 * words (kind, register, value), from place `at` on. */
mansruoy_ran mansruoy_run(mansruoy_conversation c, const uint32_t *replies, size_t replies_len, uint32_t *transcript,
                          size_t transcript_len, size_t at);

/* The same of a `command` of more than 16 words, which are lent. */
mansruoy_ran mansruoy_run_lent(mansruoy_conversation c, const uint32_t *replies, size_t replies_len, uint32_t *transcript,
                               size_t transcript_len, size_t at, uint32_t *words, size_t words_len);

#endif
