/* ch11: read, list, build and write IRIG 106 Chapter 11 packets, and keep packets in a table that drops what a lab has withdrawn.
 *
 * A recording is a run of packets. A packet is a 24-byte header, a 12-byte secondary header if it has one, a body, 0 to 3 bytes of
 * filler and a data sum if it has one. Bodies of type 0x30 (Message) and 0x50 (UART) are opened: they hold messages. Bodies of the
 * other 33 types are carried as they are.
 *
 * A reader looks at a window: the bytes buf[start] to buf[end - 1] of a buffer of len bytes. Nothing outside the window has a say,
 * also where the buffer holds older bytes behind the filled end. Every input is answered, any start and end too; a call never reads
 * or writes outside what it is lent, keeps nothing (so threads may call at the same time), allocates nothing and never fails otherwise
 * than by a refusal. It takes at most 1 KiB of stack, and the library needs no other, not even a C library.
 *
 * Two kinds of places. A `place`, a part's `at` and `reached` are counted from the buffer's first byte: buf[place]. A `recording_place`
 * and `recording_reached` are counted from the recording's first byte, of which the buffer may hold any piece: with each window the
 * caller gives a base, the place in the recording where the window starts, and the recording place is that base plus the distance from
 * the window's start. Whoever has no use for it gives base 0 and has distances from the window's start. The base changes nothing else,
 * save that base plus window length must not pass 2^64 - 1 (refusal 1). (A message's start is counted from its packet's first byte.)
 *
 * Reading ahead. A window may be filled further, or a recording of any size be read window by window, each begun at the place that the one
 * before reached, with recording_reached as its base. Only refusals 2 and 10 and a window's exact end can change when more bytes come
 * behind the window: 2 until 24 bytes are there, 10 until the packet's length of bytes is, 134,217,728 at most. Every other refusal stands,
 * and no packet that was accepted is ever taken back. Read so, a recording gives the packets and the refusal of one reading of the whole.
 *
 * Every result is written into a struct of 64-bit numbers, which needs no filling beforehand, save the builder's and the table. Each call
 * but ch11_renewal_next returns the refusal's number, 0 for none; the struct begins with the same number. On a refusal all other results
 * are 0, but for its two places, the room (of 16), the reason (of 15), the recording's three numbers and the builder's state; lists,
 * buffers, outputs, tables and stores are then as they were.
 *
 * A length may be 0. Pointers must not be null, not even then; they must be aligned for their type and good for the length given, a
 * struct's for the struct. What a call may write to must not overlap anything else that the same call is lent.
 *
 * For x86-64 Linux: cc -I include program.c libch11.a. The whole of this example is in examples/c/channels.c.
 *
 *     #include <stdio.h>
 *     #include "ch11.h"
 *
 *     // Prints the channel of each packet in buf[0] to buf[filled - 1]; gives the refusal that ends it, of number 0 at the exact end.
 *     // buf[0] is the recording's first byte, so that `at` is also the base.
 *     static struct ch11_refusal print_channels(const uint8_t *buf, size_t len, size_t filled)
 *     {
 *         struct ch11_packet packet = {0};
 *         for (size_t at = 0; at < filled; at += packet.length) {
 *             if (ch11_read_packet(buf, len, at, filled, at, &packet) != CH11_NONE) {
 *                 break;
 *             }
 *             printf("%llu\n", (unsigned long long)packet.fields.channel);
 *         }
 *         return packet.refusal;
 *     }
 */
#ifndef CH11_H
#define CH11_H

#include <stddef.h>
#include <stdint.h>

#ifdef __cplusplus
extern "C" {
#endif

/* ---- refusals: tested from the top, save where a call says otherwise; the first that applies is given. 1 to 15 are the reader's */

enum {
    CH11_NONE = 0,
    CH11_STATE = 1,          /* the window is outside its buffer, or base plus window length passes 2^64 - 1; a builder's used count is
                                outside its buffer or under 4, or the builder's state has a type or time rule that opening refuses, or
                                over 65,535 blocks in 0x30 */
    CH11_SHORT = 2,          /* fewer than 24 bytes in the window */
    CH11_SYNC = 3,           /* wrong sync */
    CH11_HEADER_SUM = 4,     /* wrong header sum */
    CH11_VERSION = 5,        /* version other than 1 to 9 */
    CH11_TYPE = 6,           /* reserved type */
    CH11_FLAGS = 7,          /* reserved time format, or absolute message times without a secondary header */
    CH11_CHANNEL = 8,        /* channel 0 with a type other than 0x01 and 0x04 */
    CH11_LENGTH = 9,         /* a length rule: packet length, data length, or how they agree; see struct ch11_packet */
    CH11_CUT = 10,           /* the packet is longer than the window */
    CH11_SECONDARY_SUM = 11, /* wrong secondary sum */
    CH11_SECONDARY = 12,     /* secondary reserved bytes not zero, or a secondary time out of form */
    CH11_DATA_SUM = 13,      /* wrong data sum */
    CH11_FILLER = 14,        /* filler not zero */
    CH11_LAYOUT = 15,        /* an opened body breaks its layout; a builder's time out of form, or a body closed without a block; the
                                reason is given */
    CH11_ROOM = 16,          /* no room in a list or output, or a store under 65,536 bytes; the room needed is given */
    CH11_RANGE = 17,         /* writer or builder input out of range, or no message of that number */
    CH11_FULL = 19,          /* 64 other entries live in the table */
    CH11_NO_ENTRY = 20,      /* no entry of that name in the table */
    CH11_LONG = 21           /* a packet over 1,024 bytes, too long for a slot */
};

/* Reasons of 15: which rule of its layout a body breaks at that place. The channel word is looked at first, then block by block (a block
 * is a message with the bytes around it; the layout stands further below); of a block that breaks several rules the lowest number is
 * given. In quotation marks is what can be read to a customer. More numbers may follow. */
enum {
    CH11_REASON_NONE = 0,         /* with any other refusal, and without one */
    CH11_REASON_CHANNEL_WORD = 1, /* "The first four bytes of the packet's data, its channel word, are not all there, or not as they
                                     must be." */
    CH11_REASON_CUT_SHORT = 2,    /* "The packet's data ends in the middle of a message." In its time, ID word, n bytes or pad byte */
    CH11_REASON_TIME = 3,         /* "A message's time isn't in the form that the packet's flags announce." From ch11_add: that the
                                     body's time rule asks for */
    CH11_REASON_LENGTH_ZERO = 4,  /* "A message is announced with a length of zero." n is 0 */
    CH11_REASON_PAD = 5,          /* "The byte that pads a message of odd length isn't zero." */
    CH11_REASON_LEFT_OVER = 6,    /* "There are more bytes behind the last message that the channel word announces." 0x30 alone */
    CH11_REASON_MISSING = 7       /* "The packet's data ends where a message must begin." From ch11_close: no block was added */
};

struct ch11_refusal {
    uint64_t number;          /* as above; 0: none, and then the others are 0 as well */
    uint64_t place;           /* where, counted from the buffer's first byte: the start of the packet; for 15 the channel word or the first
                                 byte of the block at fault, of the bytes left over, or where a missing block should begin. Writer and
                                 builder: 0 */
    uint64_t room;            /* for 16: the messages, or the bytes of the whole packet, body or store, that need room; else 0 */
    uint64_t reason;          /* for 15: the rule broken, CH11_REASON_..; else 0 */
    uint64_t recording_place; /* the same byte as `place`, counted from the recording's first byte: the base given plus `place` minus
                                 the window's start; for 1 the base. Writer and builder: 0 */
};

/* ---- one packet */

struct ch11_fields {
    uint64_t channel;  /* 0 to 65,535; 0 only with types 0x01 and 0x04 */
    uint64_t version;  /* data type version, 1 to 9 */
    uint64_t sequence; /* sequence number, 0 to 255 */
    uint64_t flags;    /* bit 7: secondary header present; bit 6: message times are absolute (bit 7 must then be 1); bits 5, 4: carried;
                          bits 3-2: time format, 00 Chapter 4, 01 IEEE 1588, 10 extended counter, 11 reserved;
                          bits 1-0: data sum, 00 none, 01 8 bits, 10 16 bits, 11 32 bits */
    uint64_t type;     /* data type: 0x00-0x04, 0x09, 0x0A, 0x11, 0x12, 0x19, 0x1A, 0x21, 0x29, 0x30, 0x38, 0x40-0x44, 0x48-0x4A, 0x50,
                          0x58, 0x59, 0x60, 0x68, 0x69, 0x70-0x72, 0x78-0x7A; all others are reserved */
    uint64_t rtc;      /* relative time counter, below 2^48 */
    uint64_t time;     /* secondary time, high * 2^32 + low; 0 without a secondary header. Its form goes by the time format:
                          Chapter 4: the low 16 bits are zero; IEEE 1588: high is seconds, low is nanoseconds below 1,000,000,000;
                          extended counter: any */
};

struct ch11_part {
    uint64_t at;     /* counted from the buffer's first byte */
    uint64_t length; /* in bytes; 0: absent, and `at` is where it would stand */
};

struct ch11_packet {
    struct ch11_refusal refusal;
    struct ch11_fields fields;
    uint64_t length;          /* packet length P: the five parts together; a multiple of 4, at most 524,288, or 134,217,728 for type
                                 0x01 */
    uint64_t data_length;     /* data length D: the body; at least 1 */
    uint64_t header_sum;      /* as stored */
    uint64_t data_sum;        /* as stored; 0 without one */
    uint64_t recording_place; /* the packet's first byte, counted from the recording's first byte: the base given */
    struct ch11_part header;  /* `header.at` is the packet's first byte, counted from the buffer's */
    struct ch11_part secondary;
    struct ch11_part body;
    struct ch11_part filler;
    struct ch11_part sum;
};

/* Reads the packet at the window's start; the window may go on behind it. The next packet, if any, begins at start + length, and its base
 * is base + length. The reader's refusals. */
uint64_t ch11_read_packet(const uint8_t *buf, size_t len, size_t start, size_t end, uint64_t base, struct ch11_packet *packet);

/* ---- the messages of a packet */

/* An opened body begins with a channel word of 4 bytes (low byte first, as all numbers). Blocks follow, one for each message: a time
 * stamp of 8 bytes (always in 0x30; in 0x50 if bit 31 of the channel word is set), an ID word of 4 whose bits 15-0 are n, the message's
 * n bytes, and a zero byte if n is odd. n is at least 1, and a time is in form.
 * 0x30: bits 31-18 of the channel word are zero. Bits 17-16 are 00: bits 15-0 are the number of blocks, at least 1. 01: one block, and
 * they are 1. 10 or 11: one block, and they are at least 2.
 * 0x50: bits 30-0 of the channel word are zero. One or more blocks, to the body's end. */

struct ch11_list {
    struct ch11_refusal refusal;
    uint64_t count; /* messages listed; 0 for a type that isn't opened */
};

/* Lists the messages of the packet at the window's start: entry k of the two lists is the start, counted from the packet's first byte,
 * and the length of message k. Entries past the count are untouched. The reader's refusals, then 16 where there are more messages than
 * the shorter list holds. To count the messages beforehand, lend lists of length 0: the count is the room that 16 gives, or 0 without
 * a refusal. For a packet that was read, start is its header.at and base its recording_place. */
uint64_t ch11_list_messages(const uint8_t *buf, size_t len, size_t start, size_t end, uint64_t base, uint32_t *starts,
                            size_t starts_len, uint32_t *lengths, size_t lengths_len, struct ch11_list *list);

struct ch11_message {
    struct ch11_refusal refusal;
    uint64_t time;   /* 0 where none is stored; else below 2^48, or with bit 6 of the flags in the form of the secondary time */
    uint64_t id;     /* the ID word, 32 bits, its reserved bits as read; bits 15-0 are the length */
    uint64_t start;  /* of its bytes, counted from the packet's first byte */
    uint64_t length; /* of its bytes, 1 to 65,535 */
};

/* Gives one message of the packet at the window's start, by its number from 0. The reader's refusals, then 17 where there is none, as
 * always in a type that isn't opened. Each call reads the packet anew; where starts and lengths are enough, one call of
 * ch11_list_messages gives those of all messages. */
uint64_t ch11_message(const uint8_t *buf, size_t len, size_t start, size_t end, uint64_t base, size_t number,
                      struct ch11_message *message);

/* ---- a recording */

struct ch11_recording {
    struct ch11_refusal refusal; /* of the packet that ended the reading; 0 at the exact end */
    uint64_t accepted;           /* packets accepted; given with a refusal too */
    uint64_t reached;            /* the refused packet's first byte (for 1 the start as given), or the end; given with a refusal too */
    uint64_t recording_reached;  /* the same byte as `reached`, counted from the recording's first byte: what to give as the next
                                    window's base to read on from there */
};

/* Reads the packets of a window, each at the end of the one before; the first that is refused ends the reading. The reader's refusals. An
 * empty window within its buffer holds no packets and isn't refused. */
uint64_t ch11_read_recording(const uint8_t *buf, size_t len, size_t start, size_t end, uint64_t base,
                             struct ch11_recording *recording);

/* ---- the writer */

struct ch11_written {
    struct ch11_refusal refusal;
    uint64_t length; /* bytes written: the packet length P */
};

/* Writes the packet of these fields and this body at the output's first byte, and works out lengths, filler and sums; bytes behind it are
 * untouched. First 17 (a value that its field can't hold; a time other than 0 with bit 7 of the flags clear), then 5 to 9, 12 and 15 by the
 * reader's rules, then 16. */
uint64_t ch11_write_packet(const struct ch11_fields *fields, const uint8_t *body, size_t body_len, uint8_t *out, size_t out_len,
                           struct ch11_written *written);

/* ---- the body builder: 0x30 bodies of complete messages, and 0x50 bodies */

/* Time rules: what the message times of a body are. The rule isn't stored in the body, a reader goes by the packet's flags: write the
 * packet with the flags given here; under others its times are refused (15) if out of form, or misread. */
enum {
    CH11_NO_TIMES = 0,   /* 0x50 only: no times are stored; any flags */
    CH11_COUNTER = 1,    /* below 2^48; bit 6 clear */
    CH11_CHAPTER_4 = 2,  /* absolute, low 16 bits zero; bits 7 and 6 set, time format 00 */
    CH11_IEEE_1588 = 3,  /* absolute, seconds * 2^32 + nanoseconds below 1,000,000,000; bits 7 and 6 set, time format 01 */
    CH11_EXTENDED = 4    /* absolute, any value; bits 7 and 6 set, time format 10 */
};

/* The state of a body that is being built: start with all zeros, hand it from step to step (open, add for each block, close), don't change
 * the buffer between. A step that is refused changes nothing but the refusal, so that the next may go on from there, after 16 with a longer
 * buffer that begins with the same bytes. Closed, the body is the first `used` bytes of the buffer. */
struct ch11_draft {
    struct ch11_refusal refusal; /* of the last step; not looked at by the next */
    uint64_t used;               /* bytes so far */
    uint64_t blocks;             /* blocks so far */
    uint64_t type;               /* 0x30 or 0x50 */
    uint64_t rule;               /* the time rule */
};

/* Opens a body of this type and time rule at the buffer's first byte. 17 for another type or rule, or no times in 0x30; then 16. */
uint64_t ch11_open(struct ch11_draft *draft, uint8_t *buf, size_t len, uint64_t type, uint64_t rule);

/* Adds a block: its time (0 where none is stored), the upper half of its ID word (0 to 65,535), and its 1 to 65,535 bytes.
 * 1; then 17 for an upper half or a number of bytes out of range, or a 65,536th block in 0x30; then 15, reason 3, for a time out of form
 * (17 for a time that isn't 0 where none is stored); then 16. */
uint64_t ch11_add(struct ch11_draft *draft, uint8_t *buf, size_t len, uint64_t time, uint64_t upper, const uint8_t *bytes,
                  size_t bytes_len);

/* Closes a body: writes its counter in 0x30, nothing in 0x50. 1, then 15, reason 7, where there is no block (the used count is 4). */
uint64_t ch11_close(struct ch11_draft *draft, uint8_t *buf, size_t len);

/* ---- the renewal table: packets that are kept, and renewed as long as the recording still has them */

/* A server keeps packets, each in an entry of a table, and the packet's bytes in a slot of a store: entry k's bytes begin at
 * store[k * CH11_SLOT_BYTES], and there are `length` of them. From time to time the caller renews an entry: it reads the recording again
 * from the entry's place into some buffer and lends that window. The entry lives on exactly when the packet at the window's start is
 * accepted and equals the held bytes; otherwise it is dropped in that same call. Nothing outside the window has a say: a packet that still
 * stands behind the filled end, from the block before, renews nothing. */

enum {
    CH11_SLOTS = 64,         /* entries of a table, slots of a store */
    CH11_SLOT_BYTES = 1024,  /* bytes of a slot */
    CH11_STORE_BYTES = 65536 /* bytes of a store, at least; those behind are never looked at */
};

struct ch11_entry {
    uint64_t live;      /* 0: the slot is free, and the other numbers say nothing; any other number: the entry lives */
    uint64_t recording; /* the entry's name: the recording's number, which the caller gives out, */
    uint64_t place;     /* and the packet's place, counted from the recording's first byte */
    uint64_t length;    /* packet length P, in bytes */
    uint64_t channel;
    uint64_t sequence;
    uint64_t rtc;
};

/* Start with all zeros: an empty table. The caller may read it between the calls. Any other content is taken as it is, forged or not: a
 * name held twice counts in its lowest slot, and an entry whose length is over CH11_SLOT_BYTES is dropped when renewed. */
struct ch11_table {
    struct ch11_entry slots[CH11_SLOTS];
};

struct ch11_added {
    struct ch11_refusal refusal;
    uint64_t slot; /* the entry's */
};

/* Adds the packet at the window's start, which is at this place of the recording (its base): the name's own slot if the name is held
 * already, else the lowest free one. The entry is replaced whole; of the store the packet's `length` bytes are written and no others.
 * 16 for a store under CH11_STORE_BYTES, which is the room needed, then the reader's refusals, then 21 for a packet over CH11_SLOT_BYTES,
 * then 19 where 64 other entries live. All at the window's start, but 15. */
uint64_t ch11_renewal_add(struct ch11_table *table, uint8_t *store, size_t store_len, uint64_t recording, uint64_t place,
                          const uint8_t *buf, size_t len, size_t start, size_t end, struct ch11_added *added);

struct ch11_renewed {
    struct ch11_refusal refusal; /* of the call; an entry that is dropped is no refusal */
    uint64_t lives;              /* 1: the entry lives on; 0: it is dropped, or the call is refused */
    struct ch11_refusal cause;   /* where the reader refuses the packet, and the entry is dropped for it: its refusal; else all 0 */
};

/* Renews the entry of this name by the window at its place, as the recording is now. A dropped entry's slot is free, all its numbers 0.
 * 16, then 20 where no entry of that name lives, then 1; all at the window's start. The reader's other refusals drop the entry. */
uint64_t ch11_renewal_renew(struct ch11_table *table, const uint8_t *store, size_t store_len, uint64_t recording, uint64_t place,
                            const uint8_t *buf, size_t len, size_t start, size_t end, struct ch11_renewed *renewed);

/* The lowest slot at or behind this one whose entry lives; CH11_SLOTS if there is none. The live entries, one by one:
 *
 *     for (size_t k = ch11_renewal_next(&table, 0); k < CH11_SLOTS; k = ch11_renewal_next(&table, k + 1)) ..table.slots[k].. */
size_t ch11_renewal_next(const struct ch11_table *table, size_t slot);

#ifdef __cplusplus
}
#endif

#endif
