/* Checks the C interface, since nothing checks ch11.h against the library's source: where each field of each struct stands, and what each
 * call leaves in each field. What they are held to is the table in fields.h. */
#include <stddef.h>
#include <stdint.h>
#include <stdio.h>
#include <string.h>

#include "ch11.h"
#include "packets.h"

_Static_assert(sizeof(size_t) == 8, "the library is for x86-64");
_Static_assert(CH11_STATE == 1 && CH11_DATA_SUM == 13 && CH11_ROOM == 16 && CH11_RANGE == 17, "names of refusals");
_Static_assert(CH11_FULL == 19 && CH11_NO_ENTRY == 20 && CH11_LONG == 21, "names of the table's refusals");
_Static_assert(CH11_REASON_CHANNEL_WORD == 1 && CH11_REASON_PAD == 5 && CH11_REASON_MISSING == 7, "names of reasons");
_Static_assert(CH11_SLOTS == 64 && CH11_SLOT_BYTES == 1024 && CH11_STORE_BYTES == 64 * 1024, "sizes of table and store");

/* ---- a recording of the packets */

/* 100 bytes that are no packet, M at 100, L at 180, L at 220, then from 260 an L whose data sum is wrong. */
enum { M_AT = 100, FILLED = 260, RECORDING = 300 };
static uint8_t recording[RECORDING];

static void fill_recording(void)
{
    memset(recording, 0xEE, M_AT);
    memcpy(recording + M_AT, M, sizeof M);
    memcpy(recording + 180, L, sizeof L);
    memcpy(recording + 220, L, sizeof L);
    memcpy(recording + FILLED, L, sizeof L);
    recording[FILLED + 32] = 0x40;
}

/* L, then from 40 an L whose pad byte is not zero; its data sum is right. */
enum { FAULTY_AT = 40, FAULTY = 80 };
static uint8_t faulty[FAULTY];

static void fill_faulty(void)
{
    memcpy(faulty, L, sizeof L);
    memcpy(faulty + FAULTY_AT, L, sizeof L);
    faulty[FAULTY_AT + 35] = 0x01;
    faulty[FAULTY_AT + 39] = 0x43;
}

/* Where they stand in their recordings: L, M, and the packets at FILLED, at the first byte of `faulty` and at FAULTY_AT. Then a base that
 * is too high by one for a window of 40 bytes. */
static const uint64_t L_BASE = UINT64_MAX - sizeof L;
static const uint64_t M_BASE = 700000000000, FILLED_BASE = 700000000160;
static const uint64_t FAULTY_BASE = 5000, FAULTY_AT_BASE = 5040;
static const uint64_t TOO_FAR = UINT64_MAX - (RECORDING - FILLED) + 1;

/* ---- comparing */

static int differences = 0;

/* `of` is the name of the struct inside the call's own that the field is of, with a dot, or nothing. */
static void check(const char *call, const char *of, const char *field, uint64_t got, uint64_t want)
{
    if (got != want) {
        printf("%s: %s%s is %llu, not %llu\n", call, of, field, (unsigned long long)got, (unsigned long long)want);
        differences++;
    }
}

static void check_bytes(const char *call, const void *got, const void *want, size_t len)
{
    check(call, "", "equality of the bytes", memcmp(got, want, len) == 0, 1);
}

/* Checks that all of these bytes are still 0xEE. */
static void check_untouched(const char *call, const uint8_t *bytes, size_t len)
{
    for (size_t k = 0; k < len; k++) {
        check(call, "", "a byte to be left alone", bytes[k], 0xEE);
    }
}

/* ---- the table: of each struct it makes the names of its cases, and a function that holds a struct to one of them */

#define STRUCT(kind, ...) \
    enum { __VA_ARGS__, cases_of_##kind }; \
    static void check_##kind(const char *call, const char *of, const struct ch11_##kind *got, uint64_t number_of_case) \
    { \
        enum { cases = cases_of_##kind }; \
        uint64_t size = 0;

/* The table has a value for each case. */
#define VALUES(name, ...) \
        static const uint64_t name[] = {__VA_ARGS__}; \
        _Static_assert(sizeof name == cases * sizeof(uint64_t), #name " in each case");

/* The field stands where the one before it ends. */
#define PLACED(field) \
        check(call, of, #field " by its place", (uint64_t)((const char *)&got->field - (const char *)got), size); \
        size += sizeof got->field;

#define FIELD(name, ...) \
        VALUES(name, __VA_ARGS__) \
        PLACED(name)

#define WORD(name, ...) \
        FIELD(name, __VA_ARGS__) \
        _Static_assert(sizeof got->name == sizeof(uint64_t), #name " is a number"); \
        check(call, of, #name, got->name, name[number_of_case]);

#define HOLDS(name, kind, ...) \
        FIELD(name, __VA_ARGS__) \
        check_##kind(call, #name ".", &got->name, name[number_of_case]);

#define SLOTS(first, behind, kind, ...) \
        VALUES(slots_##first, __VA_ARGS__) \
        for (size_t k = first; k < behind; k++) { \
            PLACED(slots[k]) \
            check_##kind(call, "slots from " #first " on: ", &got->slots[k], slots_##first[number_of_case]); \
        }

#define END \
        check(call, of, "size", sizeof *got, size); \
    }

#include "../fields.h"

/* ---- the calls; each result is spoilt beforehand, so that a field left out would show */

#define SPOIL(result) memset(&(result), 0xA5, sizeof(result))

/* Makes a call, and holds the struct that it writes to a case of the table and the number that it returns to the struct's. */
#define CHECK(kind, name, result, spoilt, call) \
    do { \
        SPOIL(spoilt); \
        uint64_t returned = (call); \
        check(#name, "", "returned", returned, (result).refusal.number); \
        check_##kind(#name, "", &(result), name); \
    } while (0)

#define ANSWER(kind, name, result, call) CHECK(kind, name, result, result, call)

/* A builder's step, which goes on from its state. */
#define STEP(name, state, call) CHECK(draft, name, state, (state).refusal, call)

/* As they are read; the writer is then given their fields. */
static struct ch11_packet l, m;

static void read_packets(void)
{
    struct ch11_packet p;
    ANSWER(packet, packet_l, l, ch11_read_packet(L, 40, 0, 40, L_BASE, &l));
    ANSWER(packet, packet_m, m, ch11_read_packet(recording, RECORDING, M_AT, FILLED, M_BASE, &m));
    ANSWER(packet, packet_refused, p, ch11_read_packet(recording, RECORDING, FILLED, RECORDING, FILLED_BASE, &p));
    ANSWER(packet, packet_faulty, p, ch11_read_packet(faulty, FAULTY, FAULTY_AT, FAULTY, FAULTY_AT_BASE, &p));
    ANSWER(packet, packet_too_far, p, ch11_read_packet(recording, RECORDING, FILLED, RECORDING, TOO_FAR, &p));
}

/* Each call with lists of 3 entries, of which fewer of the starts may be lent; entries that aren't written stay 7 and 9. */
static void list_messages(void)
{
    uint32_t starts[5][3] = {{7, 7, 7}, {7, 7, 7}, {7, 7, 7}, {7, 7, 7}, {7, 7, 7}};
    uint32_t lengths[5][3] = {{9, 9, 9}, {9, 9, 9}, {9, 9, 9}, {9, 9, 9}, {9, 9, 9}};
    const uint32_t want_starts[5][3] = {{32, 7, 7}, {52, 68, 7}, {7, 7, 7}, {7, 7, 7}, {7, 7, 7}};
    const uint32_t want_lengths[5][3] = {{3, 9, 9}, {3, 5, 9}, {9, 9, 9}, {9, 9, 9}, {9, 9, 9}};
    struct ch11_list a;
    ANSWER(list, list_l, a, ch11_list_messages(L, 40, 0, 40, L_BASE, starts[0], 3, lengths[0], 3, &a));
    ANSWER(list, list_m, a, ch11_list_messages(recording, RECORDING, M_AT, RECORDING, M_BASE, starts[1], 2, lengths[1], 3, &a));
    ANSWER(list, list_refused, a, ch11_list_messages(recording, RECORDING, M_AT, RECORDING, M_BASE, starts[2], 1, lengths[2], 3, &a));
    ANSWER(list, list_faulty, a, ch11_list_messages(faulty, FAULTY, FAULTY_AT, FAULTY, FAULTY_AT_BASE, starts[3], 3, lengths[3], 3, &a));
    ANSWER(list, list_too_far, a, ch11_list_messages(recording, RECORDING, FILLED, RECORDING, TOO_FAR, starts[4], 3, lengths[4], 3, &a));
    check_bytes("starts", starts, want_starts, sizeof starts);
    check_bytes("lengths", lengths, want_lengths, sizeof lengths);
}

static void single_messages(void)
{
    struct ch11_message a;
    ANSWER(message, message_l, a, ch11_message(L, 40, 0, 40, L_BASE, 0, &a));
    ANSWER(message, message_m, a, ch11_message(recording, RECORDING, M_AT, RECORDING, M_BASE, 1, &a));
    ANSWER(message, message_refused, a, ch11_message(recording, RECORDING, M_AT, RECORDING, M_BASE, 2, &a));
    ANSWER(message, message_faulty, a, ch11_message(faulty, FAULTY, FAULTY_AT, FAULTY, FAULTY_AT_BASE, 0, &a));
    ANSWER(message, message_too_far, a, ch11_message(recording, RECORDING, FILLED, RECORDING, TOO_FAR, 0, &a));
}

static void read_recordings(void)
{
    struct ch11_recording r;
    ANSWER(recording, recording_l, r, ch11_read_recording(L, 40, 0, 40, L_BASE, &r));
    ANSWER(recording, recording_filled, r, ch11_read_recording(recording, RECORDING, M_AT, FILLED, M_BASE, &r));
    ANSWER(recording, recording_refused, r, ch11_read_recording(recording, RECORDING, M_AT, RECORDING, M_BASE, &r));
    ANSWER(recording, recording_faulty, r, ch11_read_recording(faulty, FAULTY, 0, FAULTY, FAULTY_BASE, &r));
    ANSWER(recording, recording_too_far, r, ch11_read_recording(recording, RECORDING, FILLED, RECORDING, TOO_FAR, &r));
}

static void write_packets(void)
{
    uint8_t out[90];
    struct ch11_written w;
    memset(out, 0xEE, sizeof out);
    ANSWER(written, written_refused, w, ch11_write_packet(&m.fields, M + 36, 38, out, 79, &w));
    ANSWER(written, written_faulty, w, ch11_write_packet(&l.fields, faulty + FAULTY_AT + 24, 12, out, 90, &w));
    check_untouched("written_refused", out, 90);

    ANSWER(written, written_l, w, ch11_write_packet(&l.fields, L + 24, 12, out, 90, &w));
    check_bytes("written_l", out, L, 40);
    check_untouched("written_l", out + 40, 50);

    ANSWER(written, written_m, w, ch11_write_packet(&m.fields, M + 36, 38, out, 90, &w));
    check_bytes("written_m", out, M, 80);
    check_untouched("written_m", out + 80, 10);
}

static void build_body_of_l(void)
{
    uint8_t buf[14];
    struct ch11_draft d = {0};
    memset(buf, 0xEE, sizeof buf);
    STEP(opened_l, d, ch11_open(&d, buf, 14, 0x50, CH11_NO_TIMES));
    STEP(full_l, d, ch11_add(&d, buf, 14, 0, 0, L + 32, 3));
    STEP(full_l, d, ch11_close(&d, buf, 14));
    check_bytes("body of L", buf, L + 24, 12);
    check_untouched("body of L", buf + 12, 2);
}

/* Behind it steps from the same state that are refused, in another buffer; they leave both as they were. */
static void build_body_of_m(void)
{
    uint8_t buf[40], other[40];
    struct ch11_draft d = {0};
    memset(buf, 0xEE, sizeof buf);
    STEP(opened_m, d, ch11_open(&d, buf, 40, 0x30, CH11_IEEE_1588));
    STEP(add_faulty, d, ch11_add(&d, buf, 40, 1000000000, 0xABCD, M + 52, 3));
    STEP(close_faulty, d, ch11_close(&d, buf, 40));
    STEP(begun_m, d, ch11_add(&d, buf, 40, 0x1000000020, 0xABCD, M + 52, 3));
    STEP(full_m, d, ch11_add(&d, buf, 40, 0x1100000021, 0x9876, M + 68, 5));
    STEP(full_m, d, ch11_close(&d, buf, 40));
    check_bytes("body of M", buf, M + 36, 38);
    check_untouched("body of M", buf + 38, 2);

    memset(other, 0xEE, sizeof other);
    STEP(open_refused, d, ch11_open(&d, other, 40, 0x31, CH11_EXTENDED));
    STEP(add_refused, d, ch11_add(&d, other, 40, 0, 0, M + 52, 3));
    STEP(close_refused, d, ch11_close(&d, other, 37));
    check_untouched("refused steps", other, 40);
}

/* ---- the renewal table */

/* The store is longer than it must be, and at first 0xEE; beside it the bytes that it must hold. */
enum { STORE = CH11_STORE_BYTES + 8, LONG_AT = 7, LONG_LENGTH = CH11_SLOT_BYTES + 4, LONG = LONG_AT + LONG_LENGTH };
static struct ch11_table table;
static uint8_t store[STORE], want_store[STORE], too_long_packet[LONG];

/* Two recordings, and where the packet that is too long stands in the first. */
static const uint64_t FIRST = 7, SECOND = 0xFEDCBA9876543210, LONG_BASE = 0x123456789A;

/* The store must now hold these bytes at the slot's beginning. */
static void want_in_slot(size_t slot, const uint8_t *bytes, size_t len)
{
    memcpy(want_store + slot * CH11_SLOT_BYTES, bytes, len);
}

/* Makes a call on table and store, and holds both to what they must be then, the table to one of its cases. */
#define KEEP(kind, name, then, call, ...) \
    do { \
        struct ch11_##kind answer; \
        ANSWER(kind, name, answer, call(&table, store, __VA_ARGS__, &answer)); \
        check_table(#name, "", &table, then); \
        check_bytes(#name, store, want_store, STORE); \
    } while (0)
#define KEEP_ADD(name, then, ...) KEEP(added, name, then, ch11_renewal_add, __VA_ARGS__)
#define KEEP_RENEW(name, then, ...) KEEP(renewed, name, then, ch11_renewal_renew, __VA_ARGS__)

static void add_entries(void)
{
    memset(store, 0xEE, STORE);
    memset(want_store, 0xEE, STORE);
    make_carried(too_long_packet + LONG_AT, LONG_LENGTH);
    KEEP_ADD(unadded_no_store, table_empty, CH11_STORE_BYTES - 1, SECOND, M_BASE, recording, RECORDING, M_AT, RECORDING + 1);
    want_in_slot(0, L, sizeof L);
    KEEP_ADD(added_l, table_l, STORE, FIRST, L_BASE, L, 40, 0, 40);
    want_in_slot(1, M, sizeof M);
    KEEP_ADD(added_m, table_m, CH11_STORE_BYTES, SECOND, M_BASE, recording, RECORDING, M_AT, FILLED);
    want_in_slot(2, L, sizeof L);
    KEEP_ADD(added_5040, table_three, STORE, FIRST, FAULTY_AT_BASE, recording, RECORDING, 180, FILLED);
    KEEP_ADD(unadded_cut, table_three, STORE, FIRST, L_BASE, L, 40, 0, 39);
    KEEP_ADD(unadded_faulty, table_three, STORE, FIRST, FAULTY_AT_BASE, faulty, FAULTY, FAULTY_AT, FAULTY);
    KEEP_ADD(unadded_too_far, table_three, STORE, FIRST, TOO_FAR, recording, RECORDING, FILLED, RECORDING);
    KEEP_ADD(unadded_too_long, table_three, STORE, FIRST, LONG_BASE, too_long_packet, LONG, LONG_AT, LONG);
}

/* 16 comes before 20, and 20 before 1. Of the name that isn't held the first recording has entries, and the second has one at that place. */
static void renew_entries(void)
{
    KEEP_RENEW(unrenewed_no_store, table_three, CH11_STORE_BYTES - 1, FIRST, M_BASE, recording, RECORDING, M_AT, RECORDING + 1);
    KEEP_RENEW(unrenewed_no_entry, table_three, STORE, FIRST, M_BASE, recording, RECORDING, M_AT, RECORDING + 1);
    KEEP_RENEW(unrenewed_past_end, table_three, STORE, FIRST, L_BASE, recording, RECORDING, RECORDING - 41, RECORDING);
    KEEP_RENEW(renewed_lives, table_three, STORE, FIRST, L_BASE, L, 40, 0, 40);
    KEEP_RENEW(renewed_lives, table_three, CH11_STORE_BYTES, SECOND, M_BASE, recording, RECORDING, M_AT, FILLED);
}

static void check_next(size_t from, size_t want)
{
    check("next", "", "the live slot", ch11_renewal_next(&table, from), want);
}

/* An entry is replaced in its own slot and then dropped; its slot is taken again. At last none is left. */
static void drop_entries(void)
{
    want_in_slot(1, L, sizeof L);
    KEEP_ADD(added_m, table_replaced, STORE, SECOND, M_BASE, recording, RECORDING, 180, RECORDING);
    KEEP_RENEW(dropped_other, table_gap, STORE, SECOND, M_BASE, recording, RECORDING, M_AT, FILLED);
    const size_t nexts[][2] = {{0, 0}, {1, 2}, {2, 2}, {3, CH11_SLOTS}, {CH11_SLOTS, CH11_SLOTS}, {SIZE_MAX, CH11_SLOTS}};
    for (size_t k = 0; k < sizeof nexts / sizeof *nexts; k++) {
        check_next(nexts[k][0], nexts[k][1]);
    }
    want_in_slot(1, M, sizeof M);
    KEEP_ADD(added_m, table_three, STORE, SECOND, M_BASE, recording, RECORDING, M_AT, RECORDING);
    KEEP_RENEW(dropped_other, table_gap, STORE, SECOND, M_BASE, recording, RECORDING, 180, RECORDING);
    KEEP_RENEW(dropped_faulty, table_l, STORE, FIRST, FAULTY_AT_BASE, faulty, FAULTY, FAULTY_AT, FAULTY);
    KEEP_RENEW(dropped_cut, table_empty, STORE, FIRST, L_BASE, L, 40, 0, 39);
    check_next(0, CH11_SLOTS);
}

/* Adds L under a name that each slot has its own of, and gives its slot. */
static uint64_t add_l(size_t slot)
{
    struct ch11_added a;
    ch11_renewal_add(&table, store, STORE, slot, M_BASE + slot, L, 40, 0, 40, &a);
    return a.slot;
}

/* 64 entries live: another is refused, and too long comes first; a name that is held is not, here by a packet that fills the last slot. */
static void fill_table(void)
{
    struct ch11_table full;
    struct ch11_added a;
    uint8_t whole[CH11_SLOT_BYTES];
    make_carried(whole, sizeof whole);
    for (size_t slot = 0; slot < CH11_SLOTS; slot++) {
        check("filling", "", "slot", add_l(slot), slot);
        want_in_slot(slot, L, sizeof L);
        check("filling", "", "recording", table.slots[slot].recording, slot);
        check("filling", "", "place", table.slots[slot].place, M_BASE + slot);
    }
    memcpy(&full, &table, sizeof full);
    ANSWER(added, unadded_full, a, ch11_renewal_add(&table, store, STORE, FIRST, M_BASE + 80, recording, RECORDING, 180, FILLED, &a));
    ANSWER(added, unadded_too_long, a, ch11_renewal_add(&table, store, STORE, FIRST, LONG_BASE, too_long_packet, LONG, LONG_AT, LONG, &a));
    check_bytes("unadded_full", &table, &full, sizeof full);
    check_bytes("unadded_full", store, want_store, STORE);

    want_in_slot(63, whole, sizeof whole);
    ANSWER(added, added_last, a, ch11_renewal_add(&table, store, STORE, 63, M_BASE + 63, whole, sizeof whole, 0, sizeof whole, &a));
    check("added_last", "", "length", table.slots[63].length, sizeof whole);
    check_bytes("added_last", store, want_store, STORE);
    check_next(63, 63);
}

/* An entry whose length is forged is dropped, also where its slot, and what stands behind it, holds the packet that it is renewed by. */
static void drop_forged(size_t slot, uint64_t forged, const uint8_t *packet, size_t len)
{
    struct ch11_renewed r;
    memcpy(store + slot * CH11_SLOT_BYTES, packet, len);
    table.slots[slot].length = forged;
    ANSWER(renewed, dropped_other, r, ch11_renewal_renew(&table, store, CH11_STORE_BYTES, slot, M_BASE + slot, packet, len, 0, len, &r));
    check_entry("forged length", "", &table.slots[slot], free_slot);
}

/* At last the name of slot 5 is held in slot 9 too, whose word for `live` is not 1. */
static void forge_entries(void)
{
    struct ch11_renewed r;
    drop_forged(60, 0, L, sizeof L);
    drop_forged(61, ((uint64_t)1 << 32) + sizeof L, L, sizeof L);
    drop_forged(63, LONG_LENGTH, too_long_packet + LONG_AT, LONG_LENGTH);
    table.slots[9] = table.slots[5];
    table.slots[9].live = (uint64_t)1 << 63;
    ANSWER(renewed, dropped_other, r, ch11_renewal_renew(&table, store, STORE, 5, M_BASE + 5, recording, RECORDING, M_AT, FILLED, &r));
    check_entry("held twice", "", &table.slots[5], free_slot);
    check_next(9, 9);
    check("held twice", "", "slot of a name still held", add_l(5), 9);
    check("held twice", "", "live", table.slots[9].live, 1);
    check("freed", "", "lowest slot", add_l(1000), 5);
    check("freed", "", "slot behind", add_l(1001), 60);
}

int main(void)
{
    fill_recording();
    fill_faulty();
    read_packets();
    list_messages();
    single_messages();
    read_recordings();
    write_packets();
    build_body_of_l();
    build_body_of_m();
    add_entries();
    renew_entries();
    drop_entries();
    fill_table();
    forge_entries();
    if (differences != 0) {
        return 1;
    }
    puts("case L: all fields right");
    return 0;
}
