/* What the calls leave in the structs of ch11.h, field by field. STRUCT names a struct and its cases. Below it stands a line for each field,
 * in the struct's order, with its value in each case: WORD for a number, HOLDS for a struct, of which the value is one of its own cases, SLOTS for the
 * entries of a table from one slot to another, which then all are as that case has it.
 * tests/c/case_l.c reads this table as macros, rust/ch11/tests as text. The numbers were worked out by hand from the rules of documents 01 and 02,
 * not taken from the library.
 *
 * L and M are the packets of those tests, L at the first byte of its buffer, M at 100 of a recording. Behind an L at the first byte of another
 * buffer stands an L whose pad byte is not zero, its data sum right.
 *
 * In a recording L begins at 2^64 - 41, so that its end is at 2^64 - 1, the highest place; M at 700,000,000,000; the first byte of the other buffer
 * at 5000. Such a place is the base of what is read there. With a base of 2^64 - 40 the 40 bytes from 260 on are too_far.
 *
 * The renewal table keeps the packets of recordings 7 and 0xFEDCBA9876543210. In the latter M is replaced by an L, and in the former an L stood where
 * the other buffer has the one at fault. A packet too long for a slot begins at 7 of a buffer of its own. */

STRUCT(refusal,          none, wrong_sum,    short_list,   no_message,   short_output, wrong_type, short_buffer, too_far,            outside, wrong_pad, given_pad, late_time, no_block, short_store,  cut_short,          past_end,           too_long,     no_slot,      no_entry)
WORD(number,             0,    13,           16,           17,           16,           17,         16,           1,                  1,       15,        15,        15,        15,       16,           10,                 1,                  21,           19,           20)
WORD(place,              0,    260,          100,          100,          0,            0,          0,            260,                0,       68,        0,         0,         0,        100,          0,                  259,                7,            180,          100)
WORD(room,               0,    0,            2,            0,            80,           0,          54,           0,                  0,       0,         0,         0,         0,        65536,        0,                  0,                  0,            0,            0)
WORD(reason,             0,    0,            0,            0,            0,            0,          0,            0,                  0,       5,         5,         3,         7,        0,            0,                  0,                  0,            0,            0)
WORD(recording_place,    0,    700000000160, 700000000000, 700000000000, 0,            0,          0,            0xFFFFFFFFFFFFFFD8, 0,       5068,      0,         0,         0,        700000000000, 0xFFFFFFFFFFFFFFD7, 0xFFFFFFFFFFFFFFD7, 0x123456789A, 700000000080, 700000000000)
END

STRUCT(fields,           fields_l, fields_m,           no_fields)
WORD(channel,            1,        0x1234,             0)
WORD(version,            6,        5,                  0)
WORD(sequence,           0,        0xC9,               0)
WORD(flags,              2,        0xC7,               0)
WORD(type,               0x50,     0x30,               0)
WORD(rtc,                1,        0x0A0B0C0D0E0F,     0)
WORD(time,               0,        0x0001020304050607, 0)
END

STRUCT(part,             header_l, secondary_l, body_l, filler_l, sum_l, header_m, secondary_m, body_m, filler_m, sum_m, no_part)
WORD(at,                 0,        24,          24,     36,       38,    100,      124,         136,    174,      176,   0)
WORD(length,             24,       0,           12,     2,        2,     24,       12,          38,     2,        4,     0)
END

STRUCT(packet,           packet_l,           packet_m,     packet_refused, packet_faulty, packet_too_far)
HOLDS(refusal, refusal,  none,               none,         wrong_sum,      wrong_pad,     too_far)
HOLDS(fields, fields,    fields_l,           fields_m,     no_fields,      no_fields,     no_fields)
WORD(length,             40,                 80,           0,              0,             0)
WORD(data_length,        12,                 38,           0,              0,             0)
WORD(header_sum,         0x3B63,             0x1BC2,       0,              0,             0)
WORD(data_sum,           0x4287,             0xBE1EDABD,   0,              0,             0)
WORD(recording_place,    0xFFFFFFFFFFFFFFD7, 700000000000, 0,              0,             0)
HOLDS(header, part,      header_l,           header_m,     no_part,        no_part,       no_part)
HOLDS(secondary, part,   secondary_l,        secondary_m,  no_part,        no_part,       no_part)
HOLDS(body, part,        body_l,             body_m,       no_part,        no_part,       no_part)
HOLDS(filler, part,      filler_l,           filler_m,     no_part,        no_part,       no_part)
HOLDS(sum, part,         sum_l,              sum_m,        no_part,        no_part,       no_part)
END

STRUCT(list,             list_l, list_m, list_refused, list_faulty, list_too_far)
HOLDS(refusal, refusal,  none,   none,   short_list,   wrong_pad,   too_far)
WORD(count,              1,      2,      0,            0,           0)
END

STRUCT(message,          message_l, message_m,    message_refused, message_faulty, message_too_far)
HOLDS(refusal, refusal,  none,      none,         no_message,      wrong_pad,      too_far)
WORD(time,               0,         0x1100000021, 0,               0,              0)
WORD(id,                 3,         0x98760005,   0,               0,              0)
WORD(start,              32,        68,           0,               0,              0)
WORD(length,             3,         5,            0,               0,              0)
END

STRUCT(recording,        recording_l,        recording_filled, recording_refused, recording_faulty, recording_too_far)
HOLDS(refusal, refusal,  none,               none,             wrong_sum,         wrong_pad,        too_far)
WORD(accepted,           1,                  3,                3,                 1,                0)
WORD(reached,            40,                 260,              260,               40,               260)
WORD(recording_reached,  0xFFFFFFFFFFFFFFFF, 700000000160,     700000000160,      5040,             0xFFFFFFFFFFFFFFD8)
END

STRUCT(written,          written_l, written_m, written_refused, written_faulty)
HOLDS(refusal, refusal,  none,      none,      short_output,    given_pad)
WORD(length,             40,        80,        0,               0)
END

STRUCT(draft,            opened_l, full_l, opened_m, begun_m, full_m, open_refused, add_refused,  close_refused, add_faulty, close_faulty)
HOLDS(refusal, refusal,  none,     none,   none,     none,    none,   wrong_type,   short_buffer, outside,       late_time,  no_block)
WORD(used,               4,        12,     4,        20,      38,     38,           38,           38,            4,          4)
WORD(blocks,             0,        1,      0,        1,       2,      2,            2,            2,             0,          0)
WORD(type,               0x50,     0x50,   0x30,     0x30,    0x30,   0x30,         0x30,         0x30,          0x30,       0x30)
WORD(rule,               0,        0,      3,        3,       3,      3,            3,            3,             3,          3)
END

STRUCT(entry,            free_slot, entry_l,            entry_m,            entry_5040, entry_replaced)
WORD(live,               0,         1,                  1,                  1,          1)
WORD(recording,          0,         7,                  0xFEDCBA9876543210, 7,          0xFEDCBA9876543210)
WORD(place,              0,         0xFFFFFFFFFFFFFFD7, 700000000000,       5040,       700000000000)
WORD(length,             0,         40,                 80,                 40,         40)
WORD(channel,            0,         1,                  0x1234,             1,          1)
WORD(sequence,           0,         0,                  0xC9,               0,          0)
WORD(rtc,                0,         1,                  0x0A0B0C0D0E0F,     1,          1)
END

STRUCT(table,            table_empty, table_l,   table_m,   table_three, table_replaced, table_gap)
SLOTS(0, 1, entry,       free_slot,   entry_l,   entry_l,   entry_l,     entry_l,        entry_l)
SLOTS(1, 2, entry,       free_slot,   free_slot, entry_m,   entry_m,     entry_replaced, free_slot)
SLOTS(2, 3, entry,       free_slot,   free_slot, free_slot, entry_5040,  entry_5040,     entry_5040)
SLOTS(3, 64, entry,      free_slot,   free_slot, free_slot, free_slot,   free_slot,      free_slot)
END

STRUCT(added,            added_l, added_m, added_5040, added_last, unadded_no_store, unadded_too_far, unadded_cut, unadded_faulty, unadded_too_long, unadded_full)
HOLDS(refusal, refusal,  none,    none,    none,       none,       short_store,      too_far,         cut_short,   wrong_pad,      too_long,         no_slot)
WORD(slot,               0,       1,       2,          63,         0,                0,               0,           0,              0,                0)
END

STRUCT(renewed,          renewed_lives, dropped_other, dropped_faulty, dropped_cut, unrenewed_no_store, unrenewed_no_entry, unrenewed_past_end)
HOLDS(refusal, refusal,  none,          none,          none,           none,        short_store,        no_entry,           past_end)
WORD(lives,              1,             0,             0,              0,           0,                  0,                  0)
HOLDS(cause, refusal,    none,          none,          wrong_pad,      cut_short,   none,               none,               none)
END
