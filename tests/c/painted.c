/* Runs each call on a painted stack, looks how far down it was written, and looks there for bytes that the call was lent.
 *
 *     painted RECORDING..    prints for each call its name and the most bytes of stack that it wrote, its return address among them
 *
 * Fails where a call leaves 12 bytes in a row of a lent slice on its stack: the longest field has 8, and beside it may stand a number that looks
 * like what follows the field, but hardly four bytes of it. */
#include <stddef.h>
#include <stdint.h>
#include <stdio.h>
#include <string.h>

#include "ch11.h"
#include "packets.h"

/* ---- a stack of our own */

enum { STACK = 4096, PUSHED = 4, PAINTS = 2 };
static _Alignas(16) uint8_t stack[STACK];

/* Calls a function with six words in registers and four behind them in memory, its stack pointer at `top` less those four. The registers
 * that it has to keep are cleared, so that all that it finds worth putting on the stack is its own. */
uint64_t call_at(void *top, const uint64_t words[6 + PUSHED], void (*call)(void));
void *kept_pointer;
__asm__(".text\n"
        "call_at:\n"
        "    push %rbp\n"
        "    push %rbx\n"
        "    push %r12\n"
        "    push %r13\n"
        "    push %r14\n"
        "    push %r15\n"
        "    mov %rsp, kept_pointer(%rip)\n"
        "    mov %rdi, %rsp\n"
        "    mov %rsi, %r11\n"
        "    mov %rdx, %rax\n"
        "    push 72(%r11)\n"
        "    push 64(%r11)\n"
        "    push 56(%r11)\n"
        "    push 48(%r11)\n"
        "    mov 0(%r11), %rdi\n"
        "    mov 8(%r11), %rsi\n"
        "    mov 16(%r11), %rdx\n"
        "    mov 24(%r11), %rcx\n"
        "    mov 32(%r11), %r8\n"
        "    mov 40(%r11), %r9\n"
        "    xor %ebp, %ebp\n"
        "    xor %ebx, %ebx\n"
        "    xor %r12d, %r12d\n"
        "    xor %r13d, %r13d\n"
        "    xor %r14d, %r14d\n"
        "    xor %r15d, %r15d\n"
        "    call *%rax\n"
        "    mov kept_pointer(%rip), %rsp\n"
        "    pop %r15\n"
        "    pop %r14\n"
        "    pop %r13\n"
        "    pop %r12\n"
        "    pop %rbx\n"
        "    pop %rbp\n"
        "    ret\n");

struct lent {
    const uint8_t *bytes;
    size_t length;
};

enum { RUN = 12, TELLING = 9 };

/* Whether a run of bytes is hardly there by chance: few zeros, which small numbers have too, and not one byte over and over. */
static int tells(const uint8_t *run)
{
    size_t others = 0;
    for (size_t at = 0; at < RUN; at++)
        others += run[at] != 0;
    return others >= TELLING && memcmp(run, run + 1, RUN - 1) != 0;
}

/* Whether RUN bytes in a row of a lent slice stand on the stack, from a place up. */
static int copied(struct lent slice, const uint8_t *from)
{
    for (size_t at = 0; at + RUN <= slice.length; at++) {
        const uint8_t *run = slice.bytes + at;
        if (!tells(run))
            continue;
        for (const uint8_t *place = from; place + RUN <= stack + STACK; place++)
            if (*place == *run && memcmp(run, place, RUN) == 0)
                return 1;
    }
    return 0;
}

struct call {
    const char *name;
    void (*call)(void);
    size_t deepest;
    int copies;
};

/* Runs a call and keeps how far it went. On two paints: a byte may be written as it was painted, and paint may look like lent bytes. */
static uint64_t run(struct call *call, const uint64_t words[6 + PUSHED], struct lent first, struct lent second)
{
    uint64_t answer = 0;
    uint8_t *entry = stack + STACK - 8 * PUSHED;
    static const uint8_t paints[PAINTS] = {0x9D, 0x62};
    int seen = 0;
    for (size_t paint = 0; paint < PAINTS; paint++) {
        memset(stack, paints[paint], STACK);
        answer = call_at(stack + STACK, words, call->call);
        uint8_t *lowest = stack;
        while (lowest < entry && *lowest == paints[paint])
            lowest++;
        if (call->deepest < (size_t)(entry - lowest))
            call->deepest = (size_t)(entry - lowest);
        seen += copied(first, lowest) || copied(second, lowest);
    }
    call->copies += seen == PAINTS;
    return answer;
}

/* ---- the calls */

#define CALL(name) {#name, (void (*)(void))name, 0, 0}
enum { READ, LIST, MESSAGE, RECORDING, WRITE, OPEN, ADD, CLOSE, KEEP, RENEW, NEXT, CALLS };
static struct call calls[CALLS] = {CALL(ch11_read_packet),  CALL(ch11_list_messages), CALL(ch11_message),       CALL(ch11_read_recording),
                                   CALL(ch11_write_packet), CALL(ch11_open),          CALL(ch11_add),           CALL(ch11_close),
                                   CALL(ch11_renewal_add),  CALL(ch11_renewal_renew), CALL(ch11_renewal_next)};

#define WORDS(...) ((const uint64_t[6 + PUSHED]){__VA_ARGS__})
#define AT(pointer) ((uint64_t)(uintptr_t)(pointer))

enum { MOST = 4096, ROOM = 64 };
static const struct lent nothing = {NULL, 0};
static uint32_t starts[ROOM], lengths[ROOM];

/* Every reader on a window, with its base; the packet at its start, if there is one, is left in `packet`. */
static uint64_t read_all(struct lent buf, size_t start, size_t end, uint64_t base, struct ch11_packet *packet)
{
    static struct ch11_list list;
    static struct ch11_message message;
    static struct ch11_recording recording;
    for (uint64_t number = 0; number < 3; number++)
        run(&calls[MESSAGE], WORDS(AT(buf.bytes), buf.length, start, end, base, number, AT(&message)), buf, nothing);
    for (size_t room = 0; room <= ROOM; room += ROOM)
        run(&calls[LIST], WORDS(AT(buf.bytes), buf.length, start, end, base, AT(starts), room, AT(lengths), room, AT(&list)), buf, nothing);
    run(&calls[RECORDING], WORDS(AT(buf.bytes), buf.length, start, end, base, AT(&recording)), buf, nothing);
    return run(&calls[READ], WORDS(AT(buf.bytes), buf.length, start, end, base, AT(packet)), buf, nothing);
}

/* Writes an accepted packet again, into enough room and into too little. */
static void write_again(struct lent buf, const struct ch11_packet *packet)
{
    static uint8_t out[MOST];
    static struct ch11_written written;
    struct lent body = {buf.bytes + packet->body.at, packet->body.length};
    struct lent output = {out, packet->length};
    for (size_t less = 0; less < 2; less++)
        run(&calls[WRITE], WORDS(AT(&packet->fields), AT(body.bytes), body.length, AT(out), packet->length - less, AT(&written)), body, output);
}

/* The renewal table and its store, of which the first slot is looked for on the stack: packets that are withdrawn are kept there. */
static struct ch11_table table;
static uint8_t store[CH11_STORE_BYTES];
static const struct lent first_slot = {store, CH11_SLOT_BYTES};

/* Keeps the packet at a window's start, in a store that is too short too. */
static void keep(struct lent buf, size_t start, size_t end, uint64_t place)
{
    static struct ch11_added added;
    for (size_t less = 0; less < 2; less++)
        run(&calls[KEEP], WORDS(AT(&table), AT(store), sizeof store - less, 7, place, AT(buf.bytes), buf.length, start, end, AT(&added)), buf, first_slot);
}

/* Renews an entry, if there is one, by a window. */
static void renew(struct lent buf, size_t start, size_t end, uint64_t place)
{
    static struct ch11_renewed renewed;
    run(&calls[RENEW], WORDS(AT(&table), AT(store), sizeof store, 7, place, AT(buf.bytes), buf.length, start, end, AT(&renewed)), buf, first_slot);
    run(&calls[NEXT], WORDS(AT(&table), 0), nothing, nothing);
}

/* Keeps a packet, renews it, and renews it by a window of this end, with a byte there altered. */
static void withdraw(uint8_t *bytes, size_t length, size_t start, size_t end, size_t altered)
{
    const uint64_t far = 700000000000;
    struct lent buf = {bytes, length};
    keep(buf, start, length, far);
    renew(buf, start, length, far);
    bytes[altered] ^= 0x41;
    renew(buf, start, end, far);
    keep(buf, start, end, far);
    bytes[altered] ^= 0x41;
}

/* A packet in each slot, one for which none is left, and one that is too long for a slot. */
static void fill_table(void)
{
    static uint8_t carried[CH11_SLOT_BYTES + 4];
    struct lent buf = {carried, sizeof carried};
    memset(&table, 0, sizeof table);
    for (uint16_t length = CH11_SLOT_BYTES - 4 * CH11_SLOTS; length <= sizeof carried; length += 4) {
        make_carried(carried, length);
        keep(buf, 0, length, length);
        renew(buf, 0, length, length);
    }
}

/* Every start, with the window to the end; and at each packet every byte of it altered, every end, and a base that is too high. */
static void read_recording(uint8_t *bytes, size_t length)
{
    const uint64_t far = 700000000000;
    struct lent buf = {bytes, length};
    static struct ch11_packet packet, other;
    for (size_t start = 0; start <= length; start++) {
        if (read_all(buf, start, length, far + start, &packet) != CH11_NONE)
            continue;
        write_again(buf, &packet);
        read_all(buf, start, length, UINT64_MAX, &other);
        for (size_t at = start; at < start + packet.length; at++) {
            read_all(buf, start, at, far + start, &other);
            bytes[at] ^= 0x41;
            read_all(buf, start, length, far + start, &other);
            bytes[at] ^= 0x41;
            withdraw(bytes, length, start, at, at);
            withdraw(bytes, length, start, length, at);
        }
    }
}

/* Bodies of each type and rule, one that opening refuses too, made of blocks of every length, from 0 on, to where the buffer has no more room. */
static void build_bodies(void)
{
    static uint8_t buf[MOST], bytes[ROOM];
    struct lent made = {buf, MOST}, block = {bytes, ROOM};
    for (size_t at = 0; at < ROOM; at++)
        bytes[at] = (uint8_t)(0x80 + 37 * at);
    for (uint64_t choice = 0; choice < 2 * 6; choice++) {
        static struct ch11_draft draft;
        uint64_t type = choice % 2 ? 0x50 : 0x30, rule = choice / 2;
        memset(&draft, 0, sizeof draft);
        run(&calls[OPEN], WORDS(AT(&draft), AT(buf), MOST, type, rule), made, nothing);
        for (size_t n = 0; n <= 2 * ROOM; n++)
            run(&calls[ADD], WORDS(AT(&draft), AT(buf), MOST, rule ? 0x0102030405 : 0, n % 7 ? 0x1234 : 0x12345, AT(bytes), n % ROOM), made, block);
        run(&calls[CLOSE], WORDS(AT(&draft), AT(buf), MOST), made, nothing);
    }
}

/* ---- that a copy would be seen: a header sum that copies the header first */

static uint64_t copying_sum(const uint8_t *header)
{
    uint8_t copy[24];
    uint64_t sum = 0;
    memcpy(copy, header, sizeof copy);
    __asm__ volatile("" : : "r"(copy) : "memory"); /* so that the compiler leaves the copy where it is */
    for (size_t at = 0; at < 22; at += 2)
        sum += copy[at] + 256u * copy[at + 1];
    return sum % 65536;
}

static int copy_is_seen(void)
{
    struct call copying = CALL(copying_sum);
    struct lent header = {M, 24};
    return run(&copying, WORDS(AT(M)), header, nothing) == 0x1BC2 && copying.copies > 0 && copying.deepest > 24;
}

/* ---- the recordings */

/* A packet with hardly a zero in its headers, its block's head and its block; gives its length, 0 where it could not be made. */
static size_t make_packet(uint8_t *out, size_t room)
{
    enum { BLOCK = 0x123, EXTENDED = 4, ABSOLUTE_EXTENDED_SUM_32 = 0xCB };
    static uint8_t body[MOST], bytes[BLOCK];
    static struct ch11_written written;
    const uint64_t time = 0x1122334455667788;
    const struct ch11_fields fields = {0x5678, 6, 0xC9, ABSOLUTE_EXTENDED_SUM_32, 0x50, time / 100 % ((uint64_t)1 << 48), time};
    struct ch11_draft draft = {0};
    for (size_t at = 0; at < BLOCK; at++)
        bytes[at] = (uint8_t)(1 + 37 * at % 255);
    if (ch11_open(&draft, body, MOST, 0x50, EXTENDED) || ch11_add(&draft, body, MOST, time + 1, 0x9ABC, bytes, BLOCK) || ch11_close(&draft, body, MOST))
        return 0;
    return ch11_write_packet(&fields, body, draft.used, out, room, &written) ? 0 : written.length;
}

/* The packets of the tests and one that is made here; gives how many bytes they have. */
static size_t make_recording(uint8_t *bytes, size_t room)
{
    memcpy(bytes, M, sizeof M);
    memcpy(bytes + sizeof M, L, sizeof L);
    size_t made = make_packet(bytes + sizeof M + sizeof L, room - sizeof M - sizeof L);
    return made == 0 ? 0 : sizeof M + sizeof L + made;
}

int main(int count, char **names)
{
    static uint8_t bytes[MOST];
    size_t length = make_recording(bytes, MOST);
    int wrong = length == 0 || !copy_is_seen();
    if (wrong)
        fprintf(stderr, "no packet was made, or a header sum that copies was not told from one that does not\n");
    read_recording(bytes, length);
    for (int name = 1; name < count; name++) {
        FILE *file = fopen(names[name], "rb");
        length = file ? fread(bytes, 1, MOST, file) : 0;
        if (length == 0) {
            fprintf(stderr, "%s: no recording there\n", names[name]);
            return 2;
        }
        fclose(file);
        read_recording(bytes, length);
    }
    build_bodies();
    fill_table();
    for (size_t one = 0; one < CALLS; one++) {
        printf("%s %zu\n", calls[one].name, calls[one].deepest);
        if (calls[one].copies > 0 || calls[one].deepest == 0) {
            fprintf(stderr, "%s: copies of lent bytes on its stack, %d times, or never run\n", calls[one].name, calls[one].copies);
            wrong = 1;
        }
    }
    return wrong;
}
