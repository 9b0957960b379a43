/* The story of a packet that a lab withdraws. The recording is read in pieces into one buffer, which keeps what it held behind its filled end.
 * Prints a line at each step; tests/run.sh holds the lines to what must be. */
#include <stdio.h>
#include <string.h>

#include "ch11.h"
#include "packets.h"

/* Recording 7, of which the buffer holds the piece from PIECE on: M, and behind it L. */
enum { RECORDING = 7, M_AT = 0, L_AT = sizeof M, WHOLE = sizeof M + sizeof L };
static const uint64_t PIECE = 700000000000;
static uint8_t buf[WHOLE];

static struct ch11_table table; /* all zeros: empty */
static uint8_t store[CH11_STORE_BYTES];

/* Reads the piece again, as much as the lab has of it now; gives the filled end. */
static size_t read_piece(size_t lab_has)
{
    uint8_t lab[WHOLE];
    memcpy(lab + M_AT, M, sizeof M);
    memcpy(lab + L_AT, L, sizeof L);
    memcpy(buf, lab, lab_has);
    return lab_has;
}

static void keep(size_t at, size_t filled)
{
    struct ch11_added added;
    if (ch11_renewal_add(&table, store, sizeof store, RECORDING, PIECE + at, buf, sizeof buf, at, filled, &added) != CH11_NONE)
        printf("not kept (%d)\n", (int)added.refusal.number);
    else
        printf("kept in slot %d\n", (int)added.slot);
}

static void renew(const char *step, size_t at, size_t filled)
{
    struct ch11_renewed renewed;
    if (ch11_renewal_renew(&table, store, sizeof store, RECORDING, PIECE + at, buf, sizeof buf, at, filled, &renewed) != CH11_NONE)
        printf("%s: refused (%d)\n", step, (int)renewed.refusal.number);
    else if (renewed.lives)
        printf("%s: lives\n", step);
    else
        printf("%s: dropped (%d)\n", step, (int)renewed.cause.number);
}

static void show_entries(void)
{
    for (size_t k = ch11_renewal_next(&table, 0); k < CH11_SLOTS; k = ch11_renewal_next(&table, k + 1)) {
        int as_read = memcmp(store + k * CH11_SLOT_BYTES, k == 0 ? M : L, table.slots[k].length) == 0;
        printf("live: slot %zu, place %llu, bytes %s\n", k, (unsigned long long)table.slots[k].place, as_read ? "as read" : "altered");
    }
}

int main(void)
{
    /* Two packets are read and kept; as long as the lab has them they live. */
    size_t filled = read_piece(WHOLE);
    keep(M_AT, filled);
    keep(L_AT, filled);
    renew("renewed", L_AT, read_piece(WHOLE));

    /* The lab withdraws the second. The buffer still holds it, behind the fill. */
    filled = read_piece(L_AT);
    printf("the buffer %s it behind the fill\n", memcmp(buf + L_AT, L, sizeof L) == 0 ? "still holds" : "lost");
    renew("withdrawn", L_AT, filled);

    /* Its name is gone, and the other lives on untouched. */
    show_entries();
    renew("the other", M_AT, filled);

    /* Put back, it must be added again. */
    filled = read_piece(WHOLE);
    renew("put back", L_AT, filled);
    keep(L_AT, filled);
    show_entries();
    return 0;
}
