/* Prints the channel of each packet in a file.
 *
 *     cc -I include examples/c/channels.c crates/ch11/out/libch11.a -o channels && ./channels FILE
 */
#include <stdio.h>
#include <stdlib.h>

#include "ch11.h"

/* Prints the channel of each packet in buf[0] to buf[filled - 1]; gives the refusal that ends it, of number 0 at the exact end.
 * buf[0] is the recording's first byte, so that `at` is also the base. */
static struct ch11_refusal print_channels(const uint8_t *buf, size_t len, size_t filled)
{
    struct ch11_packet packet = {0};
    for (size_t at = 0; at < filled; at += packet.length) {
        if (ch11_read_packet(buf, len, at, filled, at, &packet) != CH11_NONE) {
            break;
        }
        printf("%llu\n", (unsigned long long)packet.fields.channel);
    }
    return packet.refusal;
}

/* Reads all of a file into a buffer that grows by doubling; gives the buffer, its length and how much of it is filled. NULL: no memory, or
 * the file can't be read. */
static uint8_t *read_all(FILE *file, size_t *len, size_t *filled)
{
    uint8_t *buf = NULL;
    *len = 0;
    *filled = 0;
    while (*filled == *len) {
        size_t longer = *len == 0 ? 65536 : 2 * *len;
        uint8_t *grown = realloc(buf, longer);
        if (grown == NULL) {
            free(buf);
            return NULL;
        }
        buf = grown;
        *len = longer;
        *filled += fread(buf + *filled, 1, *len - *filled, file);
    }
    if (ferror(file)) {
        free(buf);
        return NULL;
    }
    return buf;
}

int main(int argc, char **argv)
{
    FILE *file = argc == 2 ? fopen(argv[1], "rb") : NULL;
    if (file == NULL) {
        fprintf(stderr, "use: channels FILE\n");
        return 2;
    }
    size_t len, filled;
    uint8_t *buf = read_all(file, &len, &filled);
    fclose(file);
    if (buf == NULL) {
        fprintf(stderr, "%s can't be read\n", argv[1]);
        return 2;
    }
    struct ch11_refusal refusal = print_channels(buf, len, filled);
    free(buf);
    if (refusal.number != CH11_NONE) {
        fprintf(stderr, "refused with %llu at byte %llu of the recording\n", (unsigned long long)refusal.number,
                (unsigned long long)refusal.recording_place);
        if (refusal.reason != CH11_REASON_NONE) {
            fprintf(stderr, "reason %llu\n", (unsigned long long)refusal.reason);
        }
        return 1;
    }
    return 0;
}
