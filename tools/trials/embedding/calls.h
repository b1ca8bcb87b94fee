/*
 * What calls.c, items.c and changed.c share: the files that they are run on, and how they count.
 */
#include "certpath.h"
#include "kept.h"
#include <stdio.h>
#include <stdlib.h>
#include <string.h>

enum { ROOM = 1 << 16, MOST = 64 };

static unsigned char bundle[ROOM], anchors[ROOM], lines[3 * ROOM];
static certpath_voucher vouchers[ROOM / sizeof(certpath_voucher)];
static size_t bundle_length, anchors_length, vouchers_count, lines_length;
static int passed, failed;

static const certpath_settings IN_2027 = {0,    CERTPATH_LIMIT, 0,    {2027, 1, 1, 0, 0, 0},
                                          NULL, 0,              NULL, 0};

static void tell(int is_right, const char *what)
{
    if (is_right) {
        passed++;
    } else {
        failed++;
        printf("calls: %s\n", what);
    }
}

/* The vouchers as a file: two digests in hex a line. */
static void write_lines(void)
{
    const unsigned char *octets = (const unsigned char *)vouchers;
    size_t k, all = vouchers_count * sizeof *vouchers;
    for (k = 0; k < all; k++) {
        lines_length += (size_t)sprintf((char *)lines + lines_length, "%02x", octets[k]);
        if (k % 32 == 31)
            lines[lines_length++] = k % 64 == 63 ? '\n' : ' ';
    }
}

static size_t octets_of(const char *path, unsigned char *to)
{
    FILE *file = fopen(path, "rb");
    size_t length;
    if (!file)
        exit(4);
    length = fread(to, 1, ROOM, file);
    fclose(file);
    return length;
}

/* Reads a bundle, anchors and vouchers, digests of 64 octets a pair. */
static void read_inputs(char **words)
{
    bundle_length = octets_of(words[0], bundle);
    anchors_length = octets_of(words[1], anchors);
    vouchers_count = octets_of(words[2], (unsigned char *)vouchers) / sizeof *vouchers;
    write_lines();
}
