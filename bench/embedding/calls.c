/* Times frame, class and find of dist/libcertpath.a on files: processor seconds, the least of some
 * rounds, a line each.
 *
 *     calls BUNDLE ANCHORS VOUCHERS ROUNDS     VOUCHERS: 64 octets a pair
 */
#include <stdint.h>
#include <stdio.h>
#include <stdlib.h>
#include <time.h>

#include "certpath.h"

typedef struct {
    uint8_t *octets;
    size_t length;
} file;

static void fail(const char *what)
{
    fprintf(stderr, "%s\n", what);
    exit(1);
}

static void need(int32_t status)
{
    if (status != CERTPATH_DONE) {
        fail("a call wasn't done");
    }
}

static void *room_for(size_t count, size_t size)
{
    void *room = malloc(count * size + 1);
    if (room == NULL) {
        fail("out of memory");
    }
    return room;
}

static file read_file(const char *path)
{
    FILE *from = fopen(path, "rb");
    file it;
    if (from == NULL || fseek(from, 0, SEEK_END) != 0) {
        fail(path);
    }
    it.length = (size_t)ftell(from);
    it.octets = room_for(it.length, 1);
    rewind(from);
    if (fread(it.octets, 1, it.length, from) != it.length) {
        fail(path);
    }
    fclose(from);
    return it;
}

static double now(void)
{
    struct timespec time;
    clock_gettime(CLOCK_PROCESS_CPUTIME_ID, &time);
    return (double)time.tv_sec + 1e-9 * (double)time.tv_nsec;
}

static void keep_least(double *least, double start)
{
    double seconds = now() - start;
    if (*least == 0 || seconds < *least) {
        *least = seconds;
    }
}

int main(int count, char **words)
{
    double of_frame = 0, of_class = 0, of_find = 0;
    size_t certificates = 0, length = 0;
    if (count != 5) {
        fail("calls BUNDLE ANCHORS VOUCHERS ROUNDS");
    }
    file bundle = read_file(words[1]), anchors = read_file(words[2]), pairs = read_file(words[3]);
    for (int round = 0; round < atoi(words[4]); round++) {
        certpath_framed framed;
        size_t room = bundle.length / 64 + 16;
        double start = now();
        certpath_span *items = room_for(room, sizeof *items);
        need(certpath_frame(bundle.octets, bundle.length, CERTPATH_LIMIT, items, room, &framed));
        keep_least(&of_frame, start);

        start = now();
        certificates = 0;
        for (size_t it = 0; it < framed.count; it++) {
            uint32_t found;
            need(certpath_class(bundle.octets + items[it].offset, items[it].length, &found));
            certificates += found == CERTPATH_CERTIFICATE;
        }
        keep_least(&of_class, start);

        certpath_settings settings = {0, CERTPATH_LIMIT, 0, {2026, 12, 1, 0, 0, 0}};
        certpath_answer answer;
        start = now();
        size_t *path = room_for(16, sizeof *path);
        uint64_t *table = room_for(16 * framed.count, sizeof *table);
        need(certpath_find(bundle.octets, bundle.length, anchors.octets, anchors.length,
                           (const certpath_voucher *)pairs.octets, pairs.length / 64, &settings,
                           path, 16, table, 16 * framed.count, &answer));
        keep_least(&of_find, start);
        length = answer.length;
        free(items);
        free(path);
        free(table);
    }
    printf("frame %.6f\nclass %.6f\nfind %.6f\nfound %zu %zu\n", of_frame, of_class, of_find,
           certificates, length);
    return 0;
}
