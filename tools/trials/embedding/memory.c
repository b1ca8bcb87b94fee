/*
 * Refused memory: this program hands out memory in the place of the C library, and refuses the n-th
 * request of a call, for each n until the call makes no such request. (It asks for none itself, and
 * is linked with --wrap=malloc, --wrap=realloc and --wrap=free.) Each time the call has to
 * answer CERTPATH_OUT_OF_MEMORY and write nothing, or what it answers with all its memory; and
 * nothing may be left over. Calls on one item are made on each item of the bundle, `find` on its
 * first one, and `check` on what was found of that.
 *
 *     memory BUNDLE ANCHORS VOUCHERS YEAR-MONTH-DAY FILE     prints `N passed, M failed`
 *
 * VOUCHERS are digests, 64 octets a pair; FILE is one of any form, which is loaded.
 */
#include "certpath.h"
#include <stdio.h>
#include <stdlib.h>
#include <string.h>

/* ---- what the library asks memory of: by --wrap the linker calls these for the C library's */

static size_t requests, refused, blocks;

/* Whether this request is the one that is refused. */
static int is_refused(void)
{
    return ++requests == refused;
}

void *__real_malloc(size_t size);
void *__real_realloc(void *block, size_t size);
void __real_free(void *block);
void *__wrap_malloc(size_t size);
void *__wrap_realloc(void *block, size_t size);
void __wrap_free(void *block);

void *__wrap_malloc(size_t size)
{
    if (is_refused())
        return NULL;
    blocks++;
    return __real_malloc(size);
}

void *__wrap_realloc(void *block, size_t size)
{
    return is_refused() ? NULL : __real_realloc(block, size);
}

void __wrap_free(void *block)
{
    blocks--;
    __real_free(block);
}

/* ---- what is called */

enum { ROOM = 1 << 16 };

/* What a call wrote: its results and its buffer. */
typedef struct {
    unsigned char result[256];
    unsigned char buffer[ROOM];
} written;

static unsigned char bundle[ROOM], anchors[ROOM], vouchers[ROOM], lines[3 * ROOM], any[ROOM];
static size_t bundle_length, anchors_length, vouchers_length, lines_length, any_length;
static certpath_span one;

typedef int32_t (*call)(written *);

static int32_t frame(written *to)
{
    return certpath_frame(bundle, bundle_length, CERTPATH_LIMIT, (certpath_span *)to->buffer,
                          ROOM / sizeof(certpath_span), (certpath_framed *)to->result);
}

static int32_t class_of(written *to)
{
    return certpath_class(bundle + one.offset, one.length, (uint32_t *)to->result);
}

static int32_t classes(written *to)
{
    return certpath_classes(bundle, bundle_length, CERTPATH_LIMIT, (uint32_t *)to->buffer,
                            ROOM / sizeof(uint32_t), (size_t *)to->result);
}

static int32_t shapes(written *to)
{
    return certpath_shapes(bundle, bundle_length, CERTPATH_LIMIT, (uint32_t *)to->buffer,
                           ROOM / sizeof(uint32_t), (size_t *)to->result);
}

static int32_t field(uint32_t number, written *to)
{
    return certpath_field(bundle + one.offset, one.length, number, to->buffer, ROOM,
                          (size_t *)to->result);
}

static int32_t issuer(written *to)
{
    return field(CERTPATH_ISSUER, to);
}

static int32_t subject(written *to)
{
    return field(CERTPATH_SUBJECT, to);
}

static int32_t key(written *to)
{
    return field(CERTPATH_KEY, to);
}

static int32_t serial(written *to)
{
    return field(CERTPATH_SERIAL, to);
}

static int32_t algorithm(written *to)
{
    return field(CERTPATH_ALGORITHM, to);
}

static int32_t contents(written *to)
{
    return certpath_item(bundle + one.offset, one.length, to->buffer, ROOM,
                         (certpath_contents *)to->result);
}

/* The extensions as structures, and their octets behind these. */
enum { EXTENSIONS = 64 };

static int32_t extensions(written *to)
{
    return certpath_extensions(bundle + one.offset, one.length,
                               to->buffer + EXTENSIONS * sizeof(certpath_extension),
                               ROOM - EXTENSIONS * sizeof(certpath_extension),
                               (certpath_extension *)to->buffer, EXTENSIONS,
                               (certpath_extension_sizes *)to->result);
}

static int32_t tbs(written *to)
{
    return certpath_tbs(bundle + one.offset, one.length, NULL, 0, to->buffer, ROOM,
                        (size_t *)to->result);
}

static int32_t tbs_without(written *to)
{
    static const unsigned char KEY_USAGE[] = {0x55, 0x1d, 0x0f};
    return certpath_tbs(bundle + one.offset, one.length, KEY_USAGE, sizeof KEY_USAGE, to->buffer,
                        ROOM, (size_t *)to->result);
}

static int32_t allows(written *to)
{
    static const unsigned char PURPOSE[] = {0x2b, 6, 1, 5, 5, 7, 3, 1};
    return certpath_allows(bundle + one.offset, one.length, PURPOSE, sizeof PURPOSE,
                           (uint32_t *)to->result);
}

static int32_t serves(written *to)
{
    static const char HOST[] = "www.example.test";
    return certpath_serves(bundle + one.offset, one.length, (const uint8_t *)HOST, sizeof HOST - 1,
                           (uint32_t *)to->result);
}

static int32_t load(written *to)
{
    return certpath_load(bundle, bundle_length, to->buffer, ROOM, NULL, 0,
                         (certpath_loaded *)to->result);
}

/* A file of any form; what is left out of it lies after the items. */
enum { LEFT = 64 };

static int32_t load_any(written *to)
{
    return certpath_load(any, any_length, to->buffer + LEFT * sizeof(certpath_left_out),
                         ROOM - LEFT * sizeof(certpath_left_out), (certpath_left_out *)to->buffer,
                         LEFT, (certpath_loaded *)to->result);
}

static int32_t shape(written *to)
{
    return certpath_shape(bundle + one.offset, one.length, (uint32_t *)to->result);
}

static int32_t times(written *to)
{
    return certpath_times(bundle + one.offset, one.length, (certpath_validity *)to->result);
}

/* The text of the subject's name, which is taken without a refusal. */
static int32_t name(written *to)
{
    unsigned char octets[512];
    size_t length, until = refused;
    int32_t status;
    refused = 0;
    status = certpath_field(bundle + one.offset, one.length, CERTPATH_SUBJECT, octets,
                            sizeof octets, &length);
    requests = 0;
    refused = until;
    if (status != CERTPATH_DONE)
        return status;
    return certpath_name(octets, length, to->buffer, ROOM, (size_t *)to->result);
}

static int32_t questions(written *to)
{
    return certpath_questions(bundle, bundle_length, anchors, anchors_length, CERTPATH_LIMIT,
                              (certpath_question *)to->buffer, ROOM / sizeof(certpath_question),
                              (size_t *)to->result);
}

/* What is found goes into the buffer, a path and behind it a table. */
enum { PATH = 64, ENTRIES = 1024 };

static certpath_settings settings = {0, CERTPATH_LIMIT, 0, {0, 0, 0, 0, 0, 0}, NULL, 0, NULL, 0};

static int32_t find(written *to)
{
    return certpath_find(bundle, bundle_length, anchors, anchors_length,
                         (const certpath_voucher *)vouchers,
                         vouchers_length / sizeof(certpath_voucher), &settings,
                         (size_t *)to->buffer, PATH, (uint64_t *)to->buffer + PATH, ENTRIES,
                         (certpath_answer *)to->result);
}

static written found;

/* The settings with a host and a purpose, for which each certificate is read. */
static certpath_settings serving_settings(void)
{
    static const char HOST[] = "www.example.test", PURPOSE[] = "\x2b\x06\x01\x05\x05\x07\x03\x01";
    certpath_settings asked = settings;
    asked.host = (const uint8_t *)HOST;
    asked.host_length = sizeof HOST - 1;
    asked.purpose = (const uint8_t *)PURPOSE;
    asked.purpose_length = sizeof PURPOSE - 1;
    return asked;
}

static int32_t serving(written *to)
{
    certpath_settings asked = serving_settings();
    return certpath_find(bundle, bundle_length, anchors, anchors_length,
                         (const certpath_voucher *)vouchers,
                         vouchers_length / sizeof(certpath_voucher), &asked,
                         (size_t *)to->buffer, PATH, (uint64_t *)to->buffer + PATH, ENTRIES,
                         (certpath_answer *)to->result);
}

static int32_t check(written *to)
{
    const certpath_answer *answer = (const certpath_answer *)found.result;
    return certpath_check(bundle, bundle_length, anchors, anchors_length,
                          (const certpath_voucher *)vouchers,
                          vouchers_length / sizeof(certpath_voucher), &settings, answer,
                          (const size_t *)found.buffer, answer->length,
                          (const uint64_t *)found.buffer + PATH, answer->entries,
                          (uint32_t *)to->result);
}

typedef int32_t (*reporter)(const uint8_t *, size_t, const uint8_t *, size_t, const uint8_t *,
                            size_t, const certpath_settings *, uint8_t *, size_t,
                            certpath_report *);

static int32_t report(reporter make, const certpath_settings *asked, written *to)
{
    return make(bundle, bundle_length, anchors, anchors_length, lines, lines_length, asked,
                to->buffer, ROOM, (certpath_report *)to->result);
}

static int32_t path(written *to)
{
    return report(certpath_path, &settings, to);
}

static int32_t why(written *to)
{
    return report(certpath_why, &settings, to);
}

static int32_t paths(written *to)
{
    return report(certpath_paths, &settings, to);
}

static int32_t serving_path(written *to)
{
    certpath_settings asked = serving_settings();
    return report(certpath_path, &asked, to);
}

static int32_t serving_why(written *to)
{
    certpath_settings asked = serving_settings();
    return report(certpath_why, &asked, to);
}

static int32_t serving_paths(written *to)
{
    certpath_settings asked = serving_settings();
    return report(certpath_paths, &asked, to);
}

typedef struct {
    const char *name;
    call make;
} named;

static const named OF_AN_ITEM[] = {
    {"class", class_of}, {"issuer", issuer}, {"subject", subject},     {"key", key},
    {"serial", serial},  {"times", times},   {"algorithm", algorithm}, {"name", name},
    {"item", contents},  {"tbs", tbs},       {"extensions", extensions},
    {"allows", allows},  {"serves", serves}, {"tbs without an extension", tbs_without},
    {"shape", shape}};

static const named OF_FILES[] = {
    {"load any", load_any},
    {"frame", frame}, {"load", load},           {"classes", classes}, {"shapes", shapes},
    {"find", find},   {"questions", questions}, {"serving", serving}, {"check", check},
    {"path", path},   {"why", why},             {"paths", paths},
    {"serving path", serving_path},             {"serving why", serving_why},
    {"serving paths", serving_paths}};

/* The vouchers as a file: two digests in hex a line. */
static void write_lines(void)
{
    size_t k;
    for (k = 0; k < vouchers_length; k++) {
        lines_length += (size_t)sprintf((char *)lines + lines_length, "%02x", vouchers[k]);
        if (k % 32 == 31)
            lines[lines_length++] = k % 64 == 63 ? '\n' : ' ';
    }
}

/* ---- trying */

static int passed, failed;

static void tell(const char *name, size_t n, int is_right, const char *what)
{
    if (is_right) {
        passed++;
    } else {
        failed++;
        printf("%s, request %zu refused: %s\n", name, n, what);
    }
}

/* Makes a call whose n-th request is refused, none where n is 0. */
static int32_t tried_with(call make, size_t n, written *to)
{
    memset(to, 0x5a, sizeof *to);
    requests = 0;
    refused = n;
    return make(to);
}

/* Gives how many requests the call makes with all its memory. */
static size_t all_refusals(const named *it)
{
    static written whole, part, blank;
    size_t n = 1;
    int32_t status, done = tried_with(it->make, 0, &whole);
    tell(it->name, 0,
         done == CERTPATH_DONE || done == CERTPATH_NO_FIELD || done == CERTPATH_NOT_CERTIFICATE,
         "it isn't done with all its memory");
    tell(it->name, 0, blocks == 0, "memory is left over");
    memset(&blank, 0x5a, sizeof blank);
    do {
        status = tried_with(it->make, n, &part);
        if (status == CERTPATH_OUT_OF_MEMORY)
            tell(it->name, n, memcmp(&part, &blank, sizeof part) == 0, "something was written");
        else
            tell(it->name, n, status == done && memcmp(&part, &whole, sizeof part) == 0,
                 "another answer");
        tell(it->name, n, blocks == 0, "memory is left over");
    } while (requests >= n++);
    return n - 2;
}

static void of_items(const certpath_span *spans, size_t count)
{
    size_t k, at, sum;
    for (k = 0; k < sizeof OF_AN_ITEM / sizeof *OF_AN_ITEM; k++) {
        sum = 0;
        for (at = 0; at < count; at++) {
            one = spans[at];
            sum += all_refusals(&OF_AN_ITEM[k]);
        }
        if (OF_AN_ITEM[k].make == shape)
            tell(OF_AN_ITEM[k].name, 0, sum == 0, "it asks for memory");
        printf("%s %zu, ", OF_AN_ITEM[k].name, sum);
    }
}

static void of_files(void)
{
    size_t k, sum, total = 0;
    for (k = 0; k < sizeof OF_FILES / sizeof *OF_FILES; k++) {
        sum = all_refusals(&OF_FILES[k]);
        total += sum;
        printf("%s %zu%s", OF_FILES[k].name, sum,
               k + 1 < sizeof OF_FILES / sizeof *OF_FILES ? ", " : " requests\n");
    }
    tell("all calls", 0, total > 0, "no request for memory was seen");
}

static size_t read_file(const char *path, unsigned char *octets)
{
    FILE *file = fopen(path, "rb");
    size_t length;
    if (!file) {
        fprintf(stderr, "cannot read %s\n", path);
        exit(4);
    }
    length = fread(octets, 1, ROOM, file);
    fclose(file);
    return length;
}

int main(int count, char **words)
{
    static written framed;
    certpath_moment *at = &settings.moment;
    if (count != 6 || sscanf(words[4], "%hd-%hhd-%hhd", &at->year, &at->month, &at->day) != 3)
        return 2;
    bundle_length = read_file(words[1], bundle);
    anchors_length = read_file(words[2], anchors);
    vouchers_length = read_file(words[3], vouchers);
    any_length = read_file(words[5], any);
    write_lines();
    if (frame(&framed) != CERTPATH_DONE || find(&found) != CERTPATH_DONE)
        return 1;
    of_items((const certpath_span *)framed.buffer,
             ((const certpath_framed *)framed.result)->count);
    of_files();
    printf("memory: %d passed, %d failed\n", passed, failed);
    return failed != 0;
}
