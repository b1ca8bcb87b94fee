/*
 * Each call of the header between pages that nothing may touch: what it reads ends just before such
 * a page, or begins just after one, and can't be written; its buffers have just the room that it
 * needs, or one element less, and end and begin there too. The results have to be those of a plain
 * call. Then with inputs that are empty, by a null pointer and by one to such a page, with inputs
 * that overlap, and in eight threads at once.
 *
 *     guards BUNDLE ANCHORS VOUCHERS ROUNDS         prints `N passed, M failed`
 *
 * VOUCHERS are digests, 64 octets a pair. The calls on one item are made on each item of the
 * bundle, and each thread makes all calls on all items ROUNDS times.
 */
#define _DEFAULT_SOURCE
#include "certpath.h"
#include "kept.h"
#include <pthread.h>
#include <stdint.h>
#include <stdio.h>
#include <stdlib.h>
#include <string.h>
#include <sys/mman.h>
#include <unistd.h>

enum { ROOM = 1 << 16, THREADS = 8, RESULT = 256, LARGEST = 32 };

/* ---- what is read, and what is written */

typedef struct {
    const uint8_t *octets;
    size_t length;
} part;

typedef struct {
    part bundle, anchors, vouchers, lines, item, name, host, purpose, without;
    const certpath_settings *settings;
    const certpath_answer *answer;
    part path, table; /* of the answer, aligned as their types are */
} inputs;

typedef struct {
    void *one, *two, *result;
    size_t room, other_room; /* elements of both buffers */
} outputs;

typedef struct {
    const char *name;
    int32_t (*make)(const inputs *, const outputs *);
    void (*needed)(const void *result, size_t *one, size_t *two);
    size_t element, other_element, result; /* sizes in octets; 0 where there is no buffer */
} call;

#define OF(part) (part).octets, (part).length
#define ROOM_OF(to, type) (type *)(to)->one, (to)->room
#define OTHER_OF(to, type) (type *)(to)->two, (to)->other_room

static int32_t frame(const inputs *of, const outputs *to)
{
    return certpath_frame(OF(of->bundle), CERTPATH_LIMIT, ROOM_OF(to, certpath_span), to->result);
}

static int32_t load(const inputs *of, const outputs *to)
{
    return certpath_load(OF(of->lines), ROOM_OF(to, uint8_t), OTHER_OF(to, certpath_left_out),
                         to->result);
}

static int32_t load_items(const inputs *of, const outputs *to)
{
    return certpath_load(OF(of->bundle), ROOM_OF(to, uint8_t), OTHER_OF(to, certpath_left_out),
                         to->result);
}

static int32_t class_of(const inputs *of, const outputs *to)
{
    return certpath_class(OF(of->item), to->result);
}

static int32_t classes(const inputs *of, const outputs *to)
{
    return certpath_classes(OF(of->bundle), CERTPATH_LIMIT, ROOM_OF(to, uint32_t), to->result);
}

static int32_t shape(const inputs *of, const outputs *to)
{
    return certpath_shape(OF(of->item), to->result);
}

static int32_t shapes(const inputs *of, const outputs *to)
{
    return certpath_shapes(OF(of->bundle), CERTPATH_LIMIT, ROOM_OF(to, uint32_t), to->result);
}

static int32_t issuer(const inputs *of, const outputs *to)
{
    return certpath_field(OF(of->item), CERTPATH_ISSUER, ROOM_OF(to, uint8_t), to->result);
}

static int32_t times(const inputs *of, const outputs *to)
{
    return certpath_times(OF(of->item), to->result);
}

static int32_t item(const inputs *of, const outputs *to)
{
    return certpath_item(OF(of->item), ROOM_OF(to, uint8_t), to->result);
}

static int32_t extensions(const inputs *of, const outputs *to)
{
    return certpath_extensions(OF(of->item), ROOM_OF(to, uint8_t), OTHER_OF(to, certpath_extension),
                               to->result);
}

static int32_t tbs(const inputs *of, const outputs *to)
{
    return certpath_tbs(OF(of->item), OF(of->without), ROOM_OF(to, uint8_t), to->result);
}

static int32_t name(const inputs *of, const outputs *to)
{
    return certpath_name(OF(of->name), ROOM_OF(to, uint8_t), to->result);
}

static int32_t allows(const inputs *of, const outputs *to)
{
    return certpath_allows(OF(of->item), OF(of->purpose), to->result);
}

static int32_t serves(const inputs *of, const outputs *to)
{
    return certpath_serves(OF(of->item), OF(of->host), to->result);
}

static int32_t questions(const inputs *of, const outputs *to)
{
    return certpath_questions(OF(of->bundle), OF(of->anchors), CERTPATH_LIMIT,
                              ROOM_OF(to, certpath_question), to->result);
}

static int32_t find(const inputs *of, const outputs *to)
{
    return certpath_find(OF(of->bundle), OF(of->anchors),
                         (const certpath_voucher *)of->vouchers.octets,
                         of->vouchers.length / sizeof(certpath_voucher), of->settings,
                         ROOM_OF(to, size_t), OTHER_OF(to, uint64_t), to->result);
}

static int32_t check(const inputs *of, const outputs *to)
{
    return certpath_check(OF(of->bundle), OF(of->anchors),
                          (const certpath_voucher *)of->vouchers.octets,
                          of->vouchers.length / sizeof(certpath_voucher), of->settings, of->answer,
                          (const size_t *)(const void *)of->path.octets,
                          of->path.length / sizeof(size_t),
                          (const uint64_t *)(const void *)of->table.octets,
                          of->table.length / sizeof(uint64_t), to->result);
}

static int32_t path(const inputs *of, const outputs *to)
{
    return certpath_path(OF(of->bundle), OF(of->anchors), OF(of->lines), of->settings,
                         ROOM_OF(to, uint8_t), to->result);
}

static int32_t why(const inputs *of, const outputs *to)
{
    return certpath_why(OF(of->bundle), OF(of->anchors), OF(of->lines), of->settings,
                        ROOM_OF(to, uint8_t), to->result);
}

static int32_t paths(const inputs *of, const outputs *to)
{
    return certpath_paths(OF(of->bundle), OF(of->anchors), OF(of->lines), of->settings,
                          ROOM_OF(to, uint8_t), to->result);
}

/* ---- how much room a call needs, by its result */

static void of_frame(const void *result, size_t *one, size_t *two)
{
    *one = ((const certpath_framed *)result)->count;
    *two = 0;
}

static void of_load(const void *result, size_t *one, size_t *two)
{
    *one = ((const certpath_loaded *)result)->length;
    *two = ((const certpath_loaded *)result)->left;
}

static void of_length(const void *result, size_t *one, size_t *two)
{
    *one = *(const size_t *)result;
    *two = 0;
}

static void of_item(const void *result, size_t *one, size_t *two)
{
    *one = ((const certpath_contents *)result)->length;
    *two = 0;
}

static void of_extensions(const void *result, size_t *one, size_t *two)
{
    *one = ((const certpath_extension_sizes *)result)->length;
    *two = ((const certpath_extension_sizes *)result)->count;
}

static void of_answer(const void *result, size_t *one, size_t *two)
{
    *one = ((const certpath_answer *)result)->length;
    *two = ((const certpath_answer *)result)->entries;
}

static void of_report(const void *result, size_t *one, size_t *two)
{
    *one = ((const certpath_report *)result)->length;
    *two = 0;
}

static void of_none(const void *result, size_t *one, size_t *two)
{
    (void)result;
    *one = *two = 0;
}

static const call CALLS[] = {
    {"frame", frame, of_frame, sizeof(certpath_span), 0, sizeof(certpath_framed)},
    {"load", load, of_load, 1, sizeof(certpath_left_out), sizeof(certpath_loaded)},
    {"load items", load_items, of_load, 1, sizeof(certpath_left_out), sizeof(certpath_loaded)},
    {"class", class_of, of_none, 0, 0, sizeof(uint32_t)},
    {"classes", classes, of_length, sizeof(uint32_t), 0, sizeof(size_t)},
    {"shape", shape, of_none, 0, 0, sizeof(uint32_t)},
    {"shapes", shapes, of_length, sizeof(uint32_t), 0, sizeof(size_t)},
    {"field", issuer, of_length, 1, 0, sizeof(size_t)},
    {"times", times, of_none, 0, 0, sizeof(certpath_validity)},
    {"item", item, of_item, 1, 0, sizeof(certpath_contents)},
    {"extensions", extensions, of_extensions, 1, sizeof(certpath_extension),
     sizeof(certpath_extension_sizes)},
    {"tbs", tbs, of_length, 1, 0, sizeof(size_t)},
    {"name", name, of_length, 1, 0, sizeof(size_t)},
    {"allows", allows, of_none, 0, 0, sizeof(uint32_t)},
    {"serves", serves, of_none, 0, 0, sizeof(uint32_t)},
    {"questions", questions, of_length, sizeof(certpath_question), 0, sizeof(size_t)},
    {"find", find, of_answer, sizeof(size_t), sizeof(uint64_t), sizeof(certpath_answer)},
    {"check", check, of_none, 0, 0, sizeof(uint32_t)},
    {"path", path, of_report, 1, 0, sizeof(certpath_report)},
    {"why", why, of_report, 1, 0, sizeof(certpath_report)},
    {"paths", paths, of_report, 1, 0, sizeof(certpath_report)},
};

enum { COUNT = sizeof CALLS / sizeof *CALLS };

/* ---- pages */

static size_t page;

/* Memory of so many octets between two pages that nothing may touch: at its end or its begin. */
typedef struct {
    uint8_t *whole, *octets;
    size_t pages;
} guarded;

static guarded between(size_t length, int is_at_end)
{
    guarded it;
    it.pages = (length + page - 1) / page + 2;
    it.whole = mmap(NULL, it.pages * page, PROT_NONE, MAP_PRIVATE | MAP_ANONYMOUS, -1, 0);
    if (it.whole == MAP_FAILED
        || (length > 0 && mprotect(it.whole + page, (it.pages - 2) * page, PROT_READ | PROT_WRITE)))
        exit(6);
    it.octets = it.whole + page + (is_at_end ? (it.pages - 2) * page - length : 0);
    if (length > 0)
        memset(it.whole + page, KEPT, (it.pages - 2) * page);
    return it;
}

static void freed(guarded it)
{
    munmap(it.whole, it.pages * page);
}

enum { MOST_COPIES = 16 };

static guarded copies[MOST_COPIES];
static int copied;

/* A copy of octets between such pages, which can't be written. */
static const void *copy_of(const void *octets, size_t length, int is_at_end)
{
    guarded it = between(length, is_at_end);
    if (length > 0) {
        memcpy(it.octets, octets, length);
        mprotect(it.whole + page, (it.pages - 2) * page, PROT_READ);
    }
    copies[copied++] = it;
    return it.octets;
}

static part part_of(part of, int is_at_end)
{
    part to = {copy_of(of.octets, of.length, is_at_end), of.length};
    return to;
}

/* All inputs of a call as such copies. */
static inputs copies_of(const inputs *of, int is_at_end)
{
    inputs to;
    static certpath_settings settings;
    to.bundle = part_of(of->bundle, is_at_end);
    to.anchors = part_of(of->anchors, is_at_end);
    to.vouchers = part_of(of->vouchers, is_at_end);
    to.lines = part_of(of->lines, is_at_end);
    to.item = part_of(of->item, is_at_end);
    to.name = part_of(of->name, is_at_end);
    to.host = part_of(of->host, is_at_end);
    to.purpose = part_of(of->purpose, is_at_end);
    to.without = part_of(of->without, is_at_end);
    to.path = part_of(of->path, is_at_end);
    to.table = part_of(of->table, is_at_end);
    settings = *of->settings;
    settings.host = settings.host ? to.host.octets : NULL;
    settings.purpose = settings.purpose ? to.purpose.octets : NULL;
    to.settings = copy_of(&settings, sizeof settings, is_at_end);
    to.answer = copy_of(of->answer, sizeof *of->answer, is_at_end);
    return to;
}

/* ---- trying */

static int passed, failed;

static void tell(int is_right, const char *call, const char *what)
{
    if (is_right) {
        passed++;
    } else {
        failed++;
        printf("%s: %s\n", call, what);
    }
}

/* What a plain call answers. */
typedef struct {
    int32_t status;
    size_t one, two;
    uint64_t result[RESULT / 8];
    uint64_t first[ROOM / 8], second[ROOM / 8];
} answer;

static void plain(const call *it, const inputs *of, answer *to)
{
    outputs into = {to->first, to->second, to->result, 0, 0};
    into.room = it->element ? ROOM / it->element : 0;
    into.other_room = it->other_element ? ROOM / it->other_element : 0;
    memset(to, KEPT, sizeof *to);
    to->status = it->make(of, &into);
    to->one = to->two = 0;
    if (to->status == CERTPATH_DONE)
        it->needed(to->result, &to->one, &to->two);
}

/* A call with so much room, all of it between such pages. */
static void of_rooms(const call *it, const inputs *of, const answer *is, size_t one, size_t two,
                     int is_at_end)
{
    guarded first = between(one * it->element, is_at_end);
    guarded second = between(two * it->other_element, is_at_end);
    guarded result = between(it->result, is_at_end);
    outputs into = {first.octets, second.octets, result.octets, one, two};
    int fits = one >= is->one && two >= is->two;
    int32_t status;
    /* (a buffer without room is null, or in a page that nothing may touch) */
    if (one == 0 && is_at_end)
        into.one = NULL;
    if (two == 0 && is_at_end)
        into.two = NULL;
    status = it->make(of, &into);
    tell(status == (is->status == CERTPATH_DONE && !fits ? CERTPATH_TOO_SMALL : is->status)
             && memcmp(result.octets, is->result, it->result) == 0,
         it->name, "another answer between pages");
    if (status == CERTPATH_DONE)
        tell(memcmp(first.octets, is->first, one * it->element) == 0
                 && (two == 0 || memcmp(second.octets, is->second, two * it->other_element) == 0),
             it->name, "other octets between pages");
    else
        tell((one == 0 || is_kept(first.octets, one * it->element))
                 && (two == 0 || is_kept(second.octets, two * it->other_element)),
             it->name, "a buffer was written");
    freed(first);
    freed(second);
    freed(result);
}

/* A call with just enough room, with one element less in each buffer, and with none. */
static void of_call(const call *it, const inputs *of, const inputs *copy, int is_at_end)
{
    static answer is;
    plain(it, of, &is);
    of_rooms(it, copy, &is, is.one, is.two, is_at_end);
    if (is.one > 0) {
        of_rooms(it, copy, &is, is.one - 1, is.two, is_at_end);
        of_rooms(it, copy, &is, 0, is.two, is_at_end);
    }
    if (is.two > 0) {
        of_rooms(it, copy, &is, is.one, is.two - 1, is_at_end);
        of_rooms(it, copy, &is, is.one, 0, is_at_end);
    }
}

static void of_pages(const inputs *of)
{
    int is_at_end;
    size_t k;
    for (is_at_end = 0; is_at_end < 2; is_at_end++) {
        inputs copy = copies_of(of, is_at_end);
        for (k = 0; k < COUNT; k++)
            of_call(&CALLS[k], of, &copy, is_at_end);
        while (copied > 0)
            freed(copies[--copied]);
    }
}

/* Whether two answers are one. */
static int is_same(const call *it, const answer *is, const answer *was)
{
    return is->status == was->status && memcmp(is->result, was->result, it->result) == 0
           && memcmp(is->first, was->first, ROOM) == 0
           && memcmp(is->second, was->second, ROOM) == 0;
}

/* The inputs by their numbers. */
enum { PARTS = 11 };

static part *part_at(inputs *of, size_t k)
{
    part *const all[PARTS] = {&of->bundle, &of->anchors, &of->vouchers, &of->lines,
                              &of->item,   &of->name,    &of->host,     &of->purpose,
                              &of->without, &of->path,   &of->table};
    return all[k];
}

/* Where octets hold others, which they do. */
static const uint8_t *within(part of, part other)
{
    size_t at = 0;
    while (at + other.length < of.length && memcmp(of.octets + at, other.octets, other.length) != 0)
        at++;
    return of.octets + at;
}

/* Each call by two inputs has one answer. */
static void tell_alike(const inputs *one, const inputs *other, const char *what)
{
    static answer is, was;
    size_t k;
    for (k = 0; k < COUNT; k++) {
        plain(&CALLS[k], other, &was);
        plain(&CALLS[k], one, &is);
        tell(is_same(&CALLS[k], &is, &was), CALLS[k].name, what);
    }
}

/* Each input in its turn without octets, by a null pointer and by one to where nothing may be read;
   and at last purpose and host of the settings. */
static void of_empty(const inputs *of)
{
    guarded nowhere = between(0, 0);
    part none = {NULL, 0}, away = {nowhere.octets, 0};
    certpath_settings null = *of->settings, far;
    inputs one, other;
    size_t k;
    for (k = 0; k < PARTS; k++) {
        one = other = *of;
        *part_at(&one, k) = none;
        *part_at(&other, k) = away;
        tell_alike(&one, &other, "another answer by an empty input");
    }
    null.purpose = null.host = NULL;
    null.purpose_length = null.host_length = 0;
    far = null;
    far.purpose = far.host = nowhere.octets;
    one = other = *of;
    one.settings = &null;
    other.settings = &far;
    tell_alike(&one, &other, "another answer by empty settings");
    freed(nowhere);
}

/* A copy of octets that overlaps nothing. */
static part apart_from(part of, uint64_t *room)
{
    part to = {(const uint8_t *)room, of.length};
    memcpy(room, of.octets, of.length);
    return to;
}

/* Inputs that overlap: the anchors are the bundle, the path of an answer is its table, and host,
   purpose and what is left out lie in the item; then vouchers and lines are the bundle too. */
static void of_overlaps(const inputs *of)
{
    static uint64_t rooms[5][ROOM / 8];
    inputs one = *of, apart = *of;
    certpath_settings settings = *of->settings, same = settings;
    if (of->item.length < LARGEST || of->table.length < of->path.length)
        return;
    one.anchors = of->bundle;
    one.path.octets = of->table.octets;
    one.without.octets = one.purpose.octets = of->item.octets;
    one.without.length = one.purpose.length = LARGEST;
    one.host.octets = within(of->bundle, of->host);
    same.purpose = one.purpose.octets;
    same.purpose_length = LARGEST;
    same.host = settings.host ? one.host.octets : NULL;
    apart.anchors = apart_from(one.anchors, rooms[0]);
    apart.path = apart_from(one.path, rooms[1]);
    apart.without = apart.purpose = apart_from(one.purpose, rooms[2]);
    settings.purpose = apart.purpose.octets;
    settings.purpose_length = LARGEST;
    one.settings = &same;
    apart.settings = &settings;
    tell_alike(&one, &apart, "another answer where inputs overlap");
    one.vouchers = one.lines = of->bundle;
    apart.vouchers = apart_from(of->bundle, rooms[3]);
    apart.lines = apart_from(of->bundle, rooms[4]);
    tell_alike(&one, &apart, "another answer where vouchers overlap the files");
}

/* ---- threads */

/* What the items of a bundle are asked for, and what a plain call answers: so many at most. */
enum { MOST = 8 };

static inputs asked[MOST];
static answer expected[MOST][COUNT];
static size_t asked_count;
static long rounds;

typedef struct {
    pthread_t id;
    size_t first; /* the item and the call that it begins with */
    int is_wrong;
} thread;

/* All calls on all items, in an order of its own. */
static void *worker(void *given)
{
    thread *own = given;
    answer *found = malloc(sizeof *found);
    long round;
    size_t k, at;
    own->is_wrong = found == NULL;
    for (round = 0; found && round < rounds; round++)
        for (k = own->first; k < own->first + asked_count * COUNT; k++) {
            const call *it = &CALLS[k % COUNT];
            at = k / COUNT % asked_count;
            plain(it, &asked[at], found);
            own->is_wrong |= !is_same(it, found, &expected[at][k % COUNT]);
        }
    free(found);
    return NULL;
}

static void of_threads(void)
{
    static thread threads[THREADS];
    size_t k, at;
    for (at = 0; at < asked_count; at++)
        for (k = 0; k < COUNT; k++)
            plain(&CALLS[k], &asked[at], &expected[at][k]);
    for (k = 0; k < THREADS; k++) {
        threads[k].first = k * asked_count * COUNT / THREADS;
        if (pthread_create(&threads[k].id, NULL, worker, &threads[k]))
            exit(6);
    }
    for (k = 0; k < THREADS; k++) {
        pthread_join(threads[k].id, NULL);
        tell(!threads[k].is_wrong, "threads", "another answer in a thread");
    }
}

/* ---- the files */

static uint8_t bundle[ROOM], anchors[ROOM], vouchers[ROOM + 1], lines[3 * ROOM];

static part read_file(const char *path, uint8_t *octets)
{
    FILE *file = fopen(path, "rb");
    part it;
    if (!file)
        exit(4);
    it.octets = octets;
    it.length = fread(octets, 1, ROOM, file);
    fclose(file);
    return it;
}

/* The vouchers as a file: two digests in hex a line. */
static part lines_of(part of)
{
    part it = {lines, 0};
    size_t k;
    for (k = 0; k < of.length; k++) {
        it.length += (size_t)sprintf((char *)lines + it.length, "%02x", of.octets[k]);
        if (k % 32 == 31)
            lines[it.length++] = k % 64 == 63 ? '\n' : ' ';
    }
    return it;
}

#define TEXT(text) {(const uint8_t *)(text), sizeof(text) - 1}

/* What is found of a target and its settings: an answer, and its name. */
static void ask(inputs *of, answer *named, answer *found)
{
    size_t k;
    for (k = 0; k < COUNT; k++)
        if (CALLS[k].make == issuer)
            plain(&CALLS[k], of, named);
    of->name.octets = (const uint8_t *)named->first;
    of->name.length = named->one;
    for (k = 0; k < COUNT; k++)
        if (CALLS[k].make == find)
            plain(&CALLS[k], of, found);
    of->answer = (const certpath_answer *)found->result;
    of->path.octets = (const uint8_t *)found->first;
    of->path.length = found->one * sizeof(size_t);
    of->table.octets = (const uint8_t *)found->second;
    of->table.length = found->two * sizeof(uint64_t);
}

int main(int count, char **words)
{
    static const part HOST = TEXT("www.example.test");
    static const part PURPOSE = TEXT("\x2b\x06\x01\x05\x05\x07\x03\x01");
    static const part KEY_USAGE = TEXT("\x55\x1d\x0f");
    static answer framed, named[MOST], found[MOST];
    static certpath_settings settings[MOST];
    const certpath_settings plainly = {0,    CERTPATH_LIMIT, 0,    {2027, 1, 1, 0, 0, 0},
                                       NULL, 0,              NULL, 0};
    const certpath_span *spans = (const certpath_span *)framed.first;
    inputs of;
    size_t k;
    if (count != 5)
        return 2;
    page = (size_t)sysconf(_SC_PAGESIZE);
    rounds = strtol(words[4], NULL, 10);
    memset(&of, 0, sizeof of);
    of.bundle = read_file(words[1], bundle);
    of.anchors = read_file(words[2], anchors);
    of.vouchers = read_file(words[3], vouchers + 1); /* (vouchers may lie anywhere) */
    of.lines = lines_of(of.vouchers);
    of.host = HOST;
    of.purpose = PURPOSE;
    of.without = KEY_USAGE;
    plain(&CALLS[0], &of, &framed);
    /* (all items, and at last the bundle as if it were one) */
    asked_count = framed.one + 1;
    if (asked_count > MOST)
        return 2;
    for (k = 0; k < asked_count; k++) {
        of.item = of.bundle;
        if (k < framed.one) {
            of.item.octets = of.bundle.octets + spans[k].offset;
            of.item.length = spans[k].length;
        }
        settings[k] = plainly;
        settings[k].target = k;
        settings[k].host = k % 2 ? HOST.octets : NULL;
        settings[k].host_length = k % 2 ? HOST.length : 0;
        of.settings = &settings[k];
        ask(&of, &named[k], &found[k]);
        asked[k] = of;
        of_pages(&of);
        of_empty(&of);
        of_overlaps(&of);
    }
    of_threads();
    printf("guards: %d passed, %d failed\n", passed, failed);
    return failed != 0;
}
