/*
 * Reads a bundle and anchors, shows the certificates of the bundle by name, and answers by OpenSSL
 * the questions that certpath asks: which keys verify which signatures. Prints a line for each, and
 * at a date the first of the shortest paths from the first item to an anchor. The voucher file that
 * `certpath path` reads is written into a third file, which must be a new one.
 *
 *     cc -Iinclude examples/c/questions.c -o questions dist/libcertpath.a -lcrypto
 *     ./questions samples/bundle.der samples/root.der new-vouchers.txt 2027-01-01
 *
 * Both files are DER items one after another, as ./bundle makes them.
 */
#include "certpath.h"
#include <openssl/evp.h>
#include <openssl/sha.h>
#include <openssl/x509.h>
#include <stdio.h>
#include <stdlib.h>
#include <string.h>

/* ---- files and their items */

typedef struct {
    unsigned char *octets;
    size_t length;
    certpath_span *items;
    size_t count;
} file_of_items;

static void refuse(const char *what)
{
    fprintf(stderr, "questions: %s\n", what);
    exit(1);
}

static void refuse_file(const char *what, const char *path)
{
    fprintf(stderr, "questions: %s %s\n", what, path);
    exit(1);
}

static void *room_for(size_t count, size_t size)
{
    void *room = calloc(count ? count : 1, size);
    if (!room)
        refuse("out of memory");
    return room;
}

/* Reads the octets of a file or a pipe, into room that is doubled. */
static void read_octets(const char *path, file_of_items *all)
{
    size_t room = 1 << 15;
    FILE *file = fopen(path, "rb");
    if (!file)
        refuse_file("cannot read", path);
    while (all->length == room || !all->octets) {
        room *= 2;
        all->octets = realloc(all->octets, room);
        if (!all->octets)
            refuse("out of memory");
        all->length += fread(all->octets + all->length, 1, room - all->length, file);
    }
    if (ferror(file))
        refuse_file("cannot read", path);
    fclose(file);
}

static file_of_items read_items(const char *path)
{
    file_of_items all = {NULL, 0, NULL, 0};
    certpath_framed framed = {0, 0, CERTPATH_CLEAN};
    int32_t status;
    read_octets(path, &all);
    /* a first call asks how many items there are */
    status = certpath_frame(all.octets, all.length, CERTPATH_LIMIT, NULL, 0, &framed);
    if (status == CERTPATH_TOO_SMALL) {
        all.count = framed.count;
        all.items = room_for(all.count, sizeof *all.items);
        status = certpath_frame(all.octets, all.length, CERTPATH_LIMIT, all.items, all.count,
                                &framed);
    }
    if (status != CERTPATH_DONE)
        refuse("out of memory");
    if (framed.end != CERTPATH_CLEAN)
        refuse_file("these are no DER items to the end; ./bundle makes such of PEM:", path);
    return all;
}

/* ---- what items hold */

/* The key of a certificate, which has fewer octets than the certificate; the caller frees it. */
static unsigned char *key_of(const file_of_items *file, size_t position, size_t *length)
{
    const unsigned char *item = file->octets + file->items[position].offset;
    size_t size = file->items[position].length;
    unsigned char *octets = room_for(size, 1);
    if (certpath_field(item, size, CERTPATH_KEY, octets, size, length) != CERTPATH_DONE)
        refuse("cannot read a key");
    return octets;
}

/*
 * Prints text for one line of a terminal: octets that aren't printable ASCII as a backslash and two
 * hex digits, as RFC 4514, 2.4 has them, and so the backslash. A common name may hold line ends,
 * terminal controls, and marks that turn the direction of writing.
 */
static void show_text(const unsigned char *text, size_t length)
{
    size_t k;
    for (k = 0; k < length; k++) {
        if (text[k] >= 32 && text[k] < 127 && text[k] != '\\')
            putchar(text[k]);
        else
            printf("\\%02X", text[k]);
    }
}

/* A name's text has fewer than 4 octets for one of the name. */
static void show_name(const unsigned char *name, size_t length)
{
    size_t size = 4 * length;
    unsigned char *text = room_for(size, 1);
    if (certpath_name(name, length, text, size, &size) == CERTPATH_DONE)
        show_text(text, size);
    free(text);
}

/* Reads each item once: its fields lie one after another, the issuer first, and then the subject. */
static void show_items(const file_of_items *file)
{
    size_t k;
    for (k = 0; k < file->count; k++) {
        const unsigned char *item = file->octets + file->items[k].offset;
        size_t length = file->items[k].length;
        unsigned char *fields = room_for(length, 1);
        certpath_contents contents;
        const certpath_moment *first = &contents.validity.first;
        if (certpath_item(item, length, fields, length, &contents) != CERTPATH_DONE)
            refuse("out of memory");
        if (contents.item_class == CERTPATH_CERTIFICATE) {
            printf("%zu certificate: ", k);
            show_name(fields + contents.issuer.length, contents.subject.length);
        } else if (contents.item_class == CERTPATH_LIST) {
            printf("%zu list of: ", k);
            show_name(fields, contents.issuer.length);
        } else {
            printf("%zu something else: ", k);
        }
        if (contents.item_class != CERTPATH_OTHER)
            printf(", from %04d-%02d-%02d", first->year, first->month, first->day);
        printf("\n");
        free(fields);
    }
}

/* ---- signatures, which OpenSSL reads and verifies by itself */

static int is_verified(const file_of_items *bundle, size_t position, const unsigned char *key,
                       size_t length)
{
    const unsigned char *at = bundle->octets + bundle->items[position].offset, *key_at = key;
    long size = (long)bundle->items[position].length;
    EVP_PKEY *public = d2i_PUBKEY(NULL, &key_at, (long)length);
    X509 *certificate = d2i_X509(NULL, &at, size);
    X509_CRL *list = NULL;
    int is_right = 0;
    if (!certificate) {
        at = bundle->octets + bundle->items[position].offset;
        list = d2i_X509_CRL(NULL, &at, size);
    }
    if (public && certificate)
        is_right = X509_verify(certificate, public) == 1;
    else if (public && list)
        is_right = X509_CRL_verify(list, public) == 1;
    X509_free(certificate);
    X509_CRL_free(list);
    EVP_PKEY_free(public);
    return is_right;
}

static void write_digest(FILE *to, const unsigned char *digest, char behind)
{
    size_t k;
    for (k = 0; k < SHA256_DIGEST_LENGTH; k++)
        fprintf(to, "%02x", digest[k]);
    fputc(behind, to);
}

/* Gives the vouchers, and how many they are; the caller frees them. */
static certpath_voucher *answer_questions(const file_of_items *bundle, const file_of_items *anchors,
                                          FILE *to, size_t *vouched)
{
    size_t count, k, length;
    certpath_question *questions;
    certpath_voucher *vouchers;
    certpath_questions(bundle->octets, bundle->length, anchors->octets, anchors->length,
                       CERTPATH_LIMIT, NULL, 0, &count);
    questions = room_for(count, sizeof *questions);
    vouchers = room_for(count, sizeof *vouchers);
    *vouched = 0;
    if (certpath_questions(bundle->octets, bundle->length, anchors->octets, anchors->length,
                           CERTPATH_LIMIT, questions, count, &count) != CERTPATH_DONE)
        refuse("cannot ask questions");
    for (k = 0; k < count; k++) {
        const certpath_question *one = &questions[k];
        unsigned char *key = key_of(one->is_anchor ? anchors : bundle, one->holder, &length);
        int yes = is_verified(bundle, one->item, key, length);
        printf("item %zu by the key of %s %zu: %s\n", one->item, one->is_anchor ? "anchor" : "item",
               one->holder, yes ? "yes" : "no");
        if (yes) {
            const certpath_span *span = &bundle->items[one->item];
            certpath_voucher *voucher = &vouchers[(*vouched)++];
            SHA256(key, length, voucher->key);
            SHA256(bundle->octets + span->offset, span->length, voucher->item);
            write_digest(to, voucher->key, ' ');
            write_digest(to, voucher->item, '\n');
        }
        free(key);
    }
    free(questions);
    return vouchers;
}

/* ---- the path from the first item */

static void show_path(const file_of_items *bundle, const file_of_items *anchors,
                      const certpath_voucher *vouchers, size_t count, const char *date)
{
    certpath_settings settings;
    certpath_moment *at = &settings.moment;
    certpath_answer answer = {0, 0, 0, 0};
    size_t *path = NULL, k;
    uint64_t *table = NULL;
    int32_t status;
    memset(&settings, 0, sizeof settings);
    settings.limit = CERTPATH_LIMIT;
    if (sscanf(date, "%hd-%hhd-%hhd", &at->year, &at->month, &at->day) != 3)
        refuse("a date is written as 2027-01-01");
    /* a first call asks how much room the answer needs */
    status = certpath_find(bundle->octets, bundle->length, anchors->octets, anchors->length,
                           vouchers, count, &settings, NULL, 0, NULL, 0, &answer);
    if (status == CERTPATH_TOO_SMALL) {
        path = room_for(answer.length, sizeof *path);
        table = room_for(answer.entries, sizeof *table);
        status = certpath_find(bundle->octets, bundle->length, anchors->octets, anchors->length,
                               vouchers, count, &settings, path, answer.length, table,
                               answer.entries, &answer);
    }
    if (status != CERTPATH_DONE)
        refuse(status == CERTPATH_BAD_MOMENT ? "there is no such date" : "out of memory");
    if (answer.outcome == CERTPATH_PATH) {
        printf("path:");
        for (k = 0; k < answer.length; k++)
            printf(" item %zu,", path[k]);
        printf(" anchor %zu\n", answer.anchor);
    } else {
        printf("no path\n");
    }
    free(path);
    free(table);
}

static void release(file_of_items *file)
{
    free(file->octets);
    free(file->items);
}

int main(int count, char **words)
{
    file_of_items bundle, anchors;
    certpath_voucher *vouchers;
    size_t vouched;
    FILE *to;
    if (count != 4 && count != 5)
        refuse("usage: questions BUNDLE ANCHORS VOUCHERS [YEAR-MONTH-DAY]");
    bundle = read_items(words[1]);
    anchors = read_items(words[2]);
    to = fopen(words[3], "wx");
    if (!to)
        refuse_file("the file of the vouchers is there already, or cannot be written:", words[3]);
    show_items(&bundle);
    vouchers = answer_questions(&bundle, &anchors, to, &vouched);
    if (count == 5)
        show_path(&bundle, &anchors, vouchers, vouched, words[4]);
    free(vouchers);
    release(&bundle);
    release(&anchors);
    return fclose(to) != 0;
}
