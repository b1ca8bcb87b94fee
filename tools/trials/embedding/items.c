/*
 * The calls on one item, on the items of a bundle: what they write has to be what the header says,
 * in rooms of all but one octet and of all. Meant to run under the sanitizers.
 *
 *     items BUNDLE ANCHORS VOUCHERS
 *
 * VOUCHERS are digests, 64 octets a pair. Prints `N passed, M failed`.
 */
#include "calls.h"

static void of_fields(const unsigned char *item, size_t length)
{
    unsigned char text[ROOM];
    size_t needed, count;
    memset(text, KEPT, sizeof text);
    tell(certpath_field(item, length, CERTPATH_KEY, text, 0, &needed) == CERTPATH_TOO_SMALL
             && needed > 0,
         "no room for a field");
    tell(certpath_field(item, length, CERTPATH_KEY, text, needed - 1, &count) == CERTPATH_TOO_SMALL
             && count == needed && is_kept(text, sizeof text),
         "room for all but one octet");
    tell(certpath_field(item, length, CERTPATH_KEY, text, needed, &count) == CERTPATH_DONE
             && is_kept(text + needed, sizeof text - needed),
         "just enough room");
    tell(certpath_field(item, length, UINT32_MAX, text, ROOM, &count) == CERTPATH_NO_FIELD,
         "a field that there isn't");
}

/* Whether a part of `octets` is what certpath_field writes of an item. */
static int is_field(const unsigned char *item, size_t length, uint32_t field,
                    const certpath_extent *extent, const unsigned char *octets)
{
    unsigned char text[ROOM];
    size_t size;
    return certpath_field(item, length, field, text, ROOM, &size) == CERTPATH_DONE
           && extent->is_there && extent->length == size && memcmp(octets, text, size) == 0;
}

/* The contents of a certificate, in rooms of all but one octet and of all. */
static void of_contents(const unsigned char *item, size_t length)
{
    static unsigned char text[ROOM];
    unsigned char *at = text;
    certpath_contents found, again;
    certpath_validity validity;
    memset(text, KEPT, sizeof text);
    tell(certpath_item(item, length, NULL, 0, &found) == CERTPATH_TOO_SMALL && found.length > 0
             && found.length < length,
         "no room for contents");
    tell(certpath_item(item, length, text, found.length - 1, &again) == CERTPATH_TOO_SMALL
             && again.length == found.length && is_kept(text, sizeof text),
         "room for all contents but one octet");
    tell(certpath_item(item, length, text, found.length, &again) == CERTPATH_DONE
             && is_kept(text + found.length, sizeof text - found.length)
             && again.item_class == CERTPATH_CERTIFICATE,
         "just enough room for contents");
    tell(is_field(item, length, CERTPATH_ISSUER, &again.issuer, at), "the issuer of contents");
    at += again.issuer.length;
    tell(is_field(item, length, CERTPATH_SUBJECT, &again.subject, at), "the subject of contents");
    at += again.subject.length;
    tell(is_field(item, length, CERTPATH_KEY, &again.key, at), "the key of contents");
    at += again.key.length;
    tell(is_field(item, length, CERTPATH_SERIAL, &again.serial, at), "the number of contents");
    at += again.serial.length;
    tell(is_field(item, length, CERTPATH_ALGORITHM, &again.algorithm, at), "the algorithm");
    at += again.algorithm.length;
    tell(again.subject_key_id.is_there && again.subject_key_id.length == 20
             && again.authority_key_id.is_there && again.authority_key_id.length == 20
             && at + 40 == text + again.length,
         "the key identifiers of contents");
    tell(certpath_times(item, length, &validity) == CERTPATH_DONE
             && validity.first.year == again.validity.first.year
             && validity.last.year == again.validity.last.year && again.validity.has_last == 1,
         "the times of contents");
}

/* Whether a voucher has these digests. */
static int is_vouched(const uint8_t *key, const uint8_t *item)
{
    size_t k;
    for (k = 0; k < vouchers_count; k++)
        if (memcmp(vouchers[k].key, key, 32) == 0 && memcmp(vouchers[k].item, item, 32) == 0)
            return 1;
    return 0;
}

/* The digests of contents are those of vouchers; of what is no certificate the key's is 0. */
static void of_digests(const certpath_span *spans)
{
    static const uint8_t ZEROS[32];
    certpath_contents leaf, issuer, none;
    tell(certpath_item(bundle + spans[0].offset, spans[0].length, NULL, 0, &leaf)
                 == CERTPATH_TOO_SMALL
             && certpath_item(bundle + spans[1].offset, spans[1].length, NULL, 0, &issuer)
                    == CERTPATH_TOO_SMALL
             && is_vouched(issuer.key_digest, leaf.item_digest)
             && !is_vouched(leaf.key_digest, issuer.item_digest),
         "the digests of contents");
    tell(certpath_item(bundle + spans[3].offset, spans[3].length, NULL, 0, &none)
                 == CERTPATH_TOO_SMALL
             && is_vouched(issuer.key_digest, none.item_digest)
             && memcmp(none.key_digest, ZEROS, 32) == 0,
         "the digests of a list's contents");
    tell(certpath_item(NULL, 0, NULL, 0, &none) == CERTPATH_DONE
             && memcmp(none.item_digest, "\xe3\xb0\xc4\x42", 4) == 0
             && memcmp(none.key_digest, ZEROS, 32) == 0,
         "the digests of nothing");
}

/* Whether octets hold others. */
static int holds(const unsigned char *octets, size_t length, const unsigned char *part, size_t size)
{
    size_t k;
    for (k = 0; k + size <= length; k++)
        if (memcmp(octets + k, part, size) == 0)
            return 1;
    return 0;
}

/* The extensions of an item, which lie in it, in rooms of all but one and of all. */
static void of_extensions(const unsigned char *item, size_t length, int has_usage)
{
    static const unsigned char KEY_USAGE[] = {0x55, 0x1d, 0x0f};
    static unsigned char text[ROOM];
    certpath_extension found[MOST];
    certpath_extension_sizes sizes, again;
    size_t k, at = 0;
    int lie_in_it = 1, usages = 0;
    memset(text, KEPT, sizeof text);
    memset(found, KEPT, sizeof found);
    tell(certpath_extensions(item, length, NULL, 0, NULL, 0, &sizes) == CERTPATH_TOO_SMALL
             && sizes.count > 0 && sizes.length > 0 && sizes.length < length,
         "no room for extensions");
    tell(certpath_extensions(item, length, text, sizes.length - 1, found, MOST, &again)
                 == CERTPATH_TOO_SMALL
             && certpath_extensions(item, length, text, ROOM, found, sizes.count - 1, &again)
                    == CERTPATH_TOO_SMALL
             && again.count == sizes.count && again.length == sizes.length
             && is_kept(text, sizeof text) && is_kept(found, sizeof found),
         "room for all extensions but one");
    tell(certpath_extensions(item, length, text, sizes.length, found, sizes.count, &again)
                 == CERTPATH_DONE
             && is_kept(text + sizes.length, sizeof text - sizes.length)
             && is_kept(found + sizes.count, sizeof found - sizes.count * sizeof *found),
         "just enough room for extensions");
    for (k = 0; k < sizes.count; k++) {
        usages += found[k].identifier_length == sizeof KEY_USAGE && found[k].is_critical == 1
                  && memcmp(text + at, KEY_USAGE, sizeof KEY_USAGE) == 0;
        lie_in_it &= found[k].is_critical <= 1
                     && holds(item, length, text + at, found[k].identifier_length)
                     && holds(item, length, text + at + found[k].identifier_length,
                              found[k].value_length);
        at += found[k].identifier_length + found[k].value_length;
    }
    tell(lie_in_it && at == sizes.length && usages == has_usage, "extensions");
}

/* The first part of a certificate: all of it lies in the item after four octets; without an
   extension it is shorter by that one, and without one that isn't there it is the same. */
static void of_first_part(const unsigned char *item, size_t length)
{
    static const unsigned char KEY_USAGE[] = {0x55, 0x1d, 0x0f};
    static const unsigned char USAGE[] = {0x30, 0x0e, 6, 3, 0x55, 0x1d, 0x0f, 1, 1, 0xff};
    static unsigned char whole[ROOM], less[ROOM];
    size_t size, other, again;
    memset(whole, KEPT, sizeof whole);
    tell(certpath_tbs(item, length, NULL, 0, whole, 0, &size) == CERTPATH_TOO_SMALL && size < length
             && certpath_tbs(item, length, NULL, 0, whole, size - 1, &other) == CERTPATH_TOO_SMALL
             && other == size && is_kept(whole, sizeof whole),
         "room for all of a first part but one octet");
    tell(certpath_tbs(item, length, NULL, 0, whole, size, &other) == CERTPATH_DONE
             && memcmp(whole, item + 4, size) == 0 && is_kept(whole + size, sizeof whole - size),
         "just enough room for a first part");
    tell(certpath_tbs(item, length, KEY_USAGE, sizeof KEY_USAGE, less, ROOM, &other)
                 == CERTPATH_DONE
             && other + 16 == size && holds(whole, size, USAGE, sizeof USAGE)
             && !holds(less, other, KEY_USAGE, sizeof KEY_USAGE),
         "a first part without an extension");
    tell(certpath_tbs(item, length, (const uint8_t *)CERTPATH_POISON, sizeof CERTPATH_POISON - 1,
                      less, ROOM, &again) == CERTPATH_DONE
             && again == size && memcmp(less, whole, size) == 0,
         "a first part without an extension that isn't there");
}

/* The text of a name in rooms of all but one octet, of all, and of what is enough without asking:
   a value with NUL, an escape and a comma is as it is; a longest type; strings without a text. */
static void of_names(void)
{
    static const struct {
        const char *octets;
        size_t length;
        const char *text;
        size_t size;
    } NAMED[] = {
        {"\x30\0", 2, "", 0},
        {"\x30\x12\x31\x10\x30\x0e\6\3\x55\4\3\x0c\7" "a\0\x1b, O=", 20, "CN=a\0\x1b, O=", 10},
        {"\x30\x0d\x31\x0b\x30\x09\6\5\x78\x7f\x7f\x7f\x7f\5\0", 15,
         "OID(2.40.127.127.127.127)=", 26},
        {"\x30\x0e\x31\x0c\x30\x0a\6\3\x55\4\3\x1e\3\x20\xac\0", 16,
         "<X509Error: Invalid X.509 name>", 31},
        {"\x30\x0c\x31\x0a\x30\x08\6\3\x55\4\3\x14\1\xe9", 14,
         "<X509Error: Invalid X.509 name>", 31},
        {"\x30\x0d\x31\x0b\x30\x09\6\3\x55\4\3\x1e\2\x20\xac", 15, "CN=\xe2\x82\xac", 6},
    };
    static unsigned char text[ROOM];
    size_t k, size, again;
    for (k = 0; k < sizeof NAMED / sizeof *NAMED; k++) {
        const uint8_t *name = (const uint8_t *)NAMED[k].octets;
        int32_t none = NAMED[k].size ? CERTPATH_TOO_SMALL : CERTPATH_DONE;
        memset(text, KEPT, sizeof text);
        tell(certpath_name(name, NAMED[k].length, NULL, 0, &size) == none && size == NAMED[k].size
                 && (!size || (certpath_name(name, NAMED[k].length, text, size - 1, &again) == none
                               && again == size))
                 && is_kept(text, sizeof text),
             "room for all of a name but one octet");
        tell(certpath_name(name, NAMED[k].length, text, 4 * NAMED[k].length - 1, &again)
                     == CERTPATH_DONE
                 && again == size && memcmp(text, NAMED[k].text, size) == 0
                 && is_kept(text + size, sizeof text - size),
             "the text of a name");
    }
}

/* Whether a certificate allows a purpose and serves a host. */
static void of_questions_on(const unsigned char *item, size_t length)
{
    static const uint8_t SERVER[] = {0x2b, 6, 1, 5, 5, 7, 3, 1}, HOST[] = "www.example.test";
    uint32_t found = 2, other = 2;
    tell(certpath_allows(item, length, SERVER, sizeof SERVER, &found) == CERTPATH_DONE
             && found == 1,
         "a purpose that is allowed");
    tell(certpath_serves(item, length, HOST, sizeof HOST - 1, &found) == CERTPATH_DONE && found == 1
             && certpath_serves(item, length, HOST + 4, sizeof HOST - 5, &other) == CERTPATH_DONE
             && other == 0,
         "a host that is served, and one that isn't");
    other = 77;
    tell(certpath_allows(item, length - 1, SERVER, sizeof SERVER, &other)
                     == CERTPATH_NOT_CERTIFICATE
             && certpath_serves(item, length - 1, HOST, sizeof HOST - 1, &other)
                    == CERTPATH_NOT_CERTIFICATE
             && other == 77,
         "a purpose and a host of no certificate");
    tell(certpath_serves(item, length - 1, HOST, sizeof HOST, &other) == CERTPATH_BAD_HOST
             && other == CERTPATH_HOST_CHARACTER,
         "the host before the item");
}

int main(int count, char **words)
{
    certpath_span spans[MOST];
    certpath_framed framed;
    const unsigned char *leaf = bundle, *list;
    size_t unset;
    if (count != 4)
        return 2;
    read_inputs(words + 1);
    if (certpath_frame(bundle, bundle_length, CERTPATH_LIMIT, spans, MOST, &framed) != CERTPATH_DONE
        || framed.count != 4)
        return 1;
    list = bundle + spans[3].offset;
    of_fields(leaf, spans[0].length);
    of_contents(leaf, spans[0].length);
    of_digests(spans);
    of_extensions(leaf, spans[0].length, 1);
    of_extensions(list, spans[3].length, 0);
    of_first_part(leaf, spans[0].length);
    tell(certpath_tbs(list, spans[3].length, NULL, 0, NULL, 0, &unset) == CERTPATH_NOT_CERTIFICATE,
         "the first part of a list");
    of_names();
    of_questions_on(leaf, spans[0].length);
    printf("items: %d passed, %d failed\n", passed, failed);
    return failed != 0;
}
