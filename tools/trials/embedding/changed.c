/*
 * Items whose octets were changed: each call has to return a status of the header, and to read and
 * write nothing beyond what it is given. Meant to run under the sanitizers.
 *
 *     changed BUNDLE ANCHORS VOUCHERS NUMBER
 *
 * VOUCHERS are digests, 64 octets a pair. Prints `N passed, M failed`, after NUMBER changed items.
 */
#include "calls.h"

static unsigned char changed[ROOM];
static uint64_t state = 1;

/* A number below a bound, by a generator of Marsaglia's (xorshift). */
static size_t below(size_t bound)
{
    state ^= state << 13;
    state ^= state >> 7;
    state ^= state << 17;
    return (size_t)(state % bound);
}

/* Changes, drops or doubles octets; gives the new length. */
static size_t change(const unsigned char *item, size_t length)
{
    size_t many = 1 + below(3), at;
    memcpy(changed, item, length);
    while (many--) {
        at = below(length);
        switch (below(4)) {
        case 0:
            changed[at] = (unsigned char)below(256);
            break;
        case 1:
            changed[at] ^= (unsigned char)(1 << below(8));
            break;
        case 2:
            if (length > 1)
                memmove(changed + at, changed + at + 1, --length - at);
            break;
        default:
            if (length < ROOM - 1)
                memmove(changed + at + 1, changed + at, length++ - at);
        }
    }
    return length;
}

static int is_status(int32_t status, int others)
{
    return status == CERTPATH_DONE || status == CERTPATH_TOO_SMALL || status == others;
}

/* Whether something is found of changed octets, and the check says yes of it. */
static int are_checked(const unsigned char *item, size_t length)
{
    size_t path[1];
    uint64_t table[1];
    certpath_answer answer;
    uint32_t says_yes;
    int32_t status = certpath_find(item, length, anchors, anchors_length, vouchers, vouchers_count,
                                   &IN_2027, path, 1, table, 1, &answer);
    if (status != CERTPATH_DONE)
        return status == CERTPATH_TOO_SMALL && answer.length + answer.entries > 1;
    status = certpath_check(item, length, anchors, anchors_length, vouchers, vouchers_count,
                            &IN_2027, &answer, path, answer.length, table, answer.entries,
                            &says_yes);
    return status == CERTPATH_DONE && says_yes == 1;
}

/* All calls on changed octets, in memory of just their size, so that a sanitizer sees each step
   beyond it. */
static void of_changed(size_t length)
{
    unsigned char *item = malloc(length ? length : 1), text[600];
    certpath_framed framed;
    certpath_span spans[MOST];
    certpath_validity validity;
    certpath_report report;
    certpath_contents contents;
    certpath_left_out left[2];
    certpath_loaded loaded;
    certpath_extension extensions[2];
    certpath_extension_sizes sizes;
    size_t count;
    uint32_t found, shape, number;
    int is_right = item != NULL;
    if (!is_right)
        exit(6);
    memcpy(item, changed, length);
    is_right = is_right && certpath_frame(item, length, 5000, spans, MOST, &framed) >= 0
               && framed.at <= length;
    is_right = is_right && certpath_class(item, length, &found) == CERTPATH_DONE && found <= 2;
    for (number = 0; is_right && number < 8; number++)
        is_right = is_status(certpath_field(item, length, number, text, sizeof text, &count),
                             CERTPATH_NO_FIELD);
    is_right = is_right && is_status(certpath_times(item, length, &validity), CERTPATH_NO_FIELD);
    is_right = is_right
               && is_status(certpath_item(item, length, text, sizeof text, &contents),
                            CERTPATH_DONE)
               && contents.item_class == found && contents.length <= length;
    is_right = is_right
               && is_status(certpath_extensions(item, length, text, sizeof text, extensions, 2,
                                                &sizes),
                            CERTPATH_NO_FIELD)
               && is_status(certpath_tbs(item, length, item, length < 3 ? length : 3, text,
                                         sizeof text, &count),
                            CERTPATH_NOT_CERTIFICATE);
    is_right = is_right
               && is_status(certpath_load(item, length, text, sizeof text, left, 2, &loaded),
                            CERTPATH_DONE)
               && loaded.length <= length;
    is_right = is_right && certpath_shape(item, length, &shape) == CERTPATH_DONE
               && (found == CERTPATH_OTHER || shape == found)
               && (shape != CERTPATH_OTHER)
                      == (loaded.form == CERTPATH_FORM_DER && loaded.count == 1
                          && loaded.length == length);
    is_right = is_right
               && is_status(certpath_name(item, length, text, sizeof text, &count),
                            CERTPATH_BAD_NAME)
               && is_status(certpath_allows(item, length, item, length < 3 ? length : 3, &number),
                            CERTPATH_NOT_CERTIFICATE)
               && is_status(certpath_serves(item, length, (const uint8_t *)"a.test", 6, &number),
                            CERTPATH_NOT_CERTIFICATE);
    is_right = is_right
               && is_status(certpath_questions(item, length, anchors, anchors_length, 5000, NULL, 0,
                                               &count),
                            CERTPATH_DONE);
    is_right = is_right && are_checked(item, length);
    is_right = is_right
               && is_status(certpath_classes(item, length, 5000, &found, 1, &count), CERTPATH_DONE);
    is_right = is_right
               && is_status(certpath_why(item, length, anchors, anchors_length, lines, lines_length,
                                         &IN_2027, text, sizeof text, &report),
                            CERTPATH_DONE);
    free(item);
    tell(is_right, "changed octets");
}

int main(int count, char **words)
{
    certpath_span spans[MOST];
    certpath_framed framed;
    long k, number;
    if (count != 5)
        return 2;
    read_inputs(words + 1);
    number = strtol(words[4], NULL, 10);
    if (certpath_frame(bundle, bundle_length, CERTPATH_LIMIT, spans, MOST, &framed)
        != CERTPATH_DONE)
        return 1;
    for (k = 0; k < number; k++) {
        const certpath_span *one = &spans[below(framed.count)];
        of_changed(change(bundle + one->offset, one->length));
    }
    printf("changed: %d passed, %d failed\n", passed, failed);
    return failed != 0;
}
