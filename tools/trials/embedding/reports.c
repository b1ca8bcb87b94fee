/*
 * A report of files, as a call of the library writes it.
 *
 *     reports path|why|paths BUNDLE ANCHORS VOUCHERS YEAR-MONTH-DAY TARGET HOST PURPOSE
 *
 * VOUCHERS are a voucher file. PURPOSE is the content of an OBJECT IDENTIFIER in hex; an empty HOST
 * or PURPOSE stands for none. Prints the report. Ends with the status of the call.
 */
#include "certpath.h"
#include <stdio.h>
#include <stdlib.h>
#include <string.h>

enum { ROOM = 1 << 20, PURPOSE = 256, USAGE = 99 };

typedef int32_t (*reporter)(const uint8_t *, size_t, const uint8_t *, size_t, const uint8_t *,
                            size_t, const certpath_settings *, uint8_t *, size_t,
                            certpath_report *);

static unsigned char octets[3][ROOM], text[ROOM];

static size_t read_file(const char *path, unsigned char *into)
{
    FILE *file = fopen(path, "rb");
    size_t length;
    if (!file)
        exit(USAGE);
    length = fread(into, 1, ROOM, file);
    fclose(file);
    return length;
}

static reporter named(const char *word)
{
    if (strcmp(word, "path") == 0)
        return certpath_path;
    return strcmp(word, "why") == 0 ? certpath_why : certpath_paths;
}

static size_t purpose_of(const char *word, unsigned char *purpose)
{
    size_t length = strlen(word) / 2, k;
    unsigned octet;
    for (k = 0; k < length && k < PURPOSE; k++) {
        if (sscanf(word + 2 * k, "%2x", &octet) != 1)
            exit(USAGE);
        purpose[k] = (unsigned char)octet;
    }
    return k;
}

int main(int count, char **words)
{
    static unsigned char purpose[PURPOSE];
    certpath_settings settings = {0, CERTPATH_LIMIT, 0, {0, 0, 0, 0, 0, 0}, NULL, 0, NULL, 0};
    certpath_moment *at = &settings.moment;
    certpath_report report;
    size_t length[3], k;
    int32_t status;
    if (count != 9 || sscanf(words[5], "%hd-%hhd-%hhd", &at->year, &at->month, &at->day) != 3)
        return USAGE;
    for (k = 0; k < 3; k++)
        length[k] = read_file(words[2 + k], octets[k]);
    settings.target = strtoul(words[6], NULL, 10);
    settings.host = (const uint8_t *)words[7];
    settings.host_length = strlen(words[7]);
    settings.purpose = purpose;
    settings.purpose_length = purpose_of(words[8], purpose);
    status = named(words[1])(octets[0], length[0], octets[1], length[1], octets[2], length[2],
                             &settings, text, ROOM, &report);
    if (status == CERTPATH_DONE)
        fwrite(text, 1, report.length, stdout);
    return status;
}
