/*
 * Faults that the programs of this folder have to see: each is put between a program and a call of
 * the library, by the linker's --wrap, and chosen by its number when this is compiled (-DFAULT=1).
 */
#include "certpath.h"
#include <limits.h>
#include <stdlib.h>
#include <time.h>

#define WRAPPED(name) __wrap_##name
#define LIBRARY(name) __real_##name

int32_t LIBRARY(certpath_class)(const uint8_t *, size_t, uint32_t *);
int32_t WRAPPED(certpath_class)(const uint8_t *, size_t, uint32_t *);
int32_t LIBRARY(certpath_field)(const uint8_t *, size_t, uint32_t, uint8_t *, size_t, size_t *);
int32_t WRAPPED(certpath_field)(const uint8_t *, size_t, uint32_t, uint8_t *, size_t, size_t *);
int32_t LIBRARY(certpath_times)(const uint8_t *, size_t, certpath_validity *);
int32_t WRAPPED(certpath_times)(const uint8_t *, size_t, certpath_validity *);

enum {
    READS_PAST = 1,     /* reads the octet after the item */
    WRITES_ITEM = 2,    /* writes an octet of the item */
    READS_EMPTY = 3,    /* reads an octet of no octets */
    WRITES_PAST = 4,    /* writes the octet after the room */
    WRITES_SMALL = 5,   /* writes into a buffer that is too small */
    KEEPS = 6,          /* keeps a result where another thread writes it */
    LEAKS = 7,          /* keeps memory */
    HIDES_REFUSAL = 8,  /* says that it is done, though memory was refused */
    WRITES_REFUSED = 9, /* sets a result, though memory was refused */
    OTHER_STATUS = 10,  /* returns a status that the header doesn't have */
    OVERFLOWS = 11      /* adds to the greatest number */
};

/* What a fault reads goes here, so that the compiler keeps it. */
static volatile int seen;

int32_t WRAPPED(certpath_class)(const uint8_t *item, size_t length, uint32_t *item_class)
{
    int32_t status;
    seen = INT_MAX;
    if (FAULT == READS_PAST && length > 0)
        seen = item[length];
    if (FAULT == READS_EMPTY && length == 0)
        seen = item[0];
    if (FAULT == WRITES_ITEM && length > 0)
        *(volatile uint8_t *)(size_t)item = item[0];
    if (FAULT == OVERFLOWS)
        seen = seen + 1;
    if (FAULT == LEAKS)
        seen = malloc(1) != NULL;
    status = LIBRARY(certpath_class)(item, length, item_class);
    if (status == CERTPATH_OUT_OF_MEMORY && FAULT == HIDES_REFUSAL)
        return CERTPATH_DONE;
    if (status == CERTPATH_OUT_OF_MEMORY && FAULT == WRITES_REFUSED)
        *item_class = CERTPATH_OTHER;
    return status;
}

int32_t WRAPPED(certpath_field)(const uint8_t *item, size_t item_length, uint32_t field,
                                uint8_t *octets, size_t room, size_t *length)
{
    int32_t status = LIBRARY(certpath_field)(item, item_length, field, octets, room, length);
    if (FAULT == WRITES_PAST && status == CERTPATH_DONE)
        ((volatile uint8_t *)octets)[room] = 0;
    if (FAULT == WRITES_SMALL && status == CERTPATH_TOO_SMALL && room > 0)
        octets[0] = 0;
    return FAULT == OTHER_STATUS && status == CERTPATH_NO_FIELD ? INT_MAX : status;
}

int32_t WRAPPED(certpath_times)(const uint8_t *item, size_t item_length,
                                certpath_validity *validity)
{
    static certpath_validity kept;
    static const struct timespec WHILE = {0, 10000};
    int32_t status;
    if (FAULT != KEEPS)
        return LIBRARY(certpath_times)(item, item_length, validity);
    status = LIBRARY(certpath_times)(item, item_length, &kept);
    nanosleep(&WHILE, NULL);
    if (status == CERTPATH_DONE)
        *validity = kept;
    return status;
}
