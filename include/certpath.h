/*
 * certpath.h: X.509 certificates and revocation lists, cut, classed and judged by proved code.
 *
 * The functions of dist/libcertpath.so and dist/libcertpath.a. docs/EMBEDDING.md has whole
 * examples, and docs/RULES.md says which certificates lead to which.
 *
 * Each call takes octets and numbers, and writes numbers, octets and text into buffers of the
 * caller's. Nothing is kept between calls, so any number of threads may call at once.
 *
 * Buffers. A buffer is a pointer, followed by its room (how many elements it has). A call that
 * needs more room returns CERTPATH_TOO_SMALL, writes nothing into any buffer, and says in its
 * result how much it needs: so a first call with room 0 asks for the size.
 *
 * Pointers. Octets and other values that are read are a pointer, followed by their length. The
 * comment of each call ends with its pointers: which of them may be null and when, which have to be
 * aligned as their type is, and what may not overlap. Octets and vouchers may lie anywhere. What is
 * only read may overlap. A call neither reads nor writes at a pointer whose length or room is 0.
 *
 * Status. Each call returns CERTPATH_DONE or one of the other statuses below. Unless it is
 * CERTPATH_DONE, no buffer was written, and results hold only what the call says of its status.
 */
#ifndef CERTPATH_H
#define CERTPATH_H

#include <stddef.h>
#include <stdint.h>

#ifdef __cplusplus
extern "C" {
#endif

/* ---- statuses */

enum {
    CERTPATH_DONE = 0,          /* the call did what it says */
    CERTPATH_OUT_OF_MEMORY = 1, /* the C library gave no memory */
    CERTPATH_TOO_SMALL = 2,     /* a buffer is too small; the result says how large it must be */
    CERTPATH_NO_FIELD = 3,      /* the item has no such field */
    CERTPATH_BAD_NAME = 4,      /* octets are no name */
    CERTPATH_BAD_MOMENT = 5,    /* a moment is no date and time, or before the year 0 */
    CERTPATH_BAD_ANSWER = 6,    /* an answer to be checked isn't one: its numbers don't fit */
    CERTPATH_BAD_LINE = 7,      /* a line of a voucher file is neither empty nor two digests */
    CERTPATH_NOT_CERTIFICATE = 8, /* the item is no certificate */
    CERTPATH_BAD_HOST = 9       /* a text is no host */
};

/* ---- cutting files into items */

/* How a file ends after its items. */
enum {
    CERTPATH_CLEAN = 0, /* nothing follows */
    CERTPATH_CUT = 1,   /* an item begins and is cut off */
    CERTPATH_FAULT = 2  /* what follows neither is nor begins an item */
};

/* The largest item that the program takes where no limit is given: content octets. */
#define CERTPATH_LIMIT 16777216

/* A part of octets: where it begins, and how long it is. */
typedef struct {
    size_t offset;
    size_t length;
} certpath_span;

typedef struct {
    size_t count; /* how many items there are */
    size_t at;    /* where they end */
    uint32_t end; /* CERTPATH_CLEAN, CERTPATH_CUT or CERTPATH_FAULT */
} certpath_framed;

/*
 * Cuts octets into items: DER SEQUENCEs of at most `limit` content octets, one after another.
 * Writes the span of each into `items`. `framed` is set with CERTPATH_DONE and CERTPATH_TOO_SMALL;
 * `framed->count` is the room that is needed.
 *
 * Pointers: `octets` is null only if its length is 0, `items` only if `room` is 0, `framed` never.
 * `items` and `framed` are aligned, and overlap neither each other nor `octets`.
 */
int32_t certpath_frame(const uint8_t *octets, size_t octets_length, uint32_t limit,
                       certpath_span *items, size_t room, certpath_framed *framed);

/* ---- reading files of any form */

/* What a file is. */
enum {
    CERTPATH_FORM_EMPTY = 0, /* it has no octets */
    CERTPATH_FORM_PEM = 1,   /* a text with blocks (RFC 7468) */
    CERTPATH_FORM_DER = 2,   /* elements in DER, one after another */
    CERTPATH_FORM_PKCS7 = 3, /* the same, with SignedData among them (RFC 5652, 5.1) */
    CERTPATH_FORM_OTHER = 4  /* anything else, a text in UTF-16 too */
};

/* Labels of PEM blocks that are known; 0 stands for no label, or another one. */
enum {
    CERTPATH_LABEL_CERTIFICATE = 1,
    CERTPATH_LABEL_X509_CRL = 2,
    CERTPATH_LABEL_X509_CERTIFICATE = 3,
    CERTPATH_LABEL_X_509_CERTIFICATE = 4, /* X.509 CERTIFICATE */
    CERTPATH_LABEL_TRUSTED_CERTIFICATE = 5,
    CERTPATH_LABEL_PKCS7 = 6,
    CERTPATH_LABEL_CMS = 7,
    CERTPATH_LABEL_PKCS_7_SIGNED_DATA = 8, /* PKCS #7 SIGNED DATA */
    CERTPATH_LABEL_PRIVATE_KEY = 9,
    CERTPATH_LABEL_ENCRYPTED_PRIVATE_KEY = 10,
    CERTPATH_LABEL_PUBLIC_KEY = 11,
    CERTPATH_LABEL_OPENSSH_PRIVATE_KEY = 12,
    CERTPATH_LABEL_RSA_PRIVATE_KEY = 13,
    CERTPATH_LABEL_EC_PRIVATE_KEY = 14,
    CERTPATH_LABEL_DSA_PRIVATE_KEY = 15,
    CERTPATH_LABEL_RSA_PUBLIC_KEY = 16,
    CERTPATH_LABEL_CERTIFICATE_REQUEST = 17,
    CERTPATH_LABEL_NEW_CERTIFICATE_REQUEST = 18,
    CERTPATH_LABEL_ATTRIBUTE_CERTIFICATE = 19,
    CERTPATH_LABEL_X509_ATTRIBUTE_CERTIFICATE = 20,
    CERTPATH_LABEL_EC_PARAMETERS = 21,
    CERTPATH_LABEL_DSA_PARAMETERS = 22,
    CERTPATH_LABEL_DH_PARAMETERS = 23,
    CERTPATH_LABEL_X9_42_DH_PARAMETERS = 24 /* X9.42 DH PARAMETERS */
};

/* Why something is left out of a file. */
enum {
    CERTPATH_LEFT_EMPTY_FILE = 0,     /* the file has no octet */
    CERTPATH_LEFT_NO_FORM = 1,        /* the file is neither PEM nor DER */
    CERTPATH_LEFT_WIDE_TEXT = 2,      /* the file is a text in UTF-16 */
    CERTPATH_LEFT_NO_ITEM = 3,        /* neither a certificate nor a list by its shape */
    CERTPATH_LEFT_BEHIND = 4,         /* `count` octets after the item of a block */
    CERTPATH_LEFT_NO_END = 5,         /* no line ends the block */
    CERTPATH_LEFT_WITH_HEADERS = 6,   /* header lines stand in the block */
    CERTPATH_LEFT_NO_OCTETS = 7,      /* there is nothing in the block */
    CERTPATH_LEFT_NOT_BASE64 = 8,     /* the lines of the block are no base64 */
    CERTPATH_LEFT_OTHER_LABEL = 9,    /* the label is that of other things */
    CERTPATH_LEFT_UNKNOWN_LABEL = 10, /* the label isn't a known one */
    CERTPATH_LEFT_STRAY_END = 11,     /* an END line that ends no block */
    CERTPATH_LEFT_BAD_BOUNDARY = 12,  /* a line with BEGIN or END that is no line of its own */
    CERTPATH_LEFT_NO_TEXT = 13,       /* a line outside of blocks with octets that are no text */
    CERTPATH_LEFT_NO_SIGNED_DATA = 14, /* the block holds no SignedData in DER */
    CERTPATH_LEFT_NO_MEMBERS = 15,    /* SignedData with neither certificates nor lists */
    CERTPATH_LEFT_NO_SEQUENCE = 16,   /* no SEQUENCE begins here */
    CERTPATH_LEFT_NO_LENGTH = 17,     /* its length is indefinite (BER), or cut */
    CERTPATH_LEFT_TOO_LONG = 18,      /* it has more content octets than CERTPATH_LIMIT */
    CERTPATH_LEFT_MISSING = 19,       /* `count` octets of it are missing */
    CERTPATH_LEFT_LONG_FORM = 20      /* its length isn't in the shortest form (BER) */
};

/*
 * Something that is left out of a file. No octet of it is here, nor a label that isn't known. The
 * field `before` came with version 4.
 */
typedef struct {
    size_t line;     /* of PEM: of the line, or of the block's BEGIN, from 1; else 0 */
    size_t position; /* of DER: of the octet at which it begins, from 0; else 0 */
    size_t before;   /* how many items of the file come before it */
    uint32_t label;  /* of a block: CERTPATH_LABEL_CERTIFICATE or one after it, where it is known */
    uint32_t set;    /* within SignedData: CERTPATH_CERTIFICATE or CERTPATH_LIST; else 0 */
    size_t number;   /* within SignedData: the place in that set, from 0; else 0 */
    uint32_t reason; /* CERTPATH_LEFT_EMPTY_FILE or one after it */
    size_t count;    /* of octets, where the reason says so; else 0 */
    size_t to_end;   /* how many octets from here on are left out with it, to the end of the file or
                        of the set; 0 where what follows it is read */
} certpath_left_out;

typedef struct {
    uint32_t form; /* CERTPATH_FORM_EMPTY or one after it */
    size_t length; /* how many octets the items have together */
    size_t count;  /* how many items there are */
    size_t left;   /* how many things are left out */
} certpath_loaded;

/*
 * Reads a file of any form. Writes its certificates and revocation lists into `items`, DER items
 * one after another in the order of the file, as certpath_frame cuts them; and into `left` what is
 * left out, in the same order. Of PEM the blocks of labels 1 to 8 are read, of SignedData its
 * certificates and lists. An item has the shape of a certificate or of a list, and certpath_shape
 * says which; nothing else of it is tested. What isn't taken by its label isn't decoded.
 * docs/RULES.md has the rules.
 *
 * `loaded` is set with CERTPATH_DONE and CERTPATH_TOO_SMALL: the room that is needed is
 * `loaded->length` octets and `loaded->left` structures. The items of a file of n octets have at
 * most n.
 *
 * Pointers: `octets` is null only if its length is 0, `items` only if `room` is 0, `left` only if
 * `left_room` is 0, `loaded` never. `items` may lie anywhere; `left` and `loaded` are aligned. None
 * of these three overlaps another one, or `octets`.
 */
int32_t certpath_load(const uint8_t *octets, size_t octets_length, uint8_t *items, size_t room,
                      certpath_left_out *left, size_t left_room, certpath_loaded *loaded);

/* ---- single items */

enum {
    CERTPATH_OTHER = 0,       /* anything else */
    CERTPATH_CERTIFICATE = 1, /* a certificate in its one spelling (RFC 5280, 4.1) */
    CERTPATH_LIST = 2         /* a revocation list in its one spelling (RFC 5280, 5.1) */
};

/*
 * What an item is, by its octets: `item_class` is set to CERTPATH_CERTIFICATE, CERTPATH_LIST or
 * CERTPATH_OTHER, the last for octets that aren't one item too.
 *
 * Pointers: `item` is null only if its length is 0, `item_class` never. `item_class` is aligned,
 * and doesn't overlap `item`.
 */
int32_t certpath_class(const uint8_t *item, size_t item_length, uint32_t *item_class);

/*
 * Cuts octets into items, as certpath_frame does, and writes what each is into `classes`, in their
 * order. `count` is set with CERTPATH_DONE and CERTPATH_TOO_SMALL.
 *
 * Pointers: `octets` is null only if its length is 0, `classes` only if `room` is 0, `count` never.
 * `classes` and `count` are aligned, and overlap neither each other nor `octets`.
 */
int32_t certpath_classes(const uint8_t *octets, size_t octets_length, uint32_t limit,
                         uint32_t *classes, size_t room, size_t *count);

/*
 * What an item is by its shape, which is all that certpath_load goes by: `shape` is set to
 * CERTPATH_CERTIFICATE or CERTPATH_LIST where its parts begin as those of a certificate or a list
 * do, and else to CERTPATH_OTHER. That is also said of octets that aren't one item: a DER SEQUENCE
 * of at most CERTPATH_LIMIT content octets, and nothing after it. Each item that certpath_load
 * writes has a shape; by certpath_class it may still be CERTPATH_OTHER. The call is always done,
 * and asks for no memory. It came with version 4.
 *
 * Pointers: `item` is null only if its length is 0, `shape` never. `shape` is aligned, and doesn't
 * overlap `item`.
 */
int32_t certpath_shape(const uint8_t *item, size_t item_length, uint32_t *shape);

/*
 * Cuts octets into items, as certpath_frame does, and writes what each is by its shape into
 * `shapes`, in their order. `count` is set with CERTPATH_DONE and CERTPATH_TOO_SMALL. It came with
 * version 4.
 *
 * Pointers: `octets` is null only if its length is 0, `shapes` only if `room` is 0, `count` never.
 * `shapes` and `count` are aligned, and overlap neither each other nor `octets`.
 */
int32_t certpath_shapes(const uint8_t *octets, size_t octets_length, uint32_t limit,
                        uint32_t *shapes, size_t room, size_t *count);

/* Fields of an item, as the octets that it has there. */
enum {
    CERTPATH_ISSUER = 0,         /* the name of the issuer, a whole element */
    CERTPATH_SUBJECT = 1,        /* the name of a certificate's subject, a whole element */
    CERTPATH_KEY = 2,            /* a certificate's key (SubjectPublicKeyInfo), a whole element */
    CERTPATH_SERIAL = 3,         /* a certificate's serial number: big-endian, two's complement */
    CERTPATH_ALGORITHM = 4       /* the identifier of the signature's algorithm: the content of
                                    its OBJECT IDENTIFIER */
};

/*
 * Writes a field of an item into `octets`. CERTPATH_NO_FIELD where the item is neither a
 * certificate nor a list, or has no such field. `length` is set with CERTPATH_DONE and
 * CERTPATH_TOO_SMALL.
 *
 * Pointers: `item` is null only if its length is 0, `octets` only if `room` is 0, `length` never.
 * `octets` may lie anywhere; `length` is aligned. Neither overlaps the other, or `item`.
 */
int32_t certpath_field(const uint8_t *item, size_t item_length, uint32_t field, uint8_t *octets,
                       size_t room, size_t *length);

/* A date and time in UTC, by the Gregorian calendar, also before 1582. */
typedef struct {
    int16_t year;  /* of an item 1950 to 9999 (RFC 5280, 4.1.2.5); else 0 to 9999 */
    int8_t month;  /* 1 to 12 */
    int8_t day;    /* 1 to 31 */
    int8_t hour;   /* 0 to 23 */
    int8_t minute; /* 0 to 59 */
    int8_t second; /* 0 to 59 */
} certpath_moment;

typedef struct {
    certpath_moment first; /* a certificate's notBefore; a list's thisUpdate */
    certpath_moment last;  /* a certificate's notAfter; a list's nextUpdate, else its thisUpdate */
    uint32_t has_last;     /* 1, or 0 for a list that has no nextUpdate, whose `last` is `first` */
} certpath_validity;

/*
 * The times of a certificate or a list; CERTPATH_NO_FIELD for anything else. `validity` is set with
 * CERTPATH_DONE.
 *
 * Pointers: `item` is null only if its length is 0, `validity` never. `validity` is aligned, and
 * doesn't overlap `item`.
 */
int32_t certpath_times(const uint8_t *item, size_t item_length, certpath_validity *validity);

/* A field of an item. */
typedef struct {
    size_t length;     /* how many octets it has; 0 where the item doesn't have it */
    uint32_t is_there; /* 1 where the item has it, else 0 */
} certpath_extent;

/* What an item is, and what it holds. */
typedef struct {
    uint32_t item_class;             /* CERTPATH_OTHER, CERTPATH_CERTIFICATE or CERTPATH_LIST */
    certpath_validity validity;      /* as certpath_times sets it; all 0 for anything else */
    certpath_extent issuer;          /* the fields, as certpath_field writes them */
    certpath_extent subject;
    certpath_extent key;
    certpath_extent serial;
    certpath_extent algorithm;
    certpath_extent subject_key_id;  /* key identifiers that a certificate names, the content */
    certpath_extent authority_key_id; /* of their elements (RFC 5280, 4.2.1.2 and 4.2.1.1) */
    size_t length;                   /* how many octets all fields have together */
    uint8_t item_digest[32];         /* SHA-256 (FIPS 180-4) of the item, all of its octets */
    uint8_t key_digest[32];          /* of a certificate's key, as `key`; all 0 of anything else */
} certpath_contents;

/*
 * Reads an item once: what it is, its times, its digests and all its fields, which are written into
 * `octets` one after another in the order of `contents`. So the subject begins at
 * `contents->issuer.length`. `contents` is set with CERTPATH_DONE and CERTPATH_TOO_SMALL;
 * `contents->length` is the room that is needed, which is less than `item_length`. Of anything but
 * a certificate or a list nothing is written, with CERTPATH_DONE. The digests came with version 6;
 * a voucher has that of the holder's key and that of the item.
 *
 * Pointers: `item` is null only if its length is 0, `octets` only if `room` is 0, `contents` never.
 * `octets` may lie anywhere; `contents` is aligned. Neither overlaps the other, or `item`.
 */
int32_t certpath_item(const uint8_t *item, size_t item_length, uint8_t *octets, size_t room,
                      certpath_contents *contents);

/* An extension of an item (RFC 5280, 4.2 and 5.2). */
typedef struct {
    size_t identifier_length; /* of the content of its OBJECT IDENTIFIER, in octets */
    size_t value_length;      /* of the content of its OCTET STRING, in octets */
    uint32_t is_critical;     /* 1 or 0 */
} certpath_extension;

typedef struct {
    size_t count;  /* how many extensions there are */
    size_t length; /* how many octets their identifiers and values have together */
} certpath_extension_sizes;

/*
 * Writes the extensions of a certificate or a list in their order: into `extensions` a structure
 * for each, and into `octets` the identifier and the value of each, one after another. Values are
 * as they are in the item; nothing of them is tested. CERTPATH_NO_FIELD where the item is neither a
 * certificate nor a list. `sizes` is set with CERTPATH_DONE and CERTPATH_TOO_SMALL: the room that
 * is needed is `sizes->length` octets and `sizes->count` structures. It came with version 6.
 *
 * Pointers: `item` is null only if its length is 0, `octets` only if `room` is 0, `extensions` only
 * if `extensions_room` is 0, `sizes` never. `octets` may lie anywhere; `extensions` and `sizes` are
 * aligned. None of these three overlaps another one, or `item`.
 */
int32_t certpath_extensions(const uint8_t *item, size_t item_length, uint8_t *octets, size_t room,
                            certpath_extension *extensions, size_t extensions_room,
                            certpath_extension_sizes *sizes);

/*
 * Writes the TBSCertificate of a certificate (RFC 5280, 4.1), without the extensions whose
 * identifier is `without`, the content of an OBJECT IDENTIFIER; where `without_length` is 0 nothing
 * is left out. Where no extension is left the field is absent. CERTPATH_NOT_CERTIFICATE where the
 * item is no certificate. `length` is set with CERTPATH_DONE and CERTPATH_TOO_SMALL; it is less
 * than `item_length`. It came with version 6.
 *
 * So a certificate is compared with its entry in a log (RFC 6962, 3.2): of the certificate without
 * the list of SCTs, and of the precertificate without the poison, unless a Precertificate Signing
 * Certificate issued that one, this is the tbs_certificate of the entry.
 *
 * Pointers: `item` is null only if its length is 0, `without` only if `without_length` is 0,
 * `octets` only if `room` is 0, `length` never. `without` may overlap `item`. `octets` may lie
 * anywhere; `length` is aligned. Neither overlaps the other, `item` or `without`.
 */
#define CERTPATH_POISON "\x2b\x06\x01\x04\x01\xd6\x79\x02\x04\x03"   /* RFC 6962, 3.1 */
#define CERTPATH_SCT_LIST "\x2b\x06\x01\x04\x01\xd6\x79\x02\x04\x02" /* RFC 6962, 3.3 */

int32_t certpath_tbs(const uint8_t *item, size_t item_length, const uint8_t *without,
                     size_t without_length, uint8_t *octets, size_t room, size_t *length);

/*
 * Writes a name, by its element's octets, as text (no 0 at the end), as
 * `C=DE, O=Example, CN=www.example.test`. CERTPATH_BAD_NAME where the octets are no name, or more
 * than one. `length` is set with CERTPATH_DONE and CERTPATH_TOO_SMALL. It is less than 4 times
 * `name_length`, so that this room is enough without asking first.
 *
 * The text is UTF-8, and that alone: it isn't escaped, and may hold any character. Attributes have
 * ", " between them, or " + " within a set. A type is its abbreviation, as `CN`, its short name, or
 * `OID(2.5.4.5)`. A value is its characters if it is a string of octets, as a PrintableString or a
 * UTF8String, or a BMPString; else its content in hex. The characters are those of the name: NUL,
 * line ends, terminal controls, marks that turn the direction of writing, and ", O=". So escape the
 * text before it is shown, as examples/c/questions.c does, and compare names by their octets. Of a
 * name with a string that isn't UTF-8, as a TeletexString in Latin-1, or a BMPString that isn't
 * UTF-16, it is `<X509Error: Invalid X.509 name>`.
 *
 * Pointers: `name` is null only if its length is 0, `text` only if `room` is 0, `length` never.
 * `text` may lie anywhere; `length` is aligned. Neither overlaps the other, or `name`.
 */
int32_t certpath_name(const uint8_t *name, size_t name_length, uint8_t *text, size_t room,
                      size_t *length);

/* ---- purposes and hosts */

/* Why a text is no host: the first reason that applies (RFC 9525, 6.1; RFC 1123, 2.1). */
enum {
    CERTPATH_HOST_EMPTY = 0,        /* it is empty, or a dot */
    CERTPATH_HOST_URL = 1,          /* it has a slash */
    CERTPATH_HOST_EMAIL = 2,        /* it has an at sign */
    CERTPATH_HOST_WILDCARD = 3,     /* it has a star */
    CERTPATH_HOST_ZONE = 4,         /* it has colons and a zone (RFC 4007, 11) */
    CERTPATH_HOST_PORT = 5,         /* a number follows its last colon */
    CERTPATH_HOST_NO_ADDRESS = 6,   /* it has a colon or a bracket, and is no IPv6 address */
    CERTPATH_HOST_NOT_ASCII = 7,    /* it has an octet outside ASCII */
    CERTPATH_HOST_CHARACTER = 8,    /* it has a character that no name has */
    CERTPATH_HOST_LONG = 9,         /* it has more than 253 octets */
    CERTPATH_HOST_EMPTY_LABEL = 10, /* it has an empty label */
    CERTPATH_HOST_LONG_LABEL = 11,  /* it has a label of more than 63 octets */
    CERTPATH_HOST_HYPHEN = 12,      /* a label begins or ends with a hyphen */
    CERTPATH_HOST_NUMBER = 13       /* its last label is a number, and it is no IPv4 address */
};

/*
 * Whether a certificate is for a purpose (RFC 5280, 4.2.1.12): it has no extKeyUsage, or one that
 * names the purpose or anyExtendedKeyUsage. `purpose` is the content of its OBJECT IDENTIFIER.
 * `says_yes` is set to 1 or 0 with CERTPATH_DONE. CERTPATH_NOT_CERTIFICATE where the item is no
 * certificate. A certificate is for no purpose where its extKeyUsage is no DER of object
 * identifiers, names none, or occurs twice.
 *
 * Pointers: `item` is null only if its length is 0, `purpose` only if `purpose_length` is 0,
 * `says_yes` never. `item` and `purpose` may overlap. `says_yes` is aligned, and overlaps neither.
 */
int32_t certpath_allows(const uint8_t *item, size_t item_length, const uint8_t *purpose,
                        size_t purpose_length, uint32_t *says_yes);

/*
 * Whether a certificate serves a host (RFC 9525, 6): among the names of its one subjectAltName is a
 * dNSName that matches the host's name, or an iPAddress of the host's octets. The subject's common
 * name is never used. `host` is a text in ASCII, without a 0 at its end: a name, an IPv4 address,
 * or an IPv6 address, which may be in brackets.
 *
 * `says_yes` is set to 1 or 0 with CERTPATH_DONE, and with CERTPATH_BAD_HOST to the reason, one of
 * CERTPATH_HOST_EMPTY and those after it. The host is looked at before the item.
 * CERTPATH_NOT_CERTIFICATE where the item is no certificate.
 *
 * Pointers: `item` is null only if its length is 0, `host` only if `host_length` is 0, `says_yes`
 * never. `item` and `host` may overlap. `says_yes` is aligned, and overlaps neither.
 */
int32_t certpath_serves(const uint8_t *item, size_t item_length, const uint8_t *host,
                        size_t host_length, uint32_t *says_yes);

/* ---- whose signatures matter */

/* Whether the key of a certificate verifies the signature of an item of the bundle. */
typedef struct {
    size_t item;        /* the item's position in the bundle, from 0 */
    size_t holder;      /* the certificate's position in the bundle or among the anchors */
    uint32_t is_anchor; /* 1 where it is an anchor, else 0 */
} certpath_question;

/*
 * Writes all questions of a bundle and anchors, both octets as certpath_frame cuts them: what it
 * doesn't take, as PEM, is no item here either, and only certpath_frame says so. Nothing else is
 * asked of signatures: whoever answers these alike has the same paths. `count` is set with
 * CERTPATH_DONE and CERTPATH_TOO_SMALL.
 *
 * Pointers: `bundle` and `anchors` are null only if their length is 0, `questions` only if `room`
 * is 0, `count` never. `bundle` and `anchors` may overlap. `questions` and `count` are aligned, and
 * overlap neither each other nor the files.
 */
int32_t certpath_questions(const uint8_t *bundle, size_t bundle_length, const uint8_t *anchors,
                           size_t anchors_length, uint32_t limit, certpath_question *questions,
                           size_t room, size_t *count);

/* ---- paths */

/* A key that verifies the signature of an item, by SHA-256 digests (FIPS 180-4). */
typedef struct {
    uint8_t key[32];  /* of the key, as CERTPATH_KEY writes it */
    uint8_t item[32]; /* of the item, all of its octets */
} certpath_voucher;

/*
 * What is asked: a path from an item of the bundle to an anchor. `purpose` and `host` are null only
 * if their length is 0, and may lie within the files. The last four fields came with
 * version 3: where they are 0, as where an initializer leaves them out, no purpose and no host is
 * demanded. certpath_find and certpath_check look at them, and since version 5 the calls that write
 * reports do.
 */
typedef struct {
    size_t target;          /* the position of the certificate in the bundle, from 0 */
    uint32_t limit;         /* of the items of both files, content octets */
    uint32_t demands_lists; /* not 0: each certificate needs a revocation list that is used */
    certpath_moment moment; /* at which all has to be valid, of the years 0 to 9999 */
    const uint8_t *purpose; /* as certpath_allows takes it: each certificate has to allow it */
    size_t purpose_length;
    const uint8_t *host; /* as certpath_serves takes it: the target has to serve it */
    size_t host_length;
} certpath_settings;

/* What is answered. */
enum {
    CERTPATH_PATH = 0,     /* there is a path */
    CERTPATH_NO_PATH = 1,  /* the target is a certificate, and there is no path */
    CERTPATH_NO_TARGET = 2 /* the target is no certificate, or there is no such item */
};

typedef struct {
    uint32_t outcome; /* CERTPATH_PATH, CERTPATH_NO_PATH or CERTPATH_NO_TARGET */
    size_t length;    /* how many positions the path has; 0 where there is none */
    size_t anchor;    /* of a path: the anchor's position among the anchors, from 0; else 0 */
    size_t entries;   /* how many entries the table has */
} certpath_answer;

/*
 * Entries of a table: how far an issuer leads to an anchor. A row has an entry for each item of the
 * bundle. The first row is for one issuer, each further row for one issuer more.
 */
#define CERTPATH_REACH_NO ((uint64_t)0)             /* it doesn't */
#define CERTPATH_REACH_UP_TO(n) ((uint64_t)(n) + 1) /* with up to n certificates below it */
#define CERTPATH_REACH_ANY UINT64_MAX               /* with any number of them */

/*
 * Finds the first of the shortest valid paths. Writes into `path` the positions of its
 * certificates in the bundle, from the target on, and into `table` the rows that show that the
 * answer is right, one after another. `answer` is set with CERTPATH_DONE and CERTPATH_TOO_SMALL:
 * the room that is needed is `answer->length` positions and `answer->entries` entries.
 * CERTPATH_BAD_MOMENT where the calendar has no such date, a clock no such time, or the year is
 * negative; else CERTPATH_BAD_HOST where the host is none, and certpath_serves says why. A call
 * hashes equal items once.
 *
 * Pointers: `bundle`, `anchors` and `vouchers` are null only if their length is 0, `path` only if
 * `path_room` is 0, `table` only if `table_room` is 0, `settings` and `answer` never. `vouchers`
 * may lie anywhere; `settings`, `path`, `table` and `answer` are aligned. What is read may overlap.
 * `path`, `table` and `answer` overlap neither each other nor what is read, the purpose and the
 * host of the settings too.
 */
int32_t certpath_find(const uint8_t *bundle, size_t bundle_length, const uint8_t *anchors,
                      size_t anchors_length, const certpath_voucher *vouchers,
                      size_t vouchers_count, const certpath_settings *settings, size_t *path,
                      size_t path_room, uint64_t *table, size_t table_room,
                      certpath_answer *answer);

/*
 * Whether an answer is right, as its table shows: `says_yes` is set to 1 or 0 with
 * CERTPATH_DONE. The items are read by another reader than that of certpath_find, and nothing is
 * searched for. CERTPATH_BAD_MOMENT and CERTPATH_BAD_HOST as above; else CERTPATH_BAD_ANSWER where
 * the lengths aren't those of `answer`, an entry stands for nothing, the table doesn't have whole
 * rows, or an answer without a path has positions or an anchor, and nowhere else.
 *
 * Pointers: `bundle`, `anchors`, `vouchers`, `path` and `table` are null only if their length is 0,
 * `settings`, `answer` and `says_yes` never. `vouchers` may lie anywhere; `settings`, `answer`,
 * `path`, `table` and `says_yes` are aligned. What is read may overlap. `says_yes` overlaps nothing
 * else, the purpose and the host of the settings neither.
 */
int32_t certpath_check(const uint8_t *bundle, size_t bundle_length, const uint8_t *anchors,
                       size_t anchors_length, const certpath_voucher *vouchers,
                       size_t vouchers_count, const certpath_settings *settings,
                       const certpath_answer *answer, const size_t *path, size_t path_length,
                       const uint64_t *table, size_t table_entries, uint32_t *says_yes);

/* ---- reports, as text */

typedef struct {
    size_t length;   /* of the text, in octets: with CERTPATH_DONE and CERTPATH_TOO_SMALL */
    size_t bad_line; /* with CERTPATH_BAD_LINE: the first bad line of the vouchers, from 1 */
} certpath_report;

/*
 * Write what `certpath path`, `certpath why` and `certpath paths` print of the files into `text`
 * (UTF-8, no 0 at the end): the answer for the target, found and checked; what stands in the way of
 * a path; and the answers for all items at once, for which the target and the host of the settings
 * aren't looked at. docs/CLI.md has the lines of the reports.
 *
 * What is demanded has a line: the purpose by its name in RFC 5280, 4.2.1.12, or else by its
 * numbers, or in hexadecimal where it spells no numbers of 64 bits (X.690, 8.19); the host as it is
 * given. Each text is the one of `--purpose` and `--host`. (It came with version 5; before it these
 * calls didn't look at a purpose or a host.)
 *
 * `vouchers` is a voucher file, as ./vouch writes it: lines of two SHA-256 digests in hex with a
 * space between them, of a key and of an item.
 *
 * CERTPATH_BAD_MOMENT as above; else, but not from certpath_paths, CERTPATH_BAD_HOST where the
 * host is none; else CERTPATH_BAD_LINE where a line of the vouchers is neither that nor empty. Any
 * octets are a purpose.
 *
 * Pointers: `bundle`, `anchors` and `vouchers` are null only if their length is 0, `text` only if
 * `room` is 0, `settings` and `report` never. `text` may lie anywhere, as `vouchers` may;
 * `settings` and `report` are aligned. What is read may overlap. `text` and `report` overlap
 * neither each other nor what is read, the purpose and the host of the settings too.
 */
int32_t certpath_path(const uint8_t *bundle, size_t bundle_length, const uint8_t *anchors,
                      size_t anchors_length, const uint8_t *vouchers, size_t vouchers_length,
                      const certpath_settings *settings, uint8_t *text, size_t room,
                      certpath_report *report);

int32_t certpath_why(const uint8_t *bundle, size_t bundle_length, const uint8_t *anchors,
                     size_t anchors_length, const uint8_t *vouchers, size_t vouchers_length,
                     const certpath_settings *settings, uint8_t *text, size_t room,
                     certpath_report *report);

int32_t certpath_paths(const uint8_t *bundle, size_t bundle_length, const uint8_t *anchors,
                       size_t anchors_length, const uint8_t *vouchers, size_t vouchers_length,
                       const certpath_settings *settings, uint8_t *text, size_t room,
                       certpath_report *report);

/* ---- the library */

/* The version of these calls: it grows where one of them changes. */
#define CERTPATH_VERSION 6

/* The version of the library's calls. The call takes no pointer, and no memory. */
uint32_t certpath_version(void);

#ifdef __cplusplus
}
#endif

#endif
