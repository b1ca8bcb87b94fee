/* Reads a file by OpenSSL, and prints how much there was: `peer READER FILE`; or looks for a path:
   `peer path BUNDLE ANCHORS VOUCHERS`, of the bundle's first item. */
#include <openssl/x509.h>
#include <openssl/x509v3.h>
#include <openssl/x509_vfy.h>
#include <stdio.h>
#include <stdlib.h>
#include <string.h>

/* 2026-12-01, in seconds from 1970 */
static const time_t MOMENT = 1796083200;

static void need(int is_so, const char *what) {
    if (!is_so) {
        fprintf(stderr, "%s\n", what);
        exit(1);
    }
}

static unsigned char *octets_of(const char *name, long *length) {
    FILE *file = fopen(name, "rb");
    need(file != NULL && fseek(file, 0, SEEK_END) == 0, name);
    *length = ftell(file);
    rewind(file);
    unsigned char *octets = malloc(*length ? *length : 1);
    need(octets != NULL && fread(octets, 1, *length, file) == (size_t)*length, name);
    fclose(file);
    return octets;
}

static STACK_OF(X509) *certificates(const char *name) {
    long length;
    const unsigned char *at = octets_of(name, &length), *end = at + length;
    STACK_OF(X509) *found = sk_X509_new_null();
    while (at < end) {
        X509 *certificate = d2i_X509(NULL, &at, end - at);
        need(certificate != NULL && sk_X509_push(found, certificate), "no certificate");
    }
    return found;
}

static int path(const char *bundle, const char *anchors) {
    STACK_OF(X509) *items = certificates(bundle), *roots = certificates(anchors);
    X509_STORE *store = X509_STORE_new();
    X509_STORE_CTX *context = X509_STORE_CTX_new();
    X509 *target = sk_X509_shift(items);
    for (int at = 0; at < sk_X509_num(roots); at++)
        need(X509_STORE_add_cert(store, sk_X509_value(roots, at)), "no anchor");
    need(X509_STORE_CTX_init(context, store, target, items), "no context");
    X509_VERIFY_PARAM *given = X509_STORE_CTX_get0_param(context);
    X509_VERIFY_PARAM_set_time(given, MOMENT);
    X509_VERIFY_PARAM_set_depth(given, 100);
    need(X509_verify_cert(context) == 1,
         X509_verify_cert_error_string(X509_STORE_CTX_get_error(context)));
    return sk_X509_num(X509_STORE_CTX_get0_chain(context));
}

int main(int count, char **words) {
    need(count > 2, "usage: peer READER FILE");
    const char *reader = words[1];
    long found = 0, length;
    if (strcmp(reader, "path") == 0) {
        printf("%d\n", path(words[2], words[3]));
        return 0;
    }
    const unsigned char *at = octets_of(words[2], &length), *end = at + length;
    for (; at < end; found++) {
        if (strcmp(reader, "list") == 0) {
            X509_CRL *list = d2i_X509_CRL(NULL, &at, end - at);
            need(list != NULL, "no list");
            X509_CRL_free(list);
        } else if (strcmp(reader, "name") == 0) {
            X509_NAME *name = d2i_X509_NAME(NULL, &at, end - at);
            need(name != NULL, "no name");
            X509_NAME_free(name);
        } else {
            X509 *certificate = d2i_X509(NULL, &at, end - at);
            need(certificate != NULL, "no certificate");
            /* (this reads its extensions) */
            if (strcmp(reader, "purpose") == 0)
                X509_check_purpose(certificate, -1, 0);
            X509_free(certificate);
        }
    }
    printf("%ld\n", found);
    return 0;
}
