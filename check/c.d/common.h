/* What the test programs share: a zone, requests to it, and a test that ends the program. */
#include "rumstrait.h"

#include <stdio.h>
#include <stdlib.h>
#include <string.h>

#define BYTES(text) (const uint8_t *)(text), sizeof(text) - 1

/* Ends the program if a condition does not hold. */
#define WANT(condition)                                                             \
    do {                                                                            \
        if (!(condition)) {                                                         \
            fprintf(stderr, "%s:%d: not %s\n", __FILE__, __LINE__, #condition);     \
            exit(1);                                                                \
        }                                                                           \
    } while (0)

static const char ZONE_TEXT[] =
    "$ORIGIN example.com.\n"
    "$TTL 60\n"
    "@ SOA ns hostmaster ( 1 3600 600 86400 30 )\n"
    "@ NS ns\n"
    "ns A 10.0.0.53\n"
    "www A 10.0.0.1\n"
    "www A 10.0.0.2\n"
    "alias CNAME www\n"
    "text TXT \"a text\"\n";

/* A query for www.example.com. A, with RD. */
static const uint8_t QUERY[] = "\x12\x34\x01\x00\x00\x01\x00\x00\x00\x00\x00\x00"
                               "\x03www\x07" "example\x03" "com\x00\x00\x01\x00\x01";
enum { QUERY_LEN = sizeof QUERY - 1 };

/* An update that adds new.example.com. 60 IN A 10.0.0.9 (RFC 2136 section 2.5.1). */
static const uint8_t UPDATE[] = "\x12\x35\x28\x00\x00\x01\x00\x00\x00\x01\x00\x00"
                                "\x07" "example\x03" "com\x00\x00\x06\x00\x01"
                                "\x03new\x07" "example\x03" "com\x00\x00\x01\x00\x01\x00\x00\x00\x3c\x00\x04\x0a\x00\x00\x09";
enum { UPDATE_LEN = sizeof UPDATE - 1 };

/* The code of a call to make a zone of ZONE_TEXT. */
static inline int32_t new_zone(rumstrait_zone **zone) {
    return rumstrait_zone_new(BYTES(ZONE_TEXT), BYTES("example.com."), zone);
}
