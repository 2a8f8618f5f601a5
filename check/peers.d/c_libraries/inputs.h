/* The inputs of the rows of repeated.rows, and what their calls by other libraries share. */
#ifndef INPUTS_H
#define INPUTS_H

#include <stdint.h>
#include <stdio.h>
#include <stdlib.h>
#include <string.h>

/* Two names of four labels, equal up to ASCII case. */
static const char *const TEXTS[2] = {"Host.www.example.com.", "host.WWW.Example.com."};

/* The names of a message: a question, and what answers it. */
static const char *const MESSAGE[10] = {
    "example.com.",     "example.com.",     "mail.example.com.", "example.com.",     "www.example.com.",
    "www.example.com.", "web.example.com.", "ns1.example.net.",  "ns2.example.net.", "ns1.example.net.",
};

/* The names of four labels at 21 and 25, each over three pointers. */
static const uint8_t BYTES[29] = "\x03" "com\x00\x07" "example\xC0\x00\x03" "www\xC0\x05\x01" "a\xC0\x0F\x01" "b\xC0\x0F";

/* The data of an SOA, an MX and an SRV record, and a text of two strings, each after its length. A pointer in it counts from there. */
struct data {
    uint16_t type;
    const char *bytes;
    size_t len;
};
#define DATA(type, bytes) {type, bytes, sizeof bytes - 1}
static const struct data ITEMS[4] = {
    DATA(6, "\x00\x2B\x02" "ns\x07" "example\x03" "com\x00\x04" "host\xC0\x05\x00\x00\x00\x01\x00\x00\x0E\x10\x00\x00\x02\x58"
            "\x00\x01\x51\x80\x00\x00\x01\x2C"),
    DATA(15, "\x00\x14\x00\x0A\x04" "mail\x07" "example\x03" "com\x00"),
    DATA(33, "\x00\x17\x00\x01\x00\x02\x13\xC4\x03" "sip\x07" "example\x03" "com\x00"),
    DATA(16, "\x00\x13\x0B" "v=spf1 -all\x06" "second"),
};

/* The reply with an alias and its address, the start of authority, and an OPT record. */
static const char ALIAS[] = "\x00\x07\x85\x80\x00\x01\x00\x02\x00\x01\x00\x01"
                            "\x03" "www\x07" "example\x03" "com\x00\x00\x01\x00\x01"
                            "\xC0\x0C\x00\x05\x00\x01\x00\x00\x01\x2C\x00\x07\x04" "host\xC0\x10"
                            "\xC0\x2D\x00\x01\x00\x01\x00\x00\x01\x2C\x00\x04\xC0\x00\x02\x01"
                            "\xC0\x10\x00\x06\x00\x01\x00\x00\x0E\x10\x00\x26\x02" "ns\xC0\x10\x0A" "hostmaster\xC0\x10"
                            "\x00\x00\x00\x01\x00\x00\x0E\x10\x00\x00\x02\x58\x00\x01\x51\x80\x00\x00\x01\x2C"
                            "\x00\x00\x29\x04\xD0\x00\x00\x00\x00\x00\x00";

/* The start of a reply with addresses, up to the number of its answers; the rest of its header, and its question; and an address
   up to its last byte. */
static const char START[] = "\x00\x07\x85\x80\x00\x01\x00";
static const char QUESTION[] = "\x00\x00\x00\x00\x03" "www\x07" "example\x03" "com\x00\x00\x01\x00\x01";
static const char ADDRESS[] = "\xC0\x0C\x00\x01\x00\x01\x00\x00\x01\x2C\x00\x04\xC0\x00\x02";

/* The payload size of who says none. */
enum { LEAST_PAYLOAD = 512 };

struct reply {
    uint8_t bytes[512];
    size_t len;
};

static void append(struct reply *reply, const char *bytes, size_t len) {
    memcpy(reply->bytes + reply->len, bytes, len);
    reply->len += len;
}

/* The reply that an operation is about, by the end of its name: ten addresses, one, or the alias. */
static inline struct reply reply_of(const char *what) {
    struct reply reply = {.len = 0};
    uint8_t count = strstr(what, "-ten") ? 10 : strstr(what, "-one") ? 1 : 0;
    if (!count) {
        append(&reply, ALIAS, sizeof ALIAS - 1);
        return reply;
    }
    append(&reply, START, sizeof START - 1);
    reply.bytes[reply.len++] = count;
    append(&reply, QUESTION, sizeof QUESTION - 1);
    for (uint8_t number = 0; number < count; number++) {
        append(&reply, ADDRESS, sizeof ADDRESS - 1);
        reply.bytes[reply.len++] = number;
    }
    return reply;
}

/* Whether the name of an operation is this one, or this one and then `-one` or `-ten`. */
static inline int is_about(const char *what, const char *operation) {
    size_t len = strlen(operation);
    return !strncmp(what, operation, len) && (!what[len] || !strcmp(what + len, "-one") || !strcmp(what + len, "-ten"));
}

/* Ends the program if something failed that cannot fail on these inputs. */
static inline void need(int is_well, const char *what) {
    if (!is_well) {
        fprintf(stderr, "it failed: %s\n", what);
        exit(1);
    }
}

/* Repeats an operation so often, and returns its checksum. */
typedef uint64_t operation(const char *what, uint64_t count);

struct named {
    const char *name;
    operation *repeat;
};

/* The program: `PROGRAM WHAT COUNT` prints WHAT and its checksum. The status is 3 if the library has no such operation. */
static int run(const struct named *operations, int argc, char **argv) {
    if (argc != 3) {
        fprintf(stderr, "usage: %s WHAT COUNT\n", argv[0]);
        return 2;
    }
    for (; operations->name; operations++) {
        if (is_about(argv[1], operations->name)) {
            printf("%s %llu\n", argv[1], (unsigned long long)operations->repeat(argv[1], strtoull(argv[2], NULL, 10)));
            return 0;
        }
    }
    return 3;
}

#endif
