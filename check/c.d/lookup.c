/* Lookups, whose servers are zones in the process: what is sent, the records that are found, and each way in which a lookup ends. */
#include "common.h"

#include <arpa/inet.h>

static const char SERVED[] =
    "$TTL 60\n"
    "@ SOA ns hostmaster ( 1 3600 600 86400 30 )\n"
    "@ NS ns\n"
    "ns A 10.0.0.53\n"
    "www A 10.0.0.1\n"
    "alias CNAME www\n"
    "long TXT \"0123456789012345678901234567890123456789012345678901234567890123456789012345678901234567890123456789\"\n"
    "long TXT \"1123456789012345678901234567890123456789012345678901234567890123456789012345678901234567890123456789\"\n"
    "long TXT \"2123456789012345678901234567890123456789012345678901234567890123456789012345678901234567890123456789\"\n"
    "long TXT \"3123456789012345678901234567890123456789012345678901234567890123456789012345678901234567890123456789\"\n"
    "long TXT \"4123456789012345678901234567890123456789012345678901234567890123456789012345678901234567890123456789\"\n"
    "long TXT \"5123456789012345678901234567890123456789012345678901234567890123456789012345678901234567890123456789\"\n"
    "loop CNAME loop\n";

static const uint16_t IDS[8] = {1, 2, 3, 4, 5, 6, 7, 8};
enum { A = 1, TXT = 16, TIMEOUT = 5000 };

static uint8_t servers[2 * RUMSTRAIT_ENDPOINT_LEN];
static rumstrait_zone *zone;
static rumstrait_resolver *resolver;

/* The endpoint of an IPv4 address and a port. */
static void endpoint(uint8_t *out, const char *address, uint16_t port) {
    memset(out, 0, 10);
    out[10] = out[11] = 0xff;
    WANT(inet_pton(AF_INET, address, out + 12) == 1);
    out[16] = (uint8_t)(port >> 8);
    out[17] = (uint8_t)port;
}

/* Begins a lookup. */
static uint64_t begin(const char *name, uint16_t type, uint64_t clock) {
    uint64_t lookup = 0;
    WANT(rumstrait_lookup_begin(resolver, (const uint8_t *)name, strlen(name), type, IDS, 8, clock, &lookup) == RUMSTRAIT_OK);
    WANT(lookup > 0);
    return lookup;
}

/* Has the zone reply to the message of a lookup, and passes on the reply. Returns the code of what the lookup waits for. */
static int32_t exchange(uint64_t lookup, uint64_t clock) {
    static uint8_t message[65535], reply[65535];
    rumstrait_wait wait;
    size_t len, reply_len;
    int32_t code = rumstrait_lookup_wait(resolver, lookup, &wait, message, sizeof message, &len);
    if (code) return code;
    WANT(wait.deadline == clock + TIMEOUT);
    WANT(rumstrait_zone_serve(zone, wait.transport, 512, message, len, reply, sizeof reply, &reply_len) == RUMSTRAIT_OK);
    WANT(rumstrait_lookup_received(resolver, lookup, reply, reply_len, wait.server, sizeof wait.server, clock) == RUMSTRAIT_OK);
    return RUMSTRAIT_OK;
}

/* The lookup has ended in a code, and has these records if that is 0. */
static void want_end(uint64_t lookup, int32_t wanted, const char *records) {
    char text[4096];
    size_t len = 0;
    int32_t code = rumstrait_lookup_records(resolver, lookup, (uint8_t *)text, sizeof text, &len);
    WANT(code == wanted);
    if (!code) WANT(len == strlen(records) && !memcmp(text, records, len));
    WANT(rumstrait_lookup_free(resolver, lookup) == RUMSTRAIT_OK);
    WANT(rumstrait_lookup_free(resolver, lookup) == RUMSTRAIT_NO_LOOKUP);
}

/* A lookup that the zone answers, which ends in a code, after so many messages. */
static void look_up(const char *name, uint16_t type, uint64_t clock, int exchanges, int32_t wanted, const char *records) {
    uint64_t lookup = begin(name, type, clock);
    for (int done = 0; done < exchanges; done++) WANT(exchange(lookup, clock) == RUMSTRAIT_OK);
    WANT(exchange(lookup, clock) == RUMSTRAIT_ENDED);
    want_end(lookup, wanted, records);
}

/* What is sent, to which server, over which transport, and until when; what is not the reply is dropped; the next server is asked. */
static void steps(void) {
    uint8_t message[512], reply[512], stranger[RUMSTRAIT_ENDPOINT_LEN];
    rumstrait_wait wait, same;
    size_t len, reply_len;
    uint64_t lookup = begin("steps.t", A, 100000);
    endpoint(stranger, "203.0.113.1", 53);
    WANT(rumstrait_lookup_wait(resolver, lookup, &wait, message, 0, &len) == RUMSTRAIT_TOO_SMALL && len > 12);
    WANT(rumstrait_lookup_wait(resolver, lookup, &wait, message, sizeof message, &len) == RUMSTRAIT_OK);
    WANT(wait.exchanges == 0 && wait.number == 1 && wait.deadline == 105000 && wait.transport == RUMSTRAIT_DATAGRAM);
    WANT(!memcmp(wait.server, servers, sizeof wait.server));
    WANT(message[0] == 0 && message[1] == 1);
    WANT(rumstrait_zone_serve(zone, RUMSTRAIT_DATAGRAM, 512, message, len, reply, sizeof reply, &reply_len) == RUMSTRAIT_OK);
    WANT(rumstrait_lookup_received(resolver, lookup, reply, reply_len, stranger, sizeof stranger, 100010) == RUMSTRAIT_OK);
    WANT(rumstrait_lookup_received(resolver, lookup, message, len, wait.server, sizeof wait.server, 100020) == RUMSTRAIT_OK);
    reply[1] ^= 1;
    WANT(rumstrait_lookup_received(resolver, lookup, reply, reply_len, wait.server, sizeof wait.server, 100030) == RUMSTRAIT_OK);
    WANT(rumstrait_lookup_wait(resolver, lookup, &same, message, sizeof message, &len) == RUMSTRAIT_OK);
    WANT(same.exchanges == 0 && same.number == 1 && same.deadline == 105000);
    WANT(rumstrait_lookup_timed_out(resolver, lookup, 105000) == RUMSTRAIT_OK);
    WANT(rumstrait_lookup_wait(resolver, lookup, &wait, message, sizeof message, &len) == RUMSTRAIT_OK);
    WANT(wait.number == 2 && wait.deadline == 110000 && !memcmp(wait.server, servers + RUMSTRAIT_ENDPOINT_LEN, sizeof wait.server));
    WANT(rumstrait_lookup_failed(resolver, lookup, 105010) == RUMSTRAIT_OK);
    WANT(exchange(lookup, 105010) == RUMSTRAIT_ENDED);
    want_end(lookup, RUMSTRAIT_NO_SERVER, "");
}

/* Lookups that are open at once have numbers of their own, and end in any order. */
static void at_once(void) {
    uint64_t lookups[100];
    for (size_t at = 0; at < 100; at++) lookups[at] = begin("www.t", A, 200000);
    for (size_t at = 1; at < 100; at++) WANT(lookups[at] == lookups[at - 1] + 1);
    for (size_t at = 100; at-- > 50;) WANT(exchange(lookups[at], 200000) == RUMSTRAIT_OK);
    for (size_t at = 50; at < 100; at++) want_end(lookups[at], RUMSTRAIT_OK, "www.t. 60 IN A 10.0.0.1\n");
    /* The others are freed with the resolver. */
}

int main(void) {
    endpoint(servers, "192.0.2.1", 53);
    endpoint(servers + RUMSTRAIT_ENDPOINT_LEN, "192.0.2.2", 5353);
    WANT(rumstrait_zone_new(BYTES(SERVED), BYTES("t."), &zone) == RUMSTRAIT_OK);
    WANT(rumstrait_resolver_new(servers, sizeof servers, TIMEOUT, 1, 100, &resolver) == RUMSTRAIT_OK);
    look_up("www.t", A, 1000, 1, RUMSTRAIT_OK, "www.t. 60 IN A 10.0.0.1\n");
    look_up("WWW.T.", A, 11000, 0, RUMSTRAIT_OK, "www.t. 50 IN A 10.0.0.1\n");
    look_up("none.t", A, 12000, 1, RUMSTRAIT_NO_NAME, "");
    look_up("none.t", A, 13000, 0, RUMSTRAIT_NO_NAME, "");
    look_up("www.t", TXT, 14000, 1, RUMSTRAIT_NO_RECORDS, "");
    look_up("a.other", A, 15000, 2, RUMSTRAIT_SERVER_ERROR, "");
    steps();
    at_once();
    rumstrait_resolver_free(resolver);
    rumstrait_zone_free(zone);
    puts("ok");
    return 0;
}
