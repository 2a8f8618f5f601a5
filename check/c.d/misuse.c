/* Handles and buffers that are misused in the ways that a call can detect: each gives its code, and nothing is written. */
#include "common.h"

static uint8_t out[512];
static size_t len;

/* A call returns a code, and changes neither the buffer nor the length. */
static void want_untouched(int32_t code, int32_t wanted) {
    WANT(code == wanted && len == 77);
    for (size_t at = 0; at < sizeof out; at++) WANT(out[at] == 0xee);
}

/* A null handle is refused before anything else, whatever the other arguments are. */
static void null_zone(void) {
    rumstrait_zone *none = NULL;
    want_untouched(rumstrait_zone_serve(none, RUMSTRAIT_DATAGRAM, 1232, QUERY, QUERY_LEN, out, sizeof out, &len), RUMSTRAIT_NULL_HANDLE);
    want_untouched(rumstrait_zone_serve(none, RUMSTRAIT_STREAM, 0, UPDATE, UPDATE_LEN, out, 0, &len), RUMSTRAIT_NULL_HANDLE);
    want_untouched(rumstrait_zone_serve(none, 2, 0, QUERY, 0, out, sizeof out, &len), RUMSTRAIT_NULL_HANDLE);
    want_untouched(rumstrait_zone_text(none, out, sizeof out, &len), RUMSTRAIT_NULL_HANDLE);
    want_untouched(rumstrait_zone_text(none, out, 0, &len), RUMSTRAIT_NULL_HANDLE);
    rumstrait_zone_free(none);
}

static void null_update(void) {
    rumstrait_update *none = NULL;
    want_untouched(rumstrait_update_item(none, RUMSTRAIT_ADD_RECORD, BYTES("t"), 1, 60, BYTES("10.0.0.1")), RUMSTRAIT_NULL_HANDLE);
    want_untouched(rumstrait_update_item(none, 0, BYTES("a..b"), 0, 0, BYTES("\xff")), RUMSTRAIT_NULL_HANDLE);
    want_untouched(rumstrait_update_bytes(none, 7, out, sizeof out, &len), RUMSTRAIT_NULL_HANDLE);
    want_untouched(rumstrait_update_bytes(none, 7, out, 0, &len), RUMSTRAIT_NULL_HANDLE);
    rumstrait_update_free(none);
}

static void null_resolver(void) {
    rumstrait_resolver *none = NULL;
    uint64_t lookup = 7;
    uint16_t ids[1] = {1};
    rumstrait_wait wait = {.number = 7};
    want_untouched(rumstrait_lookup_begin(none, BYTES("a..b"), 1, ids, 1, 0, &lookup), RUMSTRAIT_NULL_HANDLE);
    want_untouched(rumstrait_lookup_wait(none, 1, &wait, out, sizeof out, &len), RUMSTRAIT_NULL_HANDLE);
    want_untouched(rumstrait_lookup_received(none, 1, out, sizeof out, out, 3, 0), RUMSTRAIT_NULL_HANDLE);
    want_untouched(rumstrait_lookup_timed_out(none, 1, 0), RUMSTRAIT_NULL_HANDLE);
    want_untouched(rumstrait_lookup_failed(none, 1, 0), RUMSTRAIT_NULL_HANDLE);
    want_untouched(rumstrait_lookup_records(none, 1, out, 0, &len), RUMSTRAIT_NULL_HANDLE);
    want_untouched(rumstrait_lookup_free(none, 1), RUMSTRAIT_NULL_HANDLE);
    WANT(lookup == 7 && wait.number == 7);
    rumstrait_resolver_free(none);
}

/* Numbers of no lookup, endpoints of a wrong size, and calls that come too early or too late. */
static void wrong_lookups(void) {
    rumstrait_resolver *resolver = (rumstrait_resolver *)1;
    uint8_t servers[2 * RUMSTRAIT_ENDPOINT_LEN] = {0};
    uint16_t ids[1] = {1};
    uint64_t lookup = 7;
    rumstrait_wait wait = {.number = 7};
    for (size_t size = 1; size < sizeof servers; size++) {
        if (size == RUMSTRAIT_ENDPOINT_LEN) continue;
        resolver = (rumstrait_resolver *)1;
        WANT(rumstrait_resolver_new(servers, size, 5000, 1, 10, &resolver) == RUMSTRAIT_INVALID_ENDPOINT && !resolver);
    }
    WANT(rumstrait_resolver_new(servers, sizeof servers, 5000, 1, 10, &resolver) == RUMSTRAIT_OK);
    want_untouched(rumstrait_lookup_begin(resolver, BYTES("a..b"), 1, ids, 1, 0, &lookup), RUMSTRAIT_INVALID_NAME);
    WANT(lookup == 7);
    uint64_t none[] = {0, 2, 7, UINT64_MAX};
    WANT(rumstrait_lookup_begin(resolver, BYTES("www.t"), 1, ids, 1, 0, &lookup) == RUMSTRAIT_OK && lookup == 1);
    for (size_t at = 0; at < 4; at++) {
        want_untouched(rumstrait_lookup_wait(resolver, none[at], &wait, out, sizeof out, &len), RUMSTRAIT_NO_LOOKUP);
        want_untouched(rumstrait_lookup_received(resolver, none[at], out, 1, servers, RUMSTRAIT_ENDPOINT_LEN, 0), RUMSTRAIT_NO_LOOKUP);
        want_untouched(rumstrait_lookup_timed_out(resolver, none[at], 0), RUMSTRAIT_NO_LOOKUP);
        want_untouched(rumstrait_lookup_failed(resolver, none[at], 0), RUMSTRAIT_NO_LOOKUP);
        want_untouched(rumstrait_lookup_records(resolver, none[at], out, sizeof out, &len), RUMSTRAIT_NO_LOOKUP);
        want_untouched(rumstrait_lookup_free(resolver, none[at]), RUMSTRAIT_NO_LOOKUP);
    }
    WANT(wait.number == 7);
    for (size_t size = 0; size < sizeof servers; size++) {
        if (size == RUMSTRAIT_ENDPOINT_LEN) continue;
        want_untouched(rumstrait_lookup_received(resolver, lookup, out, 1, servers, size, 0), RUMSTRAIT_INVALID_ENDPOINT);
    }
    want_untouched(rumstrait_lookup_records(resolver, lookup, out, sizeof out, &len), RUMSTRAIT_WAITING);
    WANT(rumstrait_lookup_failed(resolver, lookup, 0) == RUMSTRAIT_OK && rumstrait_lookup_timed_out(resolver, lookup, 0) == RUMSTRAIT_OK);
    want_untouched(rumstrait_lookup_wait(resolver, lookup, &wait, out, sizeof out, &len), RUMSTRAIT_ENDED);
    WANT(rumstrait_lookup_failed(resolver, lookup, 0) == RUMSTRAIT_OK && rumstrait_lookup_timed_out(resolver, lookup, 0) == RUMSTRAIT_OK);
    want_untouched(rumstrait_lookup_records(resolver, lookup, out, sizeof out, &len), RUMSTRAIT_NO_SERVER);
    WANT(rumstrait_lookup_begin(resolver, BYTES("www.t"), 1, ids, 0, 0, &lookup) == RUMSTRAIT_OK && lookup == 2);
    want_untouched(rumstrait_lookup_records(resolver, lookup, out, sizeof out, &len), RUMSTRAIT_NO_ID);
    rumstrait_resolver_free(resolver);
}

/* The handle that a refused call leaves is null, so it can be used and freed, and gives a code. */
static void refused_handles(void) {
    rumstrait_zone *zone = (rumstrait_zone *)1;
    rumstrait_update *update = (rumstrait_update *)1;
    WANT(rumstrait_zone_new(BYTES("www A"), BYTES("t."), &zone) == RUMSTRAIT_INVALID_ZONE);
    want_untouched(rumstrait_zone_text(zone, out, sizeof out, &len), RUMSTRAIT_NULL_HANDLE);
    rumstrait_zone_free(zone);
    WANT(rumstrait_update_new(BYTES("a..b"), &update) == RUMSTRAIT_INVALID_NAME);
    want_untouched(rumstrait_update_bytes(update, 7, out, sizeof out, &len), RUMSTRAIT_NULL_HANDLE);
    rumstrait_update_free(update);
}

/* Each room below what is needed is refused, and the length is told. */
static void small_rooms(void) {
    rumstrait_zone *zone = NULL;
    size_t needed = QUERY_LEN + 32;
    WANT(new_zone(&zone) == RUMSTRAIT_OK);
    for (size_t room = 0; room < needed; room++) {
        len = 77;
        WANT(rumstrait_zone_serve(zone, RUMSTRAIT_STREAM, 0, QUERY, QUERY_LEN, out, room, &len) == RUMSTRAIT_TOO_SMALL && len == needed);
        for (size_t at = 0; at < sizeof out; at++) WANT(out[at] == 0xee);
    }
    rumstrait_zone_free(zone);
}

int main(void) {
    memset(out, 0xee, sizeof out);
    len = 77;
    null_zone();
    null_update();
    null_resolver();
    wrong_lookups();
    refused_handles();
    small_rooms();
    puts("ok");
    return 0;
}
