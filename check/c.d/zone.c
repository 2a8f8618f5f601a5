/* Each function for zones, with the codes that the header names. */
#include "common.h"

/* A zone of a text is refused for a reason, and the handle is null. */
static void want_refused(const char *text, size_t text_len, const char *origin, int32_t code) {
    rumstrait_zone *zone = (rumstrait_zone *)1;
    WANT(rumstrait_zone_new((const uint8_t *)text, text_len, (const uint8_t *)origin, strlen(origin), &zone) == code);
    WANT(zone == NULL);
}

static void refuses(void) {
    want_refused("www A 10.0.0.1\n", 15, "example.com.", RUMSTRAIT_INVALID_ZONE);
    want_refused("", 0, "example.com.", RUMSTRAIT_INVALID_ZONE);
    want_refused("; \xff\n", 4, "example.com.", RUMSTRAIT_INVALID_ENCODING);
    want_refused(ZONE_TEXT, sizeof ZONE_TEXT - 1, "a..b", RUMSTRAIT_INVALID_NAME);
}

/* What is wrong in a text, and on which line. */
static void want_fault(const char *text, const char *origin, size_t wanted, const char *front) {
    uint8_t out[512];
    size_t line = 77, len = 77, needed = 0;
    WANT(rumstrait_zone_fault((const uint8_t *)text, strlen(text), (const uint8_t *)origin, strlen(origin), &line, out, sizeof out, &len) == RUMSTRAIT_OK);
    WANT(line == wanted && len >= strlen(front) && !memcmp(out, front, strlen(front)));
    if (!len) return;
    WANT(rumstrait_zone_fault((const uint8_t *)text, strlen(text), (const uint8_t *)origin, strlen(origin), &line, out, len - 1, &needed) == RUMSTRAIT_TOO_SMALL);
    WANT(line == wanted && needed == len);
}

static void faults(void) {
    uint8_t out[512];
    size_t line = 77, len = 77;
    want_fault(ZONE_TEXT, "example.com.", 0, "");
    want_fault("", "example.com.", 0, "no SOA record at the zone's origin; write: ");
    want_fault("$TTL 60\n@ SOA ns h 1 1 1 1 1\nwww A 1\n", "example.com.", 3, "an invalid value for this type; write ");
    want_fault("$TTL 60\n@ SOA ns h ( 1 1 1 1 1\n", "example.com.", 2, "");
    WANT(rumstrait_zone_fault(BYTES("; \xff\n"), BYTES("t."), &line, out, sizeof out, &len) == RUMSTRAIT_INVALID_ENCODING && line == 77 && len == 77);
    WANT(rumstrait_zone_fault(BYTES(ZONE_TEXT), BYTES("a..b"), &line, out, sizeof out, &len) == RUMSTRAIT_INVALID_NAME && line == 77 && len == 77);
}

static void serves(void) {
    rumstrait_zone *zone = NULL;
    uint8_t reply[65535];
    size_t len = 77;
    WANT(new_zone(&zone) == RUMSTRAIT_OK && zone);
    WANT(rumstrait_zone_serve(zone, RUMSTRAIT_DATAGRAM, 1232, QUERY, QUERY_LEN, reply, sizeof reply, &len) == RUMSTRAIT_OK);
    WANT(len == QUERY_LEN + 2 * 16 && reply[0] == 0x12 && reply[1] == 0x34 && reply[7] == 2);
    WANT(!memcmp(reply + len - 4, "\x0a\x00\x00\x02", 4));

    /* What the caller passes is refused before the request is read. */
    len = 77;
    WANT(rumstrait_zone_serve(zone, 2, 1232, QUERY, QUERY_LEN, reply, sizeof reply, &len) == RUMSTRAIT_INVALID_TRANSPORT);
    WANT(rumstrait_zone_serve(zone, RUMSTRAIT_DATAGRAM, 511, QUERY, QUERY_LEN, reply, sizeof reply, &len) == RUMSTRAIT_INVALID_LIMIT);
    WANT(rumstrait_zone_serve(zone, RUMSTRAIT_STREAM, 0, QUERY, 11, reply, sizeof reply, &len) == RUMSTRAIT_NO_REPLY);
    WANT(rumstrait_zone_serve(zone, RUMSTRAIT_STREAM, 0, QUERY, 0, reply, sizeof reply, &len) == RUMSTRAIT_NO_REPLY);
    WANT(len == 77);

    /* A buffer that is too small stays as it is, and the needed room is told. */
    memset(reply, 0xee, sizeof reply);
    WANT(rumstrait_zone_serve(zone, RUMSTRAIT_STREAM, 0, QUERY, QUERY_LEN, reply, QUERY_LEN + 31, &len) == RUMSTRAIT_TOO_SMALL);
    WANT(len == QUERY_LEN + 32);
    for (size_t at = 0; at < sizeof reply; at++) WANT(reply[at] == 0xee);
    WANT(rumstrait_zone_serve(zone, RUMSTRAIT_STREAM, 0, QUERY, QUERY_LEN, reply, len, &len) == RUMSTRAIT_OK);
    rumstrait_zone_free(zone);
}

/* The length of a zone's text. */
static size_t text_of(rumstrait_zone *zone, uint8_t *text, size_t room) {
    size_t len = 0, needed = 0;
    WANT(rumstrait_zone_text(zone, text, room, &len) == RUMSTRAIT_OK);
    WANT(rumstrait_zone_text(zone, text, len - 1, &needed) == RUMSTRAIT_TOO_SMALL && needed == len);
    text[len] = 0;
    return len;
}

static void updates(void) {
    rumstrait_zone *zone = NULL, *again = NULL;
    uint8_t reply[512], text[2048];
    size_t len = 0;
    WANT(new_zone(&zone) == RUMSTRAIT_OK);
    size_t before = text_of(zone, text, sizeof text - 1);
    WANT(!strstr((char *)text, "new.example.com."));

    /* Without room for the reply, the update is not applied. */
    WANT(rumstrait_zone_serve(zone, RUMSTRAIT_STREAM, 0, UPDATE, UPDATE_LEN, reply, 11, &len) == RUMSTRAIT_TOO_SMALL && len == 12);
    WANT(text_of(zone, text, sizeof text - 1) == before);
    WANT(rumstrait_zone_serve(zone, RUMSTRAIT_STREAM, 0, UPDATE, UPDATE_LEN, reply, sizeof reply, &len) == RUMSTRAIT_OK);
    WANT(len == 12 && (reply[3] & 15) == 0);
    len = text_of(zone, text, sizeof text - 1);
    WANT(strstr((char *)text, "new.example.com. 60 IN A 10.0.0.9\n"));

    /* The text is that of a zone. */
    WANT(rumstrait_zone_new(text, len, BYTES(""), &again) == RUMSTRAIT_OK);
    rumstrait_zone_free(zone);
    rumstrait_zone_free(again);
}

int main(void) {
    refuses();
    faults();
    serves();
    updates();
    puts("ok");
    return 0;
}
