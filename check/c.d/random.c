/* Random requests, by count, some of them to a null handle: a code that the header names, a length within the room, and
 * nothing written after it. */
#include "common.h"

static uint64_t state = 0x9e3779b97f4a7c15u;

static uint32_t next(void) {
    state ^= state << 13;
    state ^= state >> 7;
    state ^= state << 17;
    return (uint32_t)(state >> 16);
}

/* Writes a request: random bytes, or a query or an update with some bytes changed, and returns its length. */
static size_t request_at(uint8_t *to) {
    size_t len = next() % 80;
    switch (next() % 4) {
    case 0:
        for (size_t at = 0; at < len; at++) to[at] = (uint8_t)next();
        return len;
    case 1:
        memcpy(to, UPDATE, len = UPDATE_LEN);
        break;
    default:
        memcpy(to, QUERY, len = QUERY_LEN);
    }
    for (uint32_t edits = next() % 6; edits; edits--) to[next() % len] = (uint8_t)next();
    return next() % 8 ? len : next() % (len + 1);
}

int main(int count, char **words) {
    static uint8_t reply[65535 + 16];
    uint8_t request[128];
    uint64_t times = count > 1 ? strtoull(words[1], NULL, 10) : 1000000, codes[16] = {0};
    rumstrait_zone *zone = NULL;
    WANT(new_zone(&zone) == RUMSTRAIT_OK);
    for (uint64_t n = 0; n < times; n++) {
        size_t request_len = request_at(request), len = 77, room = next() % 4 ? 65535 : next() % 200;
        uint32_t transport = next() % 3;
        uint16_t limit = (uint16_t)(next() % 2 ? 1232 : 500 + next() % 24);
        memset(reply + room, 0xee, 16);
        rumstrait_zone *handle = next() % 64 ? zone : NULL;
        int32_t code = rumstrait_zone_serve(handle, transport, limit, request, request_len, reply, room, &len);
        WANT(code >= 0 && code < 16);
        codes[code]++;
        for (size_t at = 0; at < 16; at++) WANT(reply[room + at] == 0xee);
        WANT((code == RUMSTRAIT_NULL_HANDLE) == !handle);
        switch (code) {
        case RUMSTRAIT_NULL_HANDLE:
            WANT(len == 77);
            break;
        case RUMSTRAIT_OK:
            WANT(len >= 12 && len <= room && reply[2] & 0x80);
            WANT(transport == RUMSTRAIT_STREAM || len <= limit);
            break;
        case RUMSTRAIT_TOO_SMALL:
            WANT(len > room);
            break;
        case RUMSTRAIT_INVALID_TRANSPORT:
            WANT(transport == 2 && len == 77);
            break;
        case RUMSTRAIT_INVALID_LIMIT:
            WANT(transport == 0 && limit < 512 && len == 77);
            break;
        default:
            WANT(code == RUMSTRAIT_NO_REPLY && len == 77);
        }
    }
    rumstrait_zone_free(zone);
    for (int code = 0; code < 16; code++)
        if (codes[code]) printf("code %d: %llu\n", code, (unsigned long long)codes[code]);
    puts("ok");
    return 0;
}
