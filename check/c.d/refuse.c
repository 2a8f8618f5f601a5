/* Each allocation fails in turn: a code, a null handle, a zone that is as it was, and no memory that is lost. Link with
 * --wrap=malloc and --wrap=realloc. */
#include "common.h"

static long left = -1;
static long failed = 0;

void *__real_malloc(size_t size);
void *__real_realloc(void *block, size_t size);

static int fails(void) {
    if (left < 0) return 0;
    if (left == 0) {
        failed++;
        return 1;
    }
    left--;
    return 0;
}

void *__wrap_malloc(size_t size) { return fails() ? NULL : __real_malloc(size); }
void *__wrap_realloc(void *block, size_t size) { return fails() ? NULL : __real_realloc(block, size); }

/* Calls that make bytes of arguments alone. */
static int32_t text_of_query(uint8_t *out, size_t room, size_t *len) { return rumstrait_message_text(QUERY, QUERY_LEN, out, room, len); }
static int32_t query_again(uint8_t *out, size_t room, size_t *len) { return rumstrait_message_encode(UPDATE, UPDATE_LEN, out, room, len); }
static int32_t question(uint8_t *out, size_t room, size_t *len) {
    return rumstrait_question(1, BYTES("a-name-that-is-longer-than-what-is-inline.example.com."), 1, true, true, out, room, len);
}
static int32_t fault(uint8_t *out, size_t room, size_t *len) {
    size_t line = 77;
    int32_t code = rumstrait_zone_fault(BYTES("$TTL 60\n@ SOA ns h 1 1 1 1 1\nwww A 1\n"), BYTES("example.com."), &line, out, room, len);
    WANT(line == (code ? 77 : 3));
    return code;
}
static int32_t update(uint8_t *out, size_t room, size_t *len) {
    rumstrait_update *made = NULL;
    int32_t code = rumstrait_update_new(BYTES("a-name-that-is-longer-than-what-is-inline.example.com."), &made);
    if (code) {
        WANT(!made);
        return code;
    }
    code = rumstrait_update_item(made, RUMSTRAIT_FORBID_NAME, BYTES("another-name-that-is-longer-than-what-is-inline.example.com"), 1, 0, BYTES(""));
    if (!code) code = rumstrait_update_item(made, RUMSTRAIT_ADD_RECORD, BYTES("www.example.com"), 16, 60, BYTES("\"a text\" another"));
    if (!code) code = rumstrait_update_item(made, RUMSTRAIT_ADD_RECORD, BYTES("www.example.com"), 257, 60, BYTES("0 issue a"));
    if (!code) code = rumstrait_update_bytes(made, 1, out, room, len);
    rumstrait_update_free(made);
    return code;
}

/* A call with all allocations from the n-th on refused, for each n: a code, and nothing written, until it succeeds. */
static void refuse_call(const char *name, int32_t (*call)(uint8_t *, size_t, size_t *)) {
    static uint8_t out[4096];
    for (long n = 0;; n++) {
        size_t len = 77;
        memset(out, 0xee, sizeof out);
        left = n;
        int32_t code = call(out, sizeof out, &len);
        left = -1;
        if (code == RUMSTRAIT_OK) {
            WANT(n > 0);
            printf("%s: %ld\n", name, n);
            return;
        }
        WANT(code == RUMSTRAIT_OUT_OF_MEMORY && len == 77);
        for (size_t at = 0; at < sizeof out; at++) WANT(out[at] == 0xee);
    }
}

/* A zone, and its text. */
static size_t text_of(rumstrait_zone *zone, uint8_t *text, size_t room) {
    size_t len = 0;
    left = -1;
    WANT(rumstrait_zone_text(zone, text, room, &len) == RUMSTRAIT_OK);
    return len;
}

/* A request with all allocations from the n-th on refused: whether it is served. */
static int serve(rumstrait_zone *zone, const uint8_t *request, size_t request_len, long n) {
    uint8_t reply[512];
    size_t len = 77;
    memset(reply, 0xee, sizeof reply);
    left = n;
    int32_t code = rumstrait_zone_serve(zone, RUMSTRAIT_DATAGRAM, 512, request, request_len, reply, sizeof reply, &len);
    left = -1;
    if (code == RUMSTRAIT_OK) return 1;
    WANT(code == RUMSTRAIT_OUT_OF_MEMORY && len == 77);
    for (size_t at = 0; at < sizeof reply; at++) WANT(reply[at] == 0xee);
    return 0;
}

/* A whole lookup with all allocations from the n-th on refused, for each n: a code, until it finds its records. */
static void refuse_lookup(rumstrait_zone *zone) {
    static uint8_t message[512], reply[512], found[512];
    const uint16_t ids[2] = {1, 2};
    uint8_t server[RUMSTRAIT_ENDPOINT_LEN] = {0};
    for (long n = 0;; n++) {
        rumstrait_resolver *resolver = (rumstrait_resolver *)1;
        rumstrait_wait wait;
        uint64_t lookup = 77;
        size_t len = 0, reply_len = 0;
        left = n;
        int32_t code = rumstrait_resolver_new(server, sizeof server, 5000, 1, 10, &resolver);
        WANT(!code == !!resolver);
        if (!code) code = rumstrait_lookup_begin(resolver, BYTES("alias.example.com"), 1, ids, 2, 0, &lookup);
        WANT(!code || lookup == 77);
        if (!code) {
            while (!(code = rumstrait_lookup_wait(resolver, lookup, &wait, message, sizeof message, &len))) {
                long kept = left;
                left = -1;
                WANT(!rumstrait_zone_serve(zone, wait.transport, 512, message, len, reply, sizeof reply, &reply_len));
                left = kept;
                code = rumstrait_lookup_received(resolver, lookup, reply, reply_len, wait.server, sizeof wait.server, 1);
                if (code) break;
            }
            WANT(code == RUMSTRAIT_ENDED || code == RUMSTRAIT_OUT_OF_MEMORY);
            if (code == RUMSTRAIT_ENDED) code = rumstrait_lookup_records(resolver, lookup, found, sizeof found, &len);
        }
        left = -1;
        rumstrait_resolver_free(resolver);
        if (code == RUMSTRAIT_OK) {
            WANT(n > 10 && len > 60);
            printf("lookup: %ld\n", n);
            return;
        }
        WANT(code == RUMSTRAIT_OUT_OF_MEMORY);
    }
}

int main(void) {
    static uint8_t text[4096], same[4096];
    rumstrait_zone *zone = NULL;
    long n = 0;
    for (;; n++) {
        zone = (rumstrait_zone *)1;
        left = n;
        int32_t code = new_zone(&zone);
        left = -1;
        if (code == RUMSTRAIT_OK) break;
        WANT(code == RUMSTRAIT_OUT_OF_MEMORY && zone == NULL);
    }
    WANT(zone && n > 10);
    printf("new: %ld\n", n);
    size_t len = text_of(zone, text, sizeof text);
    for (n = 0; !serve(zone, QUERY, QUERY_LEN, n); n++);
    printf("query: %ld\n", n);
    for (n = 0; !serve(zone, UPDATE, UPDATE_LEN, n); n++) {
        WANT(text_of(zone, same, sizeof same) == len && !memcmp(text, same, len));
    }
    printf("update: %ld\n", n);
    for (n = 0;; n++) {
        size_t told = 77;
        left = n;
        int32_t code = rumstrait_zone_text(zone, same, sizeof same, &told);
        left = -1;
        if (code == RUMSTRAIT_OK) break;
        WANT(code == RUMSTRAIT_OUT_OF_MEMORY && told == 77);
    }
    printf("text: %ld\n", n);
    refuse_lookup(zone);
    rumstrait_zone_free(zone);
    refuse_call("message text", text_of_query);
    refuse_call("message again", query_again);
    refuse_call("question", question);
    refuse_call("zone fault", fault);
    refuse_call("update", update);
    WANT(failed > 20);
    puts("ok");
    return 0;
}
