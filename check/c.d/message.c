/* Each function for messages, with the codes that the header names. */
#include "common.h"

static void texts(void) {
    uint8_t text[4096];
    size_t len = 77;
    WANT(rumstrait_message_text(QUERY, 11, text, sizeof text, &len) == RUMSTRAIT_INVALID_MESSAGE && len == 77);
    WANT(rumstrait_message_text(QUERY, QUERY_LEN - 1, text, sizeof text, &len) == RUMSTRAIT_INVALID_MESSAGE && len == 77);
    WANT(rumstrait_message_text(QUERY, QUERY_LEN, text, sizeof text - 1, &len) == RUMSTRAIT_OK);
    text[len] = 0;
    WANT(strstr((char *)text, "id: 4660") && strstr((char *)text, "www.example.com."));
    size_t needed = 0;
    WANT(rumstrait_message_text(QUERY, QUERY_LEN, text, len - 1, &needed) == RUMSTRAIT_TOO_SMALL && needed == len);
}

static void encodes(void) {
    uint8_t out[512];
    size_t len = 77;
    WANT(rumstrait_message_encode(QUERY, 0, out, sizeof out, &len) == RUMSTRAIT_INVALID_MESSAGE && len == 77);
    WANT(rumstrait_message_encode(QUERY, QUERY_LEN, out, sizeof out, &len) == RUMSTRAIT_OK);
    WANT(len == QUERY_LEN && !memcmp(out, QUERY, len));
    WANT(rumstrait_message_encode(QUERY, QUERY_LEN, out, len - 1, &len) == RUMSTRAIT_TOO_SMALL && len == QUERY_LEN);
}

static void asks(void) {
    uint8_t out[512];
    size_t len = 77;
    WANT(rumstrait_question(0x1234, BYTES("a..b"), 1, true, false, out, sizeof out, &len) == RUMSTRAIT_INVALID_NAME && len == 77);
    WANT(rumstrait_question(0x1234, BYTES("www.example.com"), 1, true, false, out, sizeof out, &len) == RUMSTRAIT_OK);
    WANT(len == QUERY_LEN && !memcmp(out, QUERY, len));
    WANT(rumstrait_question(0x1234, BYTES("www.example.com."), 1, true, true, out, sizeof out, &len) == RUMSTRAIT_OK);
    WANT(len == QUERY_LEN + 11 && out[11] == 1 && !memcmp(out + QUERY_LEN, "\0\0\x29\x04\xd0", 5));
    WANT(rumstrait_question(1, BYTES("t."), 1, false, false, out, 0, &len) == RUMSTRAIT_TOO_SMALL && len == 19);
}

/* Adds an item, with the type A, to an update. */
static int32_t add(rumstrait_update *update, uint32_t item, const char *name, const char *data) {
    return rumstrait_update_item(update, item, (const uint8_t *)name, strlen(name), 1, 60, (const uint8_t *)data, strlen(data));
}

/* The response code of a zone to an update. */
static int code_of(rumstrait_zone *zone, rumstrait_update *update) {
    uint8_t request[2048], reply[2048];
    size_t len = 0, reply_len = 0;
    WANT(rumstrait_update_bytes(update, 7, request, sizeof request, &len) == RUMSTRAIT_OK);
    WANT(rumstrait_zone_serve(zone, RUMSTRAIT_STREAM, 0, request, len, reply, sizeof reply, &reply_len) == RUMSTRAIT_OK);
    return reply[3] & 15;
}

/* The response code to an update with one item, which a zone that has www and text but not new gives. */
static int code_of_item(uint32_t item, const char *name, const char *data) {
    rumstrait_update *update = NULL;
    rumstrait_zone *zone = NULL;
    WANT(rumstrait_update_new(BYTES("example.com"), &update) == RUMSTRAIT_OK && new_zone(&zone) == RUMSTRAIT_OK);
    WANT(add(update, item, name, data) == RUMSTRAIT_OK);
    int code = code_of(zone, update);
    rumstrait_update_free(update);
    rumstrait_zone_free(zone);
    return code;
}

static void items(void) {
    enum { NOERROR = 0, NXDOMAIN = 3, YXDOMAIN = 6, YXRRSET = 7, NXRRSET = 8, NOTZONE = 10 };
    WANT(code_of_item(RUMSTRAIT_REQUIRE_SET, "www.example.com", "") == NOERROR);
    WANT(code_of_item(RUMSTRAIT_REQUIRE_SET, "text.example.com", "") == NXRRSET);
    WANT(code_of_item(RUMSTRAIT_REQUIRE_RECORD, "ns.example.com", "10.0.0.53") == NOERROR);
    WANT(code_of_item(RUMSTRAIT_REQUIRE_RECORD, "ns.example.com", "10.0.0.54") == NXRRSET);
    WANT(code_of_item(RUMSTRAIT_FORBID_SET, "text.example.com", "") == NOERROR);
    WANT(code_of_item(RUMSTRAIT_FORBID_SET, "www.example.com", "") == YXRRSET);
    WANT(code_of_item(RUMSTRAIT_REQUIRE_NAME, "www.example.com", "") == NOERROR);
    WANT(code_of_item(RUMSTRAIT_REQUIRE_NAME, "new.example.com", "") == NXDOMAIN);
    WANT(code_of_item(RUMSTRAIT_FORBID_NAME, "new.example.com", "") == NOERROR);
    WANT(code_of_item(RUMSTRAIT_FORBID_NAME, "www.example.com", "") == YXDOMAIN);
    WANT(code_of_item(RUMSTRAIT_ADD_RECORD, "new.example.com", "10.0.0.9") == NOERROR);
    WANT(code_of_item(RUMSTRAIT_DELETE_SET, "www.example.com", "") == NOERROR);
    WANT(code_of_item(RUMSTRAIT_DELETE_NAME, "new.example.net", "") == NOTZONE);
}

static void updates(void) {
    uint8_t out[512], text[2048];
    size_t len = 77, text_len = 0;
    rumstrait_update *update = (rumstrait_update *)1;
    rumstrait_zone *zone = NULL;
    WANT(rumstrait_update_new(BYTES("a..b"), &update) == RUMSTRAIT_INVALID_NAME && update == NULL);
    WANT(rumstrait_update_new(BYTES("example.com."), &update) == RUMSTRAIT_OK && update);
    WANT(rumstrait_update_bytes(update, 0x1235, out, 28, &len) == RUMSTRAIT_TOO_SMALL && len == 29);
    WANT(rumstrait_update_bytes(update, 0x1235, out, sizeof out, &len) == RUMSTRAIT_OK && len == 29);
    WANT(!memcmp(out, UPDATE, 9) && out[9] == 0 && !memcmp(out + 10, UPDATE + 10, 19));

    WANT(add(update, 0, "new.example.com", "10.0.0.9") == RUMSTRAIT_INVALID_ITEM);
    WANT(add(update, 6, "new.example.com", "10.0.0.9") == RUMSTRAIT_INVALID_ITEM);
    WANT(add(update, RUMSTRAIT_ADD_RECORD, "a..b", "10.0.0.9") == RUMSTRAIT_INVALID_NAME);
    WANT(add(update, RUMSTRAIT_ADD_RECORD, "new.example.com", "ten") == RUMSTRAIT_INVALID_DATA);
    WANT(add(update, RUMSTRAIT_ADD_RECORD, "new.example.com", "10.0.0.9 10.0.0.8") == RUMSTRAIT_INVALID_DATA);
    WANT(add(update, RUMSTRAIT_ADD_RECORD, "new.example.com", "\"10.0.0.9") == RUMSTRAIT_INVALID_DATA);
    WANT(add(update, RUMSTRAIT_ADD_RECORD, "new.example.com", "") == RUMSTRAIT_INVALID_DATA);
    WANT(add(update, RUMSTRAIT_ADD_RECORD, "new.example.com", "\xff") == RUMSTRAIT_INVALID_ENCODING);
    WANT(rumstrait_update_bytes(update, 0x1235, out, sizeof out, &len) == RUMSTRAIT_OK && len == 29);

    WANT(add(update, RUMSTRAIT_FORBID_NAME, "new.example.com", "") == RUMSTRAIT_OK);
    WANT(add(update, RUMSTRAIT_ADD_RECORD, "new.example.com", "10.0.0.9") == RUMSTRAIT_OK);
    WANT(add(update, RUMSTRAIT_DELETE_RECORD, "www.example.com", "10.0.0.1") == RUMSTRAIT_OK);
    WANT(rumstrait_update_item(update, RUMSTRAIT_ADD_RECORD, BYTES("example.com"), 15, 30, BYTES("10 new"))== RUMSTRAIT_OK);
    WANT(rumstrait_update_item(update, RUMSTRAIT_ADD_RECORD, BYTES("example.com"), 257, 30, BYTES("0 issue \"ca.test\"")) == RUMSTRAIT_OK);
    WANT(rumstrait_update_item(update, RUMSTRAIT_ADD_RECORD, BYTES("example.com"), 65280, 30, BYTES("\\# 2 abcd")) == RUMSTRAIT_OK);
    WANT(rumstrait_update_item(update, RUMSTRAIT_ADD_RECORD, BYTES("example.com"), 41, 30, BYTES("\\# 2 abcd")) == RUMSTRAIT_INVALID_DATA);
    WANT(new_zone(&zone) == RUMSTRAIT_OK);
    WANT(code_of(zone, update) == 0 && code_of(zone, update) == 6);
    WANT(rumstrait_zone_text(zone, text, sizeof text - 1, &text_len) == RUMSTRAIT_OK);
    text[text_len] = 0;
    WANT(strstr((char *)text, "new.example.com. 60 IN A 10.0.0.9\n") && !strstr((char *)text, "10.0.0.1\n"));
    WANT(strstr((char *)text, "example.com. 30 IN MX 10 new.example.com.\n"));

    /* No message can have an item of the type OPT. */
    WANT(rumstrait_update_item(update, RUMSTRAIT_DELETE_SET, BYTES("example.com"), 41, 0, BYTES("")) == RUMSTRAIT_OK);
    len = 77;
    WANT(rumstrait_update_bytes(update, 1, out, sizeof out, &len) == RUMSTRAIT_INVALID_UPDATE && len == 77);
    rumstrait_update_free(update);
    rumstrait_zone_free(zone);
}

/* An update of more than 65,535 bytes is refused. */
static void long_updates(void) {
    rumstrait_update *update = NULL;
    uint8_t out[512];
    char data[260];
    size_t len = 77;
    memset(data, 'a', sizeof data);
    WANT(rumstrait_update_new(BYTES("example.com"), &update) == RUMSTRAIT_OK);
    for (int n = 0; n < 270; n++)
        WANT(rumstrait_update_item(update, RUMSTRAIT_ADD_RECORD, BYTES("example.com"), 16, 0, (uint8_t *)data, 250) == RUMSTRAIT_OK);
    WANT(rumstrait_update_bytes(update, 1, out, sizeof out, &len) == RUMSTRAIT_TOO_LONG && len == 77);
    rumstrait_update_free(update);
}

int main(void) {
    texts();
    encodes();
    asks();
    items();
    updates();
    long_updates();
    puts("ok");
    return 0;
}
