/* `ldns_bench WHAT COUNT`: repeats a call of the rows of repeated.rows on the same inputs, by ldns, and prints the same checksum. */
#include "inputs.h"
#include <ldns/ldns.h>

/* The two names of four labels. */
static void two_names(ldns_rdf *names[2]) {
    for (int number = 0; number < 2; number++) {
        names[number] = ldns_dname_new_frm_str(TEXTS[number]);
        need(names[number] != NULL, "ldns_dname_new_frm_str");
    }
}

/* The names of four labels one byte further: ldns refuses pointers to the first byte. */
static const uint8_t SHIFTED[30] = "\x00\x03" "com\x00\x07" "example\xC0\x01\x03" "www\xC0\x06\x01" "a\xC0\x10\x01" "b\xC0\x10";

static uint64_t name_read(const char *what, uint64_t count) {
    uint64_t sum = 0;
    for (uint64_t turn = 0; turn < count; turn++) {
        ldns_rdf *name;
        size_t at = turn % 2 ? 26 : 22;
        need(ldns_wire2dname(&name, SHIFTED, sizeof SHIFTED, &at) == LDNS_STATUS_OK, what);
        sum += ldns_rdf_size(name) - 1 + at - 1;
        ldns_rdf_deep_free(name);
    }
    return sum;
}

/* Forgets the names that were remembered for compression. */
static void forget(ldns_rbnode_t *node, void *unused) {
    (void)unused;
    ldns_rdf_deep_free((ldns_rdf *)node->key);
    free(node);
}

/* Gives up a table of names, as ldns itself does after it has encoded a message. */
static void free_table(ldns_rbtree_t *table) {
    ldns_traverse_postorder(table, forget, NULL);
    ldns_rbtree_free(table);
}

static uint64_t name_write(const char *what, uint64_t count) {
    uint64_t sum = 0;
    ldns_rdf *names[10];
    for (int number = 0; number < 10; number++)
        names[number] = ldns_dname_new_frm_str(MESSAGE[number]);
    ldns_buffer *buffer = ldns_buffer_new(512);
    for (uint64_t turn = 0; turn < count; turn++) {
        ldns_buffer_clear(buffer);
        ldns_rbtree_t *table = ldns_rbtree_create((int (*)(const void *, const void *))ldns_dname_compare);
        for (int number = 0; number < 10; number++)
            need(ldns_dname2buffer_wire_compress(buffer, names[number], table) == LDNS_STATUS_OK, what);
        free_table(table);
        sum += ldns_buffer_position(buffer);
    }
    return sum;
}

static uint64_t name_parse(const char *what, uint64_t count) {
    uint64_t sum = 0;
    for (uint64_t turn = 0; turn < count; turn++) {
        ldns_rdf *name = ldns_dname_new_frm_str(TEXTS[turn % 2]);
        need(name != NULL, what);
        sum += ldns_rdf_size(name) - 1;
        ldns_rdf_deep_free(name);
    }
    return sum;
}

static uint64_t name_print(const char *what, uint64_t count) {
    uint64_t sum = 0;
    ldns_rdf *names[2];
    two_names(names);
    for (uint64_t turn = 0; turn < count; turn++) {
        char *text = ldns_rdf2str(names[turn % 2]);
        need(text != NULL, what);
        sum += strlen(text);
        free(text);
    }
    return sum;
}

static uint64_t name_compare(const char *what, uint64_t count) {
    (void)what;
    uint64_t sum = 0;
    ldns_rdf *names[2];
    two_names(names);
    for (uint64_t turn = 0; turn < count; turn++)
        sum += ldns_dname_compare(names[turn % 2], names[(turn + 1) % 2]) == 0;
    return sum;
}

static uint64_t name_clone(const char *what, uint64_t count) {
    uint64_t sum = 0;
    ldns_rdf *names[2];
    two_names(names);
    for (uint64_t turn = 0; turn < count; turn++) {
        ldns_rdf *copy = ldns_rdf_clone(names[turn % 2]);
        need(copy != NULL, what);
        sum += ldns_rdf_size(copy) - 1;
        ldns_rdf_deep_free(copy);
    }
    return sum;
}

/* Decodes an item into a record of its type, and returns the end of what was read. */
static size_t read_item(ldns_rr *record, const struct data *item) {
    size_t at = 0;
    ldns_rr_set_type(record, item->type);
    need(ldns_wire2rdf(record, (const uint8_t *)item->bytes, item->len, &at) == LDNS_STATUS_OK, "ldns_wire2rdf");
    return at;
}

static uint64_t data_read(const char *what, uint64_t count) {
    (void)what;
    uint64_t sum = 0;
    for (uint64_t turn = 0; turn < count; turn++) {
        for (int number = 0; number < 4; number++) {
            ldns_rr *record = ldns_rr_new();
            sum += read_item(record, &ITEMS[number]) - 2 + ldns_rr_get_type(record);
            ldns_rr_free(record);
        }
    }
    return sum;
}

static void read_items(ldns_rr *records[4]) {
    for (int number = 0; number < 4; number++) {
        records[number] = ldns_rr_new();
        read_item(records[number], &ITEMS[number]);
    }
}

static uint64_t data_write(const char *what, uint64_t count) {
    uint64_t sum = 0;
    ldns_rr *records[4];
    read_items(records);
    ldns_buffer *buffer = ldns_buffer_new(512);
    for (uint64_t turn = 0; turn < count; turn++) {
        ldns_buffer_clear(buffer);
        ldns_rbtree_t *table = ldns_rbtree_create((int (*)(const void *, const void *))ldns_dname_compare);
        for (int number = 0; number < 4; number++) {
            int is_compressed = ITEMS[number].type == LDNS_RR_TYPE_SOA || ITEMS[number].type == LDNS_RR_TYPE_MX;
            for (size_t field = 0; field < ldns_rr_rd_count(records[number]); field++) {
                ldns_rdf *rdf = ldns_rr_rdf(records[number], field);
                ldns_status status = is_compressed ? ldns_rdf2buffer_wire_compress(buffer, rdf, table) : ldns_rdf2buffer_wire(buffer, rdf);
                need(status == LDNS_STATUS_OK, what);
            }
        }
        free_table(table);
        sum += ldns_buffer_position(buffer);
    }
    return sum;
}

static uint64_t data_print(const char *what, uint64_t count) {
    uint64_t sum = 0;
    ldns_rr *records[4];
    read_items(records);
    for (uint64_t turn = 0; turn < count; turn++) {
        for (int number = 0; number < 4; number++) {
            ldns_buffer *buffer = ldns_buffer_new(128);
            for (size_t field = 0; field < ldns_rr_rd_count(records[number]); field++) {
                if (field)
                    ldns_buffer_printf(buffer, " ");
                need(ldns_rdf2buffer_str(buffer, ldns_rr_rdf(records[number], field)) == LDNS_STATUS_OK, what);
            }
            sum += ldns_buffer_position(buffer);
            ldns_buffer_free(buffer);
        }
    }
    return sum;
}

/* The sum of the number of questions and records, and the payload size. */
static uint64_t sum_of(const ldns_pkt *message) {
    uint64_t payload = ldns_pkt_edns(message) ? ldns_pkt_edns_udp_size(message) : LEAST_PAYLOAD;
    return (uint64_t)ldns_pkt_qdcount(message) + ldns_pkt_ancount(message) + ldns_pkt_nscount(message) + payload;
}

static ldns_pkt *decoded(const struct reply *reply) {
    ldns_pkt *message;
    need(ldns_wire2pkt(&message, reply->bytes, reply->len) == LDNS_STATUS_OK, "ldns_wire2pkt");
    return message;
}

static uint64_t message_read(const char *what, uint64_t count) {
    uint64_t sum = 0;
    struct reply reply = reply_of(what);
    for (uint64_t turn = 0; turn < count; turn++) {
        ldns_pkt *message = decoded(&reply);
        sum += sum_of(message);
        ldns_pkt_free(message);
    }
    return sum;
}

static uint64_t message_write(const char *what, uint64_t count) {
    uint64_t sum = 0;
    struct reply reply = reply_of(what);
    ldns_pkt *message = decoded(&reply);
    for (uint64_t turn = 0; turn < count; turn++) {
        uint8_t *bytes;
        size_t len;
        need(ldns_pkt2wire(&bytes, message, &len) == LDNS_STATUS_OK, what);
        sum += len;
        free(bytes);
    }
    return sum;
}

static uint64_t message_clone(const char *what, uint64_t count) {
    uint64_t sum = 0;
    struct reply reply = reply_of(what);
    ldns_pkt *message = decoded(&reply);
    for (uint64_t turn = 0; turn < count; turn++) {
        ldns_pkt *copy = ldns_pkt_clone(message);
        need(copy != NULL, what);
        sum += sum_of(copy);
        ldns_pkt_free(copy);
    }
    return sum;
}

int main(int argc, char **argv) {
    static const struct named OPERATIONS[] = {
        {"name-read", name_read},       {"name-write", name_write},     {"name-parse", name_parse},
        {"name-print", name_print},     {"name-compare", name_compare}, {"name-clone", name_clone},
        {"data-read", data_read},       {"data-write", data_write},     {"data-print", data_print},
        {"message-read", message_read}, {"message-write", message_write}, {"message-clone", message_clone},
        {NULL, NULL},
    };
    return run(OPERATIONS, argc, argv);
}
