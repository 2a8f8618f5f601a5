/* `libknot_bench WHAT COUNT`: repeats a call of the rows of repeated.rows on the same inputs, by libknot, and prints the same checksum. */
#include "inputs.h"
#include <libknot/libknot.h>

/* The two names of four labels. */
static void two_names(knot_dname_t *names[2]) {
    for (int number = 0; number < 2; number++) {
        names[number] = knot_dname_from_str_alloc(TEXTS[number]);
        need(names[number] != NULL, "knot_dname_from_str_alloc");
    }
}

static uint64_t name_read(const char *what, uint64_t count) {
    uint64_t sum = 0;
    for (uint64_t turn = 0; turn < count; turn++) {
        size_t at = turn % 2 ? 25 : 21;
        knot_dname_storage_t name;
        int len = knot_dname_wire_check(BYTES + at, BYTES + sizeof BYTES, BYTES);
        need(len > 0, what);
        int size = knot_dname_unpack(name, BYTES + at, sizeof name, BYTES);
        need(size > 0, what);
        sum += size - 1 + at + len;
    }
    return sum;
}

static uint64_t name_parse(const char *what, uint64_t count) {
    uint64_t sum = 0;
    for (uint64_t turn = 0; turn < count; turn++) {
        knot_dname_t *name = knot_dname_from_str_alloc(TEXTS[turn % 2]);
        need(name != NULL, what);
        sum += knot_dname_size(name) - 1;
        knot_dname_free(name, NULL);
    }
    return sum;
}

static uint64_t name_print(const char *what, uint64_t count) {
    uint64_t sum = 0;
    knot_dname_t *names[2];
    two_names(names);
    for (uint64_t turn = 0; turn < count; turn++) {
        char *text = knot_dname_to_str_alloc(names[turn % 2]);
        need(text != NULL, what);
        sum += strlen(text);
        free(text);
    }
    return sum;
}

static uint64_t name_compare(const char *what, uint64_t count) {
    (void)what;
    uint64_t sum = 0;
    knot_dname_t *names[2];
    two_names(names);
    for (uint64_t turn = 0; turn < count; turn++)
        sum += knot_dname_is_case_equal(names[turn % 2], names[(turn + 1) % 2]);
    return sum;
}

static uint64_t name_clone(const char *what, uint64_t count) {
    uint64_t sum = 0;
    knot_dname_t *names[2];
    two_names(names);
    for (uint64_t turn = 0; turn < count; turn++) {
        knot_dname_t *copy = knot_dname_copy(names[turn % 2], NULL);
        need(copy != NULL, what);
        sum += knot_dname_size(copy) - 1;
        knot_dname_free(copy, NULL);
    }
    return sum;
}

/* The data of the SOA record without compression, as libknot keeps it. */
static const struct data WHOLE_SOA =
    DATA(6, "\x00\x36\x02" "ns\x07" "example\x03" "com\x00\x04" "host\x07" "example\x03" "com\x00\x00\x00\x00\x01\x00\x00\x0E\x10"
            "\x00\x00\x02\x58\x00\x01\x51\x80\x00\x00\x01\x2C");

static uint64_t data_print(const char *what, uint64_t count) {
    uint64_t sum = 0;
    knot_rrset_t *sets[4];
    for (int number = 0; number < 4; number++) {
        const struct data *item = number ? &ITEMS[number] : &WHOLE_SOA;
        sets[number] = knot_rrset_new((const knot_dname_t *)"", item->type, KNOT_CLASS_IN, 0, NULL);
        need(knot_rrset_add_rdata(sets[number], (const uint8_t *)item->bytes + 2, item->len - 2, NULL) == KNOT_EOK, what);
    }
    for (uint64_t turn = 0; turn < count; turn++) {
        for (int number = 0; number < 4; number++) {
            char *text = malloc(128);
            need(knot_rrset_txt_dump_data(sets[number], 0, text, 128, &KNOT_DUMP_STYLE_DEFAULT) > 0, what);
            sum += strlen(text);
            free(text);
        }
    }
    return sum;
}

/* The sum of the number of questions and records, and the payload size. */
static uint64_t sum_of(const knot_pkt_t *message) {
    uint64_t payload = message->opt_rr ? knot_edns_get_payload(message->opt_rr) : LEAST_PAYLOAD;
    const knot_pktsection_t *answers = knot_pkt_section(message, KNOT_ANSWER), *authorities = knot_pkt_section(message, KNOT_AUTHORITY);
    return knot_wire_get_qdcount(message->wire) + (uint64_t)answers->count + authorities->count + payload;
}

static knot_pkt_t *decoded(struct reply *reply) {
    knot_pkt_t *message = knot_pkt_new(reply->bytes, reply->len, NULL);
    need(message != NULL && knot_pkt_parse(message, 0) == KNOT_EOK, "knot_pkt_parse");
    return message;
}

static uint64_t message_read(const char *what, uint64_t count) {
    uint64_t sum = 0;
    struct reply reply = reply_of(what);
    for (uint64_t turn = 0; turn < count; turn++) {
        knot_pkt_t *message = decoded(&reply);
        sum += sum_of(message);
        knot_pkt_free(message);
    }
    return sum;
}

/* The records of one owner and type in a section, in one set. */
static void join(const knot_pktsection_t *section, knot_rrset_t *sets, int *count) {
    for (uint16_t number = 0; number < section->count; number++) {
        const knot_rrset_t *record = knot_pkt_rr(section, number);
        knot_rrset_t *last = *count ? &sets[*count - 1] : NULL;
        if (!last || last->type != record->type || !knot_dname_is_equal(last->owner, record->owner)) {
            last = &sets[(*count)++];
            *last = *knot_rrset_new(record->owner, record->type, record->rclass, record->ttl, NULL);
        }
        need(knot_rrset_add_rdata(last, record->rrs.rdata->data, record->rrs.rdata->len, NULL) == KNOT_EOK, "knot_rrset_add_rdata");
    }
}

static uint64_t message_write(const char *what, uint64_t count) {
    uint64_t sum = 0;
    struct reply reply = reply_of(what);
    knot_pkt_t *message = decoded(&reply);
    knot_rrset_t sets[3][4];
    int counts[3] = {0, 0, 0};
    for (int section = 0; section < 3; section++)
        join(knot_pkt_section(message, section), sets[section], &counts[section]);
    uint8_t bytes[512];
    for (uint64_t turn = 0; turn < count; turn++) {
        knot_pkt_t *written = knot_pkt_new(bytes, sizeof bytes, NULL);
        need(written != NULL, what);
        memcpy(written->wire, message->wire, 4);
        need(knot_pkt_put_question(written, knot_pkt_qname(message), KNOT_CLASS_IN, KNOT_RRTYPE_A) == KNOT_EOK, what);
        for (int section = 0; section < 3; section++) {
            knot_pkt_begin(written, section);
            for (int number = 0; number < counts[section]; number++) {
                const knot_rrset_t *set = &sets[section][number];
                uint16_t hint = set->type == KNOT_RRTYPE_OPT ? KNOT_COMPR_HINT_NOCOMP : KNOT_COMPR_HINT_NONE;
                need(knot_pkt_put(written, hint, set, 0) == KNOT_EOK, "knot_pkt_put");
            }
        }
        sum += written->size;
        knot_pkt_free(written);
    }
    return sum;
}

static uint64_t message_clone(const char *what, uint64_t count) {
    uint64_t sum = 0;
    struct reply reply = reply_of(what);
    knot_pkt_t *message = decoded(&reply);
    for (uint64_t turn = 0; turn < count; turn++) {
        knot_pkt_t *copy = knot_pkt_new(NULL, reply.len, NULL);
        need(copy != NULL && knot_pkt_copy(copy, message) == KNOT_EOK, what);
        sum += sum_of(copy);
        knot_pkt_free(copy);
    }
    return sum;
}

int main(int argc, char **argv) {
    static const struct named OPERATIONS[] = {
        {"name-read", name_read},       {"name-parse", name_parse},       {"name-print", name_print},
        {"name-compare", name_compare}, {"name-clone", name_clone},       {"data-print", data_print},
        {"message-read", message_read}, {"message-write", message_write}, {"message-clone", message_clone},
        {NULL, NULL},
    };
    return run(OPERATIONS, argc, argv);
}
