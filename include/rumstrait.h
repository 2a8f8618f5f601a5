/* Rumstrait: DNS zones, messages, updates and lookups for C.
 *
 * What the functions do is proved up to this border; docs/EMBEDDING.md says what that means and what a caller owes:
 *
 * - a handle comes from a `_new` function, is used by one call at a time, and not after its `_free`; or it is null;
 * - any other pointer is not null, even where its length is 0, and points to as many bytes as its length says;
 * - a buffer that a function writes overlaps no other argument;
 * - `malloc`, `realloc` and `free` belong to one allocator.
 *
 * Results. Each function but `_free` returns 0 (`RUMSTRAIT_OK`), or the code of a refusal. After a refusal nothing has
 * changed, but where the function says so.
 *
 * Handles. A function that is passed a null handle returns `RUMSTRAIT_NULL_HANDLE`, before anything else, and a `_free` function
 * does nothing.
 *
 * Buffers. A function that makes bytes writes them to the front of `out`, which has room for `room` bytes, and their number
 * to `*len`. It writes no final 0. If they do not fit it returns `RUMSTRAIT_TOO_SMALL`, `*len` is the room that is needed,
 * `out` is unchanged, and the call can be made again. After any other refusal `*len` is unchanged, too.
 *
 * Texts are UTF-8, with a length and without a final 0. A name is a text such as `www.example.com`, with or without its last
 * dot; characters that names rarely have are escaped as in a zone file (RFC 1035 section 5.1).
 *
 * Memory. Each function that takes memory returns it before it returns, but for what is behind a handle, which its `_free`
 * function returns. Threads may call functions at once for different handles.
 *
 * Endpoints. The address and the port of a server are 18 bytes in network byte order: an IPv6 address, or an IPv4 address that
 * is mapped to one (`::ffff:192.0.2.1`, RFC 4291 section 2.5.5.2), and the port.
 */
#ifndef RUMSTRAIT_H
#define RUMSTRAIT_H

#include <stdbool.h>
#include <stddef.h>
#include <stdint.h>

#ifdef __cplusplus
extern "C" {
#endif

/* The parameters that are not null, by number. */
#if defined(__GNUC__)
#define RUMSTRAIT_NONNULL(...) __attribute__((nonnull(__VA_ARGS__)))
#else
#define RUMSTRAIT_NONNULL(...)
#endif

/* What functions return. */
enum rumstrait_code {
    RUMSTRAIT_OK = 0,
    /* A request has no reply: its bytes do not decode, or are a response. */
    RUMSTRAIT_NO_REPLY = 1,
    /* The buffer is too small; `*len` is the room that is needed. */
    RUMSTRAIT_TOO_SMALL = 2,
    /* Memory was refused. */
    RUMSTRAIT_OUT_OF_MEMORY = 3,
    /* The handle is null. */
    RUMSTRAIT_NULL_HANDLE = 4,
    /* The transport is neither `RUMSTRAIT_DATAGRAM` nor `RUMSTRAIT_STREAM`. */
    RUMSTRAIT_INVALID_TRANSPORT = 5,
    /* The maximum size of a datagram is below 512 bytes (RFC 1035 section 4.2.1). */
    RUMSTRAIT_INVALID_LIMIT = 6,
    /* A text is not UTF-8. */
    RUMSTRAIT_INVALID_ENCODING = 7,
    /* A text is no domain name (RFC 1035 section 2.3.4). */
    RUMSTRAIT_INVALID_NAME = 8,
    /* A text is not the zone file of a zone; `rumstrait_zone_fault` says why, and on which line. */
    RUMSTRAIT_INVALID_ZONE = 9,
    /* Bytes are no message. */
    RUMSTRAIT_INVALID_MESSAGE = 10,
    /* A message would have more than 65,535 bytes. */
    RUMSTRAIT_TOO_LONG = 11,
    /* An update has an item that no message can have, such as one of the type OPT. */
    RUMSTRAIT_INVALID_UPDATE = 12,
    /* No item of an update has this number. */
    RUMSTRAIT_INVALID_ITEM = 13,
    /* A text is not record data of the type. */
    RUMSTRAIT_INVALID_DATA = 14,
    /* Bytes are no endpoints: their number is wrong. */
    RUMSTRAIT_INVALID_ENDPOINT = 15,
    /* The resolver has no lookup with the number. */
    RUMSTRAIT_NO_LOOKUP = 16,
    /* The lookup waits for a reply. */
    RUMSTRAIT_WAITING = 17,
    /* The lookup has ended. */
    RUMSTRAIT_ENDED = 18,
    /* A lookup ended: the name does not exist (NXDOMAIN). */
    RUMSTRAIT_NO_NAME = 19,
    /* A lookup ended: the name has no records of the type. */
    RUMSTRAIT_NO_RECORDS = 20,
    /* A lookup ended: no server gave an answer, and the last one that was asked replied with an error, such as SERVFAIL. */
    RUMSTRAIT_SERVER_ERROR = 21,
    /* A lookup ended: no server gave an answer, and the last one that was asked gave no reply that is accepted. */
    RUMSTRAIT_NO_SERVER = 22,
    /* A lookup ended: it had no id left for its next question. */
    RUMSTRAIT_NO_ID = 23,
    /* A lookup ended: its question can't be asked. */
    RUMSTRAIT_UNSUPPORTED = 24,
    /* 2^64 - 2 lookups were begun. */
    RUMSTRAIT_NO_NUMBER = 25
};

/* The bytes of an endpoint. */
#define RUMSTRAIT_ENDPOINT_LEN 18

/* How a request arrived, or is to be sent. */
enum rumstrait_transport { RUMSTRAIT_DATAGRAM = 0, RUMSTRAIT_STREAM = 1 };

/* ---- zones (RFC 1034 section 4.2) */

/* A zone, and the server of it. */
typedef struct rumstrait_zone rumstrait_zone;

/* Makes a zone of a zone file (RFC 1035 section 5.1), and writes its handle to `*out`, which the caller owns and frees. The
 * origin completes relative names and is the zone's. If `origin_len` is 0, relative names end at the root, and the origin is
 * the owner of the first SOA record. Records have the types A, AAAA, CNAME, MX, NS, PTR, SOA, SRV and TXT, and the text has
 * neither $INCLUDE nor $GENERATE. It is not used after the call.
 *
 * Refusals: RUMSTRAIT_INVALID_ENCODING, RUMSTRAIT_INVALID_NAME (the origin), RUMSTRAIT_INVALID_ZONE, RUMSTRAIT_OUT_OF_MEMORY.
 * Then `*out` is null. */
int32_t rumstrait_zone_new(const uint8_t *text, size_t text_len, const uint8_t *origin, size_t origin_len,
                           rumstrait_zone **out) RUMSTRAIT_NONNULL(1, 3, 5);

/* Says what is wrong in a text that `rumstrait_zone_new` refuses as not the zone file of a zone: writes to `out` what the first
 * fault is, a semicolon, a blank and what to write instead, and the number of its line, from 1, to `*line`, or 0 if the fault is
 * of no line, such as a missing SOA record. If nothing is wrong, the sentence is empty, and `*line` is 0.
 *
 * Refusals: RUMSTRAIT_INVALID_ENCODING, RUMSTRAIT_INVALID_NAME (the origin), RUMSTRAIT_TOO_SMALL (`*line` is written),
 * RUMSTRAIT_OUT_OF_MEMORY. */
int32_t rumstrait_zone_fault(const uint8_t *text, size_t text_len, const uint8_t *origin, size_t origin_len, size_t *line,
                             uint8_t *out, size_t room, size_t *len) RUMSTRAIT_NONNULL(1, 3, 5, 6, 8);

/* Serves a request, and writes the reply to `out`. `limit` is the maximum size of a reply in a datagram, at least 512; it is
 * ignored for a stream, whose messages come without the two bytes of their length. 65,535 bytes of room always suffice.
 *
 * A question is answered by the zone alone, as by `nameserver --plain`: wildcards and delegations stand for no other names. An
 * update with the response code NOERROR changes the zone (RFC 2136 section 3), unless this function returns a refusal.
 *
 * Refusals: RUMSTRAIT_NULL_HANDLE, RUMSTRAIT_INVALID_TRANSPORT, RUMSTRAIT_INVALID_LIMIT, RUMSTRAIT_NO_REPLY,
 * RUMSTRAIT_TOO_SMALL, RUMSTRAIT_OUT_OF_MEMORY. */
int32_t rumstrait_zone_serve(rumstrait_zone *zone, uint32_t transport, uint16_t limit, const uint8_t *request,
                             size_t request_len, uint8_t *out, size_t room, size_t *len) RUMSTRAIT_NONNULL(4, 6, 8);

/* Writes a zone as a zone file, with each record on a line.
 *
 * Refusals: RUMSTRAIT_NULL_HANDLE, RUMSTRAIT_TOO_SMALL, RUMSTRAIT_OUT_OF_MEMORY. */
int32_t rumstrait_zone_text(rumstrait_zone *zone, uint8_t *out, size_t room, size_t *len) RUMSTRAIT_NONNULL(2, 4);

/* Frees a zone, unless the handle is null. */
void rumstrait_zone_free(rumstrait_zone *zone);

/* ---- messages (RFC 1035 section 4) */

/* Writes a message as text, in the layout of dig: its header, its OPT record, and the records of its sections.
 *
 * Refusals: RUMSTRAIT_INVALID_MESSAGE, RUMSTRAIT_TOO_SMALL, RUMSTRAIT_OUT_OF_MEMORY. */
int32_t rumstrait_message_text(const uint8_t *message, size_t message_len, uint8_t *out, size_t room,
                               size_t *len) RUMSTRAIT_NONNULL(1, 3, 5);

/* Decodes a message, and writes the bytes that it is encoded as, with names compressed (RFC 1035 section 4.1.4).
 * Records that would pass 65,535 bytes are left out, and the message says that it is truncated.
 *
 * Refusals: RUMSTRAIT_INVALID_MESSAGE, RUMSTRAIT_TOO_LONG (the questions alone pass 65,535 bytes), RUMSTRAIT_TOO_SMALL,
 * RUMSTRAIT_OUT_OF_MEMORY. */
int32_t rumstrait_message_encode(const uint8_t *message, size_t message_len, uint8_t *out, size_t room,
                                 size_t *len) RUMSTRAIT_NONNULL(1, 3, 5);

/* Writes a query for the records of a name and a type, by its number, in the class IN. `recursion_desired` is the bit RD; with
 * `use_edns` the query has an OPT record (RFC 6891) that offers 1,232 bytes.
 *
 * Refusals: RUMSTRAIT_INVALID_NAME, RUMSTRAIT_TOO_SMALL, RUMSTRAIT_OUT_OF_MEMORY. */
int32_t rumstrait_question(uint16_t id, const uint8_t *name, size_t name_len, uint16_t query_type, bool recursion_desired,
                           bool use_edns, uint8_t *out, size_t room, size_t *len) RUMSTRAIT_NONNULL(2, 7, 9);

/* ---- updates (RFC 2136) */

/* An update of a zone, to which prerequisites and changes are added. */
typedef struct rumstrait_update rumstrait_update;

/* What is added to an update. All prerequisites must hold, or nothing is changed; changes are made in their order. */
enum rumstrait_item {
    /* Prerequisites (RFC 2136 section 2.4). */
    RUMSTRAIT_REQUIRE_SET = 1,    /* the name has records of the type, else NXRRSET */
    RUMSTRAIT_REQUIRE_RECORD = 2, /* with data: the name has exactly the records of the type that are required, else NXRRSET */
    RUMSTRAIT_FORBID_SET = 3,     /* the name has no records of the type, else YXRRSET */
    RUMSTRAIT_REQUIRE_NAME = 4,   /* the name has records, else NXDOMAIN */
    RUMSTRAIT_FORBID_NAME = 5,    /* the name has no records, else YXDOMAIN */
    /* Changes (RFC 2136 section 2.5). */
    RUMSTRAIT_ADD_RECORD = 11,    /* with data and TTL: a record is added */
    RUMSTRAIT_DELETE_SET = 12,    /* the records of the name and the type are deleted */
    RUMSTRAIT_DELETE_NAME = 13,   /* all records of the name are deleted */
    RUMSTRAIT_DELETE_RECORD = 14  /* with data: a record is deleted */
};

/* Makes an update of the zone with a name, in the class IN, and writes its handle to `*out`, which the caller owns and frees.
 *
 * Refusals: RUMSTRAIT_INVALID_NAME, RUMSTRAIT_OUT_OF_MEMORY. Then `*out` is null. */
int32_t rumstrait_update_new(const uint8_t *zone, size_t zone_len, rumstrait_update **out) RUMSTRAIT_NONNULL(1, 3);

/* Adds a prerequisite or a change. An item without data ignores `data`, one of a name alone ignores `type`, and all but
 * RUMSTRAIT_ADD_RECORD ignore `ttl`, in seconds. `data` is a text as in a zone file, such as `10 mail`, whose relative names end in
 * the zone's name; data of a type that the library does not know is written in the generic form (RFC 3597 section 5). The name is
 * not completed. Whether it is in the zone is for the server to say.
 *
 * Refusals: RUMSTRAIT_NULL_HANDLE, RUMSTRAIT_INVALID_ITEM, RUMSTRAIT_INVALID_NAME, RUMSTRAIT_INVALID_ENCODING,
 * RUMSTRAIT_INVALID_DATA, RUMSTRAIT_OUT_OF_MEMORY. */
int32_t rumstrait_update_item(rumstrait_update *update, uint32_t item, const uint8_t *name, size_t name_len, uint16_t type,
                              uint32_t ttl, const uint8_t *data, size_t data_len) RUMSTRAIT_NONNULL(3, 7);

/* Writes the message of an update. The update stays as it is, and more can be added.
 *
 * Refusals: RUMSTRAIT_NULL_HANDLE, RUMSTRAIT_TOO_LONG, RUMSTRAIT_INVALID_UPDATE, RUMSTRAIT_TOO_SMALL,
 * RUMSTRAIT_OUT_OF_MEMORY. */
int32_t rumstrait_update_bytes(rumstrait_update *update, uint16_t id, uint8_t *out, size_t room, size_t *len) RUMSTRAIT_NONNULL(3, 5);

/* Frees an update, unless the handle is null. */
void rumstrait_update_free(rumstrait_update *update);

/* ---- lookups (RFC 1034 section 5.3.1)
 *
 * A stub resolver for programs that have sockets, a clock and an event loop of their own: it says what to send, to which server
 * and until when to wait, and is told what came. Names are asked of recursive servers; aliases are followed, replies are cached,
 * and a server that does not reply is asked after the others.
 *
 *     rumstrait_lookup_begin(resolver, name, name_len, type, ids, 8, now, &lookup);
 *     while (rumstrait_lookup_wait(resolver, lookup, &wait, message, sizeof message, &len) == RUMSTRAIT_OK) {
 *         if the message is new, send it to `wait.server`; wait until `wait.deadline`; then call one of
 *         rumstrait_lookup_received, rumstrait_lookup_timed_out and rumstrait_lookup_failed
 *     }
 *     code = rumstrait_lookup_records(resolver, lookup, text, sizeof text, &len);
 *     rumstrait_lookup_free(resolver, lookup);
 *
 * A moment is a number of milliseconds of a clock that the caller chooses and that does not go back. */

/* A resolver, with its cache and its lookups. */
typedef struct rumstrait_resolver rumstrait_resolver;

/* What a lookup waits for. */
typedef struct rumstrait_wait {
    uint64_t exchanges;                       /* how many questions of the lookup have been answered or given up */
    uint64_t number;                          /* how many messages were sent for the next question, with this one */
    uint64_t deadline;                        /* the moment at which the wait ends */
    uint32_t transport;                       /* how the message is sent: an enum rumstrait_transport */
    uint8_t server[RUMSTRAIT_ENDPOINT_LEN];   /* where it is sent */
} rumstrait_wait;

/* Makes a resolver with an empty cache, and writes its handle to `*out`, which the caller owns and frees. `servers` are the
 * endpoints of its name servers, one after another, in the order in which they are asked: over datagrams, and over a stream
 * after a truncated reply (RFC 7766 section 5). `timeout` is how long to wait for a reply, in milliseconds, and `attempts` how
 * many rounds are made through the servers, at least one. The cache has at most `cache_size` replies; with 0 nothing is cached.
 *
 * Refusals: RUMSTRAIT_INVALID_ENDPOINT (`servers_len` is not a multiple of 18), RUMSTRAIT_OUT_OF_MEMORY. Then `*out` is null. */
int32_t rumstrait_resolver_new(const uint8_t *servers, size_t servers_len, uint32_t timeout, uint32_t attempts,
                               uint32_t cache_size, rumstrait_resolver **out) RUMSTRAIT_NONNULL(1, 6);

/* Frees a resolver and its lookups, unless the handle is null. */
void rumstrait_resolver_free(rumstrait_resolver *resolver);

/* Begins a lookup of the records of a name and a type, by its number, in the class IN, at the moment `clock`, and writes its
 * number to `*lookup`, which is that of no other lookup of the resolver. The lookup may have ended at once, as where the answer
 * is cached. `ids` are the ids of the messages to come: one for each question, of which there are at most eight, as aliases are
 * followed. They must be unpredictable (RFC 5452 section 9.2). If there are fewer, a lookup may end with RUMSTRAIT_NO_ID.
 *
 * Refusals: RUMSTRAIT_NULL_HANDLE, RUMSTRAIT_INVALID_NAME, RUMSTRAIT_NO_NUMBER, RUMSTRAIT_OUT_OF_MEMORY (the cache may have
 * changed). */
int32_t rumstrait_lookup_begin(rumstrait_resolver *resolver, const uint8_t *name, size_t name_len, uint16_t type,
                               const uint16_t *ids, size_t ids_len, uint64_t clock, uint64_t *lookup) RUMSTRAIT_NONNULL(2, 5, 8);

/* Writes what a lookup waits for to `*wait`, and the message whose reply it awaits to `out`, without the two bytes of its length
 * for a stream. 65,535 bytes of room always suffice.
 *
 * A message is sent once, from a port that is unpredictable (RFC 5452 section 9.2): it is a new one exactly if
 * `wait->exchanges` or `wait->number` is another than before. Over a stream it is sent on a connection of its own, and one reply is
 * read.
 *
 * Refusals: RUMSTRAIT_NULL_HANDLE, RUMSTRAIT_NO_LOOKUP, RUMSTRAIT_ENDED, RUMSTRAIT_TOO_SMALL (`*wait` is unchanged). */
int32_t rumstrait_lookup_wait(rumstrait_resolver *resolver, uint64_t lookup, rumstrait_wait *wait, uint8_t *out, size_t room,
                              size_t *len) RUMSTRAIT_NONNULL(3, 4, 6);

/* Tells a lookup that a message was received from the endpoint `from`, at the moment `clock`. A datagram that is not the reply,
 * by its sender, id or question, changes nothing, and the lookup waits on until the same deadline. A lookup that has ended does not
 * change.
 *
 * Refusals: RUMSTRAIT_NULL_HANDLE, RUMSTRAIT_INVALID_ENDPOINT (`from_len` is not 18), RUMSTRAIT_NO_LOOKUP,
 * RUMSTRAIT_OUT_OF_MEMORY (for the copy of the message; the lookup ends for want of any other memory). */
int32_t rumstrait_lookup_received(rumstrait_resolver *resolver, uint64_t lookup, const uint8_t *message, size_t message_len,
                                  const uint8_t *from, size_t from_len, uint64_t clock) RUMSTRAIT_NONNULL(3, 5);

/* Tells a lookup that the deadline of its wait has passed, at the moment `clock`: the next server is asked, if there is one.
 *
 * Refusals: RUMSTRAIT_NULL_HANDLE, RUMSTRAIT_NO_LOOKUP. */
int32_t rumstrait_lookup_timed_out(rumstrait_resolver *resolver, uint64_t lookup, uint64_t clock);

/* Tells a lookup that its message could not be sent, or that no reply can be received, at the moment `clock`: the next server is
 * asked, if there is one.
 *
 * Refusals: RUMSTRAIT_NULL_HANDLE, RUMSTRAIT_NO_LOOKUP. */
int32_t rumstrait_lookup_failed(rumstrait_resolver *resolver, uint64_t lookup, uint64_t clock);

/* Writes the records that a lookup found, each on a line as in a zone file: the owner, the TTL in seconds, the class, the type and
 * the data. They are those of the name and the type, and the aliases that lead to them, in the order of the answer.
 *
 * Refusals: RUMSTRAIT_NULL_HANDLE, RUMSTRAIT_NO_LOOKUP, RUMSTRAIT_WAITING, and why the lookup found nothing:
 * RUMSTRAIT_NO_NAME, RUMSTRAIT_NO_RECORDS, RUMSTRAIT_SERVER_ERROR, RUMSTRAIT_NO_SERVER, RUMSTRAIT_NO_ID,
 * RUMSTRAIT_UNSUPPORTED. RUMSTRAIT_TOO_SMALL, RUMSTRAIT_OUT_OF_MEMORY (also if the lookup ended for want of memory). */
int32_t rumstrait_lookup_records(rumstrait_resolver *resolver, uint64_t lookup, uint8_t *out, size_t room,
                                 size_t *len) RUMSTRAIT_NONNULL(3, 5);

/* Frees a lookup, whether it has ended or not. What it found stays in the cache.
 *
 * Refusals: RUMSTRAIT_NULL_HANDLE, RUMSTRAIT_NO_LOOKUP. */
int32_t rumstrait_lookup_free(rumstrait_resolver *resolver, uint64_t lookup);

#ifdef __cplusplus
}
#endif

#endif
