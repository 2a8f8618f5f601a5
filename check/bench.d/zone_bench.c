/* `zone_bench FILE COUNT REQUEST OTHER`: makes a zone of a zone file, and has it serve two requests, in hexadecimal digits, by turns, so
 * often. Prints the processor time of either, in seconds, and the sum of the lengths of the replies. */
#include <rumstrait.h>

#include <stdio.h>
#include <stdlib.h>
#include <time.h>

/* The maximum size of a reply, in bytes. */
enum { LIMIT = 1232, MOST = 512 };

struct request {
    uint8_t bytes[MOST];
    size_t len;
};

/* Ends the program if something failed that cannot fail on these inputs. */
static void need(int is_well, const char *what) {
    if (is_well) return;
    fprintf(stderr, "zone_bench: %s\n", what);
    exit(1);
}

static uint8_t *text_of(const char *path, size_t *len) {
    FILE *file = fopen(path, "rb");
    need(file && !fseek(file, 0, SEEK_END), "the file cannot be read");
    *len = (size_t)ftell(file);
    rewind(file);
    uint8_t *text = malloc(*len + 1);
    need(text && fread(text, 1, *len, file) == *len, "the file cannot be read");
    fclose(file);
    return text;
}

static struct request request_of(const char *digits) {
    struct request request = {.len = 0};
    for (unsigned byte; request.len < MOST && sscanf(digits, "%2x", &byte) == 1; digits += 2) request.bytes[request.len++] = (uint8_t)byte;
    return request;
}

static double seconds_since(clock_t started) { return (double)(clock() - started) / CLOCKS_PER_SEC; }

int main(int count, char **words) {
    static uint8_t reply[65535];
    need(count == 5, "usage: zone_bench FILE COUNT REQUEST OTHER");
    size_t text_len = 0, len = 0;
    uint8_t *text = text_of(words[1], &text_len);
    struct request requests[2] = {request_of(words[3]), request_of(words[4])};
    rumstrait_zone *zone = NULL;
    unsigned long long sum = 0;
    clock_t started = clock();
    need(rumstrait_zone_new(text, text_len, (const uint8_t *)"", 0, &zone) == RUMSTRAIT_OK, "the zone is refused");
    double reading = seconds_since(started);
    started = clock();
    for (long turn = 0, turns = atol(words[2]); turn < turns; turn++) {
        const struct request *it = &requests[turn % 2];
        int32_t code = rumstrait_zone_serve(zone, RUMSTRAIT_DATAGRAM, LIMIT, it->bytes, it->len, reply, sizeof reply, &len);
        need(code == RUMSTRAIT_OK, "a request is refused");
        sum += len;
    }
    printf("%.9f %.9f %llu\n", reading, seconds_since(started), sum);
    rumstrait_zone_free(zone);
    free(text);
    return 0;
}
