/* Serves a request so often, and prints how many are served in a second of processor time. */
#include "common.h"

#include <time.h>

int main(int count, char **words) {
    static uint8_t reply[65535];
    rumstrait_zone *zone = NULL;
    size_t len = 0;
    long times = count > 1 ? atol(words[1]) : 1000000;
    WANT(new_zone(&zone) == RUMSTRAIT_OK);
    clock_t started = clock();
    for (long n = 0; n < times; n++) {
        WANT(rumstrait_zone_serve(zone, RUMSTRAIT_DATAGRAM, 1232, QUERY, QUERY_LEN, reply, sizeof reply, &len) == RUMSTRAIT_OK);
    }
    double seconds = (double)(clock() - started) / CLOCKS_PER_SEC;
    printf("%.0f\n", (double)times / seconds);
    rumstrait_zone_free(zone);
    return 0;
}
