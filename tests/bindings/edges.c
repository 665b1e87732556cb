/* What sakiromuk.h says of a call at its edges, one job on standard input, which must fit: NULL with the length 0, a reply that has no room, areas that
   hold anything. Ends in `N same, M differ`; fails unless M is 0. */
#include <stdio.h>
#include <string.h>

#include "sakiromuk.h"

#define BYTE 0x5a

static uint8_t text[16385], reply[SAKIROMUK_REPLY];
static double areas[3][SAKIROMUK_AREA + 1];
static int same, differ;

static void hold(int holds, const char *what) {
    if (holds) {
        same++;
    } else {
        differ++;
        printf("differs: %s\n", what);
    }
}

static size_t run(size_t length, uint8_t *to, size_t room, double *p, size_t p_len) {
    memset(reply, BYTE, sizeof reply);
    memset(areas, 0xff, sizeof areas); /* NaNs */
    return sakiromuk_run(length ? text : NULL, length, to, room, p, p_len, areas[1], SAKIROMUK_AREA, areas[2], SAKIROMUK_AREA);
}

int main(void) {
    size_t length = fread(text, 1, sizeof text, stdin), n, k;
    unsigned char nan[sizeof(double)];
    memset(nan, 0xff, sizeof nan);

    n = run(length, reply, sizeof reply, areas[0], SAKIROMUK_AREA);
    hold(n <= SAKIROMUK_REPLY && !memcmp(reply, "status=0\n", 9) && reply[n - 1] == '\n' && reply[n] == BYTE, "a reply at the head of its room");
    for (k = 0; k < 3; k++) {
        double zeros[SAKIROMUK_AREA] = {0};
        hold(!memcmp(areas[k], zeros, sizeof zeros), "an area is +0.0 after a fit");
        hold(!memcmp(&areas[k][SAKIROMUK_AREA], nan, sizeof nan), "what is past an area is as it was");
    }
    hold(run(length, reply, n, areas[0], SAKIROMUK_AREA) == n && reply[n - 1] == '\n', "room for the reply and no more");
    hold(run(length, reply, n - 1, areas[0], SAKIROMUK_AREA) == n && reply[0] == BYTE && reply[n - 2] == BYTE, "a byte of room too few");
    hold(run(length, NULL, 0, areas[0], SAKIROMUK_AREA) == n, "NULL for the reply");
    hold(run(length, reply, sizeof reply, NULL, 0) == 9 && !memcmp(reply, "status=9\n", 9), "NULL for an area");
    hold(!memcmp(areas[1], nan, sizeof nan), "an area is as it was after a refusal");
    hold(run(length, reply, sizeof reply, areas[0], SAKIROMUK_AREA - 1) == 9 && !memcmp(reply, "status=9\n", 9), "an area that is too short");
    hold(run(0, reply, sizeof reply, areas[0], SAKIROMUK_AREA) == 9 && !memcmp(reply, "status=2\n", 9), "NULL for the text");
    hold(sakiromuk_run(NULL, 0, NULL, 0, NULL, 0, NULL, 0, NULL, 0) == 9, "NULL for all");
    printf("%d same, %d differ\n", same, differ);
    return differ != 0;
}
