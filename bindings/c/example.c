/* Fits the job on standard input and prints its reply; ends with the job's number.

       cc -I bindings/c -o example bindings/c/example.c crates/sakiromuk/out/libsakiromuk.a */
#include <stdio.h>

#include "sakiromuk.h"

/* One byte more than a text may have, so that a longer one is known to be too long. */
static uint8_t text[16385], reply[SAKIROMUK_REPLY];
static double p[SAKIROMUK_AREA], q[SAKIROMUK_AREA], r[SAKIROMUK_AREA];

int main(void) {
    size_t length = fread(text, 1, sizeof text, stdin), n;
    if (ferror(stdin)) {
        perror("standard input");
        return 70;
    }
    n = sakiromuk_run(text, length, reply, sizeof reply, p, SAKIROMUK_AREA, q, SAKIROMUK_AREA, r, SAKIROMUK_AREA);
    if (fwrite(reply, 1, n, stdout) != n || fflush(stdout)) {
        perror("standard output");
        return 70;
    }
    /* status=N */
    return reply[7] - '0';
}
