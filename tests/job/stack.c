/* The stack that a job takes. Packed or recorded jobs in; each runs in a thread of its own on a stack that is painted first, and what is
   no longer paint afterwards was used. A thread that does nothing is taken off. Fails where a job takes more than BOUND bytes. */
#include <pthread.h>
#include <stdio.h>
#include <stdlib.h>
#include <string.h>

#include "sakiromuk.h"

#define STACK (1 << 20)
#define PAINT 0xa5
#define BOUND (128 * 1024)

struct job {
    uint8_t *text;
    size_t length;
    uint8_t reply[SAKIROMUK_REPLY];
    size_t reply_length;
    double p[SAKIROMUK_AREA], q[SAKIROMUK_AREA], r[SAKIROMUK_AREA];
};

static void fail(const char *words) {
    fprintf(stderr, "stack: %s\n", words);
    exit(1);
}

static void *run(void *data) {
    struct job *job = data;
    if (job)
        job->reply_length = sakiromuk_run(job->text, job->length, job->reply, SAKIROMUK_REPLY, job->p, SAKIROMUK_AREA, job->q,
                                          SAKIROMUK_AREA, job->r, SAKIROMUK_AREA);
    return NULL;
}

/* How much of its stack a thread used: all above the lowest place that is no longer paint. */
static size_t used(uint8_t *stack, struct job *job) {
    pthread_attr_t attr;
    pthread_t thread;
    size_t low = 0;
    memset(stack, PAINT, STACK);
    if (pthread_attr_init(&attr) || pthread_attr_setstack(&attr, stack, STACK) || pthread_create(&thread, &attr, run, job))
        fail("no thread");
    if (pthread_join(thread, NULL))
        fail("the thread did not end");
    pthread_attr_destroy(&attr);
    while (low < STACK && stack[low] == PAINT)
        low++;
    return STACK - low;
}

/* The next job's text and, in a recorded sample, the reply behind it, which is passed over. */
static int next(struct job *job) {
    char header[64];
    size_t reply = 0;
    if (!fgets(header, sizeof header, stdin))
        return 0;
    /* Behind the length stands the reply's, or a class, or nothing. */
    if (sscanf(header, "%zu %zu", &job->length, &reply) < 1)
        fail("a record begins with its length");
    job->text = malloc(job->length + 1);
    if (!job->text || fread(job->text, 1, job->length, stdin) != job->length)
        fail("a job is cut short");
    while (reply--)
        if (getchar() == EOF)
            fail("a reply is cut short");
    return 1;
}

int main(void) {
    uint8_t *stack = aligned_alloc(4096, STACK);
    struct job *job = calloc(1, sizeof *job);
    size_t most = 0, jobs = 0, idle;
    if (!stack || !job)
        fail("no room");
    idle = used(stack, NULL);
    while (next(job)) {
        size_t n = used(stack, job) - idle;
        if (job->reply_length < 9 || memcmp(job->reply, "status=", 7))
            fail("no reply");
        if (n > most)
            most = n;
        free(job->text);
        jobs++;
    }
    printf("stack: at most %zu bytes of %d, over %zu jobs\n", most, BOUND, jobs);
    return jobs == 0 || most > BOUND;
}
