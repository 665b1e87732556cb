/* The proved fitter for programs in C and C++ on x86-64 Linux: include this and link libsakiromuk.a, which `rt lib` in
   crates/sakiromuk writes to its out/. A job's text goes in and its reply comes out; docs/FORMAT.md has the form of both. */
#ifndef SAKIROMUK_H
#define SAKIROMUK_H

#include <stddef.h>
#include <stdint.h>

#ifdef __cplusplus
extern "C" {
#endif

/* How many numbers a work area has at least. */
#define SAKIROMUK_AREA 6400
/* How many bytes a reply has at most. */
#define SAKIROMUK_REPLY 8192

/* The numbers a job ends in: the N of its reply's first line, status=N. */
enum sakiromuk_status {
    SAKIROMUK_FITTED = 0,
    SAKIROMUK_TEXT_TOO_LONG = 1,         /* over 16,384 bytes */
    SAKIROMUK_NOT_A_JOB = 2,             /* the text is not of the form of a job */
    SAKIROMUK_TOO_MANY = 3,              /* over 40 points, 40 lines, 40 equations or 20 measures */
    SAKIROMUK_NUMBER_OUT_OF_BOUNDS = 4,  /* a number is not finite or out of its bounds */
    SAKIROMUK_MISSING = 5,               /* a point or a line that the job does not have */
    SAKIROMUK_TOO_MANY_ROWS = 6,         /* the equations have over 64 rows */
    SAKIROMUK_NOT_CONVERGED = 7,         /* the equations of a group do not all hold: no coordinates come back */
    SAKIROMUK_TOO_SHORT = 9              /* a work area has fewer than SAKIROMUK_AREA numbers */
};

/* Why a fit failed: where the number is SAKIROMUK_NOT_CONVERGED, the CODE of its reply's second line, g=LOWEST,ITERATIONS,TRIES,CODE,COLUMN.
   COLUMN is counted from 1 with SAKIROMUK_NO_PIVOT, and 0 with any other. docs/FORMAT.md has an example of each. */
enum sakiromuk_reason {
    SAKIROMUK_NOTHING_FREE = 1,          /* everything is fixed, and the equations do not hold there */
    SAKIROMUK_NO_PIVOT = 2,              /* a number was too large, as where points are drawn all but at one place */
    SAKIROMUK_NOT_FINITE = 3,            /* a step is not finite, as where points that need a distance between them are at one place */
    SAKIROMUK_NOT_LESS = 4,              /* no step helps: a contradiction, or the drawing is too far from what is asked */
    SAKIROMUK_ITERATIONS_SPENT = 5       /* merely slow: the last iteration still helped; there may be a contradiction all the same */
};

/* Runs the job whose text is the text_len bytes at text (no 0 need end it), and returns the length of its reply.

   reply: room for reply_len bytes. Where that is at least what is returned, the reply is at its head and the rest of it is as it was. A
   return above reply_len means that there was no room: nothing of reply has changed, and the job is to be run again with more.
   SAKIROMUK_REPLY bytes are always enough. No 0 ends the reply.

   p, q, r: three work areas, of p_len, q_len and r_len numbers. They may hold anything, NaNs and what was never written to among it. After
   a fit, and after one that fails (0 and 7), the first SAKIROMUK_AREA numbers of each are +0.0 and the rest is as it was; after any
   other number all is as it was. An area that is too short is status 9.

   Pointers: each is valid for its length, p, q and r are aligned as doubles are, and nothing of what is lent overlaps anything else of
   it or is touched by others during the call. NULL may stand with the length 0, and only there.

   Threads: there is no state, no heap and no lock, and of the C library memcpy and memset alone are called, so any number of calls may run
   at once, each on its own slices.

   Stack and time: a job took at most 44,168 bytes of stack over 20,000 jobs, and the tests hold it to 131,072. Every call ends. On an AMD
   EPYC a rectangle takes some 30 us; the longest processor time seen was 1.3 s, on a busy machine, among 160 jobs of 40 points and 40
   equations that cannot hold together, where the fit is tried again without each equation. Of 20,000 jobs that the tests draw none took over 0.1 s. */
size_t sakiromuk_run(const uint8_t *text, size_t text_len, uint8_t *reply, size_t reply_len, double *p, size_t p_len, double *q,
                     size_t q_len, double *r, size_t r_len);

#ifdef __cplusplus
}
#endif

#endif
