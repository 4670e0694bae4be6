/* Measures ddoc_read_text with ddoc_conformity, and ddoc_write_text, on a text of 300 characters that conforms:
 * for each the least and the mean of many runs, in microseconds a text. `bench_text [RUNS]`.
 * No test: it fails only on a wrong answer. */
#define _POSIX_C_SOURCE 199309L
#include "ddoc.h"

#include <stdio.h>
#include <stdlib.h>
#include <string.h>
#include <time.h>

/* A run is so many calls, long enough for the clock. */
enum { CALLS = 200, USUAL_RUNS = 500, LIST = 64, LENGTH = 300, ROOM = 1000 };

/* Type 01 in version 04, nine fields, and a signature of 64 bytes of zeros, "A" a hundred and three times. */
static const char text[] =
    "DC04FR000001125E125B0101FR"
    "26FR2475001"
    "10MME/SPECIMEN/NATACHA\x1d"
    "22145 AVENUE DES SPECIMENS\x1d"
    "18FACTURE 2012 11 12 001\x1d"
    "1912345678\x1d"
    "1C01112012"
    "20BATIMENT B ESCALIER 2 ETAGE 4\x1d"
    "23LIEU DIT LES SPECIMENS DE LA\x1d"
    "\x1f"
    "AAAAAAAAAAAAAAAAAAAAAAAAAAAAAAAAAAAAAAAAAAAAAAAAAAA"
    "AAAAAAAAAAAAAAAAAAAAAAAAAAAAAAAAAAAAAAAAAAAAAAAAAAAA";

static ddoc_message message;
static ddoc_field fields[LIST];
static uint8_t out[ROOM];

static void fail(const char *what, size_t number, size_t place) {
    fprintf(stderr, "bench_text: %s: refused %zu at %zu\n", what, number, place);
    exit(1);
}

static void read_one(void) {
    message = ddoc_read_text((const uint8_t *)text, LENGTH, fields, LIST);
    if (message.number != 0) {
        fail("reading", message.number, message.place);
    }
    ddoc_answer answer = ddoc_conformity(message.header.type[0], message.header.type[1], fields, message.fields);
    if (answer.number != 0) {
        fail("conformity", answer.number, answer.place);
    }
}

static void write_one(void) {
    ddoc_answer answer = ddoc_write_text(message.header, fields, message.fields, (const uint8_t *)text, LENGTH,
                                         message.signature, message.signature_length, out, ROOM);
    if (answer.number != 0) {
        fail("writing", answer.number, answer.place);
    }
}

static double now(void) {
    struct timespec t;
    clock_gettime(CLOCK_MONOTONIC, &t);
    return 1e6 * (double)t.tv_sec + 1e-3 * (double)t.tv_nsec;
}

static void measure(const char *name, void (*one)(void), long runs) {
    double least = 0, sum = 0;
    for (long run = 0; run < runs; run++) {
        double start = now();
        for (int call = 0; call < CALLS; call++) {
            one();
        }
        double each = (now() - start) / CALLS;
        least = run == 0 || each < least ? each : least;
        sum += each;
    }
    printf("%s: least %.3f, mean %.3f microseconds a text\n", name, least, sum / (double)runs);
}

int main(int arguments, char **argument) {
    long runs = arguments > 1 ? atol(argument[1]) : USUAL_RUNS;
    if (runs < 1) {
        fprintf(stderr, "bench_text: usage: bench_text [RUNS], a number from 1\n");
        return 2;
    }
    if (strlen(text) != LENGTH) {
        fprintf(stderr, "bench_text: the text has %zu characters\n", strlen(text));
        return 1;
    }
    printf("%d characters, %ld runs of %d calls\n", LENGTH, runs, CALLS);
    measure("read_text with conformity", read_one, runs);
    measure("write_text", write_one, runs);
    if (memcmp(out, text, LENGTH) != 0) {
        fprintf(stderr, "bench_text: what was written is not what was read\n");
        return 1;
    }
    return 0;
}
