/* Measures day files of 32,768 bytes: checking one (ddoc_day_fetch of its first record, which checks all of it) in GB/s, and adding to a file
 * that already has 1,000 records, and squeezing one, in microseconds. `bench_files [RUNS]`. No test: it fails only on a wrong answer. */
#define _POSIX_C_SOURCE 199309L
#include "ddoc.h"

#include <stdio.h>
#include <stdlib.h>
#include <string.h>
#include <time.h>

/* A run is so many calls, long enough for the clock. */
enum { CALLS = 100, USUAL_RUNS = 200 };

static uint8_t file[DDOC_FILE], before[DDOC_FILE];
static const uint8_t text[1000];

static void fail(const char *what, size_t number) {
    fprintf(stderr, "bench_files: %s: refused %zu\n", what, number);
    exit(1);
}

static double now(void) {
    struct timespec t;
    clock_gettime(CLOCK_MONOTONIC, &t);
    return 1e6 * (double)t.tv_sec + 1e-3 * (double)t.tv_nsec;
}

/* A file of so many records with texts of so many bytes, or as many as it takes; its length comes back. */
static size_t filled(size_t records, size_t characters) {
    size_t length = 8;
    memset(file, 0, sizeof file);
    for (size_t at = 0; at < records; at++) {
        ddoc_answer answer = ddoc_day_add(file, DDOC_FILE, length, text, characters);
        if (answer.number == 36) {
            break;
        }
        if (answer.number != 0) {
            fail("filling", answer.number);
        }
        length = answer.length;
    }
    return length;
}

static void check(size_t characters, long runs) {
    size_t length = filled(DDOC_FILE, characters);
    size_t records = (length - 8) / (7 + characters);
    double least = 0, sum = 0;
    for (long run = 0; run < runs; run++) {
        double begin = now();
        for (int call = 0; call < CALLS; call++) {
            ddoc_part part = ddoc_day_fetch(file, DDOC_FILE, length, 0);
            if (part.number != 0) {
                fail("fetching", part.number);
            }
        }
        double each = (now() - begin) / CALLS;
        least = run == 0 || each < least ? each : least;
        sum += each;
    }
    printf("check %zu bytes, %zu records: least %.2f, mean %.2f microseconds, %.2f GB/s\n", length, records, least, sum / (double)runs,
           1e-3 * (double)length / least);
}

/* The trailer that the record overwrites is put back before each call; that time is measured with it. */
static void add(size_t records, size_t characters, long runs) {
    size_t length = filled(records, characters);
    size_t trailer = length - 8 - 4 * records;
    memcpy(before, file, sizeof file);
    double least = 0, sum = 0;
    for (long run = 0; run < runs; run++) {
        double begin = now();
        for (int call = 0; call < CALLS; call++) {
            memcpy(file + trailer, before + trailer, length - trailer);
            ddoc_answer answer = ddoc_day_add(file, DDOC_FILE, length, text, characters);
            if (answer.number != 0) {
                fail("adding", answer.number);
            }
        }
        double each = (now() - begin) / CALLS;
        least = run == 0 || each < least ? each : least;
        sum += each;
    }
    printf("add to a file of %zu bytes, %zu records: least %.2f, mean %.2f microseconds\n", length, records, least, sum / (double)runs);
}

/* The whole file is put back before each call; that time is measured with it. */
static void squeeze(size_t records, size_t characters, long runs) {
    static uint32_t olds[DDOC_FILE / 7], news[DDOC_FILE / 7];
    size_t length = filled(records, characters);
    for (size_t number = 0; number < records; number += 2) {
        ddoc_answer answer = ddoc_day_withdraw(file, DDOC_FILE, length, number);
        if (answer.number != 0) {
            fail("withdrawing", answer.number);
        }
    }
    memcpy(before, file, sizeof file);
    double least = 0, sum = 0;
    for (long run = 0; run < runs; run++) {
        double begin = now();
        for (int call = 0; call < CALLS; call++) {
            memcpy(file, before, length);
            ddoc_answer answer = ddoc_day_squeeze(file, DDOC_FILE, length, olds, DDOC_FILE / 7, news, DDOC_FILE / 7);
            if (answer.number != 0) {
                fail("squeezing", answer.number);
            }
        }
        double each = (now() - begin) / CALLS;
        least = run == 0 || each < least ? each : least;
        sum += each;
    }
    printf("squeeze %zu bytes, %zu records, half of them withdrawn: least %.2f, mean %.2f microseconds\n", length, records, least,
           sum / (double)runs);
}

int main(int arguments, char **argument) {
    long runs = arguments > 1 ? atol(argument[1]) : USUAL_RUNS;
    if (runs < 1) {
        fprintf(stderr, "bench_files: usage: bench_files [RUNS], a number from 1\n");
        return 2;
    }
    printf("%ld runs of %d calls\n", runs, CALLS);
    check(300, runs);
    check(25, runs);
    check(0, runs);
    add(1000, 25, runs);
    add(1000, 0, runs);
    squeeze(1000, 25, runs);
    squeeze(100, 300, runs);
    return 0;
}
