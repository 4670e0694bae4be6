/* Day files through the C interface: a file written by hand, sequences on it, and rooms, lengths and pointers at their edges.
 * Each sample is one test. */
#include "ddoc.h"

#include <stdio.h>
#include <string.h>

enum { GUARD = 64, UNTOUCHED = 0xA5 };

static uint8_t lent[DDOC_FILE + GUARD];
static uint8_t right[DDOC_FILE + GUARD];
static unsigned passed, failed;

/* "AB" live and "C" withdrawn: two records, and the trailer behind them. */
static const uint8_t two[] = {1, 0, 2, 'A', 'B', 0, 0, 1, 'C', 0, 0, 0, 0, 0, 0, 0, 5, 0, 0, 0, 2, 0, 0, 0, 9};
/* squeezed, and the two lists' numbers with one entry more */
static const uint8_t one[sizeof two] = {1, 0, 2, 'A', 'B', 0, 0, 0, 0, 0, 0, 0, 1, 0, 0, 0, 5};
/* and with "" added */
static const uint8_t three[] = {1, 0, 2, 'A', 'B', 0, 0, 1, 'C', 1, 0, 0, 0, 0, 0, 0, 0, 0, 0, 5, 0, 0, 0, 9, 0, 0, 0, 3, 0, 0, 0, 12};

static void start(const uint8_t *file, size_t length) {
    memset(lent, UNTOUCHED, sizeof lent);
    memcpy(lent, file, length);
    memcpy(right, lent, sizeof lent);
}

static void told(const char *name, int good) {
    int same = memcmp(lent, right, sizeof lent) == 0;
    printf("%s %s%s\n", good && same ? "ok" : "FAILED", name, same ? "" : ": the slice is not what it should be");
    good &&same ? passed++ : failed++;
}

static void answered(const char *name, ddoc_answer is, size_t number, size_t length, size_t used) {
    told(name, is.number == number && is.place == 0 && is.length == length && is.used == used);
}

static void part(const char *name, ddoc_part is, size_t number, size_t begin, size_t length) {
    told(name, is.number == number && is.place == 0 && is.which == 0 && is.start == begin && is.length == length);
}

static void sequence(void) {
    const uint8_t empty[8] = {0};
    start(empty, sizeof empty);
    part("nothing to fetch from an empty file: refused 37", ddoc_day_fetch(lent, DDOC_FILE, 8, 0), 37, 0, 0);
    ddoc_answer first = ddoc_day_add(lent, DDOC_FILE, 8, (const uint8_t *)"AB", 2);
    ddoc_answer second = ddoc_day_add(lent, DDOC_FILE, first.length, (const uint8_t *)"C", 1);
    ddoc_answer gone = ddoc_day_withdraw(lent, DDOC_FILE, second.length, 1);
    memcpy(right, two, sizeof two);
    answered("two added to an empty file, one withdrawn: the first", first, 0, 17, 0);
    answered("the second", second, 0, sizeof two, 1);
    answered("the withdrawal", gone, 0, sizeof two, 0);
    part("the text of number 0", ddoc_day_fetch(lent, DDOC_FILE, sizeof two, 0), 0, 3, 2);
    part("number 1 is withdrawn: refused 37", ddoc_day_fetch(lent, DDOC_FILE, sizeof two, 1), 37, 0, 0);
    answered("and not withdrawn again", ddoc_day_withdraw(lent, DDOC_FILE, sizeof two, 1), 37, 0, 0);
    ddoc_answer third = ddoc_day_add(lent, DDOC_FILE, sizeof two, NULL, 0);
    memcpy(right, three, sizeof three);
    answered("an empty text at a null pointer", third, 0, sizeof three, 2);
    part("is fetched as an empty part", ddoc_day_fetch(lent, DDOC_FILE, sizeof three, 2), 0, 12, 0);
}

/* The lists stand at odd addresses: the first list's entry is byte 1 to 4 of a buffer, with a guard around it. */
static void squeezed(void) {
    uint8_t olds[16], news[16], untouched[16], zero[16];
    memset(untouched, UNTOUCHED, sizeof untouched);
    memcpy(zero, untouched, sizeof zero);
    memset(zero + 1, 0, 4);
    start(two, sizeof two);
    memcpy(olds, untouched, sizeof olds);
    memcpy(news, untouched, sizeof news);
    uint32_t *old_list = (uint32_t *)(void *)(olds + 1), *new_list = (uint32_t *)(void *)(news + 1);
    answered("a list too short: refused 6", ddoc_day_squeeze(lent, DDOC_FILE, sizeof two, old_list, 0, new_list, 2), 6, 0, 0);
    answered("the other too short, at a null pointer: refused 6", ddoc_day_squeeze(lent, DDOC_FILE, sizeof two, old_list, 2, NULL, 0), 6, 0, 0);
    answered("no file: refused 35", ddoc_day_squeeze(lent, DDOC_FILE, sizeof two - 1, old_list, 2, new_list, 2), 35, 0, 0);
    told("the lists are untouched", memcmp(olds, untouched, 16) == 0 && memcmp(news, untouched, 16) == 0);
    ddoc_answer answer = ddoc_day_squeeze(lent, DDOC_FILE, sizeof two, old_list, 2, new_list, 1);
    memcpy(right, one, sizeof one);
    answered("the withdrawn record goes", answer, 0, 17, 1);
    told("and both lists have one number", memcmp(olds, zero, 16) == 0 && memcmp(news, zero, 16) == 0);
    answered("squeezed again, it is the same", ddoc_day_squeeze(lent, DDOC_FILE, 17, old_list, 1, new_list, 1), 0, 17, 1);
    const uint8_t empty[8] = {0};
    start(empty, sizeof empty);
    answered("an empty file needs no lists", ddoc_day_squeeze(lent, sizeof lent, 8, NULL, 0, NULL, 0), 0, 8, 0);
    answered("no slice: refused 6", ddoc_day_squeeze(NULL, 0, 8, NULL, 0, NULL, 0), 6, 0, 0);
}

/* The live texts of `three`, "AB" and "", are no texts of a 2D-DOC: both headers are too short (10). The tally stands at an odd address. */
static void tallied(void) {
    static uint8_t room[sizeof(ddoc_tally) + 2];
    static ddoc_tally tally, expected;
    ddoc_tally *odd = (ddoc_tally *)(void *)(room + 1);
    start(three, sizeof three);
    expected.refused[10] = 2;
    answered("two live texts counted", ddoc_tally_add(odd, lent, sizeof three), 0, 0, 0);
    told("under their refusal", memcmp(odd, &expected, sizeof expected) == 0 && room[0] == 0 && room[sizeof room - 1] == 0);
    answered("no file: refused 35", ddoc_tally_add(odd, NULL, 0), 35, 0, 0);
    answered("a file of 32,769 bytes: refused 35", ddoc_tally_add(odd, lent, DDOC_FILE + 1), 35, 0, 0);
    told("the tally is as it was", memcmp(odd, &expected, sizeof expected) == 0);
    tally.refused[10] = expected.refused[10] = UINT32_MAX - 1;
    answered("a count that would pass its greatest: refused 38", ddoc_tally_add(&tally, lent, sizeof three), 38, 0, 0);
    told("the first text is not counted either", memcmp(&tally, &expected, sizeof expected) == 0);
    start(one, sizeof one);
    expected.refused[10] = UINT32_MAX;
    answered("the greatest count", ddoc_tally_add(&tally, lent, 17), 0, 0, 0);
    told("is reached", memcmp(&tally, &expected, sizeof expected) == 0);
}

static void edges(void) {
    static const uint8_t long_text[1001];
    start(two, sizeof two);
    answered("1,001 bytes: refused 5", ddoc_day_add(lent, DDOC_FILE, sizeof two, long_text, 1001), 5, 0, 0);
    answered("a slice of 32,767: refused 6", ddoc_day_add(lent, DDOC_FILE - 1, sizeof two, long_text, 1001), 6, 0, 0);
    answered("no slice: refused 6", ddoc_day_add(NULL, 0, 0, NULL, 0), 6, 0, 0);
    answered("no slice, withdrawing: refused 6", ddoc_day_withdraw(NULL, 0, 8, 0), 6, 0, 0);
    part("no slice, fetching: refused 6", ddoc_day_fetch(NULL, 0, 8, 0), 6, 0, 0);
    answered("a length of 32,769: refused 35", ddoc_day_add(lent, sizeof lent, DDOC_FILE + 1, long_text, 1001), 35, 0, 0);
    answered("the greatest length: refused 35", ddoc_day_withdraw(lent, sizeof lent, (size_t)-1, 0), 35, 0, 0);
    part("a length of 7: refused 35", ddoc_day_fetch(lent, sizeof lent, 7, 0), 35, 0, 0);
    part("one byte too many: refused 35", ddoc_day_fetch(lent, sizeof lent, sizeof two + 1, 0), 35, 0, 0);
    part("the greatest number: refused 37", ddoc_day_fetch(lent, sizeof lent, sizeof two, (size_t)-1), 37, 0, 0);
}

int main(void) {
    sequence();
    squeezed();
    tallied();
    edges();
    printf("%u passed, %u failed\n", passed, failed);
    return failed != 0;
}
