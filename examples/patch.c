/* How a label head patches a running number into a prepared symbol without dividing (docs/PROMISES.md, "Combining check words").
 * Prepared once: the whole list of the label with number 0, and for each digit of each word of the number the list that it adds. Then
 * a label is the sum, word by word, of the prepared list and of the lists of those digits that are one. Every list is compared with
 * the one computed anew, and read. `patch`; the last line is the sum. */
#include "../include/ddoc.h"
#include <stdio.h>
#include <string.h>

/* 20261116 and a number of eight digits: eight pairs of digits, a codeword each, the last four the number's. */
enum { DATA = 8, CHECKS = 10, LIST = DATA + CHECKS, FIRST = 4, WORDS = 4, DIGITS = 8 };

static uint8_t digit_lists[WORDS][DIGITS][LIST];

static void add(uint8_t *list, const uint8_t *patch)
{
    for (int i = 0; i < LIST; i++) list[i] ^= patch[i];
}

/* A pair of digits is the codeword 130 and more. */
static void number_words(long number, uint8_t *words)
{
    for (int i = WORDS - 1; i >= 0; i--, number /= 100) words[i] = (uint8_t)(130 + number % 100);
}

/* The lists of single digits: one binary digit of one word, the other data words zero, and the check words that belong to them. */
static int prepare(void)
{
    for (int word = 0; word < WORDS; word++)
        for (int digit = 0; digit < DIGITS; digit++) {
            uint8_t data[DATA] = {0};
            data[FIRST + word] = (uint8_t)(1 << digit);
            if (ddoc_check_words(data, DATA, digit_lists[word][digit], LIST).number) return 0;
        }
    return 1;
}

/* From the words that stand in the list to other words. */
static void patch(uint8_t *list, const uint8_t *words)
{
    for (int word = 0; word < WORDS; word++) {
        const uint8_t change = list[FIRST + word] ^ words[word];
        for (int digit = 0; digit < DIGITS; digit++)
            if (change >> digit & 1) add(list, digit_lists[word][digit]);
    }
}

static int same_as_anew(const uint8_t *list, long number)
{
    char text[32];
    uint8_t data[DATA], anew[LIST], read[1000];
    static uint16_t work[DDOC_WORK];
    snprintf(text, sizeof text, "20261116%08ld", number);
    const ddoc_answer written = ddoc_write_symbol((const uint8_t *)text, 16, DDOC_LARGEST, work, DDOC_WORK, data, DATA);
    if (written.number || ddoc_check_words(data, DATA, anew, LIST).number || memcmp(list, anew, LIST)) return 0;
    const ddoc_answer back = ddoc_read_symbol(list, DATA, read, sizeof read);
    return back.number == 0 && back.length == 16 && memcmp(read, text, 16) == 0;
}

int main(void)
{
    const uint8_t date[FIRST] = {150, 156, 141, 146}; /* 20 26 11 16 */
    uint8_t data[DATA], list[LIST], words[WORDS], first[LIST];
    memcpy(data, date, FIRST);
    number_words(0, data + FIRST);
    if (!prepare() || ddoc_check_words(data, DATA, list, LIST).number) {
        printf("the library refuses a label\n0 passed, 1 failed\n");
        return 1;
    }
    memcpy(first, list, LIST);
    long wrong = 0, labels = 0;
    for (long number = 0; number < 100000000; number = number * 7 / 4 + 1, labels++) {
        number_words(number, words);
        patch(list, words);
        wrong += !same_as_anew(list, number);
    }
    printf("%s %ld labels patched, %ld differ from the list computed anew\n", wrong ? "FAILED" : "ok", labels, wrong);
    /* Patching twice with the same words: back to number 0. */
    number_words(0, words);
    patch(list, words);
    const int restored = memcmp(list, first, LIST) == 0;
    printf("%s patched back to number 0\n", restored ? "ok" : "FAILED");
    printf("%d passed, %d failed\n", (wrong == 0) + restored, (wrong != 0) + !restored);
    return wrong != 0 || !restored;
}
