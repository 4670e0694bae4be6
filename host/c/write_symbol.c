/* Writes the text on standard input into the smallest symbol and prints its codewords and its size: `write_symbol [LARGEST] <
 * TEXT`. LARGEST is the most data codewords permitted, 1558 if not given. Every byte is a character, a line end too.
 * Exit status: 0 accepted, 1 refused, 2 for a command line or input that can't be used. */
#include "ddoc.h"

#include <stdio.h>
#include <stdlib.h>

/* One more than the longest text: a longer one is refused all the same, so its rest need not be kept. */
enum { MOST = 1001, IN_A_LINE = 20 };

static void bad_input(const char *what, const char *word) {
    if (word) {
        fprintf(stderr, "write_symbol: %s: \"%s\"\n", what, word);
    } else {
        fprintf(stderr, "write_symbol: %s\n", what);
    }
    exit(2);
}

/* Any number will do: the library says whether it is a capacity. */
static size_t size_of(const char *word) {
    size_t value = 0;
    if (*word == '\0') {
        bad_input("the largest size is not a number", word);
    }
    for (const char *c = word; *c; c++) {
        if (*c < '0' || *c > '9') {
            bad_input("the largest size is not a number", word);
        }
        if (value > 99999) {
            bad_input("the largest size is a number up to 1558, not", word);
        }
        value = 10 * value + (size_t)(*c - '0');
    }
    return value;
}

/* The words of document 01, "Numbers that come back". */
static const char *words(size_t number) {
    switch (number) {
    case 5: return "more than 1,000 characters";
    case 6: return "a lent slice too short";
    case 7: return "character above 127";
    case 8: return "permitted size is no capacity";
    case 9: return "no permitted size fits";
    default: return "no refusal of symbol writing";
    }
}

/* Modules of a side, by the 24 capacities. */
static int side(size_t capacity) {
    static const int sizes[24][2] = {
        {3, 10}, {5, 12}, {8, 14}, {12, 16}, {18, 18}, {22, 20}, {30, 22}, {36, 24}, {44, 26}, {62, 32}, {86, 36}, {114, 40},
        {144, 44}, {174, 48}, {204, 52}, {280, 64}, {368, 72}, {456, 80}, {576, 88}, {696, 96}, {816, 104}, {1050, 120},
        {1304, 132}, {1558, 144},
    };
    for (int i = 0; i < 24; i++) {
        if ((size_t)sizes[i][0] == capacity) {
            return sizes[i][1];
        }
    }
    return 0;
}

int main(int arguments, char **argument) {
    static uint16_t work[DDOC_WORK];
    uint8_t text[MOST], symbol[DDOC_LARGEST];
    if (arguments > 2) {
        bad_input("too many words; usage: write_symbol [LARGEST], with the text on standard input", NULL);
    }
    size_t largest = arguments == 2 ? size_of(argument[1]) : DDOC_LARGEST;
    size_t length = fread(text, 1, sizeof text, stdin);
    if (ferror(stdin)) {
        bad_input("standard input cannot be read", NULL);
    }
    ddoc_answer answer = ddoc_write_symbol(text, length, largest, work, DDOC_WORK, symbol, sizeof symbol);
    if (answer.number != 0) {
        printf("refused %zu at %zu: %s\n", answer.number, answer.place, words(answer.number));
        return 1;
    }
    for (size_t i = 0; i < answer.length; i++) {
        int last = i + 1 == answer.length || i % IN_A_LINE == IN_A_LINE - 1;
        printf("%d%c", symbol[i], last ? '\n' : ' ');
    }
    printf("%dx%d: %zu data codewords, %zu before padding, for %zu characters\n", side(answer.length), side(answer.length),
           answer.length, answer.used, length);
    return 0;
}
