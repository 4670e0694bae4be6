/* Reads the codewords of a symbol, given as numbers, and prints the text: `read_symbol NUMBER..`, or the numbers on
 * standard input, separated by white space. Control characters are printed as document 01 does, as (29).
 * Exit status: 0 accepted, 1 refused, 2 for input that is no list of codewords. */
#include "ddoc.h"

#include <ctype.h>
#include <stdio.h>
#include <stdlib.h>

/* One more than the largest capacity: a longer list is no capacity either, so its rest need not be kept. */
enum { MOST = 1559, LENT = 1000, SHOWN = 40 };

static uint8_t codewords[MOST];
static size_t count;

static void bad_input(const char *what, const char *word) {
    if (word) {
        fprintf(stderr, "read_symbol: %s: \"%s\"\n", what, word);
    } else {
        fprintf(stderr, "read_symbol: %s\n", what);
    }
    exit(2);
}

static void take(const char *word) {
    unsigned value = 0;
    if (*word == '\0') {
        bad_input("not a number", word);
    }
    for (const char *c = word; *c; c++) {
        if (*c < '0' || *c > '9') {
            bad_input("not a number", word);
        }
    }
    for (const char *c = word; *c; c++) {
        value = 10 * value + (unsigned)(*c - '0');
        if (value > 255) {
            bad_input("a codeword is 0 to 255, not", word);
        }
    }
    if (count < MOST) {
        codewords[count++] = (uint8_t)value;
    }
}

/* A word longer than SHOWN is no codeword; only its beginning is kept, for the message. */
static void take_all(FILE *input) {
    char word[SHOWN + 1];
    size_t length = 0;
    int c;
    do {
        c = getc(input);
        if (c == EOF || isspace(c)) {
            if (length > 0) {
                word[length] = '\0';
                take(word);
            }
            length = 0;
        } else if (c == '\0') {
            bad_input("not a number: a zero byte", NULL);
        } else if (length == SHOWN) {
            word[length] = '\0';
            bad_input("a codeword is 0 to 255, not a word that begins", word);
        } else {
            word[length++] = (char)c;
        }
    } while (c != EOF);
    if (ferror(input)) {
        bad_input("standard input cannot be read", NULL);
    }
}

/* The words of document 01, "Numbers that come back". */
static const char *words(size_t number) {
    switch (number) {
    case 1: return "codeword count is no capacity";
    case 2: return "codeword forbidden in its place";
    case 3: return "pair outside 1 to 64,000";
    case 4: return "value unused in its set, or shift 2 or 3 unfinished";
    case 5: return "more than 1,000 characters";
    case 6: return "a lent slice too short";
    case 39: return "the pad is not what the padding rule gives";
    default: return "no refusal of symbol reading";
    }
}

int main(int arguments, char **argument) {
    uint8_t text[LENT];
    for (int i = 1; i < arguments; i++) {
        take(argument[i]);
    }
    if (arguments < 2) {
        take_all(stdin);
    }
    if (count == 0) {
        bad_input("no numbers given; usage: read_symbol NUMBER.., or the numbers on standard input", NULL);
    }
    ddoc_answer answer = ddoc_read_symbol(codewords, count, text, sizeof text);
    if (answer.number != 0) {
        printf("refused %zu at %zu: %s\n", answer.number, answer.place, words(answer.number));
        return 1;
    }
    for (size_t i = 0; i < answer.length; i++) {
        if (text[i] < 32 || text[i] > 126) {
            printf("(%d)", text[i]);
        } else {
            putchar(text[i]);
        }
    }
    printf("\n%zu characters, %zu codewords before padding\n", answer.length, answer.used);
    return 0;
}
