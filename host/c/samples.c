/* The samples of document 01, "Symbols read" and "Symbols written", the latter also read back, through the C interface;
 * beside them counts, sizes and rooms at their edges. Each sample is one test. */
#include "ddoc.h"

#include <stdio.h>
#include <string.h>

enum { MOST = 8, LENT = 1000, GUARD = 64, UNTOUCHED = 0xA5 };
enum { LARGEST = DDOC_LARGEST, WORK = DDOC_WORK, WORK_UNTOUCHED = 0xA5A5 };

typedef struct {
    const char *name;
    size_t count;
    uint8_t codewords[MOST];
    size_t room;
    ddoc_answer right; /* number, place, length, used */
    const char *text;
} sample;

static const sample samples[] = {
    /* "Symbols read" */
    {"230 87 158 is A(29)", 3, {230, 87, 158}, LENT, {0, 0, 2, 3}, "A\035"},
    {"230 89 217 is AB", 3, {230, 89, 217}, LENT, {0, 0, 2, 3}, "AB"},
    {"230 250 0 is ZZZ", 3, {230, 250, 0}, LENT, {0, 0, 3, 3}, "ZZZ"},
    {"230 250 1: refused 3", 3, {230, 250, 1}, LENT, {3, 1, 0, 0}, ""},
    {"230 0 0: refused 3", 3, {230, 0, 0}, LENT, {3, 1, 0, 0}, ""},
    {"230 89 218: refused 4 at place 3", 3, {230, 89, 218}, LENT, {4, 3, 0, 0}, ""},
    {"four codewords: refused 1", 4, {66, 67, 68, 129}, LENT, {1, 0, 0, 0}, ""},
    /* "Symbols written" */
    {"129 175 70 is empty", 3, {129, 175, 70}, LENT, {0, 0, 0, 0}, ""},
    {"129 175 71: the second later pad is wrong, refused 39", 3, {129, 175, 71}, LENT, {39, 2, 0, 0}, ""},
    {"0 129 0: refused 2 before the pad is looked at", 3, {0, 129, 0}, LENT, {2, 0, 0, 0}, ""},
    {"142 164 186 is 123456", 3, {142, 164, 186}, LENT, {0, 0, 6, 3}, "123456"},
    {"230 89 233 is ABC", 3, {230, 89, 233}, LENT, {0, 0, 3, 3}, "ABC"},
    {"66 67 129 is AB", 3, {66, 67, 129}, LENT, {0, 0, 2, 2}, "AB"},
    {"66 67 68 69 129 is ABCD", 5, {66, 67, 68, 69, 129}, LENT, {0, 0, 4, 4}, "ABCD"},
    {"230 91 11 91 11 91 11 254 is AIMAIMAIM", 8, {230, 91, 11, 91, 11, 91, 11, 254}, LENT, {0, 0, 9, 8}, "AIMAIMAIM"},
    /* Counts and rooms: "Order, symbol reading: 1, 6, then left to right" */
    {"no codewords: refused 1", 0, {0}, LENT, {1, 0, 0, 0}, ""},
    {"999 bytes lent: refused 6", 3, {66, 67, 129}, LENT - 1, {6, 0, 0, 0}, ""},
    {"999 bytes lent, a forbidden codeword: refused 6", 3, {0, 0, 0}, LENT - 1, {6, 0, 0, 0}, ""},
    {"999 bytes lent, four codewords: refused 1", 4, {66, 67, 68, 129}, LENT - 1, {1, 0, 0, 0}, ""},
    {"nothing lent: refused 6", 3, {66, 67, 129}, 0, {6, 0, 0, 0}, ""},
    {"1,001 bytes lent are as good as 1,000", 3, {66, 67, 129}, LENT + 1, {0, 0, 2, 2}, "AB"},
};

typedef struct {
    const char *name;
    const char *text;
    size_t characters;
    size_t largest, work_room, room;
    ddoc_answer right;   /* number, place, length, used */
    int zeroed;          /* whether the first 8,192 entries of the work slice are zero afterwards */
    uint8_t symbol[MOST];
} written;

/* A text of zero bytes, one too long. */
static const char zeros[LENT + 1];

static const written writing[] = {
    /* "Symbols written, largest size 1558" */
    {"empty text: 129 175 70", "", 0, LARGEST, WORK, LARGEST, {0, 0, 3, 0}, 1, {129, 175, 70}},
    {"123456: 142 164 186", "123456", 6, LARGEST, WORK, LARGEST, {0, 0, 3, 3}, 1, {142, 164, 186}},
    {"ABC: 230 89 233", "ABC", 3, LARGEST, WORK, LARGEST, {0, 0, 3, 3}, 1, {230, 89, 233}},
    {"AB: 66 67 129", "AB", 2, LARGEST, WORK, LARGEST, {0, 0, 3, 2}, 1, {66, 67, 129}},
    {"ABCD: 66 67 68 69 129", "ABCD", 4, LARGEST, WORK, LARGEST, {0, 0, 5, 4}, 1, {66, 67, 68, 69, 129}},
    {"AIMAIMAIM: 230 91 11 91 11 91 11 254", "AIMAIMAIM", 9, LARGEST, WORK, LARGEST, {0, 0, 8, 8}, 1, {230, 91, 11, 91, 11, 91, 11, 254}},
    {"ABCD with largest size 3: refused 9", "ABCD", 4, 3, WORK, LARGEST, {9, 0, 0, 0}, 1, {0}},
    {"ABCD with largest size 4: refused 8", "ABCD", 4, 4, WORK, LARGEST, {8, 0, 0, 0}, 0, {0}},
    /* "Symbol writing: 5, 7 at the first, 8, 6 for the work slice, 9, 6 for an output shorter than the symbol chosen" */
    {"ABC(128): refused 7 at place 3", "ABC\200", 4, LARGEST, WORK, LARGEST, {7, 3, 0, 0}, 0, {0}},
    {"ABC(128)(128) with largest size 4: refused 7 at place 3", "ABC\200\200", 5, 4, WORK, LARGEST, {7, 3, 0, 0}, 0, {0}},
    {"8,191 entries lent: refused 6", "ABCD", 4, 3, WORK - 1, LARGEST, {6, 0, 0, 0}, 0, {0}},
    {"8,191 entries lent, largest size 4: refused 8", "ABCD", 4, 4, WORK - 1, LARGEST, {8, 0, 0, 0}, 0, {0}},
    {"8,193 entries lent are as good as 8,192", "AB", 2, LARGEST, WORK + 1, LARGEST, {0, 0, 3, 2}, 1, {66, 67, 129}},
    {"4 bytes lent for ABCD: refused 6", "ABCD", 4, LARGEST, WORK, 4, {6, 0, 0, 0}, 1, {0}},
    {"4 bytes lent for ABCD, largest size 3: refused 9", "ABCD", 4, 3, WORK, 4, {9, 0, 0, 0}, 1, {0}},
    {"5 bytes lent for ABCD", "ABCD", 4, 5, WORK, 5, {0, 0, 5, 4}, 1, {66, 67, 68, 69, 129}},
    {"a zero byte is a character", zeros, 1, 3, WORK, 3, {0, 0, 3, 1}, 1, {1, 129, 70}},
    {"1,001 characters: refused 5", zeros, LENT + 1, 4, 0, 0, {5, 0, 0, 0}, 0, {0}},
    {"1,000 characters with largest size 3: refused 9", zeros, LENT, 3, WORK, 0, {9, 0, 0, 0}, 1, {0}},
    /* An empty text may be no text at all. */
    {"no text: 129 175 70", NULL, 0, 3, WORK, 3, {0, 0, 3, 0}, 1, {129, 175, 70}},
};

static int same(ddoc_answer a, ddoc_answer b) {
    return a.number == b.number && a.place == b.place && a.length == b.length && a.used == b.used;
}

/* The text stands at the beginning; all bytes behind it, or all after a refusal, are as they were. */
static int right_bytes(const uint8_t *text, size_t size, const void *right, size_t length) {
    if (memcmp(text, right, length) != 0) {
        return 0;
    }
    for (size_t i = length; i < size; i++) {
        if (text[i] != UNTOUCHED) {
            return 0;
        }
    }
    return 1;
}

static int check(const char *name, const uint8_t *codewords, size_t count, size_t room, ddoc_answer right,
                 const char *right_text) {
    uint8_t text[LENT + GUARD];
    memset(text, UNTOUCHED, sizeof text);
    ddoc_answer answer = ddoc_read_symbol(codewords, count, text, room);
    int bytes = right_bytes(text, sizeof text, right_text, right.length);
    if (same(answer, right) && bytes) {
        printf("ok %s\n", name);
        return 1;
    }
    printf("FAILED %s: number %zu, place %zu, length %zu, used %zu%s\n", name, answer.number, answer.place,
           answer.length, answer.used, bytes ? "" : "; the lent bytes are wrong");
    return 0;
}

static int right_work(const uint16_t *work, size_t size, size_t zeroed) {
    for (size_t i = 0; i < size; i++) {
        if (work[i] != (i < zeroed ? 0 : WORK_UNTOUCHED)) {
            return 0;
        }
    }
    return 1;
}

static int check_writing(const written *w) {
    static uint16_t work[WORK + GUARD];
    uint8_t symbol[LARGEST + GUARD];
    memset(work, UNTOUCHED, sizeof work);
    memset(symbol, UNTOUCHED, sizeof symbol);
    const uint8_t *text = (const uint8_t *)w->text;
    ddoc_answer answer = ddoc_write_symbol(text, w->characters, w->largest, work, w->work_room, symbol, w->room);
    int bytes = right_bytes(symbol, sizeof symbol, w->symbol, w->right.length);
    int entries = right_work(work, sizeof work / sizeof work[0], w->zeroed ? WORK : 0);
    if (same(answer, w->right) && bytes && entries) {
        printf("ok %s\n", w->name);
        return 1;
    }
    printf("FAILED %s: number %zu, place %zu, length %zu, used %zu%s%s\n", w->name, answer.number, answer.place, answer.length,
           answer.used, bytes ? "" : "; the lent bytes are wrong", entries ? "" : "; the work slice is wrong");
    return 0;
}

int main(void) {
    int passed = 0, failed = 0;
    for (size_t i = 0; i < sizeof samples / sizeof samples[0]; i++) {
        const sample *s = &samples[i];
        if (check(s->name, s->codewords, s->count, s->room, s->right, s->text)) {
            passed++;
        } else {
            failed++;
        }
    }
    /* A list of no codewords may be no list at all. */
    if (check("no list: refused 1", NULL, 0, LENT, (ddoc_answer){1, 0, 0, 0}, "")) {
        passed++;
    } else {
        failed++;
    }
    for (size_t i = 0; i < sizeof writing / sizeof writing[0]; i++) {
        if (check_writing(&writing[i])) {
            passed++;
        } else {
            failed++;
        }
    }
    printf("%d passed, %d failed\n", passed, failed);
    return failed == 0 ? 0 : 1;
}
