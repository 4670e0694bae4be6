/* The samples of document 01, "Zones" and its header, read and written again through the C interface; beside them an
 * empty zone, calls without a list, and conformity of the smallest lists. Each sample is one test. */
#include "ddoc.h"

#include <stdio.h>
#include <string.h>

enum { LIST = 64, MOST = 2, LENT = 1000, GUARD = 64, HEADER = 22, SIGNATURE = 64, LETTERS = 103 };

/* What every lent byte holds before a call: a cut mark may be 1, but not more. */
enum { UNTOUCHED = 1 };

/* "Header DC02FR011204103D103E01: days 4157 and 4158, type 01" */
static const char header_text[] = "DC02FR011204103D103E01";
static const ddoc_header header = {"02", "FR01", "1204", 4157, 4158, "01", "", ""};

typedef struct {
    const char *name;
    const char *zone;
    size_t number; /* 0: accepted */
    size_t place;  /* in the zone */
    size_t count;
    ddoc_field fields[MOST]; /* row, cut, start in the zone, length */
} sample;

static const sample samples[] = {
    {"6XPARIS(29)6YFR is two fields", "6XPARIS\0356YFR", 0, 0, 2, {{86, false, 2, 5}, {87, false, 10, 2}}},
    {"6Q01234567896YFR is two fields", "6Q01234567896YFR", 0, 0, 2, {{79, false, 2, 10}, {87, false, 14, 2}}},
    {"6Q0123456789(29)6YFR: refused 16", "6Q0123456789\0356YFR", 16, 12, 0, {{0}}},
    {"6X(29) is one empty field", "6X\035", 0, 0, 1, {{86, false, 2, 0}}},
    {"6X(30) is one empty field cut short", "6X\036", 0, 0, 1, {{86, true, 2, 0}}},
    {"6XPARIS: refused 17", "6XPARIS", 17, 0, 0, {{0}}},
    {"6Z12345678(29): refused 19", "6Z12345678\035", 19, 0, 0, {{0}}},
    {"6W7500A: refused 18", "6W7500A", 18, 6, 0, {{0}}},
    {"6YFR6YBE: refused 20", "6YFR6YBE", 20, 4, 0, {{0}}},
    {"an empty zone is no field", "", 0, 0, 0, {{0}}},
};

static int passed, failed;

static void report(bool good, const char *name, size_t number, size_t place) {
    if (good) {
        printf("ok %s\n", name);
        passed++;
    } else {
        printf("FAILED %s: number %zu, place %zu\n", name, number, place);
        failed++;
    }
}

/* The sample as a text: header, zone, the mark 31, and a signature of zeros, which is As. */
static size_t text_of(const sample *s, uint8_t *text) {
    size_t zone = strlen(s->zone), mark = HEADER + zone;
    memcpy(text, header_text, HEADER);
    memcpy(text + HEADER, s->zone, zone);
    text[mark] = 31;
    memset(text + mark + 1, 'A', LETTERS);
    return mark + 1 + LETTERS;
}

static bool same_field(ddoc_field field, ddoc_field right) {
    return field.row == right.row && field.cut == right.cut && field.start == HEADER + right.start &&
           field.length == right.length;
}

static bool right_message(const sample *s, const ddoc_message *message, const ddoc_field *fields) {
    static const ddoc_header no_header;
    static const uint8_t no_signature[132];
    bool accepted = s->number == 0;
    for (size_t i = 0; i < s->count; i++) {
        if (!same_field(fields[i], s->fields[i])) {
            return false;
        }
    }
    return message->number == s->number && message->place == (accepted ? 0 : HEADER + s->place) &&
           message->fields == s->count && message->signature_length == (accepted ? SIGNATURE : 0) &&
           message->signed_length == (accepted ? HEADER + strlen(s->zone) : 0) &&
           memcmp(&message->header, accepted ? &header : &no_header, sizeof header) == 0 &&
           memcmp(message->signature, no_signature, sizeof no_signature) == 0;
}

static bool untouched(const void *bytes, size_t count) {
    const uint8_t *byte = bytes;
    for (size_t i = 0; i < count; i++) {
        if (byte[i] != UNTOUCHED) {
            return false;
        }
    }
    return true;
}

static void check(const sample *s) {
    static uint8_t text[LENT], out[LENT + GUARD];
    static ddoc_field fields[LIST + 1];
    size_t length = text_of(s, text);
    memset(fields, UNTOUCHED, sizeof fields);
    ddoc_message message = ddoc_read_text(text, length, fields, LIST);
    bool good = right_message(s, &message, fields) &&
                untouched(fields + s->count, sizeof fields - s->count * sizeof fields[0]);
    if (good && s->number == 0) {
        memset(out, UNTOUCHED, sizeof out);
        ddoc_answer answer = ddoc_write_text(message.header, fields, message.fields, text, length, message.signature,
                                             message.signature_length, out, LENT);
        good = answer.number == 0 && answer.place == 0 && answer.length == length && answer.used == 0 &&
               memcmp(out, text, length) == 0 && untouched(out + length, sizeof out - length);
    }
    report(good, s->name, message.number, message.place);
}

static void check_answer(const char *name, ddoc_answer answer, size_t number, size_t place, size_t length) {
    report(answer.number == number && answer.place == place && answer.length == length && answer.used == 0, name,
           answer.number, answer.place);
}

/* A list or a slice of length 0 may be none at all. */
static void check_without_lists(void) {
    static const uint8_t zeros[SIGNATURE];
    static const ddoc_field title = {14, false, 0, 0};
    uint8_t out[LENT];
    ddoc_message message = ddoc_read_text(NULL, 0, NULL, 0);
    report(message.number == 6 && message.place == 0, "no text and no list: refused 6", message.number, message.place);
    check_answer("no records are written as an empty zone",
                 ddoc_write_text(header, NULL, 0, NULL, 0, zeros, SIGNATURE, out, LENT), 0, 0, HEADER + 1 + LETTERS);
    check_answer("no signature: refused 21", ddoc_write_text(header, NULL, 0, NULL, 0, NULL, 0, out, LENT), 21, 0, 0);
    check_answer("no output: refused 6", ddoc_write_text(header, NULL, 0, NULL, 0, zeros, SIGNATURE, NULL, 0), 6, 0, 0);
    check_answer("type 01 without fields: refused 29 for 10", ddoc_conformity('0', '1', NULL, 0), 29, 13, 0);
    check_answer("type 01 with a bare title, 11: refused 29 for 10", ddoc_conformity('0', '1', &title, 1), 29, 13, 0);
    check_answer("type B0 without fields: refused 29 for B0", ddoc_conformity('B', '0', NULL, 0), 29, 89, 0);
    check_answer("type 03: refused 28", ddoc_conformity('0', '3', NULL, 0), 28, 0, 0);
}

/* The records may lie where the text goes: they are taken out of the list before a byte is written. */
static void check_list_in_output(void) {
    static const ddoc_field list[] = {{86, false, 0, 5}, {87, false, 5, 2}};
    static const char data[] = "PARISFR";
    const size_t length = HEADER + sizeof "6XPARIS\0356YFR" - 1 + 1 + LETTERS;
    uint8_t apart[LENT], zeros[SIGNATURE] = {0};
    ddoc_write_text(header, list, 2, (const uint8_t *)data, strlen(data), zeros, SIGNATURE, apart, LENT);
    for (size_t at = 0; at <= sizeof list; at += 4) {
        union {
            ddoc_field list[2];
            uint8_t bytes[sizeof list + LENT];
        } lent;
        memcpy(lent.list, list, sizeof list);
        ddoc_answer answer = ddoc_write_text(header, lent.list, 2, (const uint8_t *)data, strlen(data), zeros, SIGNATURE, lent.bytes + at, LENT);
        report(answer.number == 0 && answer.length == length && memcmp(lent.bytes + at, apart, length) == 0, "the records lie in the output",
               answer.number, answer.place);
    }
}

int main(void) {
    for (size_t i = 0; i < sizeof samples / sizeof samples[0]; i++) {
        check(&samples[i]);
    }
    check_without_lists();
    check_list_in_output();
    printf("%d passed, %d failed\n", passed, failed);
    return failed == 0 ? 0 : 1;
}
