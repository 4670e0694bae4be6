/* Reads a text on standard input and prints its header, its fields as lines `identifier data`, the length of its
 * signature and whether it conforms: `read_text <FILE`. One line end behind the text is not part of it. A refusal
 * shows the character or the identifier at its place; control characters are printed as document 01 does, as (29).
 * Exit status: 0 accepted, 1 refused, 2 for input that is no text. A message that does not conform is accepted. */
#include "ddoc.h"

#include <stdio.h>
#include <stdlib.h>

/* Room for more than the 1,000 characters of a text, so that refusal 5 is the library's; more yet is no text at all. */
enum { MOST = 65536, LIST = 64, ROWS = 110 };

/* The rows' identifiers, by number. */
static const char identifiers[ROWS][3] = {
    "01", "02", "03", "04", "05", "06", "07", "08", "09", "0A", "0B", "0C", "0D",
    "10", "11", "12", "13", "14", "15", "16", "17", "18", "19", "1A", "1B", "1C", "1D", "1E", "1F", "1G", "1H",
    "1I", "1J", "1K", "1L", "1M", "1N", "1O", "1P",
    "20", "21", "22", "23", "24", "25", "26", "27", "28", "29", "2A", "2B", "2C", "2D",
    "60", "61", "62", "63", "64", "65", "66", "67", "68", "69", "6A", "6B", "6C", "6D", "6E", "6F", "6G", "6H",
    "6I", "6J", "6K", "6L", "6M", "6N", "6O", "6P", "6Q", "6R", "6S", "6T", "6U", "6V", "6W", "6X", "6Y", "6Z",
    "B0", "B1", "B2", "B3", "B4", "B5", "B6", "B7", "B8", "B9", "BA", "BB", "BC", "BD", "BE", "BF", "BG", "BH",
    "BI", "BJ", "BK",
};

static void bad_input(const char *what) {
    fprintf(stderr, "read_text: %s\n", what);
    exit(2);
}

static size_t take_all(uint8_t *text) {
    size_t length = fread(text, 1, MOST + 1, stdin);
    if (ferror(stdin)) {
        bad_input("standard input cannot be read");
    }
    if (length > MOST) {
        bad_input("more than 65,536 bytes on standard input: a text has at most 1,000 characters");
    }
    if (length > 0 && text[length - 1] == '\n') {
        length--;
        if (length > 0 && text[length - 1] == '\r') {
            length--;
        }
    }
    if (length == 0) {
        bad_input("no text on standard input; usage: read_text <FILE");
    }
    return length;
}

/* The words of document 01, "Numbers that come back". */
static const char *words(size_t number) {
    switch (number) {
    case 5: return "more than 1,000 characters";
    case 6: return "a lent slice too short";
    case 10: return "header too short";
    case 11: return "not DC";
    case 12: return "version not 02, 03, 04";
    case 13: return "wrong header character";
    case 14: return "perimeter not 01";
    case 15: return "no 31 after the header";
    case 16: return "identifier unknown";
    case 17: return "zone ends inside a field";
    case 18: return "character outside the type";
    case 19: return "data too short";
    case 20: return "identifier repeated";
    case 21: return "signature length";
    case 22: return "signature character";
    case 23: return "signature spare bits";
    case 24: return "version 04 with a 29 after the 31";
    case 27: return "a 65th field";
    case 28: return "type not covered";
    case 29: return "O identifier missing";
    case 30: return "identifier not permitted";
    default: return "no refusal of text reading";
    }
}

/* How many characters a refusal's place speaks of: one, an identifier, or none. */
static size_t shown(size_t number) {
    switch (number) {
    case 13: case 18: case 22: return 1;
    case 16: case 17: case 19: case 20: case 27: return 2;
    default: return 0;
    }
}

static void print_characters(const uint8_t *characters, size_t count) {
    for (size_t i = 0; i < count; i++) {
        const char *before = i == 0 ? ": " : "";
        if (characters[i] < 32 || characters[i] > 126) {
            printf("%s(%d)", before, characters[i]);
        } else {
            printf("%s%c", before, characters[i]);
        }
    }
}

static void print_part(const char *name, const uint8_t *part, size_t length) {
    printf("%s %.*s\n", name, (int)length, (const char *)part);
}

static void print_header(const ddoc_header *header) {
    print_part("version", header->version, 2);
    print_part("authority", header->authority, 4);
    print_part("certificate", header->certificate, 4);
    printf("issue day %u\n", header->issue_day);
    printf("signing day %u\n", header->signing_day);
    print_part("type", header->type, 2);
    if (header->perimeter[0] != 0) {
        print_part("perimeter", header->perimeter, 2);
    }
    if (header->country[0] != 0) {
        print_part("country", header->country, 2);
    }
}

static void print_field(const ddoc_field *field, const uint8_t *text) {
    printf("%s %.*s%s\n", identifiers[field->row], (int)field->length, (const char *)text + field->start,
           field->cut ? " (cut)" : "");
}

static void print_conformity(const ddoc_header *header, const ddoc_field *fields, size_t count) {
    ddoc_answer answer = ddoc_conformity(header->type[0], header->type[1], fields, count);
    if (answer.number == 0) {
        printf("conformity: conforms\n");
        return;
    }
    printf("conformity: refused %zu at %zu: %s", answer.number, answer.place, words(answer.number));
    if (answer.number == 29) {
        printf(": %s", identifiers[answer.place]);
    } else if (answer.number == 30) {
        printf(": %s", identifiers[fields[answer.place].row]);
    }
    printf("\n");
}

int main(void) {
    static uint8_t text[MOST + 1];
    ddoc_field fields[LIST];
    size_t length = take_all(text);
    ddoc_message message = ddoc_read_text(text, length, fields, LIST);
    if (message.number != 0) {
        printf("refused %zu at %zu: %s", message.number, message.place, words(message.number));
        print_characters(text + message.place, shown(message.number));
        printf("\n");
        return 1;
    }
    print_header(&message.header);
    for (size_t i = 0; i < message.fields; i++) {
        print_field(&fields[i], text);
    }
    printf("signed part of %zu characters\n", message.signed_length);
    printf("signature of %zu bytes\n", message.signature_length);
    print_conformity(&message.header, fields, message.fields);
    return 0;
}
