/* The C interface of the library: the data codewords of a symbol are read into text and back and get their check words, a text is read into
 * the fields of a message and back, the fields of a message are held against the table of its type, and scans are kept in day files.
 * Nothing is kept between two calls and nothing is shared, so calls may run in several threads at once,
 * as long as each has its own output and work slice. All memory is the caller's but the stack, of which a call takes up to
 * 60 KB (ddoc_read_symbol, of codewords that change the mode at every place). The library needs memcpy and memset only. */
#ifndef DDOC_H
#define DDOC_H

#include <stdbool.h>
#include <stddef.h>
#include <stdint.h>

#ifdef __cplusplus
extern "C" {
#endif

/* What comes back. number 0: accepted. Any other number is a refusal: README.md, "Refusals". */
typedef struct {
    size_t number; /* 0, or the refusal's number */
    size_t place;  /* refused: an index from 0 into the input, the record's index, or the row for 29; else 0 */
    size_t length; /* accepted: characters of text, codewords of a symbol written, words of a list with check words, bytes of a day file; 0 for conformity; refused: 0 */
    size_t used;   /* symbol accepted: codewords before the first pad, all of them if there is no pad; record added: its number; squeezed: live records; else 0 */
} ddoc_answer;

/* A field: a row of the dictionary, and where its data stand in a slice. 12 bytes. */
typedef struct {
    uint16_t row;    /* 0 to 109, by rising identifier: docs/ROWS.md */
    bool cut;        /* the data are cut short. Only 0 or 1 may stand in this byte */
    uint32_t start;  /* index of the data's first character */
    uint32_t length; /* characters of data */
} ddoc_field;

/* The header's parts, characters as they stand in the text. Version 02 has no perimeter, 02 and 03 have no country:
 * these are zero after reading, and not looked at in writing. 20 bytes. */
typedef struct {
    uint8_t version[2]; /* 02, 03 or 04 */
    uint8_t authority[4];
    uint8_t certificate[4];
    uint16_t issue_day; /* days since 1 January 2000 */
    uint16_t signing_day;
    uint8_t type[2];
    uint8_t perimeter[2]; /* 01 */
    uint8_t country[2];
} ddoc_header;

/* What comes back from reading a text. Refused: all but number and place is zero. */
typedef struct {
    size_t number;
    size_t place;            /* refused: an index from 0 into the text; accepted: 0 */
    size_t fields;           /* records in the lent list, at most 64 */
    size_t signature_length; /* 64, 96 or 132 */
    size_t signed_length;    /* the signed part: so many characters from the text's beginning, up to the mark 31 and without it */
    ddoc_header header;
    uint8_t signature[132]; /* zero behind its length */
} ddoc_message;

/* A part of a slice that was lent. */
typedef struct {
    size_t number; /* 0, or the refusal's number */
    size_t place;  /* refused: 0 for a day file; else 0 */
    size_t which;  /* 0 where one slice is lent */
    size_t start;  /* accepted: index of the part's first byte; refused: 0 */
    size_t length; /* accepted: its length; refused: 0 */
} ddoc_part;

/* Reads `count` codewords into the lent `text`, which has `room` bytes. Less than 1,000 is refused with 6.
 * Behind a text that was read without refusal every pad must be what the padding rule gives; 39 has the place of the first wrong one.
 * Accepted: the first `length` bytes are the text, with no zero byte behind it; the others are untouched.
 * Refused: every byte is untouched. The codewords and the text must not overlap. */
ddoc_answer ddoc_read_symbol(const uint8_t *codewords, size_t count, uint8_t *text, size_t room);

/* The entries that the work slice of ddoc_write_symbol needs, and the codewords of the largest symbol. */
enum { DDOC_WORK = 8192, DDOC_LARGEST = 1558 };

/* Writes `length` characters into the smallest symbol that holds them, of at most `largest` data codewords, which has to be
 * the capacity of a square size. The symbol is padded: its `length` codewords, `used` of them before the padding, stand in
 * the first bytes of the lent `symbol`, which has `room` bytes; 1,558 always suffice, and so do 1,050, since a text has at most 1,000 characters.
 * Refused, in this order: 5 more than 1,000 characters; 7 a character above 127, at its place; 8 `largest` is no capacity;
 * 6 `work_room` is less than 8,192; 9 no permitted size fits; 6 `room` is less than the symbol chosen.
 * Accepted: the bytes behind the symbol are untouched. Refused: every byte is untouched.
 * The lent `work` slice may hold anything. Its first 8,192 entries are zero afterwards and the others untouched; when it is
 * too short, or the refusal is 5, 7 or 8, all of it is untouched. Text, work slice and symbol must not overlap. */
ddoc_answer ddoc_write_symbol(const uint8_t *text, size_t length, size_t largest, uint16_t *work, size_t work_room, uint8_t *symbol,
                              size_t room);

/* The words of the longest list of ddoc_check_words, and the most data codewords that it takes. */
enum { DDOC_LIST = 242, DDOC_SINGLE_BLOCK = 174 };

/* Puts the whole codeword list of a symbol with a single block into the lent `list`, which has `room` bytes: the `count` data
 * codewords and behind them their ECC 200 check words (ISO/IEC 16022), 5 to 68 of them for the 14 squares of 3 to 174 data codewords.
 * Refused, in this order: 1 `count` is no capacity of a square size; 32 it is above 174; 6 `room` is less than data and check words
 * together. Accepted: the answer's `length` is that of the list; the bytes behind it are untouched. Refused: every byte is untouched.
 * The data and the list must not overlap. */
ddoc_answer ddoc_check_words(const uint8_t *data, size_t count, uint8_t *list, size_t room);

/* Reads a text of `length` characters into the lent list `fields`, which has `room` records. Less than 64 is refused
 * with 6. Accepted: the first records of the list, as many as the answer's `fields`, are the fields in the order of
 * the text, with starts that count from the text's beginning; the others are untouched. Refused: all are untouched.
 * The text and the list must not overlap. */
ddoc_message ddoc_read_text(const uint8_t *text, size_t length, ddoc_field *fields, size_t room);

/* Writes the message of a header, `count` records, the data that they point into, and a signature into the lent `out`,
 * which has `room` bytes. Records may overlap, and the list may overlap the output: it is copied before a byte is written. The data and
 * the signature must not overlap the output.
 * Accepted: the first `length` bytes are the text, the others are untouched. Refused: every byte is untouched. */
ddoc_answer ddoc_write_text(ddoc_header header, const ddoc_field *fields, size_t count, const uint8_t *data,
                            size_t data_length, const uint8_t *signature, size_t signature_length, uint8_t *out,
                            size_t room);

/* Do `count` fields, however many, conform to the table of the type whose two characters are given? Only their rows
 * are looked at. Refused: 28 for a type that is not covered; 29 for an identifier that is missing, place: the least
 * such row; 30 for one that is not permitted, place: the first such field. The first of these counts.
 * Accepted: every number is 0. */
ddoc_answer ddoc_conformity(uint8_t type0, uint8_t type1, const ddoc_field *fields, size_t count);

/* Day files. A file stands in the first `length` bytes of the lent slice `file`, which has `room` bytes: 32,768 or more, else
 * 6. It has at most 32,768 bytes: records side by side, each a state byte (1 live, 0 withdrawn), the text's length in two
 * bytes and the text; then a trailer: the start of each record, their count, and the trailer's own start, in four bytes each.
 * Every number has its high byte first. An empty file is 8 zero bytes. Each call checks the whole file first: 35 when the
 * length is above 32,768 or the bytes are no such file. Records are numbered from 0. All places are 0; refused, every byte of the
 * slice is untouched, and nothing behind the file is changed ever. */
enum { DDOC_FILE = 32768 };

/* Adds a live record of `text_length` bytes, whatever they are; text and file must not overlap. The answer's `length` is the file's now,
 * `used` the record's number. Refused, in this order: 6, 35, 5 for a text of more than 1,000 bytes, 36 when the file's length plus 7
 * plus the text's is above 32,768. */
ddoc_answer ddoc_day_add(uint8_t *file, size_t room, size_t length, const uint8_t *text, size_t text_length);

/* Withdraws the record of that number; the answer's `length` is the file's, as it was. Refused, in this order: 6, 35, 37 when the
 * number is no record's or the record is withdrawn. */
ddoc_answer ddoc_day_withdraw(uint8_t *file, size_t room, size_t length, size_t number);

/* Where in the slice the text of the record of that number stands. Refused, in this order: 6, 35, 37, 5 when the text has more than
 * 1,000 bytes. */
ddoc_part ddoc_day_fetch(const uint8_t *file, size_t room, size_t length, size_t number);

/* Takes back the room of withdrawn records: the live ones stand side by side in their old order, bytes unchanged, with a new trailer,
 * and the bytes from the new end to the old one are zero. The answer's `length` is the file's now, `used` the count of live records.
 * Their numbers have changed: the two lists, of `old_room` and `new_room` entries, get an entry for each live record in the order of
 * the file, its old number and its new one; the other entries are untouched. Refused, in this order: 6 for the slice, 35, 6 for a
 * list with fewer entries than live records; the lists are untouched too. File and lists must not overlap; the lists may stand at
 * any address. */
ddoc_answer ddoc_day_squeeze(uint8_t *file, size_t room, size_t length, uint32_t *old_numbers, size_t old_room,
                             uint32_t *new_numbers, size_t new_room);

/* The texts of day files, counted: by the types that conformity covers, all other types, and refusals by number. 1,048 bytes. */
typedef struct {
    uint32_t types[5]; /* 00, 01, 02, B0, B1 */
    uint32_t other;
    uint32_t refused[256];
} ddoc_tally;

/* Reads each live text of the day file, which is all of the slice, and counts it in the lent tally: accepted under its type, whether it conforms or
 * not, else under its refusal's number (5 for a text of more than 1,000 bytes). The answer's `length` and `used` are 0. Refused: 35 as for every
 * day file, but no slice is too short; 38 when a count would pass 4,294,967,295; the tally is as it was. */
ddoc_answer ddoc_tally_add(ddoc_tally *tally, const uint8_t *file, size_t length);

#ifdef __cplusplus
}
#endif

#endif
