// Data codewords of a square ECC 200 symbol to its modules, after ISO/IEC 16022:
// Reed-Solomon check words, module placement, finder patterns. The check words of the sizes with a single block are the library's own;
// else it shares nothing with the library or with the decoders that it draws symbols for.
#pragma once
#include <cstdint>
#include <stddef.h>
#include <vector>

using Codewords = std::vector<uint8_t>;

// A row of the standard's table of square symbols.
struct Size {
    int side;     // modules of a side, finder patterns included
    int regions;  // data regions along a side
    int data;     // data codewords
    int check;    // check words, of all blocks
    int blocks;   // interleaved Reed-Solomon blocks
};
extern const Size sizes[24];

// Where the check words start in 144x144, whose 1558 data codewords are no multiple of its 10
// blocks: on with block 8, or again with block 0. Decoders differ; the other sizes are the same.
enum class Checks { go_on, start_again };

struct Matrix {
    const Size *size;
    std::vector<uint8_t> dark;  // row by row, 1 for a dark module
    bool at(int row, int column) const { return dark[row * size->side + column]; }
};

const Size &size_of(size_t data_codewords);
// The data codewords and behind them the check words that the library prints, for a size with a single block.
Codewords printed(const Codewords &data);
Codewords with_check_words(const Codewords &data, Checks checks);
Matrix draw(const Codewords &data, Checks checks);

// The codewords of a whole symbol as its modules have them, all of them or the data; nothing is corrected.
Codewords list_of(const Matrix &m);
Codewords data_of(const Matrix &m);

// Fills up to the capacity: 129, then the pads of the 253-state rule.
void pad(Codewords &words, size_t capacity);
