// The independent encoders, libdmtx, zxing-cpp, zint and iec16022: a text to the data codewords of a
// square symbol, and the seconds that the library's own call takes.
#pragma once
#include "symbol.hpp"
#include <string>

struct Encoder {
    const char *name;
    const char *level;                        // what the call makes
    Codewords (*words)(const std::string &);  // none: no symbol made
    Codewords (*list)(const std::string &);   // the same with the check words; none where the call makes none
    double (*seconds)(const std::string &);   // one call; what prepares it isn't counted
};
extern const Encoder zxing_encoder, dmtx_best, dmtx_c40, dmtx_ascii, zint_minimal, zint_fast, iec_all, iec_two;

// A call that makes the check words alone, of data codewords of a size with a single block. libdmtx and zint have none that can be called.
struct CheckMaker {
    const char *name;
    Codewords (*list)(const Codewords &data);
    double (*seconds)(const Codewords &data);
};
extern const CheckMaker library_checks, zxing_checks, iec_checks;
