// The two independent decoders, libdmtx and zxing-cpp: a whole symbol to text, from its modules or
// from a picture of it, and the seconds that the way from modules to text takes.
#pragma once
#include "symbol.hpp"
#include <optional>
#include <string>

using Read = std::optional<std::string>;  // nothing: not read

struct Decoder {
    const char *name;
    Checks checks;  // the 144x144 symbols that it reads
    Read (*modules)(const Matrix &);
    Read (*picture)(const Matrix &);
    double (*seconds)(const Matrix &);  // one reading from modules; what prepares its input isn't counted
};
extern const Decoder libdmtx, zxing;
