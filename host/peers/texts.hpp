// Texts to write: like those of 2D-DOC, and mixed ones. Everything follows from the generator's seed.
#pragma once
#include <random>
#include <string>

using Random = std::mt19937_64;

// Header, fields of capitals, digits and few separators, the mark 31, a signature in Base32: 180 to
// 390 characters, mainly for C40 mode.
std::string document(Random &random);

// Runs of digits, capitals, small letters, signs and separators, up to `most` characters and a few more.
std::string mixed(Random &random, size_t most);
