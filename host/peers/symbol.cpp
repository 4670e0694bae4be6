// Drawing of whole symbols; symbol.hpp says what for.
#include "symbol.hpp"
#include "../../include/ddoc.h"
#include <array>
#include <map>
#include <stdexcept>

const Size sizes[24] = {
    {10, 1, 3, 5, 1},       {12, 1, 5, 7, 1},       {14, 1, 8, 10, 1},      {16, 1, 12, 12, 1},
    {18, 1, 18, 14, 1},     {20, 1, 22, 18, 1},     {22, 1, 30, 20, 1},     {24, 1, 36, 24, 1},
    {26, 1, 44, 28, 1},     {32, 2, 62, 36, 1},     {36, 2, 86, 42, 1},     {40, 2, 114, 48, 1},
    {44, 2, 144, 56, 1},    {48, 2, 174, 68, 1},    {52, 2, 204, 84, 2},    {64, 4, 280, 112, 2},
    {72, 4, 368, 144, 4},   {80, 4, 456, 192, 4},   {88, 4, 576, 224, 4},   {96, 4, 696, 272, 4},
    {104, 4, 816, 336, 6},  {120, 6, 1050, 408, 6}, {132, 6, 1304, 496, 8}, {144, 6, 1558, 620, 10},
};

const Size &size_of(size_t data_codewords)
{
    for (const Size &s : sizes)
        if (size_t(s.data) == data_codewords) return s;
    throw std::invalid_argument("no square size has this many data codewords");
}

namespace {

// GF(256) with polynomial 301: powers of 2, twice over so that sums of logarithms need no modulus.
struct Field {
    std::array<uint8_t, 510> power;
    std::array<int, 256> log{};
    Field()
    {
        for (int i = 0, x = 1; i < 255; i++, x = x < 128 ? 2 * x : (2 * x) ^ 301) {
            power[i] = power[i + 255] = uint8_t(x);
            log[x] = i;
        }
    }
    uint8_t times(uint8_t a, uint8_t b) const { return a && b ? power[log[a] + log[b]] : 0; }
};
const Field field;

// (x - 2^1) .. (x - 2^n), highest power first, without the leading 1.
const Codewords &generator(int n)
{
    static std::map<int, Codewords> made;
    Codewords &g = made[n];
    for (int i = 1; int(g.size()) < n; i++) {
        g.push_back(0);
        for (int k = int(g.size()) - 1; k >= 0; k--)
            g[k] ^= field.times(k ? g[k - 1] : 1, field.power[i]);
    }
    return g;
}

// The remainder of block * x^n by the generator.
Codewords remainder(const Codewords &block, int n)
{
    const Codewords &g = generator(n);
    Codewords rest(n + 1);
    for (uint8_t word : block) {
        uint8_t lead = word ^ rest[0];
        for (int k = 0; k < n; k++) rest[k] = rest[k + 1] ^ field.times(lead, g[k]);
    }
    rest.pop_back();
    return rest;
}

// Annex F: which bit of which codeword stands where in the n x n mapping matrix.
struct Placement {
    static constexpr int none = -1;
    int n;
    std::vector<int> bit;  // 8 * codeword + bit from the left, or none

    explicit Placement(int side) : n(side), bit(side * side, none) { walk(); }

    void set(int row, int column, int value)
    {
        if (row < 0) row += n, column += 4 - (n + 4) % 8;
        if (column < 0) column += n, row += 4 - (n + 4) % 8;
        bit[row * n + column] = value;
    }
    void shape(const int (&cells)[8][2], int word)
    {
        for (int k = 0; k < 8; k++) set(cells[k][0], cells[k][1], 8 * word + k);
    }
    void utah(int r, int c, int word)
    {
        shape({{r - 2, c - 2}, {r - 2, c - 1}, {r - 1, c - 2}, {r - 1, c - 1}, {r - 1, c}, {r, c - 2}, {r, c - 1}, {r, c}}, word);
    }
    // The third and fourth corners occur in rectangular symbols alone.
    bool corner(int r, int c, int word)
    {
        const int e = n - 1;
        if (r == n && c == 0)
            shape({{e, 0}, {e, 1}, {e, 2}, {0, e - 1}, {0, e}, {1, e}, {2, e}, {3, e}}, word);
        else if (r == n - 2 && c == 0 && n % 4)
            shape({{e - 2, 0}, {e - 1, 0}, {e, 0}, {0, e - 3}, {0, e - 2}, {0, e - 1}, {0, e}, {1, e}}, word);
        else if (r == n - 2 && c == 0 && n % 8 == 4)
            shape({{e - 2, 0}, {e - 1, 0}, {e, 0}, {0, e - 1}, {0, e}, {1, e}, {2, e}, {3, e}}, word);
        else if (r == n + 4 && c == 2 && n % 8 == 0)
            shape({{e, 0}, {e, e}, {0, e - 2}, {0, e - 1}, {0, e}, {1, e - 2}, {1, e - 1}, {1, e}}, word);
        else
            return false;
        return true;
    }
    bool free(int r, int c) const { return r >= 0 && r < n && c >= 0 && c < n && bit[r * n + c] == none; }

    // Diagonals up to the right and down to the left in turn.
    void walk()
    {
        int r = 4, c = 0, word = 0;
        while (r < n || c < n) {
            if (corner(r, c, word)) word++;
            for (; r >= 0 && c < n; r -= 2, c += 2)
                if (free(r, c)) utah(r, c, word++);
            r += 1, c += 3;
            for (; r < n && c >= 0; r += 2, c -= 2)
                if (free(r, c)) utah(r, c, word++);
            r += 3, c += 1;
        }
    }
};

const Placement &placement(int n)
{
    static std::map<int, Placement> made;
    return made.try_emplace(n, n).first->second;
}

// A module of the mapping matrix; the corner that no codeword reaches is dark on its diagonal.
bool mapped(const Codewords &all, const Placement &p, int row, int column)
{
    int b = p.bit[row * p.n + column];
    if (b == Placement::none) return row == column;
    return all[b / 8] >> (7 - b % 8) & 1;
}

}  // namespace

Codewords printed(const Codewords &data)
{
    Codewords list(DDOC_LIST);
    const ddoc_answer a = ddoc_check_words(data.data(), data.size(), list.data(), list.size());
    if (a.number) throw std::runtime_error("the library refuses to print check words");
    list.resize(a.length);
    return list;
}

Codewords with_check_words(const Codewords &data, Checks checks)
{
    const Size &s = size_of(data.size());
    if (s.blocks == 1) return printed(data);
    Codewords all = data;
    all.resize(s.data + s.check);
    int shift = checks == Checks::go_on ? s.data % s.blocks : 0;
    for (int b = 0; b < s.blocks; b++) {
        Codewords block;
        for (int k = b; k < s.data; k += s.blocks) block.push_back(data[k]);
        int at = s.data + (b - shift + s.blocks) % s.blocks;
        for (uint8_t word : remainder(block, s.check / s.blocks)) {
            all[at] = word;
            at += s.blocks;
        }
    }
    return all;
}

Matrix draw(const Codewords &data, Checks checks)
{
    const Size &s = size_of(data.size());
    const Codewords all = with_check_words(data, checks);
    const int region = s.side / s.regions, inner = region - 2;
    const Placement &p = placement(s.side - 2 * s.regions);
    Matrix m{&s, std::vector<uint8_t>(s.side * s.side)};
    for (int y = 0; y < s.side; y++)
        for (int x = 0; x < s.side; x++) {
            int ry = y % region, rx = x % region;
            bool dark;
            if (rx == 0 || ry == region - 1) dark = true;  // the solid L
            else if (ry == 0) dark = rx % 2 == 0;          // the broken lines opposite
            else if (rx == region - 1) dark = ry % 2 == 1;
            else dark = mapped(all, p, y / region * inner + ry - 1, x / region * inner + rx - 1);
            m.dark[y * s.side + x] = dark;
        }
    return m;
}

Codewords list_of(const Matrix &m)
{
    const int region = m.size->side / m.size->regions, inner = region - 2;
    const Placement &p = placement(m.size->side - 2 * m.size->regions);
    Codewords all(m.size->data + m.size->check);
    for (int r = 0; r < p.n; r++)
        for (int c = 0; c < p.n; c++) {
            const int b = p.bit[r * p.n + c];
            if (b != Placement::none && m.at(r / inner * region + r % inner + 1, c / inner * region + c % inner + 1)) all[b / 8] |= uint8_t(128 >> b % 8);
        }
    return all;
}

Codewords data_of(const Matrix &m)
{
    Codewords all = list_of(m);
    all.resize(m.size->data);
    return all;
}

void pad(Codewords &words, size_t capacity)
{
    if (words.size() < capacity) words.push_back(129);
    while (words.size() < capacity) {
        int p = int(words.size()) + 1, v = 129 + 149 * p % 253 + 1;
        words.push_back(uint8_t(v > 254 ? v - 254 : v));
    }
}
