// How the encoders are called; encoders.hpp says what for. None but libdmtx has a public call that
// gives codewords: zxing-cpp exports one without a header, the others give modules, which are turned back.
#include "encoders.hpp"
#include "../../include/ddoc.h"
#include <ZXing/ByteArray.h>
#include <chrono>
#include <cstdlib>
#include <cstring>
#include <dmtx.h>
#include <exception>
#include <fcntl.h>
#include <memory>
#include <unistd.h>
#include <zint.h>
extern "C" {
#include <iec16022/iec16022ecc200.h>
#include <iec16022/reedsol.h>
// What a change of mode costs, from and to ASCII, C40 and four other modes; its header doesn't show it.
extern unsigned char switchcost[6][6];
}

namespace ZXing {
namespace DataMatrix {
enum class SymbolShape { NONE, SQUARE, RECTANGLE };
ByteArray Encode(const std::wstring &, SymbolShape, int, int, int, int);
struct SymbolInfo {
    static const SymbolInfo *Lookup(int, SymbolShape);
};
void EncodeECC200(ByteArray &, const SymbolInfo &);
}
}  // namespace ZXing

namespace {

// A maker is made for a text, then runs, then has codewords.
template <class Maker> Codewords words(const std::string &text)
{
    Maker maker(text);
    return maker.run() ? maker.words() : Codewords{};
}

template <class Maker> Codewords list(const std::string &text)
{
    Maker maker(text);
    return maker.run() ? maker.list() : Codewords{};
}

template <class Maker> double seconds(const std::string &text)
{
    Maker maker(text);
    auto start = std::chrono::steady_clock::now();
    maker.run();
    return std::chrono::duration<double>(std::chrono::steady_clock::now() - start).count();
}

const Size *size_of_side(int side)
{
    for (const Size &s : sizes)
        if (s.side == side) return &s;
    return nullptr;
}

struct ZXingMaker {
    std::wstring text;
    ZXing::ByteArray made;
    explicit ZXingMaker(const std::string &t) : text(t.begin(), t.end()) {}
    bool run()
    {
        try {
            made = ZXing::DataMatrix::Encode(text, ZXing::DataMatrix::SymbolShape::SQUARE, -1, -1, -1, -1);
            return true;
        } catch (const std::exception &) {
            return false;
        }
    }
    Codewords words() const { return made; }
    Codewords list() const { return {}; }
};

template <int scheme> struct DmtxMaker {
    std::string text;
    DmtxEncode *encode = dmtxEncodeCreate();
    explicit DmtxMaker(const std::string &t) : text(t)
    {
        dmtxEncodeSetProp(encode, DmtxPropScheme, scheme);
        dmtxEncodeSetProp(encode, DmtxPropSizeRequest, DmtxSymbolSquareAuto);
    }
    ~DmtxMaker() { dmtxEncodeDestroy(&encode); }
    bool run() { return dmtxEncodeDataMatrix(encode, int(text.size()), reinterpret_cast<unsigned char *>(&text[0])) == DmtxPass; }
    Codewords words() const
    {
        int count = dmtxGetSymbolAttribute(DmtxSymAttribSymbolDataWords, encode->region.sizeIdx);
        return Codewords(encode->message->code, encode->message->code + count);
    }
    Codewords list() const { return Codewords(encode->message->code, encode->message->code + encode->message->codeSize); }
};

template <int mode> struct ZintMaker {
    std::string text;
    zint_symbol *symbol = ZBarcode_Create();
    explicit ZintMaker(const std::string &t) : text(t)
    {
        symbol->symbology = BARCODE_DATAMATRIX;
        symbol->input_mode = mode;
        symbol->option_3 = DM_SQUARE;
    }
    ~ZintMaker() { ZBarcode_Delete(symbol); }
    bool run() { return ZBarcode_Encode(symbol, reinterpret_cast<unsigned char *>(&text[0]), int(text.size())) < ZINT_ERROR; }
    Matrix matrix() const
    {
        Matrix m{size_of_side(symbol->width), {}};
        for (int y = 0; y < symbol->rows; y++)
            for (int x = 0; x < symbol->width; x++) m.dark.push_back(symbol->encoded_data[y][x / 8] >> (x % 8) & 1);
        return m;
    }
    Codewords words() const { return data_of(matrix()); }
    Codewords list() const { return list_of(matrix()); }
};

// iec16022 writes on the standard error stream when a text doesn't fit.
class Silence {
    int kept = dup(2);

public:
    Silence()
    {
        int nowhere = open("/dev/null", O_WRONLY);
        dup2(nowhere, 2);
        close(nowhere);
    }
    ~Silence()
    {
        dup2(kept, 2);
        close(kept);
    }
};

// The smallest square that works, as its own choice may be a rectangle; all modes, or two by a price on the others.
template <bool all> struct IecMaker {
    std::string text;
    const Size *size = nullptr;
    std::unique_ptr<unsigned char, void (*)(void *)> grid{nullptr, free};
    unsigned char price[6][6];
    explicit IecMaker(const std::string &t) : text(t)
    {
        memcpy(price, switchcost, sizeof price);
        for (auto &from : switchcost)
            for (int to = 2; to < 6 && !all; to++) from[to] = 200;
    }
    ~IecMaker() { memcpy(switchcost, price, sizeof price); }
    bool run()
    {
        Silence silence;
        for (const Size &s : sizes) {
            if (text.size() > size_t(3 * s.data)) continue;  // surely too small
            int width = s.side, height = s.side;
            char *encoding = nullptr;
            grid.reset(iec16022ecc200(&width, &height, &encoding, int(text.size()), reinterpret_cast<unsigned char *>(&text[0]), nullptr, nullptr, nullptr));
            free(encoding);
            size = &s;
            if (grid) return true;
        }
        return false;
    }
    Matrix matrix() const
    {
        Matrix m{size, {}};
        for (int y = size->side - 1; y >= 0; y--)  // its rows go upwards
            m.dark.insert(m.dark.end(), grid.get() + y * size->side, grid.get() + (y + 1) * size->side);
        return m;
    }
    Codewords words() const { return data_of(matrix()); }
    Codewords list() const { return list_of(matrix()); }
};

// ---- check words alone

struct LibraryChecks {
    const Codewords &data;
    uint8_t made[DDOC_LIST];
    size_t length = 0;
    explicit LibraryChecks(const Codewords &d) : data(d) {}
    void run() { length = ddoc_check_words(data.data(), data.size(), made, sizeof made).length; }
    Codewords list() const { return Codewords(made, made + length); }
};

struct ZXingChecks {
    ZXing::ByteArray made;
    const ZXing::DataMatrix::SymbolInfo *info;
    explicit ZXingChecks(const Codewords &d) : info(ZXing::DataMatrix::SymbolInfo::Lookup(int(d.size()), ZXing::DataMatrix::SymbolShape::SQUARE))
    {
        made.assign(d.begin(), d.end());
        made.reserve(d.size() + size_of(d.size()).check);
    }
    void run() { ZXing::DataMatrix::EncodeECC200(made, *info); }
    Codewords list() const { return made; }
};

// Its words come out last first. What it keeps between calls is made anew, as for each of its symbols.
struct IecChecks {
    Codewords data, checks;
    explicit IecChecks(const Codewords &d) : data(d), checks(size_of(d.size()).check) {}
    void run()
    {
        rs_init_gf(301);
        rs_init_code(int(checks.size()), 1);
        rs_encode(int(data.size()), data.data(), checks.data());
    }
    Codewords list() const
    {
        Codewords all = data;
        all.insert(all.end(), checks.rbegin(), checks.rend());
        return all;
    }
};

template <class Maker> Codewords checks_list(const Codewords &data)
{
    Maker maker(data);
    maker.run();
    return maker.list();
}

template <class Maker> double checks_seconds(const Codewords &data)
{
    Maker maker(data);
    auto start = std::chrono::steady_clock::now();
    maker.run();
    return std::chrono::duration<double>(std::chrono::steady_clock::now() - start).count();
}

template <class Maker> constexpr CheckMaker check_maker(const char *name)
{
    return {name, checks_list<Maker>, checks_seconds<Maker>};
}

template <class Maker> constexpr Encoder encoder(const char *name, const char *level)
{
    return {name, level, words<Maker>, list<Maker>, seconds<Maker>};
}

}  // namespace

const Encoder zxing_encoder = encoder<ZXingMaker>("zxing-cpp", "codewords");
const Encoder dmtx_best = encoder<DmtxMaker<DmtxSchemeAutoBest>>("libdmtx, best", "symbol, picture");
const Encoder dmtx_c40 = encoder<DmtxMaker<DmtxSchemeC40>>("libdmtx, C40", "symbol, picture");
const Encoder dmtx_ascii = encoder<DmtxMaker<DmtxSchemeAscii>>("libdmtx, ASCII", "symbol, picture");
const Encoder zint_minimal = encoder<ZintMaker<DATA_MODE>>("zint, minimal", "symbol");
const Encoder zint_fast = encoder<ZintMaker<DATA_MODE | FAST_MODE>>("zint, fast", "symbol");
const Encoder iec_all = encoder<IecMaker<true>>("iec16022", "symbol");
const Encoder iec_two = encoder<IecMaker<false>>("iec16022, ASCII and C40", "symbol");
const CheckMaker library_checks = check_maker<LibraryChecks>("ddoc_check_words");
const CheckMaker zxing_checks = check_maker<ZXingChecks>("zxing-cpp");
const CheckMaker iec_checks = check_maker<IecChecks>("iec16022");
