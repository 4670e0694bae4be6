// How libdmtx and zxing-cpp are called; decoders.hpp says what for.
#define ZX_USE_UTF8
#include "decoders.hpp"
#include <ZXing/BitMatrix.h>
#include <ZXing/ReadBarcode.h>
#include <chrono>
#include <dmtx.h>
#include <exception>

// zxing-cpp exports its decoder from modules but installs no header for it. The object that it
// returns is smaller than the room given here, and is only handed on.
namespace ZXing {
class DecoderResult {
    alignas(16) char room[4096];

public:
    DecoderResult(DecoderResult &&);
    ~DecoderResult();
};
namespace DataMatrix {
DecoderResult Decode(const BitMatrix &);
}
}  // namespace ZXing

namespace {

using Clock = std::chrono::steady_clock;

double since(Clock::time_point start)
{
    return std::chrono::duration<double>(Clock::now() - start).count();
}

struct Picture {
    int side;
    std::vector<uint8_t> grey;
};

// Four pixels a module, quiet zone of four modules.
Picture photograph(const Matrix &m)
{
    const int scale = 4, quiet = 4, side = (m.size->side + 2 * quiet) * scale;
    Picture p{side, std::vector<uint8_t>(side * side, 255)};
    for (int y = 0; y < m.size->side * scale; y++)
        for (int x = 0; x < m.size->side * scale; x++)
            if (m.at(y / scale, x / scale)) p.grey[(y + quiet * scale) * side + x + quiet * scale] = 0;
    return p;
}

// ---- libdmtx

Read text_of(DmtxMessage *message)
{
    if (!message) return {};
    std::string text(reinterpret_cast<char *>(message->output), message->outputIdx);
    dmtxMessageDestroy(&message);
    return text;
}

// libdmtx's message holds the mapping matrix alone, without the finder patterns.
DmtxMessage *dmtx_message(const Matrix &m)
{
    const int index = int(m.size - sizes), region = m.size->side / m.size->regions, inner = region - 2;
    const int n = m.size->side - 2 * m.size->regions;
    DmtxMessage *message = dmtxMessageCreate(index, DmtxFormatMatrix);
    for (int r = 0; r < n; r++)
        for (int c = 0; c < n; c++) {
            bool dark = m.at(r / inner * region + r % inner + 1, c / inner * region + c % inner + 1);
            message->array[r * n + c] = uint8_t(DmtxModuleAssigned | (dark ? DmtxModuleOnRGB : DmtxModuleOff));
        }
    return message;
}

// Frees the message where it can't be read.
DmtxMessage *dmtx_decode(const Matrix &m, DmtxMessage *message)
{
    return dmtxDecodePopulatedArray(int(m.size - sizes), message, DmtxUndefined);
}

Read dmtx_modules(const Matrix &m)
{
    return text_of(dmtx_decode(m, dmtx_message(m)));
}

double dmtx_seconds(const Matrix &m)
{
    DmtxMessage *message = dmtx_message(m);
    auto start = Clock::now();
    message = dmtx_decode(m, message);
    double took = since(start);
    if (message) dmtxMessageDestroy(&message);
    return took;
}

Read dmtx_picture(const Matrix &m)
{
    Picture p = photograph(m);
    DmtxImage *image = dmtxImageCreate(p.grey.data(), p.side, p.side, DmtxPack8bppK);
    DmtxDecode *decode = dmtxDecodeCreate(image, 1);
    DmtxTime limit = dmtxTimeAdd(dmtxTimeNow(), 20000);
    DmtxMessage *message = nullptr;
    while (!message) {
        DmtxRegion *region = dmtxRegionFindNext(decode, &limit);
        if (!region) break;
        message = dmtxDecodeMatrixRegion(decode, region, DmtxUndefined);
        dmtxRegionDestroy(&region);
    }
    dmtxDecodeDestroy(&decode);
    dmtxImageDestroy(&image);
    return text_of(message);
}

// ---- zxing-cpp

ZXing::BitMatrix bits(const Matrix &m)
{
    ZXing::BitMatrix b(m.size->side, m.size->side);
    for (int y = 0; y < m.size->side; y++)
        for (int x = 0; x < m.size->side; x++)
            if (m.at(y, x)) b.set(x, y);
    return b;
}

Read text_of(const ZXing::Result &result)
{
    if (!result.isValid()) return {};
    return std::string(result.bytes().begin(), result.bytes().end());
}

Read zxing_modules(const Matrix &m)
{
    try {
        return text_of(ZXing::Result(ZXing::DataMatrix::Decode(bits(m)), {}, ZXing::BarcodeFormat::DataMatrix));
    } catch (const std::exception &) {
        return {};
    }
}

double zxing_seconds(const Matrix &m)
{
    const ZXing::BitMatrix b = bits(m);
    auto start = Clock::now();
    {
        ZXing::DecoderResult result = ZXing::DataMatrix::Decode(b);
    }
    return since(start);
}

Read zxing_picture(const Matrix &m)
{
    const Picture p = photograph(m);
    const auto hints = ZXing::DecodeHints().setFormats(ZXing::BarcodeFormat::DataMatrix);
    try {
        return text_of(ZXing::ReadBarcode({p.grey.data(), p.side, p.side, ZXing::ImageFormat::Lum}, hints));
    } catch (const std::exception &) {
        return {};
    }
}

}  // namespace

const Decoder libdmtx{"libdmtx", Checks::start_again, dmtx_modules, dmtx_picture, dmtx_seconds};
const Decoder zxing{"zxing-cpp", Checks::go_on, zxing_modules, zxing_picture, zxing_seconds};
