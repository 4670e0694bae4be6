// Times the library beside others on the same texts, in one run. Reading, beside libdmtx and zxing-cpp: 40 texts
// like those of 2D-DOC, mainly in C40, and 40 short mixed ones. Writing, beside three encoders: 200 of each. Check words, beside zxing-cpp
// and iec16022 alone, zint and libdmtx with the whole symbol: 40 lists.
// Nothing is asserted about a time, and times under an emulator say nothing about a real processor.
#include "../../include/ddoc.h"
#include "decoders.hpp"
#include "encoders.hpp"
#include "texts.hpp"
#include <algorithm>
#include <chrono>
#include <cstdio>
#include <cstdlib>

namespace {

// The C40 values of a character: one in the basic set, else a shift and one in its set.
std::vector<int> values(int c)
{
    if (c == ' ') return {3};
    if (c >= '0' && c <= '9') return {c - 44};
    if (c >= 'A' && c <= 'Z') return {c - 51};
    if (c < 32) return {0, c};
    if (c < 48) return {1, c - 33};
    if (c < 65) return {1, c - 43};
    if (c < 96) return {1, c - 69};
    return {2, c - 96};
}

bool is_digit(int c) { return c >= '0' && c <= '9'; }

void ascii(Codewords &words, const std::string &text)
{
    for (size_t i = 0; i < text.size(); i++)
        if (i + 1 < text.size() && is_digit(text[i]) && is_digit(text[i + 1])) {
            words.push_back(uint8_t(130 + 10 * (text[i] - '0') + text[i + 1] - '0'));
            i++;
        } else {
            words.push_back(uint8_t(text[i] + 1));
        }
}

// C40 as far as the values of whole characters fill pairs; the rest follows in ASCII mode.
void c40(Codewords &words, const std::string &text)
{
    std::vector<int> v;
    size_t full = 0, done = 0;
    for (size_t i = 0; i < text.size(); i++) {
        for (int x : values(text[i])) v.push_back(x);
        if (v.size() % 3 == 0) full = v.size(), done = i + 1;
    }
    words.push_back(230);
    for (size_t i = 0; i < full; i += 3) {
        int sum = 1600 * v[i] + 40 * v[i + 1] + v[i + 2] + 1;
        words.push_back(uint8_t(sum / 256)), words.push_back(uint8_t(sum % 256));
    }
    words.push_back(254);
    ascii(words, text.substr(done));
}

// Runs of nine or more characters that C40 holds in one value each go in C40, the others in ASCII.
void by_runs(Codewords &words, const std::string &text)
{
    for (size_t i = 0; i < text.size();) {
        size_t end = i;
        bool basic = values(text[i]).size() == 1;
        while (end < text.size() && (values(text[end]).size() == 1) == basic) end++;
        std::string run = text.substr(i, end - i);
        if (basic && run.size() >= 9) c40(words, run);
        else ascii(words, run);
        i = end;
    }
}

// The smallest size that holds the words, padded.
Codewords fitted(Codewords words)
{
    for (const Size &s : sizes)
        if (words.size() <= size_t(s.data)) {
            pad(words, s.data);
            return words;
        }
    abort();
}

// ---- measuring

struct Time {
    double least = 0, mean = 0;  // seconds, summed over the symbols
};

struct Totals {
    Time ddoc, full[2], empty[2];
    size_t symbols = 0, words = 0, used = 0, characters = 0;
};

const Decoder *const decoders[2] = {&libdmtx, &zxing};
int rounds = 201;       // the argument gives another number, for a processor that is slow or emulated
const int calls = 64;   // a round of the library is many calls: one is too short for the clock

void time_library(const Codewords &words, Time &time)
{
    using Clock = std::chrono::steady_clock;
    uint8_t text[1000];
    double least = 1, sum = 0;
    for (int r = 0; r < rounds; r++) {
        auto start = Clock::now();
        for (int k = 0; k < calls; k++) ddoc_read_symbol(words.data(), words.size(), text, sizeof text);
        double took = std::chrono::duration<double>(Clock::now() - start).count() / calls;
        least = std::min(least, took);
        sum += took;
    }
    time.least += least;
    time.mean += sum / rounds;
}

// The symbol and an empty one of its size, in turn.
void time_decoder(const Decoder &d, const Codewords &words, Time &full, Time &empty)
{
    Codewords pads;
    pad(pads, words.size());
    const Matrix a = draw(words, d.checks), b = draw(pads, d.checks);
    double least_a = 1, least_b = 1, sum_a = 0, sum_b = 0;
    for (int r = 0; r < rounds; r++) {
        double x = d.seconds(a), y = d.seconds(b);
        least_a = std::min(least_a, x), least_b = std::min(least_b, y);
        sum_a += x, sum_b += y;
    }
    full.least += least_a, full.mean += sum_a / rounds;
    empty.least += least_b, empty.mean += sum_b / rounds;
}

void measure(const std::string &text, const Codewords &words, Totals &t)
{
    uint8_t room[1000];
    ddoc_answer a = ddoc_read_symbol(words.data(), words.size(), room, sizeof room);
    if (a.number || std::string(reinterpret_cast<char *>(room), a.length) != text) {
        fprintf(stderr, "a text is not read back\n");
        exit(1);
    }
    t.symbols++, t.words += words.size(), t.used += a.used, t.characters += a.length;
    time_library(words, t.ddoc);
    for (int i = 0; i < 2; i++) time_decoder(*decoders[i], words, t.full[i], t.empty[i]);
}

void row(const char *name, double seconds, const Totals &t)
{
    printf("  %-34s %10.3f %10.2f\n", name, seconds / t.symbols * 1e6, seconds / t.used * 1e9);
}

void table(const char *name, const Totals &t)
{
    printf("\n%s: %zu symbols; each on average %.1f data codewords, %.1f before the pads, %.1f characters\n", name, t.symbols,
           double(t.words) / t.symbols, double(t.used) / t.symbols, double(t.characters) / t.symbols);
    printf("  %-34s %10s %10s\n", "", "us/symbol", "ns/codeword");
    row("ddoc_read_symbol, least", t.ddoc.least, t);
    row("ddoc_read_symbol, mean", t.ddoc.mean, t);
    for (int i = 0; i < 2; i++) {
        std::string d = decoders[i]->name;
        row((d + ", codewords to text").c_str(), t.full[i].least - t.empty[i].least, t);
        row((d + ", modules to text").c_str(), t.full[i].least, t);
    }
    for (int i = 0; i < 2; i++)
        printf("  ratio ddoc/%s: %.2f\n", decoders[i]->name, t.ddoc.least / (t.full[i].least - t.empty[i].least));
}

// ---- writing

const Encoder *const encoders[] = {&zxing_encoder, &zint_fast, &zint_minimal, &dmtx_c40};
const int peers = sizeof encoders / sizeof encoders[0];
int writing_rounds = 11;

double library_seconds(const std::string &text)
{
    using Clock = std::chrono::steady_clock;
    static uint16_t work[DDOC_WORK];
    uint8_t symbol[DDOC_LARGEST];
    auto start = Clock::now();
    ddoc_answer a = ddoc_write_symbol(reinterpret_cast<const uint8_t *>(text.data()), text.size(), DDOC_LARGEST, work, DDOC_WORK, symbol, sizeof symbol);
    double took = std::chrono::duration<double>(Clock::now() - start).count();
    if (a.number) {
        fprintf(stderr, "a text is not written\n");
        exit(1);
    }
    return took;
}

// For each text the least of the rounds, each in turn, then the mean over the texts.
void writing_table(const char *name, const std::vector<std::string> &texts)
{
    double least[peers + 1] = {};
    size_t characters = 0;
    for (const std::string &text : texts) {
        double best[peers + 1];
        std::fill(best, best + peers + 1, 1);
        for (int r = 0; r < writing_rounds; r++) {
            best[peers] = std::min(best[peers], library_seconds(text));
            for (int e = 0; e < peers; e++) best[e] = std::min(best[e], encoders[e]->seconds(text));
        }
        for (int e = 0; e <= peers; e++) least[e] += best[e];
        characters += text.size();
    }
    printf("\nwriting, %s: %zu texts, %.1f characters on average\n", name, texts.size(), double(characters) / texts.size());
    printf("  %-26s %-16s %10s %10s\n", "", "makes", "us/text", "ratio");
    printf("  %-26s %-16s %10.2f\n", "ddoc_write_symbol", "codewords", least[peers] / texts.size() * 1e6);
    for (int e = 0; e < peers; e++)
        printf("  %-26s %-16s %10.2f %10.2f\n", encoders[e]->name, encoders[e]->level, least[e] / texts.size() * 1e6, least[peers] / least[e]);
}

void bench_writing()
{
    printf("\nWriting: for each text the least of %d rounds, all in turn. Ratio: ddoc_write_symbol's time to the other's.\n", writing_rounds);
    printf("Only zxing-cpp's figure is for codewords alone; the others also make check words and modules, libdmtx a picture.\n");
    printf("Under an emulator the ratios are not those of a real processor: it slows floating point and memory calls most.\n");
    Random random(20240818);
    std::vector<std::string> documents, mixes;
    for (int i = 0; i < 200; i++) documents.push_back(document(random));
    for (int i = 0; i < 200; i++) mixes.push_back(mixed(random, i % 2 ? 60 : 250));
    writing_table("texts like 2D-DOC", documents);
    writing_table("mixed texts", mixes);
}

// ---- check words

const CheckMaker *const makers[] = {&library_checks, &zxing_checks, &iec_checks};
const Encoder *const whole[] = {&zint_fast, &dmtx_ascii};

// Small letters and signs in turn: every encoder fills 170 to 174 data codewords of 48x48 with them.
const std::string filling(Random &random)
{
    std::string text;
    while (text.size() < 172) text += char((text.size() % 2 ? 'a' : '!') + random() % 10);
    return text;
}

void bench_checks()
{
    printf("\nCheck words of 174 random data codewords: for each list the least of %d rounds, all in turn. Ratio: ddoc_check_words' time to the other's.\n", rounds);
    printf("libdmtx and zint have no call for check words alone: their figure is for a whole symbol of that size.\n");
    Random random(20261116);
    const int lists = 40, made = sizeof makers / sizeof makers[0];
    double least[made] = {}, symbol[2] = {};
    for (int i = 0; i < lists; i++) {
        Codewords data(DDOC_SINGLE_BLOCK);
        for (uint8_t &word : data) word = uint8_t(random());
        const std::string text = filling(random);
        double best[made], best_symbol[2] = {1, 1};
        std::fill(best, best + made, 1);
        for (const CheckMaker *m : makers)
            if (m->list(data) != library_checks.list(data)) {
                fprintf(stderr, "%s makes other check words\n", m->name);
                exit(1);
            }
        for (int r = 0; r < rounds; r++)
            for (int m = 0; m < made; m++) best[m] = std::min(best[m], makers[m]->seconds(data));
        for (int r = 0; r < writing_rounds; r++)
            for (int e = 0; e < 2; e++) best_symbol[e] = std::min(best_symbol[e], whole[e]->seconds(text));
        for (int m = 0; m < made; m++) least[m] += best[m];
        for (int e = 0; e < 2; e++) symbol[e] += best_symbol[e];
    }
    printf("  %-34s %10s %10s\n", "", "us/list", "ratio");
    for (int m = 0; m < made; m++) printf("  %-34s %10.2f %10.2f\n", makers[m]->name, least[m] / lists * 1e6, least[0] / least[m]);
    for (int e = 0; e < 2; e++)
        printf("  %-34s %10.2f %10.2f\n", (std::string(whole[e]->name) + ", whole symbol").c_str(), symbol[e] / lists * 1e6, least[0] / symbol[e]);
}

}  // namespace

int main(int arguments, char **argument)
{
    if (arguments > 1) {
        rounds = atoi(argument[1]);
        writing_rounds = std::min(rounds, writing_rounds);
    }
    if (rounds < 1) {
        fprintf(stderr, "bench: the number of rounds is 1 or more, not \"%s\"\n", argument[1]);
        return 2;
    }
    printf("ddoc_read_symbol is timed by itself: least and mean of %d rounds of %d calls.\n", rounds, calls);
    printf("The decoders have no public call from codewords to text: their figure is modules to text less the\n");
    printf("same for an empty symbol of that size, measured in turn, each the least of %d runs.\n", rounds);
    printf("A codeword is a data codeword before the first pad.\n");
    Random random(20240229);
    Totals documents, shorts;
    for (int i = 0; i < 40; i++) {
        std::string text = document(random);
        Codewords words;
        c40(words, text);
        measure(text, fitted(words), documents);
    }
    for (int i = 0; i < 40; i++) {
        std::string text = mixed(random, 60);
        Codewords words;
        by_runs(words, text);
        measure(text, fitted(words), shorts);
    }
    table("texts like 2D-DOC", documents);
    table("short mixed texts", shorts);
    fflush(stdout);
    bench_writing();
    bench_checks();
}
