// The sizes that the library chooses beside those of four independent encoders, on texts like those of
// 2D-DOC and on as many mixed ones (200 each, or as many as the argument says), as a table in Markdown.
// Of the symbols that the library reads as the text none may be smaller than its own; symbols in other
// modes it doesn't read, but none may be refused for its padding.
#include "../../include/ddoc.h"
#include "encoders.hpp"
#include "texts.hpp"
#include <cstdio>
#include <cstdlib>
#include <vector>

namespace {

const Encoder *const encoders[] = {&iec_two, &dmtx_c40, &dmtx_ascii, &iec_all, &zint_minimal, &zint_fast, &zxing_encoder, &dmtx_best};
const char *const restricted[] = {"ASCII, C40", "ASCII, C40", "ASCII", "all", "all", "all", "all", "all"};

// The size of the library's symbol, 0 if it is refused.
size_t own_size(const std::string &text)
{
    static uint16_t work[DDOC_WORK];
    uint8_t symbol[DDOC_LARGEST];
    return ddoc_write_symbol(reinterpret_cast<const uint8_t *>(text.data()), text.size(), DDOC_LARGEST, work, DDOC_WORK, symbol, sizeof symbol).length;
}

enum { wrong_pad = 39 };

// The refusal's number, 0 if the symbol reads as the text, and -1 if it reads as another.
int read_as(const Codewords &words, const std::string &text)
{
    uint8_t room[1000];
    ddoc_answer a = ddoc_read_symbol(words.data(), words.size(), room, sizeof room);
    if (a.number) return int(a.number);
    return std::string(reinterpret_cast<char *>(room), a.length) == text ? 0 : -1;
}

struct Row {
    int made = 0, read = 0, pads = 0;  // symbols, those that the library reads as the text, and those with padding that it refuses
    int smaller = 0, larger = 0;     // ours, beside those read
    int smaller_all = 0, larger_all = 0;
    size_t words = 0;
    void add(const Codewords &peer, const std::string &text, size_t own)
    {
        if (peer.empty()) return;
        const int answer = read_as(peer, text);
        const bool is_read = answer == 0;
        made++, read += is_read, pads += answer == wrong_pad;
        words += peer.size();
        smaller_all += own < peer.size(), larger_all += own > peer.size();
        if (is_read) smaller += own < peer.size(), larger += own > peer.size();
    }
};

// Answers whether no symbol of ours is refused, or larger than one that is read, and no symbol is refused for its padding.
bool table(const char *name, const std::vector<std::string> &texts)
{
    std::vector<size_t> own;
    size_t words = 0, characters = 0;
    bool good = true;
    for (const std::string &t : texts) {
        own.push_back(own_size(t));
        good = good && own.back();
        words += own.back(), characters += t.size();
    }
    printf("\n%zu %s, %.1f characters on average\n\n", texts.size(), name, double(characters) / texts.size());
    printf("| encoder | modes | made | mean codewords | ours smaller | ours larger | read by the library | of these ours smaller | ours larger |\n");
    printf("|---|---|---|---|---|---|---|---|---|\n");
    printf("| the library | ASCII, C40 | %zu | %.1f | | | %zu | | |\n", texts.size(), double(words) / texts.size(), texts.size());
    for (size_t e = 0; e < sizeof encoders / sizeof encoders[0]; e++) {
        Row r;
        for (size_t i = 0; i < texts.size(); i++) r.add(encoders[e]->words(texts[i]), texts[i], own[i]);
        printf("| %s | %s | %d | %.1f | %d | %d | %d | %d | %d |\n", encoders[e]->name, restricted[e], r.made, r.made ? double(r.words) / r.made : 0,
               r.smaller_all, r.larger_all, r.read, r.smaller, r.larger);
        fflush(stdout);
        good = good && r.made && r.larger == 0 && r.pads == 0;
    }
    return good;
}

}  // namespace

int main(int arguments, char **argument)
{
    const int count = arguments > 1 ? atoi(argument[1]) : 200;
    if (count < 1) {
        fprintf(stderr, "sizes: the number of texts is 1 or more, not \"%s\"\n", argument[1]);
        return 2;
    }
    printf("Square symbols. \"Ours smaller\": the library's symbol is smaller than the encoder's. An encoder that takes all modes\n");
    printf("can make smaller symbols, which the library doesn't read; beside those that it reads, ours must not be larger.\n");
    Random random(20240818);
    std::vector<std::string> documents, shorts;
    for (int i = 0; i < count; i++) documents.push_back(document(random));
    for (int i = 0; i < count; i++) shorts.push_back(mixed(random, i % 2 ? 60 : 250));
    const bool first = table("texts like 2D-DOC", documents), second = table("mixed texts", shorts);
    printf("\n%d passed, %d failed\n", first + second, 2 - first - second);
    return first && second ? 0 : 1;
}
