// Compares the library with two independent decoders: symbols that the library accepts, and symbols
// that it writes, are drawn whole, read by libdmtx and by zxing-cpp, and the texts compared. The published
// examples are read from a file, so it is run from the repository's root.
//     compare [SEED]
#include "../../include/ddoc.h"
#include "decoders.hpp"
#include "texts.hpp"
#include <algorithm>
#include <bitset>
#include <chrono>
#include <cstdio>
#include <cstdlib>
#include <fstream>

namespace {

struct Library {
    ddoc_answer answer;
    std::string text;
};

Library read(const Codewords &words)
{
    uint8_t room[1000];
    Library l{ddoc_read_symbol(words.data(), words.size(), room, sizeof room), {}};
    if (l.answer.number == 0) l.text.assign(reinterpret_cast<char *>(room), l.answer.length);
    return l;
}

// What an accepted symbol holds, in the order of the names below.
enum Kind { empty_c40, latch_last, lone_254, lone_character, none_left, filler_254, filler_lone, filler_end, cross_1, cross_2, cross_3, pads, kinds };
const char *const kind_names[kinds] = {"empty C40 part", "latch last", "lone 254", "lone character", "end in C40", "filler before 254",
                                       "filler before a lone codeword", "filler at the end", "shift 1 crossing", "shift 2 crossing", "shift 3 crossing", "pads"};
using Kinds = std::bitset<kinds>;

// The set that waits after a pair, 0 for none.
int waiting(int set, int a, int b)
{
    const int v = 256 * a + b - 1;
    for (int x : {v / 1600, v / 40 % 40, v % 40}) set = set == 0 && x < 3 ? x + 1 : 0;
    return set;
}

// The codewords of a C40 part from i on; answers where ASCII mode goes on.
size_t c40_kinds(const Codewords &words, size_t i, Kinds &k)
{
    const size_t first = i;
    int set = 0;
    for (; i < words.size(); i += 2) {
        const bool lone = i + 1 == words.size();
        if (words[i] == 254) {
            // libdmtx takes this 254 as the first half of a pair
            if (i == first && !lone) k.set(empty_c40);
            if (set) k.set(filler_254);
            if (lone) k.set(lone_254);
            return i + 1;
        }
        if (lone) {
            k.set(lone_character);
            if (set) k.set(filler_lone);
            return i + 1;
        }
        if (set) k.set(cross_1 + set - 1);
        set = waiting(set, words[i], words[i + 1]);
    }
    k.set(first == words.size() ? latch_last : none_left);
    if (set) k.set(filler_end);
    return i;
}

// By walking the modes, as 230 and 254 may also be halves of pairs, or pads.
Kinds kinds_of(const Codewords &words)
{
    Kinds k;
    for (size_t i = 0; i < words.size();) {
        const int word = words[i++];
        if (word == 129) {
            k.set(pads);
            break;
        }
        if (word == 230) i = c40_kinds(words, i, k);
    }
    return k;
}

// ---- random symbols, by walks of valid moves

class Walk {
    std::mt19937_64 &random;
    size_t capacity;
    Codewords words;
    size_t characters = 0, most;  // ends the text near its limit of 1,000 characters
    bool shifts;                  // few or many of them

    size_t below(size_t n) { return random() % n; }
    bool one_in(size_t n) { return below(n) == 0; }
    size_t left() const { return capacity - words.size(); }
    void add(size_t word) { words.push_back(uint8_t(word)); }

    // A value of the waiting set; answers the set that waits after it.
    int value(int set, int &v)
    {
        static const int used[4] = {40, 32, 27, 32};
        v = int(below(used[set]));
        if (set == 0 && v < 3 && !shifts && !one_in(4)) v += 20;
        if (set == 0 && v < 3) return v + 1;
        characters++;
        return 0;
    }
    // A last pair leaves no shift 2 or 3 waiting.
    int pair(int set, bool last)
    {
        const size_t before = characters;
        for (;;) {
            int v[3], next = set;
            characters = before;
            for (int &x : v) next = value(next, x);
            if (last && next > 1) continue;
            int sum = 1600 * v[0] + 40 * v[1] + v[2] + 1;
            add(sum / 256), add(sum % 256);
            return next;
        }
    }
    // Back to ASCII mode, or to the end of the symbol.
    void c40()
    {
        int set = 0;
        for (bool stop = one_in(30); left(); stop = one_in(12) || characters + 6 > most) {
            if (left() == 1) {
                if (one_in(2)) add(254);
                else add(1 + below(128)), characters++;
            } else if (stop && set < 2) {
                add(254);
                return;
            } else {
                set = pair(set, stop || left() <= 3);
            }
        }
    }
    void end() { pad(words, capacity); }

public:
    Walk(std::mt19937_64 &r, size_t n) : random(r), capacity(n), most(1 + below(one_in(2) ? n * 2 : 1000)), shifts(one_in(2))
    {
        if (most > 1000 || one_in(4)) most = 1000;
    }
    bool too_long() const { return characters > 1000; }
    Codewords go()
    {
        while (left()) {
            size_t move = below(12);
            if (characters + 2 > most) end();
            else if (move < 4) add(1 + below(128)), characters++;
            else if (move < 7) add(130 + below(100)), characters += 2;
            else if (move < 11) add(230), c40();
            else if (one_in(10)) end();
        }
        return words;
    }
};

// ---- groups of symbols

std::string shown(const std::string &text)
{
    std::string s;
    for (unsigned char c : text)
        if (c < 32 || c > 126) s += "(" + std::to_string(c) + ")";
        else s += char(c);
    return s;
}

void print(const Codewords &words)
{
    for (int word : words) printf(" %d", word);
    printf("\n");
}

struct Group {
    const char *name;
    int symbols = 0, apart = 0, wrong = 0;
    size_t characters = 0;
    int count[kinds] = {};

    void fault(const Codewords &words, const std::string &expected, const char *by, const std::string &got)
    {
        if (++wrong > 5) return;
        printf("%s: codewords", name);
        print(words);
        printf("    library:   %s\n    %s: %s\n", shown(expected).c_str(), by, got.c_str());
    }
    void ask(const Decoder &d, Read (*way)(const Matrix &), const Codewords &words, const std::string &expected)
    {
        Read got = way(draw(words, d.checks));
        if (got != expected) fault(words, expected, d.name, got ? shown(*got) : "not read");
    }
    // The library's text by both decoders.
    void add(const Codewords &words, const std::string &text, bool picture)
    {
        const Kinds k = kinds_of(words);
        for (int i = 0; i < kinds; i++) count[i] += k[i];
        symbols++;
        characters += text.size();
        ask(zxing, picture ? zxing.picture : zxing.modules, words, text);
        if (k[empty_c40]) apart++;
        else ask(libdmtx, picture ? libdmtx.picture : libdmtx.modules, words, text);
    }
};

int passed = 0, failed = 0;
int walked = 0, met[kinds] = {};  // random symbols, and those of each kind

void report(const Group &g, const std::string &more = "")
{
    if (g.wrong) {
        failed++;
        printf("FAILED %s: %d symbols, %d wrong\n", g.name, g.symbols, g.wrong);
    } else {
        passed++;
        printf("ok %s: %d symbols%s\n", g.name, g.symbols, more.c_str());
    }
    fflush(stdout);
}

// Walks are valid by the way they are made: but for a text that is too long (5), the library accepts them all.
void random_group(const char *name, int first, int end, int each, bool picture, std::mt19937_64 &random)
{
    Group g{name};
    int too_long = 0;
    for (int s = first; s < end; s++)
        for (int kept = 0; kept < each;) {
            Walk walk(random, sizes[s].data);
            const Codewords words = walk.go();
            const Library l = read(words);
            if (walk.too_long() && l.answer.number == 5) {
                too_long++;
                continue;
            }
            kept++;
            if (l.answer.number)
                g.fault(words, "refused " + std::to_string(l.answer.number) + " at " + std::to_string(l.answer.place), "the walk", "valid");
            else
                g.add(words, l.text, picture);
        }
    walked += g.symbols;
    for (int i = 0; i < kinds; i++) met[i] += g.count[i];
    report(g, ", " + std::to_string(g.characters) + " characters, " + std::to_string(g.apart) + " with an empty C40 part (not for libdmtx), " + std::to_string(too_long) + " too long and left out");
}

// Every kind has to be met, or the walks don't try what they are meant to.
void every_kind()
{
    Group g{"kinds of random symbols"};
    g.symbols = walked;
    std::string list;
    for (int i = 0; i < kinds; i++) {
        list += std::string(", ") + kind_names[i] + " " + std::to_string(met[i]);
        if (!met[i]) g.wrong++, printf("%s: none with %s\n", g.name, kind_names[i]);
    }
    report(g, list);
}

void check_words()
{
    Group g{"check words of 123456"};
    g.symbols = 1;
    Codewords got = with_check_words({142, 164, 186}, Checks::go_on);
    if (got != Codewords{142, 164, 186, 114, 25, 5, 88, 102}) {
        g.wrong++;
        print(got);
    }
    report(g);
}

struct Sample {
    Codewords words;
    std::string text;
};

const Sample samples[] = {
    {{129, 175, 70}, ""},
    {{230, 87, 158}, "A\x1d"},
    {{230, 89, 217}, "AB"},
    {{230, 250, 0}, "ZZZ"},
    {{230, 91, 11, 91, 11, 91, 11, 254}, "AIMAIMAIM"},
    {{142, 164, 186}, "123456"},
    {{66, 67, 129}, "AB"},
    {{66, 67, 68, 69, 129}, "ABCD"},
    {{230, 89, 233}, "ABC"},
};

// The library and both decoders.
void expect(Group &g, const Sample &s, bool picture)
{
    const Library l = read(s.words);
    if (l.answer.number || l.text != s.text) g.fault(s.words, l.text, "the paper", shown(s.text));
    g.add(s.words, s.text, picture);
}

void sample_group(const char *name, bool picture)
{
    Group g{name};
    for (const Sample &s : samples) expect(g, s, picture);
    report(g);
}

// ---- symbols that the library writes

struct Written {
    ddoc_answer answer;
    Codewords words;
};

Written write(const std::string &text)
{
    static uint16_t work[DDOC_WORK];
    Codewords room(DDOC_LARGEST);
    Written w{ddoc_write_symbol(reinterpret_cast<const uint8_t *>(text.data()), text.size(), DDOC_LARGEST, work, DDOC_WORK, room.data(), room.size()), {}};
    w.words.assign(room.begin(), room.begin() + w.answer.length);
    return w;
}

// The symbol of a text. Where the library gives none, that is a fault, and no codewords come back.
Codewords written(Group &g, const std::string &text)
{
    const Written w = write(text);
    if (w.answer.number == 0 && !w.words.empty()) return w.words;
    g.fault(w.words, text, "writing", w.answer.number ? "refused " + std::to_string(w.answer.number) : "no codewords");
    return {};
}

// Both decoders read every one: the library writes no 254 directly behind a latch.
void none_apart(Group &g)
{
    if (g.apart) g.wrong++, printf("%s: %d with an empty C40 part\n", g.name, g.apart);
}

// Runs of what the modes treat alike, all 128 characters, or like a document.
std::string some_text(std::mt19937_64 &random, size_t length)
{
    std::string text;
    const int style = int(random() % 4);
    while (text.size() < length)
        if (style == 0) text += char(random() % 128);
        else text += style == 1 ? document(random) : mixed(random, length);
    return text.substr(0, length);
}

int written_sizes[24] = {};

void written_group(const char *name, int first, int end, int each, bool picture, std::mt19937_64 &random)
{
    Group g{name};
    for (int s = first; s < end; s++)
        for (int i = 0; i < each; i++) {
            const std::string text = some_text(random, random() % (std::min(1000, 2 * sizes[s].data) + 1));
            const Codewords words = written(g, text);
            if (words.empty()) continue;
            written_sizes[&size_of(words.size()) - sizes]++;
            g.add(words, text, picture);
        }
    none_apart(g);
    std::string list;
    for (int i = 0; i < kinds; i++)
        if (g.count[i]) list += std::string(", ") + kind_names[i] + " " + std::to_string(g.count[i]);
    report(g, ", " + std::to_string(g.characters) + " characters" + list);
}

// 1,000 characters need at most 1,050 codewords: each size up to there has to be met.
void every_size()
{
    Group g{"sizes of written symbols"};
    std::string list;
    for (int s = 0; s < 24; s++) {
        g.symbols += written_sizes[s];
        if (sizes[s].data > 1050) continue;
        list += ", " + std::to_string(sizes[s].data) + ": " + std::to_string(written_sizes[s]);
        if (!written_sizes[s]) g.wrong++, printf("%s: none of %d\n", g.name, sizes[s].data);
    }
    report(g, list);
}

// The input of the program `samples`: one text a line, its control characters as they are, so that no JSON
// has to be read. They are those of host/data/published.json.
const char *const published_file = "crates/samples/stdin";

std::vector<std::string> published_texts()
{
    std::vector<std::string> texts;
    std::ifstream file(published_file);
    if (!file) printf("can't open %s: compare is run from the repository's root\n", published_file);
    for (std::string line; std::getline(file, line);) texts.push_back(line);
    return texts;
}

// Every example of the specification, whether or not its text is accepted as a message: all are characters
// that a symbol can hold. The texts are counted, as a file cut short would leave some out in silence.
void published_group()
{
    Group g{"published examples"};
    const std::vector<std::string> texts = published_texts();
    for (const std::string &text : texts) {
        const Codewords words = written(g, text);
        if (words.empty()) continue;
        for (bool picture : {false, true}) expect(g, {words, text}, picture);
    }
    none_apart(g);
    if (texts.size() < 60) g.wrong++, printf("%s: %zu texts in %s, at least 60 expected\n", g.name, texts.size(), published_file);
    report(g, ", " + std::to_string(texts.size()) + " texts, each by modules and by picture");
}

// The two symbols of the known difference: without the exception libdmtx would be wrong. A lone 254 is
// no part of it.
void known_difference()
{
    Group g{"254 behind a latch"};
    const Sample wrong[] = {{{230, 254, 67}, "B"}, {{230, 254, 129}, ""}}, right{{66, 230, 254}, "A"};
    for (const Sample &s : wrong) {
        expect(g, s, false);
        if (libdmtx.modules(draw(s.words, libdmtx.checks)) == s.text)
            g.fault(s.words, s.text, "libdmtx", "the same, so no exception is needed");
    }
    expect(g, right, false);
    if (g.apart != 2) g.wrong++;
    report(g, ", libdmtx wrong on two as known");
}

}  // namespace

int main(int count, char **arguments)
{
    const uint64_t seed = count > 1 ? strtoull(arguments[1], nullptr, 10) : 20240229;
    printf("seed %llu\n", (unsigned long long)seed);
    std::mt19937_64 random(seed);
    auto start = std::chrono::steady_clock::now();
    check_words();
    sample_group("samples by modules", false);
    sample_group("samples by picture", true);
    known_difference();
    random_group("random by modules, 10x10 to 48x48", 0, 14, 1450, false, random);
    random_group("random by modules, 52x52 to 144x144", 14, 24, 150, false, random);
    random_group("random by picture, 10x10 to 144x144", 0, 24, 10, true, random);
    every_kind();
    written_group("written, by modules, 10x10 to 48x48", 0, 14, 250, false, random);
    written_group("written, by modules, 52x52 to 120x120", 14, 22, 60, false, random);
    written_group("written, by picture, 10x10 to 120x120", 0, 22, 5, true, random);
    every_size();
    published_group();
    printf("%.1f seconds\n", std::chrono::duration<double>(std::chrono::steady_clock::now() - start).count());
    printf("%d passed, %d failed\n", passed, failed);
    return failed != 0;
}
