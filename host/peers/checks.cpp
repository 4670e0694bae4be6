// The check words that other encoders print: each text is encoded by libdmtx, zint and iec16022, and the library prints the check words
// of the same data codewords. They have to be the same, in all 14 sizes with a single block.
//     checks [SEED]
#include "encoders.hpp"
#include "texts.hpp"
#include <cstdio>
#include <cstdlib>
#include <map>

namespace {

const Encoder *const encoders[] = {&dmtx_ascii, &dmtx_c40, &zint_minimal, &zint_fast, &iec_all};
const int texts = 1500;

struct Seen {
    int lists = 0, others = 0, wrong = 0;
    std::map<int, int> sizes;  // lists by data codewords
};

void look(const Codewords &list, const std::string &text, const char *name, Seen &seen)
{
    const Size *size = nullptr;
    for (const Size &s : sizes)
        if (list.size() == size_t(s.data + s.check)) size = &s;
    if (!size || size->blocks > 1) {
        seen.others++;
        return;
    }
    seen.lists++;
    seen.sizes[size->data]++;
    const Codewords ours = printed(Codewords(list.begin(), list.begin() + size->data));
    if (ours == list) return;
    if (seen.wrong++ < 3) printf("difference: %s, %d data codewords, text of %zu characters\n", name, size->data, text.size());
}

}  // namespace

int main(int arguments, char **argument)
{
    const unsigned long long seed = arguments > 1 ? strtoull(argument[1], nullptr, 10) : 20261116;
    printf("seed %llu\n", seed);
    int passed = 0, failed = 0;
    for (const Encoder *e : encoders) {
        Random random(seed);
        Seen seen;
        for (int i = 0; i < texts; i++) {
            const std::string text = mixed(random, 1 + i % 180);
            look(e->list(text), text, e->name, seen);
        }
        const bool good = seen.wrong == 0 && seen.sizes.size() == 14;
        printf("%s %s: %d lists of %zu sizes, %d differ; %d others\n", good ? "ok" : "FAILED", e->name, seen.lists, seen.sizes.size(), seen.wrong, seen.others);
        (good ? passed : failed)++;
    }
    printf("%d passed, %d failed\n", passed, failed);
    return failed != 0;
}
