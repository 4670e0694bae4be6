// How the texts are made; texts.hpp says what for.
#include "texts.hpp"

namespace {

const std::string digits = "0123456789", capitals = "ABCDEFGHIJKLMNOPQRSTUVWXYZ", separator = "\x1d";

std::string some(Random &random, const std::string &of, size_t n)
{
    std::string s;
    while (n--) s += of[random() % of.size()];
    return s;
}

}  // namespace

std::string document(Random &random)
{
    std::string text = "DC04FR000001" + some(random, "0123456789ABCDEF", 8) + "0101FR";
    for (size_t most = 76 + random() % 184; text.size() < most;) {
        text += some(random, capitals + digits, 2) + some(random, capitals, 3 + random() % 12);
        text += random() % 2 ? separator : some(random, digits, 4 + random() % 9);
    }
    return text + "\x1f" + some(random, capitals + "234567", 103);
}

std::string mixed(Random &random, size_t most)
{
    const std::string pools[] = {digits, capitals + " ", capitals + digits, "abcdefghijklmnopqrstuvwxyz ", "!\"#$%&'()*+,-./:;<=>?@[]_", separator};
    std::string text;
    for (size_t end = 1 + random() % most; text.size() < end;) text += some(random, pools[random() % 6], 1 + random() % 12);
    return text;
}
