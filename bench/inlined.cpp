// Sorts, hashes and joins words: code that compilers inline, for a recording with functions in each other.
#include <algorithm>
#include <cstdint>
#include <cstdio>
#include <map>
#include <string>
#include <unordered_map>
#include <vector>

namespace {
struct Random {
    uint64_t state = 88172645463325252;
    uint64_t next()
    {
        state ^= state << 13;
        state ^= state >> 7;
        return state ^= state << 17;
    }
};

std::vector<std::string> words(Random &random, int count)
{
    std::vector<std::string> made;
    for (int i = 0; i < count; i++)
        made.push_back("word" + std::to_string(random.next() % 5000));
    return made;
}

uint64_t weight(const std::string &word)
{
    uint64_t sum = 0;
    for (char letter : word)
        sum = sum * 31 + static_cast<unsigned char>(letter);
    return sum;
}

uint64_t count(const std::vector<std::string> &all)
{
    std::unordered_map<std::string, int> counts;
    std::map<std::string, uint64_t> weights;
    for (const auto &word : all) {
        counts[word]++;
        weights[word] += weight(word);
    }
    uint64_t sum = 0;
    for (const auto &[word, number] : weights)
        sum += number * counts[word];
    return sum;
}
}

int main()
{
    Random random;
    uint64_t sum = 0;
    for (int round = 0; round < 40; round++) {
        auto all = words(random, 20000);
        sum += count(all);
        std::sort(all.begin(), all.end(), [](const auto &a, const auto &b) { return a.size() != b.size() ? a.size() < b.size() : a < b; });
        sum += weight(all[all.size() / 2]);
    }
    std::printf("%llu\n", static_cast<unsigned long long>(sum));
}
