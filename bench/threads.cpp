// threads COUNT SECONDS DEPTH: threads that sort, join, count and match texts, each for some seconds of its processor time. Calls are nested up to DEPTH
// levels deeper at random, so that stacks differ.
#include <algorithm>
#include <cstdlib>
#include <ctime>
#include <map>
#include <numeric>
#include <random>
#include <regex>
#include <string>
#include <thread>
#include <unordered_map>
#include <vector>

namespace {
double used() {
    timespec time;
    clock_gettime(CLOCK_THREAD_CPUTIME_ID, &time);
    return time.tv_sec + time.tv_nsec * 1e-9;
}

void sort_texts(std::mt19937 &random) {
    std::vector<std::string> texts;
    for (int i = 0; i < 2000; i++) texts.push_back(std::to_string(random()));
    std::sort(texts.begin(), texts.end());
}

void count_texts(std::mt19937 &random) {
    std::map<std::string, int> counts;
    for (int i = 0; i < 1000; i++) counts[std::to_string(random() % 500)]++;
}

void hash_numbers(std::mt19937 &random) {
    std::unordered_map<int, std::string> texts;
    for (int i = 0; i < 2000; i++) texts[random()] = "x";
}

void match_text(std::mt19937 &random) {
    std::regex pattern("(a|b)*c[0-9]+");
    std::string text;
    for (int i = 0; i < 200; i++) text += "ab"[random() % 2];
    std::regex_search(text + "c12", pattern);
}

void sort_numbers(std::mt19937 &random) {
    std::vector<double> numbers(20000);
    std::iota(numbers.begin(), numbers.end(), 0);
    std::shuffle(numbers.begin(), numbers.end(), random);
    std::stable_sort(numbers.begin(), numbers.end());
}

void work(std::mt19937 &random, int depth) {
    if (depth > 0 && random() % 4) return work(random, depth - 1);
    void (*const turns[])(std::mt19937 &) = {sort_texts, count_texts, hash_numbers, match_text, sort_numbers};
    turns[random() % 5](random);
}
} // namespace

int main(int count, char **arguments) {
    if (count != 4) return 1;
    const double seconds = atof(arguments[2]);
    const int depth = atoi(arguments[3]);
    std::vector<std::thread> threads;
    for (int i = 0; i < atoi(arguments[1]); i++)
        threads.emplace_back([=] {
            std::mt19937 random(i);
            while (used() < seconds) work(random, depth);
        });
    for (auto &thread : threads) thread.join();
}
