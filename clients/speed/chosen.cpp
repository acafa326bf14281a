// Time of interning the lines of a file, in nanoseconds of processor time for each. usage: chosen FILE
#include <cstdio>
#include <ctime>
#include <fstream>
#include <string>
#include <vector>

#include "string_cache.hpp"

// Nanoseconds of processor time.
static double now() {
    timespec time;
    clock_gettime(CLOCK_PROCESS_CPUTIME_ID, &time);
    return static_cast<double>(time.tv_sec) * 1e9 + static_cast<double>(time.tv_nsec);
}

int main(int arguments, char **given) {
    std::vector<std::string> lines;
    std::ifstream in(arguments > 1 ? given[1] : "");
    for (std::string line; std::getline(in, line);) {
        lines.push_back(line);
    }
    std::vector<string_cache::Symbol> symbols;
    symbols.reserve(lines.size());
    const double begin = now();
    string_cache::Interner names;
    for (const std::string &line : lines) {
        symbols.push_back(names.intern(line));
    }
    std::printf("C++ %s %.1f\n", given[1], (now() - begin) / static_cast<double>(lines.size()));
    const bool wrong = names.size() != lines.size();
    symbols.clear();
    return wrong;
}
