// What the peers share: a peer is named a family of programs and its size, runs it once, and prints the result and how many
// nanoseconds passed from the first root to the end, by the clock and by the processor. OMP_NUM_THREADS is the number of threads.
#pragma once

#include <chrono>
#include <cstdint>
#include <cstdlib>
#include <cstring>
#include <ctime>
#include <initializer_list>
#include <iostream>

struct Family {
    const char *name;
    std::uint64_t (*run)(std::uint64_t size);
};

// How many threads work.
inline int threads() {
    const char *word = std::getenv("OMP_NUM_THREADS");
    return word == nullptr ? 1 : std::atoi(word);
}

// Runs a family and prints what came of it.
inline void measure(const Family &family, std::uint64_t size) {
    const auto start = std::chrono::steady_clock::now();
    const std::clock_t processor_start = std::clock();
    const std::uint64_t result = family.run(size);
    const std::clock_t processor = std::clock() - processor_start;
    const std::chrono::nanoseconds clock = std::chrono::steady_clock::now() - start;
    std::cout << result << ' ' << clock.count() << ' ' << processor * (1'000'000'000 / CLOCKS_PER_SEC) << std::endl;
}

// Runs the family that the words name, and answers the exit status. What has to be set up is set up before this call.
inline int run_family(int count, char **words, std::initializer_list<Family> families) {
    for (const Family &family : families) {
        if (count == 3 && std::strcmp(words[1], family.name) == 0) {
            measure(family, std::strtoull(words[2], nullptr, 10));
            return 0;
        }
    }
    std::cerr << "words: FAMILY SIZE, with fib, grid, chain or tree for FAMILY" << std::endl;
    return 2;
}
