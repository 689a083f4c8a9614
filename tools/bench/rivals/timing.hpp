/* What the programs in C++ here share: they read files, do a job once or time it, and time cases of cases.py. */
#ifndef TIMING_HPP
#define TIMING_HPP

#include <algorithm>
#include <cstdio>
#include <cstdlib>
#include <cstring>
#include <ctime>
#include <functional>
#include <iostream>
#include <iterator>
#include <malloc.h>
#include <string>
#include <vector>

[[noreturn]] static void fail(const char *what) {
    fprintf(stderr, "rivals: %s\n", what);
    exit(1);
}

/* Returns the processor time of this process in nanoseconds. */
static double now() {
    timespec time;
    clock_gettime(CLOCK_PROCESS_CPUTIME_ID, &time);
    return (double)time.tv_sec * 1e9 + (double)time.tv_nsec;
}

static std::string read_file(const char *path) {
    FILE *file = fopen(path, "rb");
    if (file == nullptr) fail("cannot open the file");
    std::string text;
    if (fseek(file, 0, SEEK_END) == 0) text.reserve((size_t)ftell(file) + 64);
    rewind(file);
    char part[1 << 16];
    for (size_t count; (count = fread(part, 1, sizeof part, file)) != 0;) text.append(part, count);
    fclose(file);
    return text;
}

/* With no rounds, does a job once, and writes its result. Else writes the least nanoseconds of all rounds. There is none
 * after a second. */
static int run(int rounds, const std::function<std::string()> &job) {
    if (rounds == 0) {
        std::string result = job();
        fwrite(result.data(), 1, result.size(), stdout);
        return 0;
    }
    // Memory that is freed stays with the process, so that no library waits for the system by chance.
    mallopt(M_TRIM_THRESHOLD, 1 << 30);
    mallopt(M_MMAP_THRESHOLD, 1 << 25);
    double least = 1e18, first = now();
    for (int round = 0; round < rounds && (round == 0 || now() - first < 1e9); round++) {
        double start = now();
        std::string result = job();
        least = std::min(least, now() - start);
    }
    printf("%.0f\n", least);
    return 0;
}

/* A line of the input: the name of a case, the call, a document, a pointer, a value, and on how many copies it is made. */
struct Case {
    std::string name, call, document, pointer, value;
    int copies;
};

static std::vector<Case> read_cases() {
    std::vector<Case> cases;
    for (std::string line; std::getline(std::cin, line);) {
        std::vector<std::string> words(1);
        for (char letter : line) {
            if (letter == '\t') words.emplace_back(); else words.back() += letter;
        }
        if (words.size() != 7) fail("not a case");
        cases.push_back({words[0], words[1], words[3], words[4], words[5], atoi(words[6].c_str())});
    }
    return cases;
}

static const double SAMPLE = 4e6;
static const int SAMPLES = 11, BATCHES = 100;

/* Returns the least nanoseconds of a turn that can be repeated. */
static double least_of_turns(const std::function<void(size_t)> &turns_of) {
    size_t turns = 1;
    auto sample = [&] { double start = now(); turns_of(turns); return now() - start; };
    while (sample() < SAMPLE) turns *= 2;
    double least = 1e18;
    for (int number = 0; number < SAMPLES; number++) least = std::min(least, sample() / (double)turns);
    return least;
}

/* The same for one of `copies` operations that use up what `make` makes, which is not timed. */
template <class State, class Make, class Turn>
static double least_of_batches(int copies, Make make, Turn turn) {
    double least = 1e18;
    for (int number = 0; number <= SAMPLES; number++) {
        double spent = 0;
        int turns = 0;
        for (; spent < SAMPLE && turns < BATCHES; turns++) {
            std::vector<State> states((size_t)copies);
            for (State &state : states) make(state);
            double start = now();
            for (State &state : states) turn(state);
            spent += now() - start;
        }
        // The first sample only warms up.
        if (number) least = std::min(least, spent / turns / copies);
    }
    return least;
}

/* Writes the time of a case in picoseconds, as the other programs do. */
static void write_time(const Case &it, double nanoseconds) {
    printf("%s\t%.0f\n", it.name.c_str(), nanoseconds * 1000);
}

#endif
