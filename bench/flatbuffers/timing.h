// Timing, as the Rust benchmarks do it: both sides in turn, medians.
#ifndef TIMING_H
#define TIMING_H

#include <algorithm>
#include <chrono>
#include <cstdint>
#include <cstdio>
#include <cstdlib>
#include <functional>
#include <vector>

constexpr int kRounds = 15;
constexpr double kLeastSeconds = 0.004;

using Bytes = std::vector<std::uint8_t>;

[[noreturn]] inline void fail(const char *what) {
    std::fprintf(stderr, "bench/flatbuffers: %s\n", what);
    std::exit(1);
}

inline Bytes load(const char *name) {
    std::FILE *file = std::fopen(name, "rb");
    if (file == nullptr) {
        fail(name);
    }
    Bytes bytes;
    std::uint8_t block[65536];
    while (std::size_t count = std::fread(block, 1, sizeof block, file)) {
        bytes.insert(bytes.end(), block, block + count);
    }
    std::fclose(file);
    return bytes;
}

// Seconds for one call, over as many calls as take at least kLeastSeconds.
inline double once(const std::function<void()> &f) {
    for (std::uint64_t calls = 1;; calls *= 2) {
        auto start = std::chrono::steady_clock::now();
        for (std::uint64_t i = 0; i < calls; i++) {
            f();
        }
        std::chrono::duration<double> seconds = std::chrono::steady_clock::now() - start;
        if (seconds.count() >= kLeastSeconds) {
            return seconds.count() / static_cast<double>(calls);
        }
    }
}

inline double median(std::vector<double> times) {
    std::sort(times.begin(), times.end());
    return times[times.size() / 2];
}

// Of the proved side's seconds, of the other's, and of the rounds' ratios.
struct Medians {
    double ours, theirs, ratio;
};

// Both sides in turn within each round, so that a busy moment of the machine meets both.
inline Medians timed(const std::function<void()> &proved, const std::function<void()> &other) {
    std::vector<double> ours, theirs, ratios;
    for (int round = 0; round < kRounds; round++) {
        ours.push_back(once(proved));
        theirs.push_back(once(other));
        ratios.push_back(ours.back() / theirs.back());
    }
    return {median(ours), median(theirs), median(ratios)};
}

inline void heading(const char *unit) {
    std::printf("%-46s %10s %11s %7s\n", unit, "proved", "FlatBuffers", "ratio");
}

#endif
