// Times two programs together. The work is cut into chunks; both take them in turn, round after round, each at another chunk, so that neither warms
// the caches for the other. A time is the sum of each chunk's shortest one, in processor time of the thread: a busy machine disturbs it little.
#pragma once
#include <algorithm>
#include <cstdint>
#include <functional>
#include <string>
#include <time.h>
#include <vector>

inline double processor_seconds() {
    timespec t;
    clock_gettime(CLOCK_THREAD_CPUTIME_ID, &t);
    return (double)t.tv_sec + 1e-9 * (double)t.tv_nsec;
}

struct Work {
    std::function<void(uint32_t, uint32_t)> run; // chunk k of `chunks`
    uint32_t chunks = 1;
    Work(std::function<void(uint32_t, uint32_t)> f, uint32_t number) : run(f), chunks(number) {}
    template <class F, class = decltype(std::declval<F>()())> Work(F f) : run([f](uint32_t, uint32_t) mutable { f(); }) {}
};

struct Times {
    double peer, library; // ns for a unit
};

inline Times timed(uint64_t units, int rounds, const Work& peer, const Work& library) {
    const Work* work[2] = {&peer, &library};
    std::vector<double> shortest[2];
    for (int i = 0; i < 2; i++) shortest[i].assign(work[i]->chunks, 1e18);
    for (int round = 0; round < rounds; round++)
        for (uint32_t c = 0; c < library.chunks; c++)
            for (int i = 0; i < 2; i++) {
                const uint32_t k = (c + (uint32_t)i * work[i]->chunks / 2) % work[i]->chunks;
                const double from = processor_seconds();
                work[i]->run(k, work[i]->chunks);
                shortest[i][k] = std::min(shortest[i][k], processor_seconds() - from);
            }
    double sum[2] = {0, 0};
    for (int i = 0; i < 2; i++)
        for (double x : shortest[i]) sum[i] += x;
    return {sum[0] / (double)units * 1e9, sum[1] / (double)units * 1e9};
}

// Rows of ratios, a column for each book with settings.
struct Table {
    std::vector<std::string> columns, rows;
    std::vector<std::vector<std::string>> cells;

    void add(const std::string& row, const std::string& cell) {
        auto at = std::find(rows.begin(), rows.end(), row);
        if (at == rows.end()) rows.push_back(row), cells.emplace_back(), at = rows.end() - 1;
        auto& line = cells[(size_t)(at - rows.begin())];
        line.resize(columns.size());
        line.back() = cell;
    }
    void print() const {
        std::string head = "| Call |", rule = "|---|";
        for (const auto& column : columns) head += " " + column + " |", rule += "---:|";
        std::printf("%s\n%s\n", head.c_str(), rule.c_str());
        for (size_t i = 0; i < rows.size(); i++) {
            std::string line = "| " + rows[i] + " |";
            for (size_t k = 0; k < columns.size(); k++) line += " " + (k < cells[i].size() && !cells[i][k].empty() ? cells[i][k] : std::string("-")) + " |";
            std::printf("%s\n", line.c_str());
        }
    }
};
