// The same as the measured program of tools/lock_speed, under std::mutex: each thread counts in its own cell of a board,
// under the lock each time. Words: how many threads, and how often each counts. Prints the nanoseconds that it took.
#include <chrono>
#include <cstdint>
#include <cstdio>
#include <cstdlib>
#include <mutex>
#include <thread>
#include <vector>

struct Board {
    std::uint64_t job;
    std::vector<std::uint64_t> cells;
};

struct Locked {
    std::mutex mutex;
    Board board;
};

static void count(Locked& locked, std::size_t cell, std::uint32_t times) {
    for (std::uint32_t passage = 0; passage < times; ++passage) {
        std::lock_guard<std::mutex> guard(locked.mutex);
        if (cell < locked.board.cells.size() && locked.board.cells[cell] < UINT64_MAX) {
            locked.board.cells[cell] += 1;
        }
    }
}

int main(int argc, char** argv) {
    if (argc != 3) {
        return 2;
    }
    std::size_t threads = std::strtoul(argv[1], nullptr, 10);
    std::uint32_t times = std::strtoul(argv[2], nullptr, 10);
    Locked locked{{}, {0, std::vector<std::uint64_t>(threads)}};
    auto start = std::chrono::steady_clock::now();
    std::vector<std::thread> all;
    for (std::size_t cell = 0; cell < threads; ++cell) {
        all.emplace_back(count, std::ref(locked), cell, times);
    }
    for (std::thread& one : all) {
        one.join();
    }
    auto took = std::chrono::steady_clock::now() - start;
    for (std::uint64_t cell : locked.board.cells) {
        if (cell != times) {
            return 1;
        }
    }
    std::printf("%lld\n", static_cast<long long>(std::chrono::nanoseconds(took).count()));
}
