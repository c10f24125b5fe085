// Deferred acceptance with a heap at each school, on the same markets as crates/match_runs.
// baseline ENTRANTS WISHES SCHOOLS prints the checksum of the allocation, and the microseconds.
#include <chrono>
#include <cstdint>
#include <cstdio>
#include <cstdlib>
#include <queue>
#include <string>
#include <tuple>
#include <vector>

using Key = std::tuple<uint8_t, uint32_t, uint32_t>;

struct Wish {
    uint32_t school;
    Key key;
};

struct Held {
    Key key;
    uint32_t entrant;
    bool operator<(const Held &other) const { return key < other.key; }
};

static uint64_t next(uint64_t &state) {
    state = state * 6364136223846793005ull + 1442695040888963407ull;
    return state >> 33;
}

// What an allocation leaves: how many schools have rejected each entrant, and whether one holds it.
struct Given {
    std::vector<uint32_t> gone;
    std::vector<bool> placed;
};

// In a function of its own, so that its instructions can be counted.
[[gnu::noinline]] static Given allot(const std::vector<std::vector<Wish>> &lists, uint32_t schools, size_t quota) {
    uint32_t entrants = lists.size();
    std::vector<std::priority_queue<Held>> held(schools);
    std::vector<uint32_t> gone(entrants, 0);
    std::vector<bool> placed(entrants, false);
    std::queue<uint32_t> waiting;
    for (uint32_t e = 0; e < entrants; e++) waiting.push(e);
    while (!waiting.empty()) {
        uint32_t e = waiting.front();
        waiting.pop();
        if (gone[e] == lists[e].size()) continue;
        const Wish &wish = lists[e][gone[e]];
        held[wish.school].push({wish.key, e});
        placed[e] = true;
        if (held[wish.school].size() > quota) {
            uint32_t out = held[wish.school].top().entrant;
            held[wish.school].pop();
            placed[out] = false;
            gone[out]++;
            waiting.push(out);
        }
    }
    return {std::move(gone), std::move(placed)};
}

int main(int argc, char **argv) {
    if (argc != 4) return 2;
    uint32_t entrants = strtoul(argv[1], nullptr, 10);
    uint32_t wishes = strtoul(argv[2], nullptr, 10);
    uint32_t schools = strtoul(argv[3], nullptr, 10);
    const uint64_t steps[] = {1, 3, 7, 9, 11, 13};
    std::vector<std::vector<Wish>> lists(entrants);
    uint64_t state = 42;
    for (uint32_t e = 0; e < entrants; e++) {
        uint64_t number = next(state), step = steps[next(state) % 6];
        for (uint32_t w = 0; w < wishes; w++, number += step) {
            uint8_t level = next(state) % 3;
            uint32_t distance = next(state) % 30000;
            lists[e].push_back({uint32_t(number % schools), Key(level, distance, e)});
        }
    }
    size_t quota = uint64_t(entrants) * 9 / 10 / schools;

    auto start = std::chrono::steady_clock::now();
    auto [gone, placed] = allot(lists, schools, quota);
    auto end = std::chrono::steady_clock::now();

    uint64_t sum = 0, proposals = 0;
    for (uint32_t e = 0; e < entrants; e++) {
        sum = sum * 31 + 1;
        proposals += gone[e] + (placed[e] ? 1 : 0);
        if (!placed[e]) continue;
        for (char c : "S" + std::to_string(lists[e][gone[e]].school)) sum = sum * 31 + uint8_t(c);
    }
    auto micros = std::chrono::duration_cast<std::chrono::microseconds>(end - start).count();
    printf("checksum %llu, proposals %llu\nallotted %lld\n", (unsigned long long)sum, (unsigned long long)proposals, (long long)micros);
}
