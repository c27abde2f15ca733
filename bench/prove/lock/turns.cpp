// A model of the turn lock for ThreadSanitizer: two words, one slot, and the steps of docs/inside/LOCK.md in their order.
//
// turns THREADS TURNS [early|torn]: so many threads take so many turns each, under words that wrap on the way. The slot is
// plain memory, so that a step which reaches it out of turn is a data race. `early` raises the serving number before the
// value is put back, `torn` draws a ticket by a load and a store. It prints one line, and ends with 1 where the history
// isn't one, where a thread's entries aren't there in order, or where a ticket was lost.
#include <atomic>
#include <chrono>
#include <cstdint>
#include <cstdio>
#include <cstdlib>
#include <memory>
#include <string>
#include <thread>
#include <utility>
#include <vector>

namespace {

constexpr int pause_looks = 3200, yield_every = 32, ticket_looks = 300;
constexpr auto longest_wait = std::chrono::seconds(20);
constexpr std::uint64_t start = -std::uint64_t{1000};  // both words wrap after a thousand turns

enum class Fault { none, early, torn };

// Who made an entry, and the how manyth it is of its thread.
struct Entry {
    int thread;
    std::uint64_t number;
};

using Value = std::vector<Entry>;

[[noreturn]] void fail(const char* what) {
    std::fprintf(stderr, "%s\n", what);
    std::_Exit(1);
}

struct Lock {
    std::atomic<std::uint64_t> tickets{start}, serving{start};
    std::unique_ptr<Value> slot = std::make_unique<Value>();
    Fault fault;

    explicit Lock(Fault which) : fault(which) {}

    void wait_for_pause() {
        for (int looks = 0; looks < pause_looks; ++looks) {
            const auto served = serving.load();
            if (served == tickets.load()) return;
            if (looks % yield_every == 0) std::this_thread::yield();
        }
    }

    std::uint64_t draw() {
        if (fault != Fault::torn) return tickets.fetch_add(1);
        const auto ticket = tickets.load();
        tickets.store(ticket + 1);
        return ticket;
    }

    std::unique_ptr<Value> turn() {
        wait_for_pause();
        const auto ticket = draw();
        const auto begun = std::chrono::steady_clock::now();
        for (long looks = 0; serving.load() != ticket; ++looks) {
            if (looks < ticket_looks) continue;
            if (looks % 1024 == 0 && std::chrono::steady_clock::now() - begun > longest_wait) fail("a thread waits for ever");
            std::this_thread::yield();
        }
        auto value = std::exchange(slot, nullptr);
        if (!value) fail("the slot is empty in a turn");
        return value;
    }

    void finish(std::unique_ptr<Value> value) {
        if (fault == Fault::early) serving.fetch_add(1);
        if (std::exchange(slot, std::move(value))) fail("the slot is full in a turn");
        if (fault != Fault::early) serving.fetch_add(1);
    }
};

// Each third turn ends without an entry. What was seen begins the history, and is as long as this.
void take_turns(Lock& lock, int thread, std::uint64_t turns) {
    std::size_t seen = 0;
    Entry last{-1, 0};
    for (std::uint64_t number = 0; number < turns; ++number) {
        auto value = lock.turn();
        if (value->size() < seen) fail("the history is shorter than what was seen");
        if (seen && ((*value)[seen - 1].thread != last.thread || (*value)[seen - 1].number != last.number))
            fail("the history doesn't begin with what was seen");
        if (number % 3 != 2) value->push_back({thread, number});
        seen = value->size();
        if (seen) last = value->back();
        lock.finish(std::move(value));
    }
}

void check(const Value& history, int threads, std::uint64_t turns) {
    std::vector<std::uint64_t> next(threads);
    for (const auto& entry : history) {
        auto& wanted = next[entry.thread];
        if (entry.number != wanted) fail("the entries of a thread aren't all there in order");
        wanted += wanted % 3 == 1 ? 2 : 1;
    }
    for (const auto wanted : next)
        if (wanted < turns) fail("entries are missing at the end");
}

}  // namespace

int main(int count, char** words) {
    if (count < 3) return 2;
    const int threads = std::atoi(words[1]);
    const std::uint64_t turns = 3 * (std::strtoull(words[2], nullptr, 10) / 3);
    const std::string name = count > 3 ? words[3] : "";
    Lock lock(name == "early" ? Fault::early : name == "torn" ? Fault::torn : Fault::none);
    std::vector<std::thread> all;
    for (int thread = 0; thread < threads; ++thread)
        all.emplace_back([&lock, thread, turns] { take_turns(lock, thread, turns); });
    for (auto& thread : all) thread.join();
    if (lock.serving != lock.tickets || lock.serving != start + threads * turns) fail("a ticket was lost");
    check(*lock.slot, threads, turns);
    std::printf("%d threads, %llu turns: one history\n", threads, static_cast<unsigned long long>(threads * turns));
}
