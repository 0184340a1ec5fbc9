// The families on the task scheduler of Kokkos, Serial backend. A call is a task; what waits respawns behind the future of
// what it waits for, and of several futures behind their `when_all`. Each task, aggregate and respawn has its match in ours.
#include "peer.hpp"

#include <Kokkos_Core.hpp>
#include <Kokkos_TaskScheduler.hpp>

#include <optional>

using Scheduler = Kokkos::TaskScheduler<Kokkos::Serial>;
using Future = Kokkos::BasicFuture<std::uint64_t, Scheduler>;
using Kokkos::TaskPriority;

// The pool of tasks: so many bytes, in superblocks whose blocks have a power of two of bytes between these.
constexpr std::size_t CAPACITY = 64 << 20;
constexpr unsigned LEAST_BLOCK = 64, GREATEST_BLOCK = 1024, SUPERBLOCK = 1 << 16;

static std::optional<Scheduler> scheduler;

// A task below 2 is done at once; any other spawns two, respawns behind both, and adds up what they give.
struct Fib {
    using value_type = std::uint64_t;
    std::uint64_t n;
    Future first, second;

    explicit Fib(std::uint64_t n) : n(n) {}

    template <class Member>
    void operator()(Member &member, value_type &result) {
        auto &scheduler = member.scheduler();
        if (n < 2) {
            result = n;
        } else if (first.is_null()) {
            first = Kokkos::task_spawn(Kokkos::TaskSingle(scheduler), Fib(n - 1));
            second = Kokkos::task_spawn(Kokkos::TaskSingle(scheduler), Fib(n - 2));
            const Future both[] = {first, second};
            Kokkos::respawn(this, scheduler.when_all(both, 2));
        } else {
            result = first.get() + second.get();
        }
    }
};

// A task at depth 0 gives 1; any other spawns four, the first of high priority and the last of low, and adds up.
struct Grid {
    using value_type = std::uint64_t;
    std::uint64_t depth;
    Future parts[4];

    explicit Grid(std::uint64_t depth) : depth(depth) {}

    template <class Member>
    void operator()(Member &member, value_type &result) {
        constexpr TaskPriority priorities[] = {TaskPriority::High, TaskPriority::Regular, TaskPriority::Regular, TaskPriority::Low};
        auto &scheduler = member.scheduler();
        if (depth == 0) {
            result = 1;
        } else if (parts[0].is_null()) {
            for (int part = 0; part < 4; part++) {
                parts[part] = Kokkos::task_spawn(Kokkos::TaskSingle(scheduler, priorities[part]), Grid(depth - 1));
            }
            Kokkos::respawn(this, scheduler.when_all(parts, 4));
        } else {
            result = parts[0].get() + parts[1].get() + parts[2].get() + parts[3].get();
        }
    }
};

struct Leaf {
    using value_type = std::uint64_t;
    std::uint64_t n;

    template <class Member>
    void operator()(Member &, value_type &result) {
        result = n;
    }
};

// One task that spawns a leaf, respawns behind it, adds what it gives, and respawns, until n is 0.
struct Chain {
    using value_type = std::uint64_t;
    std::uint64_t n;
    std::uint64_t sum = 0;
    Future leaf;

    explicit Chain(std::uint64_t n) : n(n) {}

    template <class Member>
    void operator()(Member &member, value_type &result) {
        auto &scheduler = member.scheduler();
        if (!leaf.is_null()) {
            sum += leaf.get();
            n -= 1;
            leaf = Future();
            Kokkos::respawn(this, scheduler);
        } else if (n == 0) {
            result = sum;
        } else {
            leaf = Kokkos::task_spawn(Kokkos::TaskSingle(scheduler), Leaf{n});
            Kokkos::respawn(this, leaf);
        }
    }
};

// Spawns the root and lets the scheduler run until nothing is left.
template <class Root>
static std::uint64_t run(Root root) {
    const Future end = Kokkos::host_spawn(Kokkos::TaskSingle(*scheduler), std::move(root));
    Kokkos::wait(*scheduler);
    return end.get();
}

static std::uint64_t fib(std::uint64_t n) { return run(Fib(n)); }
static std::uint64_t grid(std::uint64_t depth) { return run(Grid(depth)); }
static std::uint64_t chain(std::uint64_t n) { return run(Chain(n)); }

int main(int count, char **words) {
    Kokkos::ScopeGuard kokkos(count, words);
    scheduler.emplace(Kokkos::HostSpace(), CAPACITY, LEAST_BLOCK, GREATEST_BLOCK, SUPERBLOCK);
    const int status = run_family(count, words, {{"fib", fib}, {"grid", grid}, {"chain", chain}});
    scheduler.reset();
    return status;
}
