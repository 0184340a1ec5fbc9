// The families on oneTBB, with a task group in an arena of so many threads. A call is a task; it waits for its calls in place,
// so a chain is a loop. A task of a group has no priority.
#include "peer.hpp"

#include <tbb/task_arena.h>
#include <tbb/task_group.h>

static tbb::task_arena arena(threads());

static std::uint64_t fib_task(std::uint64_t n) {
    if (n < 2) {
        return n;
    }
    std::uint64_t first, second;
    tbb::task_group calls;
    calls.run([&first, n] { first = fib_task(n - 1); });
    calls.run([&second, n] { second = fib_task(n - 2); });
    calls.wait();
    return first + second;
}

static std::uint64_t grid_task(std::uint64_t depth) {
    if (depth == 0) {
        return 1;
    }
    std::uint64_t parts[4];
    tbb::task_group calls;
    for (std::uint64_t &part : parts) {
        calls.run([&part, depth] { part = grid_task(depth - 1); });
    }
    calls.wait();
    return parts[0] + parts[1] + parts[2] + parts[3];
}

static std::uint64_t chain_task(std::uint64_t n) {
    std::uint64_t sum = 0;
    tbb::task_group calls;
    for (; n > 0; n--) {
        std::uint64_t leaf;
        calls.run([&leaf, n] { leaf = n; });
        calls.wait();
        sum += leaf;
    }
    return sum;
}

// A task at depth 0 is done; any other spawns two. Nothing is handed back.
static void grow(std::uint64_t depth) {
    if (depth == 0) {
        return;
    }
    tbb::task_group calls;
    calls.run([depth] { grow(depth - 1); });
    calls.run([depth] { grow(depth - 1); });
    calls.wait();
}

static std::uint64_t tree_task(std::uint64_t depth) {
    grow(depth);
    return 0;
}

// The root is a task of its own.
template <std::uint64_t (*Task)(std::uint64_t)>
static std::uint64_t run(std::uint64_t size) {
    std::uint64_t result;
    arena.execute([&result, size] {
        tbb::task_group root;
        root.run([&result, size] { result = Task(size); });
        root.wait();
    });
    return result;
}

int main(int count, char **words) {
    arena.execute([] {});
    return run_family(
        count, words,
        {{"fib", run<fib_task>}, {"grid", run<grid_task>}, {"chain", run<chain_task>}, {"tree", run<tree_task>}});
}
