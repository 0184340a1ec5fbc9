// The families on the tasks of OpenMP. A call is a task; it waits for its calls in place, so a chain is a loop.
#include "peer.hpp"

static std::uint64_t fib_task(std::uint64_t n) {
    if (n < 2) {
        return n;
    }
    std::uint64_t first, second;
#pragma omp task shared(first)
    first = fib_task(n - 1);
#pragma omp task shared(second)
    second = fib_task(n - 2);
#pragma omp taskwait
    return first + second;
}

static std::uint64_t grid_task(std::uint64_t depth) {
    if (depth == 0) {
        return 1;
    }
    std::uint64_t a, b, c, e;
#pragma omp task shared(a) priority(2)
    a = grid_task(depth - 1);
#pragma omp task shared(b) priority(1)
    b = grid_task(depth - 1);
#pragma omp task shared(c) priority(1)
    c = grid_task(depth - 1);
#pragma omp task shared(e) priority(0)
    e = grid_task(depth - 1);
#pragma omp taskwait
    return a + b + c + e;
}

static std::uint64_t chain_task(std::uint64_t n) {
    std::uint64_t sum = 0;
    for (; n > 0; n--) {
        std::uint64_t leaf;
#pragma omp task shared(leaf)
        leaf = n;
#pragma omp taskwait
        sum += leaf;
    }
    return sum;
}

// A task at depth 0 is done; any other spawns two. Nothing is handed back.
static void grow(std::uint64_t depth) {
    if (depth == 0) {
        return;
    }
#pragma omp task
    grow(depth - 1);
#pragma omp task
    grow(depth - 1);
#pragma omp taskwait
}

static std::uint64_t tree_task(std::uint64_t depth) {
    grow(depth);
    return 0;
}

// The root is a task of its own; it has ended where the parallel region ends.
template <std::uint64_t (*Task)(std::uint64_t)>
static std::uint64_t run(std::uint64_t size) {
    std::uint64_t result = 0;
#pragma omp parallel
#pragma omp single
#pragma omp task shared(result)
    result = Task(size);
    return result;
}

int main(int count, char **words) {
    // The first region starts the threads.
#pragma omp parallel
    {
    }
    return run_family(
        count, words,
        {{"fib", run<fib_task>}, {"grid", run<grid_task>}, {"chain", run<chain_task>}, {"tree", run<tree_task>}});
}
