// Four threads that walk one workbench at once by ranges and readers of gwb.hpp. It finds wrong values by itself, and what two threads write at
// once under helgrind. The last line counts.
#include "gwb.hpp"
#include <cstdlib>
#include <iostream>
#include <thread>

using namespace gwb_session;

// How much is wrong with what the readers say of a block.
static long wrong(const Workbench &bench, Solid block, long rounds)
{
    long found = 0;
    for (long round = 0; round < rounds; round++) {
        std::size_t edges = 0;
        for (Face face : bench.faces(block))
            for (Edge edge : bench.edges_of(face)) {
                edges++;
                const auto faces = bench.faces_of(edge);
                found += faces[0] != face && faces[1] != face;
            }
        found += edges != 24 || bench.half_edges(Loop(1)).size() != 4 || bench.depth() != 1 || bench.half_edge_rows().size() != 24;
    }
    return found;
}

int main(int count, char **words)
{
    const long rounds = count > 1 ? std::atol(words[1]) : 2000;
    Workbench bench;
    const Solid block = bench.block({0, 0, 0}, {4, 4, 4});
    long found[4] = {};
    std::vector<std::thread> threads;
    for (long &mine : found)
        threads.emplace_back([&] { mine = wrong(bench, block, rounds); });
    for (std::thread &thread : threads)
        thread.join();
    int failed = 0;
    for (long mine : found)
        failed += mine != 0;
    std::cout << 4 - failed << " passed, " << failed << " failed\n";
    return failed != 0;
}
