// LEMON's NetworkSimplex on a table from standard input: TIMES. The table is numbers: how many wagons, orders and cells,
// then the penalty and the lack of each order, then the wagon, the order and the cost of each cell. An order sends a
// unit for each wagon that it lacks, over a cell to a wagon, which takes one, or past all wagons at its penalty. The
// cost goes to standard output, and the least time of the solver alone to standard error, in microseconds.
#include <chrono>
#include <cstdint>
#include <cstdio>
#include <cstdlib>
#include <lemon/network_simplex.h>
#include <lemon/smart_graph.h>
#include <vector>

using Graph = lemon::SmartDigraph;
using Simplex = lemon::NetworkSimplex<Graph, std::int64_t, std::int64_t>;

static long number() {
    long value = 0;
    if (std::scanf("%ld", &value) != 1) std::exit(1);
    return value;
}

int main(int, char **words) {
    const long wagons = number(), orders = number(), cells = number();
    Graph graph;
    Graph::ArcMap<std::int64_t> costs(graph), rooms(graph);
    Graph::NodeMap<std::int64_t> supplies(graph);
    std::vector<Graph::Node> wagon_at, order_at;
    const auto arc = [&](Graph::Node from, Graph::Node to, long cost, long room) {
        const Graph::Arc made = graph.addArc(from, to);
        costs[made] = cost;
        rooms[made] = room;
    };
    const Graph::Node end = graph.addNode();
    for (long i = 0; i < wagons; ++i) {
        wagon_at.push_back(graph.addNode());
        arc(wagon_at.back(), end, 0, 1);
    }
    std::vector<long> penalties;
    for (long j = 0; j < orders; ++j) penalties.push_back(number());
    for (long j = 0; j < orders; ++j) {
        const long lack = number();
        order_at.push_back(graph.addNode());
        supplies[order_at.back()] = lack;
        supplies[end] -= lack;
        arc(order_at.back(), end, penalties[j], lack);
    }
    for (long cell = 0; cell < cells; ++cell) {
        const long i = number(), j = number(), cost = number();
        arc(order_at[j], wagon_at[i], cost, 1);
    }
    std::int64_t least = -1, cost = 0;
    for (long turn = std::atol(words[1]); turn > 0; --turn) {
        Simplex simplex(graph);
        simplex.costMap(costs).upperMap(rooms).supplyMap(supplies);
        const auto start = std::chrono::steady_clock::now();
        if (simplex.run() != Simplex::OPTIMAL) return 1;
        const std::int64_t took = std::chrono::duration_cast<std::chrono::microseconds>(std::chrono::steady_clock::now() - start).count();
        if (least < 0 || took < least) least = took;
        cost = simplex.totalCost();
    }
    std::printf("%ld\n", static_cast<long>(cost));
    std::fprintf(stderr, "%ld\n", static_cast<long>(least));
}
