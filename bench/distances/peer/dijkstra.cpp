// LEMON's Dijkstra from each place of a network that comes on standard input as CSV. Kilometres and minutes are
// compared as one number of 64 bits, kilometres above; the distances are kept in a table. The sums of all
// kilometres and minutes go to standard output, the time of searches and table to standard error, in microseconds.
#include <chrono>
#include <cstdint>
#include <cstdio>
#include <lemon/dijkstra.h>
#include <lemon/static_graph.h>
#include <string>
#include <tuple>
#include <unordered_map>
#include <utility>
#include <vector>
#include <algorithm>

using Graph = lemon::StaticDigraph;
using Lengths = Graph::ArcMap<std::int64_t>;

static std::vector<std::pair<int, int>> arcs;
static std::vector<std::int64_t> lengths;
static std::unordered_map<std::string, int> numbers;

static int number_of(const char *place) {
    return numbers.emplace(place, static_cast<int>(numbers.size())).first->second;
}

static void read_lines() {
    char from[8], to[8], way[5];
    long km, minutes;
    std::vector<std::tuple<int, int, std::int64_t>> lines;
    if (std::scanf("%*s") == EOF) return;
    while (std::scanf(" %7[^,],%7[^,],%ld,%ld,%4s", from, to, &km, &minutes, way) == 5) {
        const std::int64_t length = (static_cast<std::int64_t>(km) << 32) + minutes;
        const int a = number_of(from), b = number_of(to);
        lines.emplace_back(a, b, length);
        if (std::string(way) == "both") lines.emplace_back(b, a, length);
    }
    // A static graph wants its arcs in the order of their first places.
    std::stable_sort(lines.begin(), lines.end(), [](const auto &x, const auto &y) { return std::get<0>(x) < std::get<0>(y); });
    for (const auto &[a, b, length] : lines) {
        arcs.emplace_back(a, b);
        lengths.push_back(length);
    }
}

int main() {
    read_lines();
    const int places = static_cast<int>(numbers.size());
    const auto start = std::chrono::steady_clock::now();
    Graph graph;
    graph.build(places, arcs.begin(), arcs.end());
    Lengths length(graph);
    for (int arc = 0; arc < graph.arcNum(); ++arc) length[graph.arc(arc)] = lengths[arc];
    lemon::Dijkstra<Graph, Lengths> search(graph, length);
    std::vector<std::int64_t> table(static_cast<std::size_t>(places) * places, -1);
    for (int from = 0; from < places; ++from) {
        search.run(graph.node(from));
        for (int to = 0; to < places; ++to) {
            if (search.reached(graph.node(to))) table[static_cast<std::size_t>(from) * places + to] = search.dist(graph.node(to));
        }
    }
    const auto time = std::chrono::steady_clock::now() - start;
    std::uint64_t km = 0, minutes = 0;
    for (const std::int64_t distance : table) {
        if (distance < 0) continue;
        km += distance >> 32;
        minutes += distance & 0xffffffff;
    }
    std::printf("%lu %lu\n", km, minutes);
    std::fprintf(stderr, "%ld\n", static_cast<long>(std::chrono::duration_cast<std::chrono::microseconds>(time).count()));
}
