// Writes a network of so many places as CSV from a seed. With no other argument: ten times as many lines both ways between
// any two places, which join them all. With the argument `railway`: places on a plane of 1,000 by 1,000 km, each joined to the
// nearest of the places before it, so that all are joined, and to its nearest until it has 2 to 5 lines; kilometres as the
// crow flies and a fifth more, minutes at 40 to 100 km an hour.
#include <algorithm>
#include <cmath>
#include <cstdint>
#include <cstdio>
#include <cstdlib>
#include <set>
#include <utility>
#include <vector>

static std::uint64_t state = 20'260'301;

static std::uint64_t below(std::uint64_t n) {
    state ^= state << 13;
    state ^= state >> 7;
    state ^= state << 17;
    return state % n;
}

static unsigned places;

static void any_lines() {
    for (unsigned line = 0; line < 10 * places; ++line) {
        // The first lines join each place to an earlier one.
        const unsigned from = line + 1 < places ? line + 1 : below(places);
        const unsigned to = line + 1 < places ? below(line + 1) : below(places);
        const unsigned km = 1 + below(1'000), minutes = 1 + below(1'000);
        std::printf("DE%05u,DE%05u,%u,%u,both\n", from, to, km, minutes);
    }
}

static void railway_lines() {
    std::vector<std::pair<double, double>> at;
    for (unsigned place = 0; place < places; ++place) {
        const double x = below(1'000'000) / 1'000.0, y = below(1'000'000) / 1'000.0;
        at.emplace_back(x, y);
    }
    std::set<std::pair<unsigned, unsigned>> joined;
    std::vector<unsigned> lines(places, 0);
    const auto join = [&](unsigned place, unsigned other, double far) {
        if (!joined.insert(std::minmax(place, other)).second) return;
        ++lines[place];
        ++lines[other];
        const unsigned km = std::max(1.0, std::round(far * 1.2));
        const unsigned minutes = std::max<unsigned>(1, km * 60 / (40 + below(61)));
        std::printf("DE%05u,DE%05u,%u,%u,both\n", place, other, km, minutes);
    };
    for (unsigned place = 0; place < places; ++place) {
        std::vector<std::pair<double, unsigned>> others;
        for (unsigned other = 0; other < places; ++other) {
            if (other == place) continue;
            others.emplace_back(std::hypot(at[other].first - at[place].first, at[other].second - at[place].second), other);
        }
        std::sort(others.begin(), others.end());
        const auto earlier = std::find_if(others.begin(), others.end(), [&](const auto &it) { return it.second < place; });
        if (earlier != others.end()) join(place, earlier->second, earlier->first);
        const unsigned wanted = 2 + below(4);
        for (unsigned k = 0; lines[place] < wanted; ++k) join(place, others[k].second, others[k].first);
    }
}

int main(int count, char **words) {
    if (count < 2) return 2;
    places = std::atoi(words[1]);
    std::puts("from,to,km,minutes,way");
    if (count > 2) railway_lines();
    else any_lines();
}
