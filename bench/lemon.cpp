// The yardstick of bench/field.py: the runs of a folder by branch and bound over LEMON's network simplex.
//
//   g++ -std=c++20 -O2 -march=native -o lemon lemon.cpp     (Debian's liblemon-dev)
//   lemon FOLDER [NODES]    the optimum of each run, within a budget of nodes (50,000 without it)
//   lemon --least FOLDER    and how large the least tree of bounds is that shows it, and the least that shows the
//                           first gate word
//   lemon --relaxed FOLDER  each run's relaxed problem alone, no gate decided
//   lemon --read FOLDER     the pages are read, and nothing is solved
//
// Gates are decided in the order of bids.csv, the node of the greatest bound comes first (of equal bounds the older
// one), and every node is solved from nothing. A node whose relaxed activation has consistent prices is an incumbent
// and ends there. Money is in quarter-cents, as `mari clear` prints it. It knows scheduled runs, one a quarter, and
// groups and parents within a quarter; it makes no certificate, no intervals, no ledger, and leaves open which of
// several optimal gate words it finds.

#include <lemon/network_simplex.h>
#include <lemon/smart_graph.h>

#include <algorithm>
#include <charconv>
#include <ctime>
#include <fstream>
#include <functional>
#include <iostream>
#include <optional>
#include <queue>
#include <stdexcept>
#include <string>
#include <string_view>
#include <unordered_map>
#include <unordered_set>
#include <vector>

using Number = long long;
constexpr Number CAP = 9'999'900;  // cents
constexpr int NONE = -1;

// ---- reading: a plain reader of CSV on std

using Record = std::vector<std::string>;

// The fields of a line; one in double quotes may hold commas.
Record fields(std::string_view line) {
    Record record(1);
    bool quoted = false;
    for (char byte : line) {
        if (byte == '"') quoted = !quoted;
        else if (byte == ',' && !quoted) record.emplace_back();
        else if (byte != '\r') record.back() += byte;
    }
    return record;
}

// Hands each record below the header on.
void for_each_record(const std::string& path, const std::function<void(Record)>& take) {
    std::ifstream page(path);
    if (!page) throw std::runtime_error("can't read " + path);
    std::string line;
    std::getline(page, line);
    while (std::getline(page, line))
        if (!line.empty()) take(fields(line));
}

Number whole(std::string_view text) {
    Number number = 0;
    auto [end, error] = std::from_chars(text.data(), text.data() + text.size(), number);
    if (error != std::errc() || end != text.data() + text.size()) throw std::runtime_error("no number: " + std::string(text));
    return number;
}

Number cents(std::string_view text) {
    size_t point = std::min(text.find('.'), text.size());
    std::string digits(text.substr(0, point));
    std::string behind(point < text.size() ? text.substr(point + 1) : "");
    return whole(digits + (behind + "00").substr(0, 2));
}

struct Bid { std::string name; int zone; bool up; Number price, least, greatest; };
struct Border { int from, to; Number limit, back; };
struct Demand { int zone; Number mw, price; };
struct Run { int number, quarter; std::vector<Demand> demands; };

struct Books {
    std::unordered_map<std::string, int> zones;
    std::vector<Border> borders;
    std::unordered_map<int, std::vector<Bid>> bids;  // by quarter, in the order of the page
    std::unordered_map<std::string, std::string> group_of, parent_of;
    std::unordered_set<std::string> linked;
    std::vector<Run> runs;
};

Books read_folder(const std::string& folder) {
    Books books;
    auto zone = [&](const std::string& name) { return books.zones.at(name); };
    for_each_record(folder + "/zones.csv", [&](Record r) { books.zones.emplace(r.at(0), books.zones.size()); });
    for_each_record(folder + "/borders.csv", [&](Record r) {
        books.borders.push_back({zone(r.at(0)), zone(r.at(1)), whole(r.at(2)), whole(r.at(3))});
    });
    std::unordered_set<std::string> names;
    for_each_record(folder + "/bids.csv", [&](Record r) {
        if (!names.insert(r.at(0)).second) throw std::runtime_error("two bids have a name: " + r[0]);
        books.bids[whole(r.at(3))].push_back({r[0], zone(r.at(2)), r.at(4) == "up", cents(r.at(5)), whole(r.at(6)), whole(r.at(7))});
    });
    for_each_record(folder + "/links.csv", [&](Record r) {
        if (r.at(0) == "group") {
            books.group_of[r.at(2)] = r.at(1);
            books.linked.insert(r[2]);
        } else if (r[0] == "child") {
            books.parent_of[r.at(1)] = r.at(2);
            books.linked.insert({r[1], r[2]});
        } else throw std::runtime_error("links across quarters aren't known here");
    });
    std::unordered_set<int> quarters;
    for_each_record(folder + "/runs.csv", [&](Record r) {
        int quarter = whole(r.at(1));
        if (!quarters.insert(quarter).second) throw std::runtime_error("only one run a quarter is known here");
        books.runs.push_back({int(whole(r.at(0))), quarter, {}});
    });
    for_each_record(folder + "/demands.csv", [&](Record r) {
        Number mw = whole(r.at(2)), price = r.at(3).empty() ? (mw < 0 ? -CAP : CAP) : cents(r[3]);
        books.runs.at(whole(r.at(0)) - 1).demands.push_back({zone(r.at(1)), mw, price});
    });
    return books;
}

// ---- markets

struct Order { int zone, side; Number price, greatest; };  // side 1 injects, -1 withdraws
struct Gate { int order; Number least; int group, parent; };
struct Market {
    int zones;
    const std::vector<Border>& borders;
    std::vector<Order> orders;
    std::vector<Gate> gates;
};

Market market_of(const Books& books, const Run& run) {
    Market market{int(books.zones.size()), books.borders, {}, {}};
    std::unordered_map<std::string, int> gate_of, groups;
    auto bids = books.bids.find(run.quarter);
    for (const Bid& bid : bids == books.bids.end() ? std::vector<Bid>() : bids->second) {
        if (bid.least > 0 || books.linked.contains(bid.name)) {
            auto group = books.group_of.find(bid.name);
            auto parent = books.parent_of.find(bid.name);
            gate_of.emplace(bid.name, market.gates.size());
            market.gates.push_back({int(market.orders.size()), std::max(bid.least, Number(1)),
                                    group == books.group_of.end() ? NONE : groups.emplace(group->second, groups.size()).first->second,
                                    parent == books.parent_of.end() ? NONE : gate_of.at(parent->second)});
        }
        market.orders.push_back({bid.zone, bid.up ? 1 : -1, bid.price, bid.greatest});
    }
    for (const Demand& demand : run.demands)
        market.orders.push_back({demand.zone, demand.mw < 0 ? 1 : -1, demand.price, std::abs(demand.mw)});
    return market;
}

// ---- the relaxed problem of a prefix

// The word of a prefix: '1' where the gate is open, '0' where it is closed.
using Prefix = std::string;

class Relaxation {
    using Graph = lemon::SmartDigraph;
    using Simplex = lemon::NetworkSimplex<Graph, Number, Number>;

    const Market& market;
    Graph graph;
    std::vector<Graph::Arc> arcs;  // of the orders, between a hub and their zones, and then of the borders
    Graph::ArcMap<Number> low{graph}, high{graph}, cost{graph};
    Graph::NodeMap<Number> supply{graph, 0};
    std::optional<Simplex> simplex;

public:
    explicit Relaxation(const Market& market) : market(market) {
        std::vector<Graph::Node> nodes;
        for (int zone = 0; zone <= market.zones; zone++) nodes.push_back(graph.addNode());
        Graph::Node hub = nodes.back();
        for (const Order& order : market.orders) {
            Graph::Node zone = nodes[order.zone];
            arcs.push_back(order.side > 0 ? graph.addArc(hub, zone) : graph.addArc(zone, hub));
            set(arcs.size() - 1, 0, order.greatest, order.side * order.price);
        }
        for (const Border& border : market.borders) {
            arcs.push_back(graph.addArc(nodes[border.from], nodes[border.to]));
            set(arcs.size() - 1, -border.back, border.limit, 0);
        }
        simplex.emplace(graph, true);
        simplex->costMap(cost);
    }

    // The welfare of the relaxed optimum within the bounds of a prefix, or none where nothing lies within them.
    std::optional<Number> solve(const Prefix& prefix) {
        bound(prefix);
        // LEMON leaves its supplies shifted after a run that finds nothing, so they are set anew.
        simplex->supplyMap(supply).lowerMap(low).upperMap(high);
        if (simplex->run() != Simplex::OPTIMAL) return {};
        return -simplex->totalCost<Number>();
    }

    // Whether what was found last is feasible with its gates, and some prices are consistent with it.
    bool is_admissible() const { return keeps_gates() && has_prices(); }

private:
    void set(size_t at, Number least, Number greatest, Number price) {
        low[arcs[at]] = least, high[arcs[at]] = greatest, cost[arcs[at]] = price;
    }

    Number amount(size_t at) const { return simplex->flow(arcs[at]); }

    // An undecided gate is closed where an open one shares its group, or its parent is closed.
    void bound(const Prefix& prefix) {
        std::vector<bool> is_closed(market.gates.size());
        std::unordered_set<int> taken;
        for (size_t gate = 0; gate < prefix.size(); gate++)
            if (prefix[gate] == '1' && market.gates[gate].group != NONE) taken.insert(market.gates[gate].group);
        for (size_t gate = 0; gate < market.gates.size(); gate++) {
            auto [order, least, group, parent] = market.gates[gate];
            bool is_decided = gate < prefix.size();
            is_closed[gate] = is_decided ? prefix[gate] == '0' : taken.contains(group) || (parent != NONE && is_closed[parent]);
            low[arcs[order]] = is_decided && prefix[gate] == '1' ? least : 0;
            high[arcs[order]] = is_closed[gate] ? 0 : market.orders[order].greatest;
        }
    }

    bool keeps_gates() const {
        std::unordered_set<int> taken;
        for (const Gate& gate : market.gates) {
            if (amount(gate.order) == 0) continue;
            if (amount(gate.order) < gate.least) return false;
            if (gate.parent != NONE && amount(market.gates[gate.parent].order) == 0) return false;
            if (gate.group != NONE && !taken.insert(gate.group).second) return false;
        }
        return true;
    }

    bool has_prices() const {
        std::vector<Number> least(market.zones, -CAP), greatest(market.zones, CAP);
        std::vector<bool> is_gated(market.orders.size());
        for (const Gate& gate : market.gates) is_gated[gate.order] = true;
        for (size_t at = 0; at < market.orders.size(); at++) {
            auto [zone, side, price, most] = market.orders[at];
            if (is_gated[at] && amount(at) == 0) continue;
            bool runs = is_gated[at] || amount(at) > 0, has_more = amount(at) < most;
            if (side < 0) std::swap(runs, has_more);
            if (runs) least[zone] = std::max(least[zone], price);
            if (has_more) greatest[zone] = std::min(greatest[zone], price);
        }
        for (bool rose = true; rose;) {
            rose = false;
            auto raise = [&](int zone, int to) {
                if (least[zone] < least[to]) least[zone] = least[to], rose = true;
            };
            for (size_t at = 0; at < market.borders.size(); at++) {
                auto [from, to, limit, back] = market.borders[at];
                Number flow = amount(market.orders.size() + at);
                if (flow < limit) raise(from, to);
                if (flow > -back) raise(to, from);
            }
        }
        return std::equal(least.begin(), least.end(), greatest.begin(), std::less_equal());
    }
};

// ---- the search

struct Found { Number welfare; size_t nodes; bool is_optimal; };

class Search {
    const Market& market;
    Relaxation relaxation;

    bool may_open(const Prefix& prefix) const {
        auto [order, least, group, parent] = market.gates[prefix.size()];
        if (parent != NONE && prefix[parent] != '1') return false;
        for (size_t gate = 0; gate < prefix.size(); gate++)
            if (group != NONE && market.gates[gate].group == group && prefix[gate] == '1') return false;
        return true;
    }

    std::vector<Prefix> children(const Prefix& prefix) const {
        if (prefix.size() == market.gates.size()) return {};
        if (!may_open(prefix)) return {prefix + '0'};
        return {prefix + '0', prefix + '1'};
    }

public:
    explicit Search(const Market& market) : market(market), relaxation(market) {}

    Number relaxed() { return relaxation.solve("").value(); }

    Found best_bound_first(size_t budget) {
        struct Node { Number bound; size_t number; Prefix prefix; };
        auto comes_later = [](const Node& a, const Node& b) {
            return a.bound != b.bound ? a.bound < b.bound : a.number > b.number;
        };
        std::priority_queue<Node, std::vector<Node>, decltype(comes_later)> waiting(comes_later);
        Number best = relaxation.solve(Prefix(market.gates.size(), '0')).value();
        size_t made = 1, nodes = 0;
        waiting.push({best + 1, 0, ""});
        while (!waiting.empty() && waiting.top().bound > best) {
            if (nodes == budget) return {best, nodes, false};
            Prefix prefix = waiting.top().prefix;
            waiting.pop();
            nodes++;
            std::optional<Number> welfare = relaxation.solve(prefix);
            if (!welfare || *welfare <= best) continue;
            if (relaxation.is_admissible()) {
                best = *welfare;
                continue;
            }
            for (Prefix& child : children(prefix)) waiting.push({*welfare, made++, child});
        }
        return {best, nodes, true};
    }

    // The nodes of the least tree in the order of gates: below a node whose relaxed welfare exceeds the optimum there
    // are more, for no bound ends the tree there. For the first optimal word nodes that reach the optimum are branched
    // too, until that word is met.
    size_t least_tree(Number optimum, size_t budget, bool of_first_word) {
        is_met = !of_first_word;
        return nodes_from("", optimum, budget);
    }

private:
    bool is_met = false;

    size_t nodes_from(const Prefix& prefix, Number optimum, size_t budget) {
        std::optional<Number> welfare = relaxation.solve(prefix);
        size_t nodes = 1;
        if (!welfare || *welfare < optimum) return nodes;
        if (*welfare == optimum && (is_met || meets(prefix, optimum))) return nodes;
        for (const Prefix& child : children(prefix))
            if (nodes < budget) nodes += nodes_from(child, optimum, budget - nodes);
        return nodes;
    }

    // Whether an optimal activation opens no further gate.
    bool meets(Prefix prefix, Number optimum) {
        prefix.resize(market.gates.size(), '0');
        is_met = relaxation.solve(prefix) == optimum && relaxation.is_admissible();
        return is_met;
    }
};

// ---- the command

double processor_seconds() { return double(std::clock()) / CLOCKS_PER_SEC; }

int answer(const std::vector<std::string>& words) {
    bool has_mode = words.at(0).starts_with("--");
    std::string mode = has_mode ? words[0] : "";
    const std::string& folder = words.at(has_mode);
    size_t budget = words.size() > 1u + has_mode ? whole(words[1 + has_mode]) : 50'000;
    Books books = read_folder(folder);
    double began = processor_seconds();
    Number sum = 0;
    size_t nodes = 0;
    bool all_optimal = true;
    for (const Run& run : mode == "--read" ? std::vector<Run>() : books.runs) {
        Market market = market_of(books, run);
        Search search(market);
        Found found = mode == "--relaxed" ? Found{search.relaxed(), 1, true} : search.best_bound_first(budget);
        std::cout << "run " << run.number << (found.is_optimal ? " welfare " : " above ") << found.welfare << " nodes " << found.nodes;
        if (mode == "--least")
            std::cout << " least " << search.least_tree(found.welfare, budget, false) << " first " << search.least_tree(found.welfare, budget, true);
        std::cout << "\n";
        sum += found.welfare, nodes += found.nodes;
        all_optimal = all_optimal && found.is_optimal;
    }
    double took = processor_seconds() - began;
    std::cout << "sum " << sum << " nodes " << nodes << " bids " << books.bids.size() << " seconds " << took << "\n";
    return all_optimal ? 0 : 1;
}

int main(int count, char** words) {
    if (count < 2) {
        std::cerr << "usage: lemon [--least | --relaxed | --read] FOLDER [NODES]\n";
        return 2;
    }
    try {
        return answer({words + 1, words + count});
    } catch (const std::exception& error) {
        std::cerr << "lemon: " << error.what() << "\n";
        return 2;
    }
}
