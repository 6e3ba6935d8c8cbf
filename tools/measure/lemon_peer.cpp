// Solves a transportation network by LEMON's network simplex, to compare with: reads numbers from a file, prints the
// cost, each flow and each node's potential, and on standard error the seconds of the processor for making the graph
// and solving it.
//
//     lemon_peer FILE [block|list]
//
// Arcs are searched by blocks, which is LEMON's own choice, or by an altering list, which is faster where capacity is
// short. The numbers: rows, servers, arcs; the demand of each row; the capacity of each server; then row, server and cost of
// each arc.
#include <cstdio>
#include <cstdlib>
#include <ctime>
#include <string>
#include <vector>

#include <lemon/network_simplex.h>
#include <lemon/smart_graph.h>

namespace {

using Graph = lemon::SmartDigraph;
using Simplex = lemon::NetworkSimplex<Graph, long long, long long>;

[[noreturn]] void fail(const char* why)
{
    std::fprintf(stderr, "lemon_peer: %s\n", why);
    std::exit(2);
}

// The octets of a file, read whole.
std::string octets_of(const char* path)
{
    std::FILE* file = std::fopen(path, "rb");
    if (file == nullptr)
        fail("the file can't be opened");
    std::string octets;
    char piece[1 << 16];
    while (const std::size_t count = std::fread(piece, 1, sizeof piece, file))
        octets.append(piece, count);
    std::fclose(file);
    return octets;
}

// The numbers of a text, one after the other.
class Numbers {
public:
    explicit Numbers(const std::string& octets) : at(octets.c_str()) {}

    long long next()
    {
        while (*at == ' ' || *at == '\n')
            ++at;
        if (*at < '0' || *at > '9')
            fail("a number is missing");
        long long number = 0;
        for (; *at >= '0' && *at <= '9'; ++at)
            number = 10 * number + (*at - '0');
        return number;
    }

private:
    const char* at;
};

struct Network {
    std::vector<long long> demands, capacities;
    std::vector<int> rows, servers;
    std::vector<long long> costs;
};

Network read(Numbers numbers)
{
    const long long rows = numbers.next(), servers = numbers.next(), arcs = numbers.next();
    Network network;
    for (long long row = 0; row < rows; ++row)
        network.demands.push_back(numbers.next());
    for (long long server = 0; server < servers; ++server)
        network.capacities.push_back(numbers.next());
    for (long long arc = 0; arc < arcs; ++arc) {
        network.rows.push_back(static_cast<int>(numbers.next()));
        network.servers.push_back(static_cast<int>(numbers.next()));
        network.costs.push_back(numbers.next());
    }
    return network;
}

// The graph of a network: an arc of the graph for each of the network, and one from each server to a sink.
struct Model {
    Graph graph;
    std::vector<Graph::Node> rows, servers;
    std::vector<Graph::Arc> arcs;
    Graph::ArcMap<long long> costs{graph, 0}, capacities{graph, 0};
    Graph::NodeMap<long long> supplies{graph, 0};

    explicit Model(const Network& network)
    {
        graph.reserveNode(static_cast<int>(network.demands.size() + network.capacities.size() + 1));
        graph.reserveArc(static_cast<int>(network.costs.size() + network.capacities.size()));
        for (std::size_t row = 0; row < network.demands.size(); ++row)
            rows.push_back(graph.addNode());
        for (std::size_t server = 0; server < network.capacities.size(); ++server)
            servers.push_back(graph.addNode());
        const Graph::Node sink = graph.addNode();
        long long all = 0;
        for (std::size_t row = 0; row < rows.size(); ++row) {
            supplies[rows[row]] = network.demands[row];
            all += network.demands[row];
        }
        supplies[sink] = -all;
        for (std::size_t arc = 0; arc < network.costs.size(); ++arc) {
            arcs.push_back(graph.addArc(rows[network.rows[arc]], servers[network.servers[arc]]));
            costs[arcs.back()] = network.costs[arc];
            capacities[arcs.back()] = all;
        }
        for (std::size_t server = 0; server < servers.size(); ++server)
            capacities[graph.addArc(servers[server], sink)] = network.capacities[server];
    }
};

// How LEMON looks for the next arc, by its word.
Simplex::PivotRule rule_of(const std::string& word)
{
    if (word != "block" && word != "list")
        fail("name a rule: block or list");
    return word == "block" ? Simplex::BLOCK_SEARCH : Simplex::ALTERING_LIST;
}

// Prints the plan of a solved network with its potentials.
void print(const Simplex& simplex, const Model& model, const Network& network)
{
    std::printf("cost %lld\n", static_cast<long long>(simplex.totalCost()));
    for (std::size_t arc = 0; arc < model.arcs.size(); ++arc)
        if (const long long flow = simplex.flow(model.arcs[arc]))
            std::printf("use %d %d %lld\n", network.rows[arc], network.servers[arc], flow);
    for (const Graph::Node row : model.rows)
        std::printf("row %lld\n", simplex.potential(row));
    for (const Graph::Node server : model.servers)
        std::printf("server %lld\n", simplex.potential(server));
}

} // namespace

int main(int count, char** words)
{
    if (count < 2 || count > 3)
        fail("name a file");
    const Simplex::PivotRule rule = rule_of(count == 3 ? words[2] : "block");
    const std::string octets = octets_of(words[1]);
    const Network network = read(Numbers(octets));
    const std::clock_t begun = std::clock();
    const Model model(network);
    Simplex simplex(model.graph);
    simplex.upperMap(model.capacities).costMap(model.costs).supplyMap(model.supplies);
    const bool is_solved = simplex.run(rule) == Simplex::OPTIMAL;
    std::fprintf(stderr, "%.4f\n", static_cast<double>(std::clock() - begun) / CLOCKS_PER_SEC);
    if (is_solved)
        print(simplex, model, network);
    return is_solved ? 0 : 1;
}
