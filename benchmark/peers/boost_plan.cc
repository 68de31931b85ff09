// The plan of a network file with all pairs by Boost's graph library:
//
//   boost_plan CALL FILE            prints the plan
//   boost_plan CALL FILE --times    prints the microseconds of all pairs, of the repairs, and of the plan, separated by tabs
//
// CALL is the call for all pairs: johnson, floyd_warshall, or dijkstra from each router.
#include <algorithm>
#include <boost/graph/adjacency_list.hpp>
#include <boost/graph/dijkstra_shortest_paths.hpp>
#include <boost/graph/floyd_warshall_shortest.hpp>
#include <boost/graph/johnson_all_pairs_shortest.hpp>
#include <chrono>
#include <cstdio>
#include <cstdlib>
#include <fstream>
#include <functional>
#include <iostream>
#include <iterator>
#include <limits>
#include <optional>
#include <string>
#include <tuple>
#include <vector>

// Johnson's call keeps its second weights in the graph.
using Weights = boost::property<boost::edge_weight_t, int, boost::property<boost::edge_weight2_t, int>>;
using Graph = boost::adjacency_list<boost::vecS, boost::vecS, boost::directedS, boost::no_property, Weights>;
using Rows = std::vector<std::vector<int>>;

// A pair that serves: class, D(S,y), y, tunnel cost, n, which is their order.
using Pair = std::tuple<int, int, int, int, int>;
using Answers = std::vector<std::optional<Pair>>;

// What Boost puts where no path leads.
constexpr int no_path = std::numeric_limits<int>::max();

// The cost of a direction under maintenance, over which no repair starts.
constexpr int maintenance = 65535;

// How many samples a time is the median of, and the least length of a sample: as in the benchmark.
constexpr int samples = 31;
constexpr std::chrono::microseconds least_sample(200);

// A link, or, with near and far for a and b, the link seen from one of its ends.
struct Link {
  int near, far, out, back;
};

// A router that a link leads to, and the cost of that hop.
struct Neighbour {
  int router, cost;
};

// What a network file says of routers and links, and the number of its prefixes.
struct Network {
  int routers, prefixes;
  std::vector<Link> links;
  std::vector<std::vector<Neighbour>> neighbours;
};

// The 16-bit number at a place of a file.
int word(const std::string &file, std::size_t place) {
  return static_cast<unsigned char>(file[place]) + 256 * static_cast<unsigned char>(file[place + 1]);
}

// Reads a network file, of which nothing is checked.
Network read(const char *path) {
  std::ifstream opened(path, std::ios::binary);
  const std::string file{std::istreambuf_iterator<char>(opened), {}};
  if (file.size() < 512) {
    std::cerr << "boost_plan: " << path << " is no network file\n";
    std::exit(1);
  }
  Network network{file[4], word(file, 8), {}, {}};
  network.neighbours.resize(network.routers);
  for (int k = 0; k < word(file, 6); k++) {
    const std::size_t place = 512 * (1 + k / 84) + 4 + 6 * (k % 84);
    const Link link{file[place], file[place + 1], word(file, place + 2), word(file, place + 4)};
    network.links.push_back(link);
    network.neighbours[link.near].push_back({link.far, link.out});
    network.neighbours[link.far].push_back({link.near, link.back});
  }
  return network;
}

// The library's graph of a network.
Graph build(const Network &network) {
  Graph graph(network.routers);
  for (const Link &link : network.links) {
    boost::add_edge(link.near, link.far, link.out, graph);
    boost::add_edge(link.far, link.near, link.back, graph);
  }
  return graph;
}

// All distances by Dijkstra's call, from each router.
void dijkstra(Graph &graph, Rows &rows) {
  for (std::size_t x = 0; x < rows.size(); x++) {
    auto row = boost::make_iterator_property_map(rows[x].begin(), boost::get(boost::vertex_index, graph));
    boost::dijkstra_shortest_paths(graph, x, boost::distance_map(row));
  }
}

// All distances by the call of that name.
void all_pairs(const std::string &call, Graph &graph, Rows &rows) {
  if (call == "johnson") {
    boost::johnson_all_pairs_shortest_paths(graph, rows);
  } else if (call == "floyd_warshall") {
    boost::floyd_warshall_all_pairs_shortest_paths(graph, rows);
  } else if (call == "dijkstra") {
    dijkstra(graph, rows);
  } else {
    std::cerr << "boost_plan: there is no call " << call << "\n";
    std::exit(2);
  }
}

// The routers, neither S nor E, that avoid the link on the way to E. They reach E, and so S and every first hop, since each
// link leads both ways: no sum over them has the number for no path in it.
std::vector<int> ends_of_repairs(const Rows &rows, const Link &link) {
  std::vector<int> ends;
  const int from_near = rows[link.near][link.far], from_far = rows[link.far][link.far];
  for (int y = 0; y < static_cast<int>(rows.size()); y++) {
    const int own = rows[y][link.far];
    if (own == no_path || y == link.near || y == link.far) continue;
    const int over = rows[y][link.near] + link.out + from_far, under = own + link.back + from_near;
    if (own < over && own < under) ends.push_back(y);
  }
  return ends;
}

// The first of the pairs that serve, if there is one.
std::optional<Pair> repair(const Network &network, const Rows &rows, const Link &link) {
  const std::vector<int> ends = ends_of_repairs(rows, link);
  const std::vector<int> &from_near = rows[link.near], &from_far = rows[link.far];
  std::optional<Pair> best;
  for (const Neighbour &hop : network.neighbours[link.near]) {
    if (hop.router == link.far || hop.cost >= maintenance) continue;
    const std::vector<int> &row = rows[hop.router];
    const int over = row[link.near] + link.out, under = row[link.far] + link.back;
    for (const int y : ends) {
      const int own = row[y];
      if (own >= over + from_far[y] || own >= under + from_near[y]) continue;
      const int pair_class = 4 + 2 * (y != hop.router) + !(rows[y][link.far] < from_near[link.far]);
      const Pair pair(pair_class, from_near[y], y, hop.cost + own, hop.router);
      if (!best || pair < *best) best = pair;
    }
  }
  return best;
}

// The repair of each link and end.
Answers repairs(const Network &network, const Rows &rows) {
  Answers answers;
  for (const Link &link : network.links) {
    answers.push_back(repair(network, rows, link));
    answers.push_back(repair(network, rows, {link.far, link.near, link.back, link.out}));
  }
  return answers;
}

// Adds numbers to a text, with a space before each.
void add(std::string &text, std::initializer_list<int> numbers) {
  for (const int number : numbers) text.append(" ").append(std::to_string(number));
}

// The text of the plan, as the program `plan` prints it.
std::string plan_text(const Network &network, const Answers &answers) {
  std::string text = "plan";
  add(text, {network.routers, static_cast<int>(network.links.size()), network.prefixes});
  text += "\n";
  for (std::size_t place = 0; place < answers.size(); place++) {
    const Link &link = network.links[place / 2];
    text += std::to_string(place / 2);
    if (place % 2 == 0) {
      add(text, {0, link.near, link.far});
    } else {
      add(text, {1, link.far, link.near});
    }
    if (answers[place]) {
      const auto [pair_class, distance, y, cost, hop] = *answers[place];
      add(text, {hop, y, pair_class, cost});
    } else {
      text += " none none none none";
    }
    text += "\n";
  }
  return text;
}

// How long so many calls take.
std::chrono::nanoseconds sample(const std::function<void()> &call, long count) {
  const auto start = std::chrono::steady_clock::now();
  for (long k = 0; k < count; k++) call();
  return std::chrono::steady_clock::now() - start;
}

// The median time of a call over all samples, each of as many calls as make it long enough.
double microseconds(const std::function<void()> &call) {
  long count = 1;
  while (sample(call, count) < least_sample) count *= 2;
  std::vector<double> times;
  for (int k = 0; k < samples; k++) times.push_back(sample(call, count).count() / 1000.0 / count);
  std::sort(times.begin(), times.end());
  return times[samples / 2];
}

// Hides from the compiler what becomes of a value, so that it is worked out.
template <class Value> void keep(const Value &value) { asm volatile("" : : "r"(&value) : "memory"); }

// Prints the plan of a file, or the times.
int main(int count, char **words) {
  if (count < 3) {
    std::cerr << "usage: boost_plan CALL FILE [--times]\n";
    return 2;
  }
  const std::string call = words[1];
  const Network network = read(words[2]);
  Graph graph = build(network);
  Rows rows(network.routers, std::vector<int>(network.routers));
  const auto pairs = [&] {
    all_pairs(call, graph, rows);
    keep(rows);
  };
  const auto plan = [&] {
    pairs();
    return plan_text(network, repairs(network, rows));
  };
  if (count == 3) {
    std::cout << plan();
    return 0;
  }
  const double first = microseconds(pairs);
  const double second = microseconds([&] { keep(repairs(network, rows)); });
  std::printf("%.1f\t%.1f\t%.1f\n", first, second, microseconds([&] { keep(plan()); }));
}
