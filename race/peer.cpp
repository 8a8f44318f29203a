// The peer: R of each request of a shelf stream, and nothing more, by 001's Algorithm 4 over LEMON's Preflow.
//
//   peer paper    Algorithm 4 line by line
//   peer tuned    its network and its halving, with every means that LEMON gives and no flow that can be spared
//   peer merged   the tuned way on a smaller network, where equal blocks are one node; beyond 001
//
//   peer WAY runs   prints how many greatest flows each request took, in the place of R
//
// 001's times are real numbers and its disks have any speed; here both are whole, so capacities are whole and nothing is
// rounded. Where 001 as printed would go wrong on whole numbers, the line says what is done instead.
#include <lemon/preflow.h>
#include <lemon/smart_graph.h>
#include <lemon/static_graph.h>

#include <algorithm>
#include <cstring>
#include <limits>
#include <utility>

#include "stream.hpp"

namespace {

using Time = std::int64_t;
using Disks = std::vector<Disk>;
using Blocks = std::vector<Copies>;

struct Answer {
  Time time = 0;
  int flows = 0;
};

int lowest(Copies copies) { return __builtin_ctzll(copies); }

// ---------------------------------------------------------------- Algorithm 4 line by line

class Paper {
  using Graph = lemon::SmartDigraph;
  using Arc = Graph::Arc;

  const Disks &disks;
  const Blocks &blocks;
  const int wanted;
  Graph graph;
  Graph::ArcMap<int> caps{graph};
  Graph::ArcMap<int> flows{graph};
  Graph::Node s, t;
  std::vector<Arc> to_sink;
  std::vector<int> in_degree;
  lemon::Preflow<Graph> *max_flow = nullptr;
  int runs = 0;

  // Algorithm 1. A bucket has arcs to the disks that hold it, found from its copies and not by asking all disks (9, 10).
  void construct_flow_graph() {
    int count = int(disks.size());
    graph.reserveNode(wanted + count + 2);
    graph.reserveArc(wanted * 9 + count);
    for (int node = 0; node < wanted + count + 2; ++node) graph.addNode();            // 2, 3
    s = graph.nodeFromId(0);                                                          // 4
    t = graph.nodeFromId(wanted + count + 1);                                         // 5
    in_degree.assign(disks.size(), 0);
    for (int bucket = 0; bucket < wanted; ++bucket) {                                 // 6
      Graph::Node v = graph.nodeFromId(1 + bucket);
      caps[graph.addArc(s, v)] = 1;                                                   // 7, 8
      for (Copies left = blocks[bucket]; left != 0; left &= left - 1) {               // 9, 10
        int disk = lowest(left);
        caps[graph.addArc(v, graph.nodeFromId(1 + wanted + disk))] = 1;               // 11, 12
        ++in_degree[disk];
      }
    }
    for (int disk = 0; disk < count; ++disk) {                                        // 13
      to_sink.push_back(graph.addArc(graph.nodeFromId(1 + wanted + disk), t));        // 14, 16
      caps[to_sink.back()] = 0;                                                       // 15
    }
  }

  // MaxFlow of both algorithms: from nothing, as 001 has it, and the first phase only, which has the flow's value. When
  // the value is |Q| no excess is left and the flow is whole as well.
  int flow_value() {
    ++runs;
    max_flow->runMinCut();
    return max_flow->flowValue();
  }

  void set_caps(Time time) {
    for (std::size_t e = 0; e < disks.size(); ++e) caps[to_sink[e]] = int(disks[e].capacity(time));
  }

  // Algorithm 3.
  void binary_cap_scale() {
    Time min_speed = std::numeric_limits<Time>::max();                                // 1
    Time t_min = min_speed, t_max = 0;                                                // 2, 3
    Time count = Time(disks.size()), share = (wanted + count - 1) / count;
    for (const Disk &e : disks) {                                                     // 4
      t_max = std::max(t_max, e.end(wanted));                                         // 5, 6
      t_min = std::min(t_min, e.end(share));                                          // 7, 8
      min_speed = std::min(min_speed, e.cost);                                        // 9, 10
    }
    t_min -= min_speed;                                                               // 11
    bool lowered = false;                                                             // 12: r is 2.5 / N, at most a half
    // 13: also stops at a range of 1, which on whole numbers cannot be halved; the cost 1 would go on for ever.
    while (t_max - t_min >= min_speed && t_max - t_min > 1) {
      Time range = t_max - t_min;
      Time part = lowered || count < 5 ? range / 2 : range * 5 / (2 * count);         // 14
      Time t_mid = t_min + std::max<Time>(part, 1);
      set_caps(t_mid);                                                                // 15, 16
      if (flow_value() == wanted) {                                                   // 17, 18
        t_max = t_mid;                                                                // 19
        lowered = true;                                                               // 20
      } else {
        t_min = t_mid;                                                                // 22
      }
    }
    set_caps(t_min);                                                                  // 23, 24
  }

  // Algorithm 2.
  void capacity_inc_flow() {
    Time total_caps = 0;
    int value = 0;
    std::vector<std::size_t> edges;
    for (std::size_t e = 0; e < disks.size(); ++e) {                                  // 1
      total_caps += caps[to_sink[e]];                                                 // 2
      edges.push_back(e);
    }
    std::vector<Time> costs(disks.size());
    do {                                                                              // 3
      Time min_cost = std::numeric_limits<Time>::max();                               // 4
      edges.erase(std::remove_if(edges.begin(), edges.end(),                          // 5 to 8
                                 [&](std::size_t e) { return in_degree[e] <= caps[to_sink[e]]; }),
                  edges.end());
      for (std::size_t e : edges) {
        costs[e] = disks[e].end(caps[to_sink[e]] + 1);                                // 10
        min_cost = std::min(min_cost, costs[e]);                                      // 11, 12
      }
      for (std::size_t e : edges)                                                     // 13
        if (costs[e] == min_cost) {                                                   // 14
          ++caps[to_sink[e]];                                                         // 15
          ++total_caps;                                                               // 16
        }
      if (total_caps >= wanted) value = flow_value();                                 // 17, 18
    } while (value != wanted);                                                        // 19
  }

 public:
  Paper(const Disks &disks, const Blocks &blocks) : disks(disks), blocks(blocks), wanted(int(blocks.size())) {}

  // Algorithm 4.
  Answer answer() {
    Time least = 0;                                                                   // 1
    construct_flow_graph();                                                           // 2
    lemon::Preflow<Graph> preflow(graph, caps, s, t);
    preflow.flowMap(flows);
    max_flow = &preflow;
    binary_cap_scale();                                                               // 3
    capacity_inc_flow();                                                              // 4
    for (std::size_t e = 0; e < disks.size(); ++e)                                    // 5
      if (flows[to_sink[e]] > 0)                                                      // 6
        least = std::max(least, disks[e].end(flows[to_sink[e]]));                     // 7 to 9
    return {least, runs};
  }
};

// ---------------------------------------------------------------- the tuned ways
//
// What they have that Algorithm 4 has not: LEMON's fixed graph; a flow goes on from that of the last time which was not
// enough; both ends of the range start from 001's own bounds (Observation 1 below, Algorithm 5 above); a flow that is
// not enough raises the lower end by its least cut, and one that is enough lowers the upper end to its response time;
// no request for which the ends meet needs a flow at all.

// Equal blocks with their number; or, not merged, each block with the number 1.
struct Group {
  Copies copies;
  int size;
};

class Tuned {
  using Graph = lemon::StaticDigraph;
  using Flow = lemon::Preflow<Graph>;

  const Disks &disks;
  const int wanted;
  std::vector<Group> groups;
  std::vector<int> in_degree;
  Copies used = 0;
  Graph graph;
  Graph::ArcMap<int> caps{graph}, one{graph}, other{graph};
  Graph::ArcMap<int> *work = &one, *kept = &other;
  int first_disk = 0, first_to_sink = 0, s = 0, t = 0, runs = 0;

  void make_groups(Blocks blocks, bool merged) {
    if (merged) std::sort(blocks.begin(), blocks.end());
    for (Copies copies : blocks) {
      if (!merged || groups.empty() || groups.back().copies != copies) groups.push_back({copies, 0});
      ++groups.back().size;
    }
    for (const Group &group : groups) {
      used |= group.copies;
      for (Copies left = group.copies; left != 0; left &= left - 1) in_degree[lowest(left)] += group.size;
    }
  }

  // Algorithm 1, in LEMON's fixed graph, where the arcs lie in a row by their source.
  void construct_flow_graph() {
    int count = int(disks.size());
    first_disk = int(groups.size());
    s = first_disk + count;
    t = s + 1;
    std::vector<std::pair<int, int>> arcs;
    arcs.reserve(groups.size() * 9 + disks.size());
    for (int group = 0; group < first_disk; ++group)
      for (Copies left = groups[group].copies; left != 0; left &= left - 1)
        arcs.emplace_back(group, first_disk + lowest(left));
    first_to_sink = int(arcs.size());
    for (int disk = 0; disk < count; ++disk) arcs.emplace_back(first_disk + disk, t);
    for (int group = 0; group < first_disk; ++group) arcs.emplace_back(s, group);
    graph.build(t + 1, arcs.begin(), arcs.end());
    for (int arc = 0; arc < first_to_sink; ++arc) caps[Graph::arc(arc)] = groups[arcs[arc].first].size;
    for (int group = 0; group < first_disk; ++group)
      caps[Graph::arc(first_to_sink + count + group)] = groups[group].size;
  }

  // A disk's capacity, no more than the blocks that it holds (Observation 2).
  Time room(std::size_t e, Time time) const { return std::min<Time>(in_degree[e], disks[e].capacity(time)); }

  // The first time after `time` at which a disk can do one more.
  Time next_end(Time time) const {
    Time next = std::numeric_limits<Time>::max();
    for (std::size_t e = 0; e < disks.size(); ++e)
      if (room(e, time) < in_degree[e]) next = std::min(next, disks[e].end(room(e, time) + 1));
    return next;
  }

  // The first time at which some disks have room for so many blocks: no flow is needed (Observation 1).
  Time first_with_room(Time early, Time late, Time blocks, Copies some) const {
    while (late - early > 1) {
      Time middle = early + (late - early) / 2, sum = 0;
      for (Copies left = some; left != 0; left &= left - 1) sum += room(lowest(left), middle);
      (sum >= blocks ? late : early) = middle;
    }
    return late;
  }

  // The time of 001's online schedule (Algorithm 5: each block gets the copy that ends soonest), which is no less than R.
  Time soonest() const {
    std::vector<Time> next(disks.size());
    Time latest = 0;
    for (std::size_t e = 0; e < disks.size(); ++e) next[e] = disks[e].end(1);
    for (const Group &group : groups)
      for (int left = group.size; left > 0; --left) {
        int best = lowest(group.copies);
        for (Copies rest = group.copies & (group.copies - 1); rest != 0; rest &= rest - 1)
          if (next[lowest(rest)] < next[best]) best = lowest(rest);
        latest = std::max(latest, next[best]);
        next[best] += disks[best].cost;
      }
    return latest;
  }

  // Whether the greatest flow at a time is enough. It starts from the flow kept of an earlier time; the first phase has
  // its value.
  bool enough(Flow &flow, Time time) {
    for (std::size_t e = 0; e < disks.size(); ++e) caps[Graph::arc(first_to_sink + int(e))] = int(room(e, time));
    flow.flowMap(*work);
    if (runs++ == 0 || !flow.init(*kept)) flow.init();
    flow.startFirstPhase();
    return flow.flowValue() == wanted;
  }

  // Keeps the flow of a time that was not enough; the second phase makes it whole.
  void keep(Flow &flow) {
    flow.startSecondPhase();
    std::swap(work, kept);
  }

  // The response time of a flow that is enough (Algorithm 4, lines 5 to 9).
  Time response() const {
    Time latest = 0;
    for (std::size_t e = 0; e < disks.size(); ++e)
      if (int used = (*work)[Graph::arc(first_to_sink + int(e))]) latest = std::max(latest, disks[e].end(used));
    return latest;
  }

  // The first time at which the disks of the least cut have room for the blocks that lie on them alone: no less than
  // that is R.
  Time first_for_cut(const Flow &flow, Time early, Time late) const {
    Copies full = 0;
    for (std::size_t e = 0; e < disks.size(); ++e)
      if (flow.minCut(Graph::node(first_disk + int(e)))) full |= Copies(1) << e;
    Time inside = 0;
    for (const Group &group : groups)
      if ((group.copies & ~full) == 0) inside += group.size;
    return first_with_room(early, late, inside, full);
  }

  // Algorithm 3. Three tries close to the lower end come first, as 001's r is small at first; and the halving goes on
  // until no disk's end lies between, in the place of Algorithm 2's climb.
  Time halve(Flow &flow, Time t_min, Time t_max) {
    for (Time next; (next = next_end(t_min)) < t_max;) {
      Time t_mid = runs < 3 ? next : std::max(next, t_min + (t_max - t_min) / 2);
      if (enough(flow, t_mid)) {
        t_max = response();
      } else {
        t_min = first_for_cut(flow, t_mid, t_max) - 1;
        keep(flow);
      }
    }
    return t_max;
  }

 public:
  Tuned(const Disks &disks, const Blocks &blocks, bool merged)
      : disks(disks), wanted(int(blocks.size())), in_degree(disks.size()) {
    make_groups(blocks, merged);
  }

  Answer answer() {
    Time t_max = soonest();
    Time least = first_with_room(0, t_max, wanted, used);
    if (least == t_max) return {t_max, runs};
    construct_flow_graph();
    Flow flow(graph, caps, Graph::node(s), Graph::node(t));
    Time time = halve(flow, least - 1, t_max);
    return {time, runs};
  }
};

Answer answer(const char *way, const Disks &disks, const Blocks &blocks) {
  if (blocks.empty()) return {};
  if (std::strcmp(way, "paper") == 0) return Paper(disks, blocks).answer();
  return Tuned(disks, blocks, std::strcmp(way, "merged") == 0).answer();
}

}  // namespace

int main(int count, char **words) {
  bool known = false;
  for (const char *way : {"paper", "tuned", "merged"}) known |= count >= 2 && std::strcmp(words[1], way) == 0;
  bool flows = count == 3 && std::strcmp(words[2], "runs") == 0;
  if (!known || (count != 2 && !flows)) stop("usage: peer paper|tuned|merged [runs]");
  Bytes input = all_of_standard_input();
  for_each_request({input.data(), input.data() + input.size()}, [&](const Disks &disks, const Blocks &blocks) {
    Answer given = answer(words[1], disks, blocks);
    std::printf("%lld\n", flows ? (long long)given.flows : (long long)given.time);
  });
}
