// Writes the shelf stream of a family: a unit is rented, then for each request a settings sheet and the request.
//
//   families FAMILY DISKS BLOCKS REQUESTS            the stream
//   families FAMILY DISKS BLOCKS REQUESTS settings   the same stream without its requests, to be taken off a count
//
// Every number comes from one seed, so a stream is the same bytes wherever it is written; the first requests of a longer
// stream are those of a shorter one.
#include <algorithm>
#include <cstring>

#include "stream.hpp"

namespace {

const std::uint32_t unit = 7, tenancy = 300, longest_plan = 2964;

// The generator known as splitmix64.
struct Random {
  std::uint64_t state = 1;

  std::uint64_t next() {
    std::uint64_t z = state += 0x9e3779b97f4a7c15;
    z = (z ^ z >> 30) * 0xbf58476d1ce4e5b9;
    z = (z ^ z >> 27) * 0x94d049bb133111eb;
    return z ^ z >> 31;
  }

  std::uint32_t below(std::uint32_t bound) { return std::uint32_t(next() % bound); }
};

struct Row {
  std::uint32_t cost, load, delay;
};

struct Case {
  std::vector<Row> disks;
  std::vector<Copies> blocks;
};

// 001, Table III, average access times in microseconds.
const std::uint32_t access_times[] = {13200, 8300, 6100, 500, 200};

// R(2,10,2) of 001, section 6.5.
std::uint32_t two_to_ten(Random &random) { return 2000 * (1 + random.below(5)); }

// Two sites of half the disks each; delay of a site, load and cost of a disk (001, Table IV, Experiment 20).
std::vector<Row> two_sites(Random &random, std::uint32_t disks) {
  std::uint32_t delays[] = {two_to_ten(random), two_to_ten(random)};
  std::vector<Row> rows;
  for (std::uint32_t d = 0; d < disks; ++d)
    rows.push_back({access_times[random.below(5)], two_to_ten(random), delays[d < disks / 2 ? 0 : 1]});
  return rows;
}

// So many different disks of the first `disks`.
Copies draw(Random &random, std::uint32_t count, std::uint32_t disks) {
  Copies copies = 0;
  while (count > 0) {
    Copies disk = Copies(1) << random.below(disks);
    if (copies & disk) continue;
    copies |= disk;
    --count;
  }
  return copies;
}

// One random copy on each of two sites.
Case experiment_20(Random &random, std::uint32_t disks, std::uint32_t blocks) {
  Case made{two_sites(random, disks), {}};
  std::uint32_t half = disks / 2;
  for (std::uint32_t b = 0; b < blocks; ++b)
    made.blocks.push_back(draw(random, 1, half) | draw(random, 1, disks - half) << half);
  return made;
}

// Eight random copies.
Case eight_copies(Random &random, std::uint32_t disks, std::uint32_t blocks) {
  Case made{two_sites(random, disks), {}};
  for (std::uint32_t b = 0; b < blocks; ++b) made.blocks.push_back(draw(random, std::min(8u, disks), disks));
  return made;
}

// Costs that rise with the disk, loads that fall, and a window of eight disks for each block.
Case staircase(Random &random, std::uint32_t disks, std::uint32_t blocks) {
  Case made;
  for (std::uint32_t d = 0; d < disks; ++d) made.disks.push_back({1000 * (d + 1), 5000 * (disks - d), 0});
  std::uint32_t window = std::min(8u, disks);
  for (std::uint32_t b = 0; b < blocks; ++b)
    made.blocks.push_back(((Copies(1) << window) - 1) << random.below(disks - window + 1));
  return made;
}

// Every copy lies on one of the same eight disks: two random ones of them for each block.
Case eight_disks(Random &random, std::uint32_t disks, std::uint32_t blocks) {
  Case made{two_sites(random, disks), {}};
  for (std::uint32_t b = 0; b < blocks; ++b) made.blocks.push_back(draw(random, 2, std::min(8u, disks)));
  return made;
}

// Pairs {d, d + 1}, as many for each d, that lie well as they come; then as many blocks that lie on disk 0 only, each
// of which pushes a chain of moves through all disks.
Case chain(Random &random, std::uint32_t disks, std::uint32_t blocks) {
  Case made;
  std::uint32_t cost = access_times[random.below(5)], share = std::max(1u, blocks / disks);
  for (std::uint32_t d = 0; d < disks; ++d) made.disks.push_back({cost, 0, 0});
  for (std::uint32_t b = 0; b + share < blocks; ++b)
    made.blocks.push_back(Copies(3) << std::min(b / share, disks - 2));
  while (made.blocks.size() < blocks) made.blocks.push_back(1);
  return made;
}

// Cost 1 and loads to 100,000,000: the widest range of times, each block with two random copies.
Case cost_1(Random &random, std::uint32_t disks, std::uint32_t blocks) {
  Case made;
  for (std::uint32_t d = 0; d < disks; ++d) made.disks.push_back({1, random.below(100000001), 0});
  for (std::uint32_t b = 0; b < blocks; ++b) made.blocks.push_back(draw(random, 2, disks));
  return made;
}

// All blocks have the same eight copies.
Case same_copies(Random &random, std::uint32_t disks, std::uint32_t blocks) {
  Case made{two_sites(random, disks), {}};
  made.blocks.assign(blocks, draw(random, std::min(8u, disks), disks));
  return made;
}

const struct {
  const char *name;
  Case (*make)(Random &, std::uint32_t disks, std::uint32_t blocks);
} families[] = {
    {"experiment-20", experiment_20}, {"eight-copies", eight_copies}, {"staircase", staircase},
    {"eight-disks", eight_disks},     {"chain", chain},               {"cost-1", cost_1},
    {"same-copies", same_copies},
};

Bytes settings_sheet(const std::vector<Row> &disks) {
  Bytes sheet;
  for (std::uint32_t field : {std::uint32_t(1), unit, tenancy, std::uint32_t(disks.size())}) put(sheet, field);
  for (const Row &disk : disks)
    for (std::uint32_t field : {disk.cost, disk.load, disk.delay}) put(sheet, field);
  return sheet;
}

Bytes request_sheet(const std::vector<Copies> &blocks) {
  Bytes sheet;
  for (std::uint32_t field : {std::uint32_t(2), unit, tenancy, std::uint32_t(blocks.size())}) put(sheet, field);
  for (Copies copies : blocks) {
    put(sheet, std::uint32_t(__builtin_popcountll(copies)));
    for (std::uint32_t d = 0; d < 64; ++d)
      if (copies >> d & 1) put(sheet, d);
  }
  return sheet;
}

void put_sheet(Bytes &stream, const Bytes &sheet) {
  put(stream, std::uint32_t(sheet.size()));
  append(stream, sheet);
}

}  // namespace

int main(int count, char **words) {
  if (count != 5 && !(count == 6 && std::strcmp(words[5], "settings") == 0))
    stop("usage: families FAMILY DISKS BLOCKS REQUESTS [settings]");
  auto family = std::find_if(std::begin(families), std::end(families),
                             [&](const auto &one) { return std::strcmp(one.name, words[1]) == 0; });
  if (family == std::end(families)) stop("no such family");
  std::uint32_t disks = std::atoi(words[2]), blocks = std::atoi(words[3]), requests = std::atoi(words[4]);
  if (disks < 2 || disks > 64 || blocks > 1024) stop("2 to 64 disks and at most 1,024 blocks");

  Random random;
  Bytes stream;
  put(stream, unit);
  put(stream, 1);
  put(stream, tenancy);
  for (std::uint32_t made = 0; made < requests; ++made) {
    Case one = family->make(random, disks, blocks);
    put(stream, 2);
    put_sheet(stream, settings_sheet(one.disks));
    if (count == 6) continue;
    put(stream, 3);
    put(stream, longest_plan);
    put_sheet(stream, request_sheet(one.blocks));
  }
  return std::fwrite(stream.data(), 1, stream.size(), stdout) == stream.size() ? 0 : 2;
}
