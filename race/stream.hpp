// A shelf stream: its numbers, in groups of seven bits, lowest first; its calls; and what a settings sheet and a read
// request say. Streams of the race are whole, so nothing is refused here: a damaged one ends the program.
#pragma once

#include <cstdint>
#include <cstdio>
#include <cstdlib>
#include <string>
#include <vector>

using Bytes = std::vector<std::uint8_t>;

[[noreturn]] inline void stop(const char *why) {
  std::fprintf(stderr, "race: %s\n", why);
  std::exit(2);
}

inline void put(Bytes &out, std::uint32_t value) {
  for (; value > 127; value >>= 7) out.push_back(std::uint8_t(value | 128));
  out.push_back(std::uint8_t(value));
}

inline void append(Bytes &out, const Bytes &more) { out.insert(out.end(), more.begin(), more.end()); }

inline Bytes all_of_standard_input() {
  Bytes bytes;
  std::uint8_t part[65536];
  while (std::size_t got = std::fread(part, 1, sizeof part, stdin)) bytes.insert(bytes.end(), part, part + got);
  return bytes;
}

// The bytes from `at` to `end`, read from the left.
struct Reader {
  const std::uint8_t *at, *end;

  bool done() const { return at == end; }

  std::uint32_t number() {
    std::uint32_t value = 0;
    for (int shift = 0;; shift += 7) {
      if (at == end) stop("the stream ends inside a number");
      std::uint32_t byte = *at++;
      value |= (byte & 127) << shift;
      if (byte < 128) return value;
    }
  }

  Reader sheet() {
    std::uint32_t length = number();
    if (length > std::size_t(end - at)) stop("the stream ends inside a sheet");
    Reader part{at, at + length};
    at += length;
    return part;
  }
};

// What a disk does: b blocks, b at least 1, end at start + b * cost (001, equation 5; start is delay and load).
struct Disk {
  std::int64_t cost, start;

  std::int64_t end(std::int64_t blocks) const { return start + blocks * cost; }

  // 001, Observation 3, with document 01's first case.
  std::int64_t capacity(std::int64_t time) const { return time < start ? 0 : (time - start) / cost; }
};

// The copies of a block, one bit a disk.
using Copies = std::uint64_t;

inline void read_settings(Reader sheet, std::vector<Disk> &disks) {
  for (int field = 0; field < 3; ++field) sheet.number();
  disks.resize(sheet.number());
  for (Disk &disk : disks) {
    disk.cost = sheet.number();
    disk.start = sheet.number();
    disk.start += sheet.number();
  }
}

inline void read_request(Reader sheet, std::vector<Copies> &blocks) {
  for (int field = 0; field < 3; ++field) sheet.number();
  blocks.assign(sheet.number(), 0);
  for (Copies &copies : blocks)
    for (std::uint32_t count = sheet.number(); count > 0; --count) copies |= Copies(1) << sheet.number();
}

// Goes over a stream's calls; `answer(disks, blocks)` is called for each read request.
template <typename Answer>
void for_each_request(Reader stream, Answer answer) {
  std::vector<Disk> disks;
  std::vector<Copies> blocks;
  stream.number();
  while (!stream.done()) switch (stream.number()) {
      case 1:
      case 4: stream.number(); break;
      case 2: read_settings(stream.sheet(), disks); break;
      case 3:
        stream.number();
        read_request(stream.sheet(), blocks);
        answer(disks, blocks);
        break;
      default: stop("a call that is none of the four");
    }
}
