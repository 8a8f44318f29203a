// From the lines of a shelf on standard input to the R of each plan: reads the plan sheets in hex and prints R, a line for
// each. A request that was refused prints as it is, so that it shows as a difference.
#include <iostream>

#include "stream.hpp"

namespace {

std::uint8_t half(char digit) {
  if (digit >= '0' && digit <= '9') return std::uint8_t(digit - '0');
  if (digit >= 'a' && digit <= 'f') return std::uint8_t(digit - 'a' + 10);
  stop("a plan that is not lower-case hex");
}

Bytes from_hex(const std::string &text) {
  Bytes bytes;
  for (std::size_t at = 0; at + 1 < text.size(); at += 2)
    bytes.push_back(std::uint8_t(half(text[at]) * 16 + half(text[at + 1])));
  return bytes;
}

// Kind, unit, tenancy, Q, then R.
std::uint32_t least_time(const Bytes &sheet) {
  Reader fields{sheet.data(), sheet.data() + sheet.size()};
  for (int field = 0; field < 4; ++field) fields.number();
  return fields.number();
}

}  // namespace

int main() {
  for (std::string line; std::getline(std::cin, line);) {
    if (line == "rented" || line == "set" || line == "returned") continue;
    if (line.compare(0, 5, "plan ") == 0)
      std::cout << least_time(from_hex(line.substr(5))) << '\n';
    else
      std::cout << line << '\n';
  }
}
