// The header from C++: it compiles without a warning, and its names link.
#include "rippleplank.h"

#include <cstdint>
#include <cstdio>
#include <cstring>

int main()
{
    std::uint8_t costs[4], loads[4], delays[4], out[RP_LONGEST_SETTINGS];
    rp_put32(costs, 0, 4);
    rp_put32(loads, 0, 0);
    rp_put32(delays, 0, 1);
    const std::uint64_t answer = rp_write_settings(7, 300, costs, 4, loads, 4, delays, 4, out, sizeof out);
    const std::uint64_t short_answer = rp_write_settings(7, 300, costs, 4, loads, 4, delays, 4, out, 7);
    rp_put32(costs, 0, 0);
    const std::uint64_t refused = rp_write_settings(7, 300, costs, 4, loads, 4, delays, 4, out, sizeof out);
    const bool good = rp_refusal(answer) == RP_ACCEPTED && rp_length(answer) == 8
        && std::memcmp(out, "\x01\x07\xAC\x02\x01\x04\x00\x01", 8) == 0 && std::strcmp(rp_version(), RP_VERSION) == 0
        && rp_refusal(short_answer) == RP_NO_ROOM && rp_place(short_answer) == 8
        && rp_refusal(refused) == RP_BAD_AMOUNT && rp_place(refused) == 0 && RP_BAD_INDEX == 16;
    std::puts(good ? "good" : "not good");
    return good ? 0 : 1;
}
