/*
 * A tenant's program, whole: it asks a shelf where to read the blocks of a reel, and books the next reel by the answer.
 *
 *     cc reel.c $(pkg-config --cflags --libs rippleplank) -o reel
 *     ./reel ask | shelf | ./reel book
 *
 * `reel ask` writes the calls of a hire: rent, settings, a read request, return. `reel book` reads the shelf's lines.
 */
#include <inttypes.h>
#include <stdio.h>
#include <string.h>

#include <rippleplank.h>

enum { UNIT = 7, TENANCY = 300, DISKS = 3, BLOCKS = 4 };

/* ---- reel ask ---- */

/* The settings, a number for each disk: all times in microseconds. */
static const uint32_t COSTS[DISKS] = { 4, 3, 10 }, LOADS[DISKS] = { 0, 2, 0 }, DELAYS[DISKS] = { 1, 0, 0 };

/* The reel: for each block the disks that hold a copy, bit d for disk d; of 64 bits, since there may be 64 disks. */
#define ON(disk) (UINT64_C(1) << (disk))
static const uint64_t COPIES[BLOCKS] = { ON(0) | ON(1), ON(0) | ON(1), ON(0) | ON(1), ON(1) | ON(2) };

/* Says why a call was refused, if it was, and at which byte of the sheet. */
static int refused(const char *what, uint64_t answer)
{
    if (rp_refusal(answer) == RP_ACCEPTED)
        return 0;
    fprintf(stderr, "reel: %s: refused %u (%s %" PRIu32 "): %s\n", what, rp_refusal(answer),
        rp_refusal(answer) == RP_NO_ROOM ? "needs" : "place", rp_place(answer), rp_refusal_words(rp_refusal(answer)));
    return 1;
}

/* A number of the stream is in groups of seven bits, lowest first; 128 is added to all but the last. */
static void put_number(uint32_t value)
{
    for (; value > 127; value /= 128)
        putchar((int)(128 + value % 128));
    putchar((int)value);
}

static void put_sheet(const uint8_t *sheet, uint32_t len)
{
    put_number(len);
    fwrite(sheet, 1, len, stdout);
}

static int ask(void)
{
    uint8_t costs[4 * DISKS], loads[4 * DISKS], delays[4 * DISKS], copies[8 * BLOCKS];
    uint8_t settings[RP_LONGEST_SETTINGS], request[RP_LONGEST_REQUEST];
    uint64_t set, asked;
    for (size_t d = 0; d < DISKS; d++) {
        rp_put32(costs, d, COSTS[d]);
        rp_put32(loads, d, LOADS[d]);
        rp_put32(delays, d, DELAYS[d]);
    }
    for (size_t b = 0; b < BLOCKS; b++)
        rp_put64(copies, b, COPIES[b]);
    set = rp_write_settings(UNIT, TENANCY, costs, sizeof costs, loads, sizeof loads, delays, sizeof delays, settings,
        sizeof settings);
    /* the loads were measured just now; a later request has RP_AGED_REQUEST and the microseconds since then */
    asked = rp_write_request(RP_REQUEST, UNIT, TENANCY, 0, DISKS, copies, sizeof copies, request, sizeof request);
    if (refused("settings", set) || refused("request", asked))
        return 1;
    put_number(UNIT);
    put_number(1);      /* rent */
    put_number(TENANCY);
    put_number(2);      /* settings */
    put_sheet(settings, rp_length(set));
    put_number(3);      /* a read request, with room for the longest plan */
    put_number(RP_LONGEST_PLAN);
    put_sheet(request, rp_length(asked));
    put_number(4);      /* return */
    put_number(TENANCY);
    return fflush(stdout) == 0 ? 0 : 1;
}

/* ---- reel book ---- */

/* The bytes of hex digits; how many there are. What is cut short or damaged here is refused by rp_read_plan. */
static size_t bytes_of(const char *hex, uint8_t *bytes, size_t most)
{
    size_t len = 0;
    unsigned byte;
    while (len < most && sscanf(hex + 2 * len, "%2x", &byte) == 1)
        bytes[len++] = (uint8_t)byte;
    return len;
}

static int show(const char *hex)
{
    uint8_t sheet[RP_LONGEST_PLAN], disks[RP_MOST_BLOCKS], short_set[2 * RP_MOST_BLOCKS];
    size_t len = bytes_of(hex, sheet, sizeof sheet);
    uint64_t plan = rp_read_plan(UNIT, TENANCY, sheet, len, disks, sizeof disks, short_set, sizeof short_set);
    if (refused("plan", plan))
        return 1;
    for (uint32_t b = 0; b < rp_blocks(plan); b++)
        printf("read block %" PRIu32 " from disk %u\n", b, disks[b]);
    printf("book the next reel at %" PRIu32 " microseconds\n", rp_time(plan));
    printf("it can't be sooner because of blocks");
    for (uint32_t i = 0; i < rp_short_size(plan); i++)
        printf(" %u", rp_get16(short_set, i));
    printf("\n");
    return 0;
}

/* All is well where there is a plan, and nothing that the shelf refused beside it: new settings, perhaps. */
static int book(void)
{
    static char line[2 * RP_LONGEST_PLAN + 16];
    unsigned number, place;
    int plans = 0, faults = 0, numbers;
    while (fgets(line, sizeof line, stdin) != NULL) {
        if (strchr(line, '\n') == NULL) {
            fprintf(stderr, "reel: the last line is cut: nothing is taken from it\n");
            faults++;
        } else if (strncmp(line, "plan ", 5) == 0) {
            plans++;
            faults += show(line + 5);
        } else if ((numbers = sscanf(line, "refused %u %u", &number, &place)) == 2) {
            faults += refused("the shelf", number | (uint64_t)place << 32);     /* as in an answer of the library */
        } else if (numbers == 1) {
            fprintf(stderr, "reel: the shelf: refused %u (an older shelf: no place): %s\n", number,
                rp_refusal_words(number));
            faults++;
        } else if (sscanf(line, "stopped %u", &number) == 1) {
            fprintf(stderr, "reel: the shelf stopped: the calls are damaged\n");
            faults++;
        }
    }
    if (plans == 0)
        fprintf(stderr, "reel: the shelf gave no plan\n");
    return plans > 0 && faults == 0 ? 0 : 1;
}

int main(int count, char **words)
{
    if (strcmp(rp_version(), RP_VERSION) != 0)
        fprintf(stderr, "reel: made for %s, and the library is %s\n", RP_VERSION, rp_version());
    if (count == 2 && strcmp(words[1], "ask") == 0)
        return ask();
    if (count == 2 && strcmp(words[1], "book") == 0)
        return book();
    fputs("usage: reel ask | shelf | reel book\n", stderr);
    return 2;
}
