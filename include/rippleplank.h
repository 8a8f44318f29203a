/*
 * rippleplank.h - the desk end of Rippleplank: write settings sheets and read requests, read plans.
 *
 * Link with librippleplank.a: cc program.c $(pkg-config --cflags --libs rippleplank). For C11 and C++11 or later.
 * docs/ABI.md has the layouts with worked examples.
 *
 * Glossary
 *   unit        the number of a rented shelf; any 32-bit number
 *   tenancy     the number of a hire; any 32-bit number but 0
 *   disk        one of a unit's N disks, 0 to N - 1; N is 1 to 64
 *   block       one of a request's Q blocks, 0 to Q - 1; Q is 0 to 1,024
 *   copies      the disks that hold a block, one 64-bit number: bit d stands for disk d
 *   cost, load, delay   a disk's microseconds for one block, still to work off, and of travel
 *   start       when a disk begins its first block: its delay and its load after each other or, where the
 *               wait overlaps the queue, the larger of both
 *   out         of a disk that was pulled: no block is read from it until settings have it in use again
 *   age         the microseconds since the settings were measured; each load counts as the load less the
 *               age, and as 0 if the age is larger
 *   R           the plan's time in microseconds
 *   short set   the m blocks that can not all be read one microsecond sooner
 *   refusal     0 accepted, else why not: RP_SHEET_ENDS and on, 1 to 16 and 20
 *   place       where a refused sheet is wrong: a byte of it, counted from 0, or its length
 *
 * What a caller owes, for every pointer: it is not null, its length is the number of bytes that may be
 * read there (or, for `out`, `disks` and `short_set`, written), and what is lent to be written overlaps
 * nothing else that is lent; lists that are only read may be one buffer.
 * For a length of 0 any valid address will do. Nothing else is asked: every number and every content
 * of a buffer has a determined answer, and a refused call changes no buffer.
 *
 * Lists of numbers are bytes, lowest byte first: 4 for a cost, load, delay or mark, 8 for a block's copies,
 * 2 for a block of the short set. rp_put32, rp_put64 and rp_get16 below set and get one.
 */
#ifndef RIPPLEPLANK_H
#define RIPPLEPLANK_H

#include <stddef.h>
#include <stdint.h>

#ifdef __cplusplus
extern "C" {
#endif

/*
 * The version of this header. That of the library which is linked is rp_version(). The first number is higher where a
 * function takes other arguments, the second where something was added or an answer is another.
 */
#define RP_VERSION "2.2.0"

/* The refusals. The desk end gives 1 to 9, 11, 15 and 16; a unit gives 10, 12 to 14 and 20 as well. */
enum {
    RP_ACCEPTED = 0,
    RP_SHEET_ENDS = 1,      /* the sheet ends inside a number or before one that is due */
    RP_BAD_NUMBER = 2,      /* a number is not in shortest form or is too large */
    RP_WRONG_KIND = 3,      /* the kind is not the one this call takes */
    RP_WRONG_UNIT = 4,      /* the unit number differs */
    RP_WRONG_TENANCY = 5,   /* not rented, or the tenancy differs */
    RP_OUT_OF_RANGE = 6,    /* a count is out of its range, or a writer's tenancy or lists are wrong */
    RP_NO_COPY = 7,         /* a block has no copies */
    RP_NOT_RISING = 8,      /* a disk or block is not above the one before it */
    RP_BYTES_FOLLOW = 9,    /* bytes follow the last field */
    RP_NO_SETTINGS = 10,    /* a read request before any settings */
    RP_NO_ROOM = 11,        /* the result is longer than the lent buffer */
    RP_RENTED = 12,         /* rent while rented */
    RP_NOT_ABOVE = 13,      /* rent not above the last tenancy */
    RP_NOT_THE_TENANT = 14, /* return while not rented, or of another tenancy */
    RP_BAD_AMOUNT = 15,     /* a cost, load, delay, rule, mark or plan time is out of its range, or a request of kind 2 has an age */
    RP_BAD_INDEX = 16,      /* a disk or block number is out of its range */
    RP_ALL_OUT = 20         /* all copies of a block are out */
};

/* The start rules of rp_write_settings_marked, and the marks of its disks. */
enum {
    RP_START_SUM = 1,       /* a disk starts at the sum of its delay and its load */
    RP_START_LARGER = 2,    /* at the larger of both */
    RP_IN_USE = 0,
    RP_OUT = 1
};

/* The kinds of a read request: one without an age, which means age 0, and one with it. */
enum {
    RP_REQUEST = 2,
    RP_AGED_REQUEST = 4
};

/* The limits of document 01, and of what has been added to it. */
enum {
    RP_MOST_DISKS = 64,
    RP_MOST_BLOCKS = 1024,
    RP_MOST_COPIES = 8,
    RP_MOST_COST = 1000000,       /* the least is 1 */
    RP_MOST_LOAD = 100000000,
    RP_MOST_DELAY = 1000000,
    RP_MOST_TIME = 1125000000,
    RP_LONGEST_SETTINGS = 717,    /* bytes, of any kind; an `out` of this length is never too short */
    RP_LONGEST_REQUEST = 9234,
    RP_LONGEST_PLAN = 2964
};

/*
 * Writes the settings sheet of a unit for a tenancy: one cost, load and delay for each disk. A disk
 * starts at the sum of its delay and its load.
 *
 * The lengths are in bytes; costs_len / 4 is the number of disks.
 * Accepted: out begins with the sheet, rp_length of the answer says how long it is, and what is in
 * out beyond that length is what it was.
 * Refused, in this order, with out unchanged:
 *   6   the tenancy is 0; the three lengths are not equal, or not a multiple of 4
 *   6   the number of disks is not 1 to 64
 *   15  disk by disk: a cost not 1 to 1,000,000, a load above 100,000,000, a delay above 1,000,000
 *   11  the sheet is longer than out_len; rp_place of the answer is its length, which is then enough
 * rp_place of the others is 0: there is no sheet yet.
 */
uint64_t rp_write_settings(uint32_t unit, uint32_t tenancy,
    const uint8_t *costs, size_t costs_len, const uint8_t *loads, size_t loads_len,
    const uint8_t *delays, size_t delays_len, uint8_t *out, size_t out_len);

/*
 * The same, of kind 5: every disk of the unit starts at the larger of its delay and its load, since it works
 * off its load while the request travels. All else is as above, the refusals and their order too.
 */
uint64_t rp_write_settings_overlap(uint32_t unit, uint32_t tenancy,
    const uint8_t *costs, size_t costs_len, const uint8_t *loads, size_t loads_len,
    const uint8_t *delays, size_t delays_len, uint8_t *out, size_t out_len);

/*
 * The same, of kind 6, with the start rule and a mark for each disk: RP_IN_USE, or RP_OUT for one that was
 * pulled, from which no block is then read. The marks are 32-bit numbers like the three lists beside them.
 * All disks may be out.
 * Refused, in this order, with out unchanged:
 *   6   the tenancy is 0; the four lengths are not equal, or not a multiple of 4
 *   6   the number of disks is not 1 to 64
 *   15  the rule is neither 1 nor 2
 *   15  disk by disk: a cost, load or delay as above, a mark that is neither 0 nor 1
 *   11  as above
 */
uint64_t rp_write_settings_marked(uint32_t unit, uint32_t tenancy, uint32_t rule,
    const uint8_t *costs, size_t costs_len, const uint8_t *loads, size_t loads_len,
    const uint8_t *delays, size_t delays_len, const uint8_t *marks, size_t marks_len,
    uint8_t *out, size_t out_len);

/*
 * Writes a read request: one number of copies for each block, bit d set where disk d holds one.
 *
 * kind is RP_REQUEST with an age of 0, or RP_AGED_REQUEST with any age, 0 too. disks is N, the number of
 * disks of the unit's table. copies_len is in bytes; copies_len / 8 is the number of blocks, and no blocks
 * is a request too.
 * An age of 100,000,000 (100 seconds) or more leaves nothing of any load: give that for anything older, as an
 * age ends at 4,294,967,295 (71.6 minutes).
 * Accepted: out begins with the sheet, rp_length of the answer says how long it is, and what is in
 * out beyond that length is what it was.
 * Refused, in this order, with out unchanged:
 *   3   the kind is neither 2 nor 4
 *   6   the tenancy is 0; copies_len is not a multiple of 8
 *   15  the kind is 2 and the age above 0
 *   6   disks is not 1 to 64, for no blocks as well; more than 1,024 blocks
 *   7, 6, 16   block by block: 7 no bit is set; 6 more than 8 bits are; 16 one at N or above is
 *   11  the sheet is longer than out_len; rp_place of the answer is its length, which is then enough
 * rp_place of the others is 0: there is no sheet yet.
 */
uint64_t rp_write_request(uint32_t kind, uint32_t unit, uint32_t tenancy, uint32_t age, uint32_t disks,
    const uint8_t *copies, size_t copies_len, uint8_t *out, size_t out_len);

/*
 * Reads a plan sheet of the unit and the tenancy that are expected.
 *
 * Accepted: rp_blocks, rp_time and rp_short_size of the answer are Q, R and m; disks begins with the
 * disk of each block, a byte each; short_set with the m blocks of the short set, rising, 2 bytes each.
 * All else in both lists is what it was. An odd last byte of short_set is not used.
 * Refused, by the first field of the sheet that is wrong, with both lists unchanged. rp_place of the
 * answer is the first byte of the number refused, but where another is told:
 *   1, 2   at any number: 1 the sheet ends inside it or before it, and the place is the sheet's length;
 *          2 it is not in shortest form or is too large; both come before the number's own checks
 *   3   the kind is not 3; the place is 0
 *   4   the unit is another
 *   5   the tenancy is another, or the tenancy expected is 0
 *   6   Q above 1,024; m not 1 to Q, or not 0 where Q is 0
 *   15  R not 1 to 1,125,000,000, or not 0 where Q is 0
 *   16  a disk above 63; a block of the short set not below Q
 *   8   a block of the short set is not above the one before it; the place is that of the one not above
 *   9   bytes follow the last field; the place is that of the first of them
 *   11  disks_len is below Q, or short_set_len below 2 m; rp_place is then no place but the entries
 *       needed: Q where disks is too short, else m (an entry of short_set has 2 bytes)
 */
uint64_t rp_read_plan(uint32_t unit, uint32_t tenancy, const uint8_t *sheet, size_t sheet_len,
    uint8_t *disks, size_t disks_len, uint8_t *short_set, size_t short_set_len);

/*
 * The version of the library that is linked, as RP_VERSION. The two are the same unless a header and a library of
 * different versions are installed.
 */
const char *rp_version(void);

/* The refusal in any answer, bits 0 to 7: 0 is accepted. */
static inline unsigned rp_refusal(uint64_t answer)
{
    return (unsigned)(answer & 0xFFu);
}

/*
 * Any refusal, bits 32 to 63: the place, counted from 0. With 11 (RP_NO_ROOM) it is what was needed: the length of a
 * writer's sheet, the entries of the plan reader's list. A writer's other refusals have place 0.
 */
static inline uint32_t rp_place(uint64_t answer)
{
    return (uint32_t)(answer >> 32);
}

/* A writer's acceptance, bits 32 to 63: the length written. */
static inline uint32_t rp_length(uint64_t answer)
{
    return (uint32_t)(answer >> 32);
}

/* The plan reader's acceptance, bits 8 to 18: Q, the number of blocks. */
static inline uint32_t rp_blocks(uint64_t answer)
{
    return (uint32_t)((answer >> 8) & 0x7FFu);
}

/* The plan reader's acceptance, bits 19 to 49: R, the plan's time in microseconds. */
static inline uint32_t rp_time(uint64_t answer)
{
    return (uint32_t)((answer >> 19) & 0x7FFFFFFFu);
}

/* The plan reader's acceptance, bits 50 to 60: m, the size of the short set. */
static inline uint32_t rp_short_size(uint64_t answer)
{
    return (uint32_t)((answer >> 50) & 0x7FFu);
}

/* Sets number i of a list of 32-bit numbers: costs, loads, delays, marks. */
static inline void rp_put32(uint8_t *list, size_t i, uint32_t value)
{
    size_t byte;
    for (byte = 0; byte < 4; byte++)
        list[4 * i + byte] = (uint8_t)(value >> (8 * byte));
}

/* Sets number i of a list of 64-bit numbers: copies. */
static inline void rp_put64(uint8_t *list, size_t i, uint64_t value)
{
    size_t byte;
    for (byte = 0; byte < 8; byte++)
        list[8 * i + byte] = (uint8_t)(value >> (8 * byte));
}

/* Number i of a list of 16-bit numbers: the short set. */
static inline uint16_t rp_get16(const uint8_t *list, size_t i)
{
    return (uint16_t)(list[2 * i] | ((unsigned)list[2 * i + 1] << 8));
}

/* A refusal in words. */
static inline const char *rp_refusal_words(unsigned refusal)
{
    switch (refusal) {
    case RP_ACCEPTED: return "accepted";
    case RP_SHEET_ENDS: return "the sheet ends inside a number or before one that is due";
    case RP_BAD_NUMBER: return "a number is not in shortest form or is too large";
    case RP_WRONG_KIND: return "the kind is not the one this call takes";
    case RP_WRONG_UNIT: return "the unit number differs";
    case RP_WRONG_TENANCY: return "not rented, or the tenancy differs";
    case RP_OUT_OF_RANGE: return "a count is out of its range, or a writer's tenancy or lists are wrong";
    case RP_NO_COPY: return "a block has no copies";
    case RP_NOT_RISING: return "a disk or block is not above the one before it";
    case RP_BYTES_FOLLOW: return "bytes follow the last field";
    case RP_NO_SETTINGS: return "a read request before any settings";
    case RP_NO_ROOM: return "the result is longer than the lent buffer";
    case RP_RENTED: return "rent while rented";
    case RP_NOT_ABOVE: return "rent not above the last tenancy";
    case RP_NOT_THE_TENANT: return "return while not rented, or of another tenancy";
    case RP_BAD_AMOUNT: return "a cost, load, delay, rule, mark or plan time is out of its range, or a request of kind 2 has an age";
    case RP_BAD_INDEX: return "a disk or block number is out of its range";
    case RP_ALL_OUT: return "all copies of a block are out";
    default: return "not a refusal of this version";
    }
}

#ifdef __cplusplus
}
#endif

#endif
