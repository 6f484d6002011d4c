/*
 * blockplan: which flash block of a map relay to give up, with evidence that anyone can check.
 *
 * A picture is the state of one relay's network as bytes. Evidence says which block was chosen and why. The library is proved: on every input
 * each call ends, reads and writes inside its buffers and lists only, and gives the answer that docs/FORMAT.md fixes. That page has formats, words
 * and numbers in full, with an example byte by byte; it follows the scope document, "01" below. Link with libblockplan_c.a (x86-64, System V
 * calls), which `rt lib` in crates/blockplan_c makes; besides the eight calls it names only memcpy and memset.
 *
 * WORDS. Location 0 is the origin (01: the office); locations 1 to n are slots, in blocks of so many slots each, counted from 0. Links lead from
 * location to location, service links (01: serving links) from a location to an endpoint (01: a cab). A slot is held, recoverable or freed; near
 * slots lie in the small fast store. A chain leads from the origin over links through held slots; an endpoint is served if a chain ends at a location
 * with a service link to it. A block cuts the endpoints that are served, and would not be without its slots. An endpoint has a chain of held or
 * recoverable slots if one that goes over slots which are not freed ends at such a location.
 *
 * ANSWERS. 0 or a length is success. A refusal is minus one of the numbers below, that of the first fault in the page's order; then no byte of
 * any buffer has changed.
 *
 * WHAT A CALLER OWES, and no call can test:
 * - Each pointer points to as many bytes as the length says, or to as many rows as the count says, also where that is 0: a null pointer is never
 *   allowed. For bytes and bools any alignment will do; lists of uint16_t and of uint32_t are aligned as C aligns them.
 * - Each bool is 0 or 1. What a call does with another value in its byte is undefined.
 * - The buffers of a call do not overlap, and no list overlaps the buffer that the picture is written to.
 * - One call at a time on a buffer: while a call runs, nothing else (thread, interrupt, DMA) touches a buffer that it writes, or writes a buffer
 *   or list that it reads.
 * Nothing else is asked of what bytes and lists hold, of how long they are, or of a block's number or size. Hand over all bytes of a picture that
 * came, or at least one more than BLOCKPLAN_PICTURE_MAX: a picture that is cut off there could pass for a whole one.
 *
 * MEMORY. Nothing is allocated and nothing is kept between calls. A call takes at most BLOCKPLAN_STACK bytes of stack.
 */
#ifndef BLOCKPLAN_H
#define BLOCKPLAN_H

#include <stdbool.h>
#include <stddef.h>
#include <stdint.h>

#ifdef __cplusplus
extern "C" {
#endif

/*
 * THE PICTURE. There are two editions, which differ in the width w of a location: 8 bits in edition 1, and 12 in edition 2. Fields are packed
 * most significant bit first, without gaps:
 *
 *   header          edition 4, block size 4, slots n w, near limit w, endpoints D 8, links L 12, service links S 12
 *   n slots         state 2 (0 held, 1 recoverable, 2 freed), near 1
 *   D endpoints     weight 16, protected 1
 *   L links         from w, to w (locations, 0 to n)
 *   S service links location w (0 to n), endpoint 8 (1 to D)
 *   zero bits up to the byte, then the end
 *
 * n is a multiple of the block size. A buffer of BLOCKPLAN_PICTURE_MAX bytes is long enough for every picture of either edition. The limits,
 * where one argument is the edition, 1 or 2:
 */
#define BLOCKPLAN_BLOCK_SIZE_MAX 15
#define BLOCKPLAN_SLOTS_MAX_OF(edition) ((edition) == 2 ? 320 : 240)
#define BLOCKPLAN_NEAR_LIMIT_MAX_OF(edition) ((edition) == 2 ? 4095 : 255)
#define BLOCKPLAN_SLOTS_MAX 320 /* in either edition */
#define BLOCKPLAN_BLOCKS_MAX 60
#define BLOCKPLAN_ENDPOINTS_MAX 200
#define BLOCKPLAN_LINKS_MAX 2000 /* links, and as many service links */
#define BLOCKPLAN_PICTURE_MAX 11553

/* Traffic records, which price takes: each has its endpoint in one byte and a weight in two, high byte first. */
#define BLOCKPLAN_RECORD_BYTES 3
#define BLOCKPLAN_RECORDS_MAX 60000

/*
 * EVIDENCE, all of it whole bytes but for the first:
 *
 *   head            edition 4 (the picture's), verdict 4 (1 chosen, 0 none), block 8, candidates C 8, served weight 24, loss 24
 *   forest          n times parent w, depth w, which are whole bytes together: how each slot is reached; 0 and 0 where it is not
 *   C sections      block 8, loss 24, mark 8 (1 where it cuts a protected endpoint), and the forest without that block
 *
 * For "none", block and loss are 0. A buffer of BLOCKPLAN_EVIDENCE_MAX bytes is long enough for every picture of either edition.
 */
#define BLOCKPLAN_NODE_BYTES(edition) ((edition) == 2 ? 3 : 2)
#define BLOCKPLAN_FOREST_BYTES(edition, slots) (BLOCKPLAN_NODE_BYTES(edition) * (slots))
#define BLOCKPLAN_EVIDENCE_BYTES(edition, slots, candidates) \
    (9 + BLOCKPLAN_FOREST_BYTES(edition, slots) + (candidates) * (5 + BLOCKPLAN_FOREST_BYTES(edition, slots)))
#define BLOCKPLAN_EVIDENCE_MAX 55209

/* The edition that a picture or evidence says, from a pointer to its first byte. */
#define BLOCKPLAN_EDITION(bytes) ((unsigned)(bytes)[0] >> 4)

/* The other fields of the head, from a pointer to the first byte of evidence that choose wrote or check passed: there are nine bytes at least. */
#define BLOCKPLAN_VERDICT(evidence) ((unsigned)(evidence)[0] & 15u)
#define BLOCKPLAN_BLOCK(evidence) ((uint32_t)(evidence)[1])
#define BLOCKPLAN_CANDIDATES(evidence) ((uint32_t)(evidence)[2])
#define BLOCKPLAN_SERVED(evidence) BLOCKPLAN_24_BITS((evidence) + 3)
#define BLOCKPLAN_LOSS(evidence) BLOCKPLAN_24_BITS((evidence) + 6)
#define BLOCKPLAN_24_BITS(at) ((uint32_t)(at)[0] << 16 | (uint32_t)(at)[1] << 8 | (uint32_t)(at)[2])

/* The most stack that a call takes, in bytes. */
#define BLOCKPLAN_STACK 40960

/*
 * The numbers of refusals. Every call judges the picture first (1 to 7, 17 and 18, in the page's order: the picture's numbers); write, which is
 * handed the lists of one, judges these by the same rules in the same order (2 to 6, 17 and 18), and generate its sizes (3 and 4).
 */
enum blockplan_refusal {
    BLOCKPLAN_REFUSED_SHORT = 1,             /* the picture is shorter than its edition's header, or than that says */
    BLOCKPLAN_REFUSED_EDITION = 2,           /* the edition is neither 1 nor 2 */
    BLOCKPLAN_REFUSED_BLOCKS = 3,            /* block size, slots or number of blocks out of range, or slots not a multiple of the block size;
                                                write: also where states and near bits differ in number, or the near
                                                limit is too wide for its field */
    BLOCKPLAN_REFUSED_COUNTS = 4,            /* number of endpoints, links or service links out of range;
                                                write: also where weights and protected bits differ in number;
                                                generate: also where there are service links and no endpoint */
    BLOCKPLAN_REFUSED_STATE = 5,             /* a slot in state 3; write: in state 3 or above */
    BLOCKPLAN_REFUSED_LINK = 6,              /* an end of a link is above n */
    BLOCKPLAN_REFUSED_FILL = 7,              /* fill bits not zero, or bytes left */
    BLOCKPLAN_REFUSED_NO_BLOCK = 8,          /* the acts: no block of this number */
    BLOCKPLAN_REFUSED_BUFFER = 9,            /* choose, write, generate: the buffer is under the length of the evidence, or of the
                                                picture; price: there are fewer counters than BLOCKPLAN_BLOCKS_MAX */
    BLOCKPLAN_REFUSED_PROTECTED = 10,        /* evict, free: a protected endpoint would be cut; free: also where one would lose its last
                                                chain of held or recoverable slots */
    BLOCKPLAN_REFUSED_NO_CHANGE = 11,        /* the acts: no slot would change */
    BLOCKPLAN_REFUSED_NEAR = 12,             /* reload: it adds a held near slot, and more than the near limit would be held */
    BLOCKPLAN_REFUSED_FORM = 13,             /* check: length, edition or candidate count wrong, a section of another block, a verdict or
                                                mark over 1 */
    BLOCKPLAN_REFUSED_FOREST = 14,           /* check: a forest breaks its rules */
    BLOCKPLAN_REFUSED_WEIGHT = 15,           /* check: served weight, a loss or a mark is wrong */
    BLOCKPLAN_REFUSED_VERDICT = 16,          /* check: verdict, block or loss is not what sections and forests imply */
    BLOCKPLAN_REFUSED_SERVICE_LOCATION = 17, /* the location of a service link is above n */
    BLOCKPLAN_REFUSED_SERVICE_ENDPOINT = 18, /* the endpoint of a service link is 0 or above D */
    BLOCKPLAN_REFUSED_LINK_START = 19,       /* price: a link starts elsewhere than at the origin */
    BLOCKPLAN_REFUSED_RECORDS = 20,          /* price: the records' length is no multiple of three, or that of more than
                                                BLOCKPLAN_RECORDS_MAX records */
    BLOCKPLAN_REFUSED_RECORD_ENDPOINT = 21   /* price: the endpoint of a record is 0 or above D */
};

/*
 * Chooses the block to give up: of the blocks with a held near slot that cut no protected endpoint the one that loses least weight; of those
 * that lose as much the one that cuts fewest endpoints, also counting those of weight 0; of those the one with the lowest number; or none.
 * Writes the evidence for it into the buffer and returns its length; the bytes beyond stay as they were. Verdict, block and loss are in its
 * head (the macros above). Refuses with the picture's numbers, then 9.
 */
int32_t blockplan_choose(const uint8_t *picture, size_t picture_length, uint8_t *evidence, size_t evidence_length);

/*
 * Checks evidence, from whatever maker, against a picture. Returns 0 where it keeps all rules. Any other evidence that passes for the
 * same picture has the same verdict and the same loss and, with verdict 1, names a block that cuts as many endpoints. Refuses with the
 * picture's numbers, then 13 to 16.
 */
int32_t blockplan_check(const uint8_t *picture, size_t picture_length, const uint8_t *evidence, size_t evidence_length);

/*
 * The acts change the states of one block's slots in the lent picture, and no other bit. Each returns 0 when it is done. Refuses with the
 * picture's numbers, then 8, 11, and then evict and free with 10, reload with 12.
 *
 * evict: held slots become recoverable. reload: recoverable slots become held. free: held and recoverable slots become freed, for good. So
 * free gets 10 also where a protected endpoint, served or not, would lose its last chain of held or recoverable slots, whatever the near
 * limit.
 *
 * Through any list of these calls on a picture that they accept, refused ones among them, a protected endpoint that is served stays served,
 * and one with a chain of held or recoverable slots keeps one.
 */
int32_t blockplan_evict(uint8_t *picture, size_t picture_length, uint32_t block);
int32_t blockplan_reload(uint8_t *picture, size_t picture_length, uint32_t block);
int32_t blockplan_free(uint8_t *picture, size_t picture_length, uint32_t block);

/*
 * Writes the picture of a network that is told by lists, as a layout editor has them, in an edition into the buffer and returns its length; the
 * bytes beyond stay as they were. The other calls accept the picture. Each list is a pointer and its number of rows, and these numbers are n, D, L
 * and S:
 *
 *   slots 1 to n      states (0 held, 1 recoverable, 2 freed) and is_near, a row of each for a slot
 *   endpoints 1 to D  weights and is_protected, a row of each for an endpoint
 *   L links           from, to (locations, 0 to n)
 *   S service links   location (0 to n), endpoint (1 to D)
 *
 * Refuses, in this order, with
 *
 *   2   where the edition is neither 1 nor 2
 *   3   where state_count and near_count differ; where the block size is 0 or above BLOCKPLAN_BLOCK_SIZE_MAX, or n is 0, above
 *       BLOCKPLAN_SLOTS_MAX_OF(edition) or no multiple of the block size, or there are more than BLOCKPLAN_BLOCKS_MAX blocks; where the near limit
 *       is above BLOCKPLAN_NEAR_LIMIT_MAX_OF(edition)
 *   4   where weight_count and protected_count differ; where D is above BLOCKPLAN_ENDPOINTS_MAX, or L or S above BLOCKPLAN_LINKS_MAX
 *   5   where a state is above 2
 *   6   where an end of a link is above n
 *   17  where the location of a service link is above n, or
 *   18  where its endpoint is 0 or above D: one service link after another, each one's location before its endpoint
 *   9   where the buffer is shorter than the picture
 *
 * Rows of links that are not const take a cast, (const uint16_t (*)[2])links, in C before C23.
 */
int32_t blockplan_write(uint32_t edition, uint32_t block_size, uint16_t near_limit, const uint8_t *states, size_t state_count,
                        const bool *is_near, size_t near_count, const uint16_t *weights, size_t weight_count, const bool *is_protected,
                        size_t protected_count, const uint16_t (*links)[2], size_t link_count, const uint16_t (*service_links)[2],
                        size_t service_link_count, uint8_t *picture, size_t picture_length);

/*
 * Fills a picture of edition 1 with draws from a seed and returns its length; the bytes beyond stay as they were. The other calls accept the
 * picture. n is the block size times the number of blocks, and so is the near limit. The same arguments give the same bytes on every machine: a
 * load that can be repeated, and no network that anyone has. The page says how the draws of SplitMix64 fill the fields.
 *
 * Refuses, in this order, with
 *
 *   3   where the block size is 0 or above BLOCKPLAN_BLOCK_SIZE_MAX, there is no block or more than BLOCKPLAN_BLOCKS_MAX, or n is above
 *       BLOCKPLAN_SLOTS_MAX_OF(1)
 *   4   where there are more endpoints than BLOCKPLAN_ENDPOINTS_MAX, or more links or service links than BLOCKPLAN_LINKS_MAX, or service links
 *       and no endpoint
 *   9   where the buffer is shorter than the picture
 */
int32_t blockplan_generate(uint64_t seed, uint32_t block_size, uint32_t blocks, uint32_t endpoints, uint32_t links, uint32_t service_links,
                           uint8_t *picture, size_t picture_length);

/*
 * Prices every block of a flat network, where each link starts at the origin, from live traffic: one pass over the records in the place of a
 * walk for each block. An endpoint weighs the sum of its records here, and not what the picture says. Writes BLOCKPLAN_BLOCKS_MAX counters: that
 * of block b is what b would lose, whether or not it is a candidate; after the last block they are 0. Counters beyond stay as they were, and so
 * do all after a refusal. Returns 0.
 *
 * A record adds its weight to the counter of the one block that feeds its endpoint, by slots that are held and have a link from the origin; it adds
 * nothing where several blocks feed it or none does, or the origin has a service link to it. A counter has room for all records of a call; more
 * records are priced by several calls, whose counters add up, and their sums may need more bits.
 *
 * Refuses with the picture's numbers, and then, in this order, with
 *
 *   19  where a link starts elsewhere than at the origin, whatever the state of its slots
 *   20  where records_length is no multiple of three, or there are more than BLOCKPLAN_RECORDS_MAX records
 *   21  where the endpoint of a record is 0 or above D
 *   9   where counter_count is under BLOCKPLAN_BLOCKS_MAX
 */
int32_t blockplan_price(const uint8_t *picture, size_t picture_length, const uint8_t *records, size_t records_length, uint32_t *counters,
                        size_t counter_count);

#ifdef __cplusplus
}
#endif

#endif
