/*
 * What each block of a flat network is worth to live traffic: writes a picture in which every link starts at the origin, and prices its blocks by a
 * few records.
 *
 * traffic
 *
 * Ends with status 0 where all calls are done, 1 where one refuses, 2 where it cannot print.
 */
#include <inttypes.h>
#include <stdio.h>

#include "blockplan.h"

#define ROWS(list) (sizeof(list) / sizeof(list)[0])

/* Three blocks of two slots. Slot 4 is recoverable, and no link leads to slot 5. */
static const uint32_t edition = 1;
static const uint32_t block_size = 2;
static const uint16_t near_limit = 6;
static const uint8_t states[] = {0, 0, 0, 1, 0, 0};
static const bool is_near[] = {true, true, false, false, false, true};
static const uint16_t weights[] = {5, 5, 5, 5, 5, 5};
static const bool is_protected[] = {true, false, false, false, false, false};
static const uint16_t links[][2] = {{0, 1}, {0, 2}, {0, 3}, {0, 4}, {0, 6}, {0, 0}};
static const uint16_t service_links[][2] = {{1, 1}, {2, 1}, {2, 2}, {3, 2}, {3, 3}, {0, 3}, {3, 4}, {5, 4}, {4, 5}, {6, 6}, {6, 6}};

/* What the endpoints read. */
static const struct {
    uint8_t endpoint;
    uint16_t weight;
} reads[] = {{1, 100}, {2, 200}, {3, 400}, {4, 1000}, {5, 3000}, {6, 20}, {1, 258}};

static uint8_t picture[BLOCKPLAN_PICTURE_MAX];
static uint8_t records[BLOCKPLAN_RECORD_BYTES * ROWS(reads)];
static uint32_t counters[BLOCKPLAN_BLOCKS_MAX];

/* Whether a call was done; tells the number where it was not. */
static int done_or_told(const char *call, int32_t answer)
{
    if (answer < 0) {
        printf("%s: refused with %" PRId32 "\n", call, -answer);
    }
    return answer >= 0;
}

/* A record has the endpoint in its first byte, and then the weight, high byte first. */
static void pack_records(void)
{
    uint8_t *record = records;
    size_t i;

    for (i = 0; i < ROWS(reads); i++) {
        record[0] = reads[i].endpoint;
        record[1] = (uint8_t)(reads[i].weight >> 8);
        record[2] = (uint8_t)(reads[i].weight & 255);
        record += BLOCKPLAN_RECORD_BYTES;
    }
}

static int price(void)
{
    const uint32_t blocks = ROWS(states) / block_size;
    int32_t length;
    uint32_t block;

    length = blockplan_write(edition, block_size, near_limit, states, ROWS(states), is_near, ROWS(is_near), weights, ROWS(weights),
                             is_protected, ROWS(is_protected), links, ROWS(links), service_links, ROWS(service_links), picture,
                             sizeof picture);
    if (!done_or_told("write", length)) {
        return 0;
    }
    pack_records();
    if (!done_or_told("price", blockplan_price(picture, (size_t)length, records, sizeof records, counters, ROWS(counters)))) {
        return 0;
    }
    for (block = 0; block < blocks; block++) {
        printf("block %" PRIu32 " would lose %" PRIu32 "\n", block, counters[block]);
    }
    return 1;
}

int main(void)
{
    int is_done = price();

    if (fflush(stdout) != 0) {
        return 2;
    }
    return is_done ? 0 : 1;
}
