/*
 * A layout editor's part: writes the picture of a small network from its lists, prints the picture in hexadecimal, and plans it.
 *
 * layout
 *
 * Ends with status 0 where all calls are done, 1 where one refuses, 2 where it cannot print.
 */
#include <inttypes.h>
#include <stdio.h>

#include "blockplan.h"

#define ROWS(list) (sizeof(list) / sizeof(list)[0])

/* Four slots in blocks of two, all held and near. Endpoint 1 has its two feeders in block 0, endpoint 2 has one in block 1. */
static const uint32_t edition = 1;
static const uint32_t block_size = 2;
static const uint16_t near_limit = 2;
static const uint8_t states[] = {0, 0, 0, 0};
static const bool is_near[] = {true, true, true, true};
static const uint16_t weights[] = {30, 12};
static const bool is_protected[] = {true, false};
static const uint16_t links[][2] = {{0, 1}, {0, 2}, {1, 3}, {0, 4}};
static const uint16_t service_links[][2] = {{1, 1}, {2, 1}, {4, 2}};

static uint8_t picture[BLOCKPLAN_PICTURE_MAX];
static uint8_t evidence[BLOCKPLAN_EVIDENCE_MAX];

/* Whether a call was done; tells the number where it was not. */
static int done_or_told(const char *call, int32_t answer)
{
    if (answer < 0) {
        printf("%s: refused with %" PRId32 "\n", call, -answer);
    }
    return answer >= 0;
}

static void print_picture(size_t length)
{
    size_t place;

    for (place = 0; place < length; place++) {
        printf("%s%02X", place == 0 ? "" : " ", (unsigned)picture[place]);
    }
    printf("\n%zu bytes\n", length);
}

static int plan(size_t length)
{
    if (!done_or_told("choose", blockplan_choose(picture, length, evidence, sizeof evidence))) {
        return 0;
    }
    if (BLOCKPLAN_VERDICT(evidence) == 0) {
        printf("choose none\n");
    } else {
        printf("choose %" PRIu32 " lost %" PRIu32 "\n", BLOCKPLAN_BLOCK(evidence), BLOCKPLAN_LOSS(evidence));
    }
    return 1;
}

static int write_and_plan(void)
{
    int32_t answer = blockplan_write(edition, block_size, near_limit, states, ROWS(states), is_near, ROWS(is_near), weights, ROWS(weights),
                                     is_protected, ROWS(is_protected), links, ROWS(links), service_links, ROWS(service_links), picture, sizeof picture);

    if (!done_or_told("write", answer)) {
        return 0;
    }
    print_picture((size_t)answer);
    return plan((size_t)answer);
}

int main(void)
{
    int is_done = write_and_plan();

    if (fflush(stdout) != 0) {
        return 2;
    }
    return is_done ? 0 : 1;
}
