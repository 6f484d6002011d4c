/*
 * A load that is the same on every machine: a thousand networks from seeds, each of them planned and its evidence checked.
 *
 * load
 *
 * Ends with status 0 where all calls are done, 1 where one refuses, 2 where it cannot print.
 */
#include <inttypes.h>
#include <stdio.h>

#include "blockplan.h"

static const uint64_t networks = 1000;
static const uint32_t block_size = 4;
static const uint32_t blocks = 6;
static const uint32_t endpoints = 12;
static const uint32_t links = 40;
static const uint32_t service_links = 24;

static uint8_t picture[BLOCKPLAN_PICTURE_MAX];
static uint8_t evidence[BLOCKPLAN_EVIDENCE_MAX];

/* Whether a call was done; tells the number where it was not. */
static int done_or_told(const char *call, uint64_t seed, int32_t answer)
{
    if (answer < 0) {
        printf("%s: seed %" PRIu64 " refused with %" PRId32 "\n", call, seed, -answer);
    }
    return answer >= 0;
}

/* Fills the picture of a seed and leaves its evidence. */
static int plan(uint64_t seed)
{
    int32_t length = blockplan_generate(seed, block_size, blocks, endpoints, links, service_links, picture, sizeof picture);
    int32_t written;

    if (!done_or_told("generate", seed, length)) {
        return 0;
    }
    written = blockplan_choose(picture, (size_t)length, evidence, sizeof evidence);
    return done_or_told("choose", seed, written)
           && done_or_told("check", seed, blockplan_check(picture, (size_t)length, evidence, (size_t)written));
}

/* Plans every network and prints what came of it. */
static int plan_all(void)
{
    uint64_t seed;
    uint64_t chosen = 0;
    uint64_t served = 0;
    uint64_t lost = 0;

    for (seed = 1; seed <= networks; seed++) {
        if (!plan(seed)) {
            return 0;
        }
        chosen += BLOCKPLAN_VERDICT(evidence);
        served += BLOCKPLAN_SERVED(evidence);
        lost += BLOCKPLAN_LOSS(evidence);
    }
    printf("%" PRIu64 " networks, a block can go in %" PRIu64 "\n", networks, chosen);
    printf("served %" PRIu64 " lost %" PRIu64 "\n", served, lost);
    return 1;
}

int main(void)
{
    int is_done = plan_all();

    if (fflush(stdout) != 0) {
        return 2;
    }
    return is_done ? 0 : 1;
}
