/*
 * A relay with a full near store: reads a picture file, chooses a block, checks the evidence, evicts the block and chooses again.
 *
 * relay PICTURE
 *
 * Ends with status 0 where all calls are done, 1 where one refuses, 2 where it is called wrongly or cannot read or write.
 */
#include <inttypes.h>
#include <stdio.h>

#include "blockplan.h"

#if BLOCKPLAN_EVIDENCE_BYTES(2, 5 * BLOCKPLAN_BLOCKS_MAX, BLOCKPLAN_BLOCKS_MAX) != BLOCKPLAN_EVIDENCE_MAX
#error "the longest evidence is that of all blocks, with five slots each, in edition 2"
#endif

/* One byte more than the longest picture has, so that a longer file is told from it. */
static uint8_t picture[BLOCKPLAN_PICTURE_MAX + 1];
static uint8_t evidence[BLOCKPLAN_EVIDENCE_MAX];

static const char *message(int32_t answer)
{
    switch (-answer) {
    case BLOCKPLAN_REFUSED_SHORT: return "the picture is too short";
    case BLOCKPLAN_REFUSED_EDITION: return "the picture is of another edition";
    case BLOCKPLAN_REFUSED_BLOCKS: return "block size, slots and blocks do not go together or are out of range";
    case BLOCKPLAN_REFUSED_COUNTS: return "number of endpoints or links out of range";
    case BLOCKPLAN_REFUSED_STATE: return "a slot has no valid state";
    case BLOCKPLAN_REFUSED_LINK: return "a link names a location that is not there";
    case BLOCKPLAN_REFUSED_FILL: return "the picture does not end where it should";
    case BLOCKPLAN_REFUSED_NO_BLOCK: return "there is no such block";
    case BLOCKPLAN_REFUSED_BUFFER: return "the buffer is too short for the evidence";
    case BLOCKPLAN_REFUSED_PROTECTED: return "a protected endpoint would be cut";
    case BLOCKPLAN_REFUSED_NO_CHANGE: return "no slot would change";
    case BLOCKPLAN_REFUSED_NEAR: return "the near store would be over its limit";
    case BLOCKPLAN_REFUSED_FORM: return "the evidence has not the form for this picture";
    case BLOCKPLAN_REFUSED_FOREST: return "a forest in the evidence breaks its rules";
    case BLOCKPLAN_REFUSED_WEIGHT: return "a weight or a mark in the evidence is wrong";
    case BLOCKPLAN_REFUSED_VERDICT: return "the evidence does not support its own verdict";
    case BLOCKPLAN_REFUSED_SERVICE_LOCATION: return "a service link names a location that is not there";
    case BLOCKPLAN_REFUSED_SERVICE_ENDPOINT: return "a service link names an endpoint that is not there";
    case BLOCKPLAN_REFUSED_LINK_START: return "a link starts elsewhere than at the origin";
    case BLOCKPLAN_REFUSED_RECORDS: return "the records are cut off or too many";
    case BLOCKPLAN_REFUSED_RECORD_ENDPOINT: return "a record names an endpoint that is not there";
    default: return "unknown answer";
    }
}

/* Whether a call was done; tells why where it was not. */
static int done_or_told(const char *call, int32_t answer)
{
    if (answer < 0) {
        printf("%s: refused with %" PRId32 ", %s\n", call, -answer, message(answer));
    }
    return answer >= 0;
}

/* Chooses, and has the evidence checked, as the receiver of it would. */
static int choose(size_t length)
{
    int32_t answer = blockplan_choose(picture, length, evidence, sizeof evidence);

    if (!done_or_told("choose", answer)) {
        return 0;
    }
    printf("choose: candidates %" PRIu32 ", served weight %" PRIu32 ", ", BLOCKPLAN_CANDIDATES(evidence), BLOCKPLAN_SERVED(evidence));
    if (BLOCKPLAN_VERDICT(evidence) == 0) {
        printf("no block can go\n");
    } else {
        printf("block %" PRIu32 " goes at a loss of %" PRIu32 "\n", BLOCKPLAN_BLOCK(evidence), BLOCKPLAN_LOSS(evidence));
    }
    if (!done_or_told("check", blockplan_check(picture, length, evidence, (size_t)answer))) {
        return 0;
    }
    printf("check: %" PRId32 " bytes of evidence pass\n", answer);
    return 1;
}

static int plan(size_t length)
{
    uint32_t block;

    if (!choose(length)) {
        return 0;
    }
    if (BLOCKPLAN_VERDICT(evidence) == 0) {
        return 1;
    }
    block = BLOCKPLAN_BLOCK(evidence);
    if (!done_or_told("evict", blockplan_evict(picture, length, block))) {
        return 0;
    }
    printf("evict: the held slots of block %" PRIu32 " are recoverable now\n", block);
    return choose(length);
}

int main(int count, char **words)
{
    FILE *file;
    size_t length;
    int is_read;
    int is_done;

    if (count != 2) {
        fprintf(stderr, "usage: relay PICTURE\n");
        return 2;
    }
    file = fopen(words[1], "rb");
    if (file == NULL) {
        perror(words[1]);
        return 2;
    }
    length = fread(picture, 1, sizeof picture, file);
    is_read = !ferror(file);
    fclose(file);
    if (!is_read) {
        fprintf(stderr, "%s: cannot be read\n", words[1]);
        return 2;
    }
    is_done = plan(length);
    if (fflush(stdout) != 0) {
        return 2;
    }
    return is_done ? 0 : 1;
}
