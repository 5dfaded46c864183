/* shared: feeds three recordings to three channels in turn, through the code in docs/INTEGRATION.md that asks for
 * room before a channel takes a block, and prints their records, each behind its channel's number.
 *
 *   shared BLOCK RECORDS RECORDING RECORDING RECORDING
 *
 * BLOCK is the number of samples fed at a time, RECORDS what the memory that they share has room for. */
#include "integration.c"

#include <stdlib.h>
#include <string.h>

enum { CHANNELS = 3, RECORDS = 100 };

static struct channel {
    struct meter meter;
    uint8_t recording[1 << 19];
    size_t length, at;
} channels[CHANNELS];

/* The memory: its records, and whose each one is. */
static uint8_t memory[RECORDS * PQ_RECORD_SIZE];
static const struct channel *owners[RECORDS];
static size_t size, used;

static uint8_t *reserve(void *channel, size_t length)
{
    if (length > size - used)
        return NULL;
    uint8_t *room = memory + used;
    for (size_t end = used + length; used < end; used += PQ_RECORD_SIZE)
        owners[used / PQ_RECORD_SIZE] = channel;
    return room;
}

/* Takes the records away. */
static void empty(void)
{
    for (size_t at = 0; at < used; at += PQ_RECORD_SIZE) {
        const struct channel *owner = owners[at / PQ_RECORD_SIZE];
        printf("%d ", (int)(owner - channels));
        store(&owner->meter, memory + at);
    }
    used = 0;
}

/* Feeds a block to a channel; where the memory is full, nothing may have changed. */
static int feed(struct channel *channel, size_t length)
{
    uint8_t reply[PQ_REPLY_SIZE];
    for (size_t end = channel->at + length; channel->at < end;) {
        struct meter before = channel->meter;
        size_t then = used;
        uint32_t number = meter_reserve(&channel->meter, channel->recording + channel->at, end - channel->at, reserve, channel, reply);
        if (number == METER_FULL) {
            size_t wanted = PQ_RECORD_SIZE * (size_t)pq_get_u64(reply + PQ_REPLY_WRITTEN);
            if (memcmp(&before, &channel->meter, sizeof before) != 0 || used != then || used == 0 || wanted <= size - used)
                return 1;
            empty();
            continue;
        }
        if (number != PQ_OK || pq_get_u64(reply + PQ_REPLY_TAKEN) == 0)
            return 1;
        channel->at += PQ_SAMPLE_SIZE * (size_t)pq_get_u64(reply + PQ_REPLY_TAKEN);
    }
    return 0;
}

int main(int count, char **words)
{
    if (count != 3 + CHANNELS)
        return 2;
    size_t block = PQ_SAMPLE_SIZE * (size_t)atol(words[1]), fed = 0;
    size = PQ_RECORD_SIZE * (size_t)atol(words[2]);
    if (size > sizeof memory)
        return 2;
    for (int j = 0; j < CHANNELS; j++) {
        struct channel *channel = &channels[j];
        FILE *file = fopen(words[3 + j], "rb");
        if (file == NULL)
            return 2;
        channel->length = fread(channel->recording, 1, sizeof channel->recording, file);
        channel->at = PQ_SETTINGS_SIZE;
        fclose(file);
        if (pq_begin(channel->recording, PQ_SETTINGS_SIZE, channel->meter.images[0], PQ_IMAGE_SIZE) != PQ_OK)
            return 2;
    }
    do {
        fed = 0;
        for (struct channel *channel = channels; channel < channels + CHANNELS; channel++) {
            size_t left = channel->length - channel->at, length = block < left ? block : left;
            if (feed(channel, length) != 0)
                return 1;
            fed += length;
        }
    } while (fed > 0);
    empty();
    return 0;
}
