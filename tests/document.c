/* document: feeds a recording to the code in docs/INTEGRATION.md, which prints its records.
 *
 *   document RECORDING BLOCK [V]
 *
 * BLOCK is the number of samples fed at a time. The recording's settings take the place of the
 * document's. With a V the count of values becomes V after two half-cycles. */
#include "integration.c"

#include <stdlib.h>

static uint8_t recording[1 << 20];

/* Puts the channel at the value V. It has never yet been steady: then any values may stand before. */
static void put_values(struct meter *meter, uint64_t values)
{
    pq_put_u64(meter->images[meter->now] + PQ_IMAGE_VALUES, values);
    pq_put_u32(meter->images[meter->now] + PQ_IMAGE_PHASE, 1);
}

static void feed(struct meter *meter, const uint8_t *samples, size_t length, size_t block)
{
    for (; length > block; samples += block, length -= block)
        meter_feed(meter, samples, block);
    meter_feed(meter, samples, length);
}

int main(int count, char **words)
{
    struct meter meter;
    FILE *file = count == 3 || count == 4 ? fopen(words[1], "rb") : NULL;
    if (file == NULL || meter_begin(&meter) != PQ_OK)
        return 2;
    size_t length = fread(recording, 1, sizeof recording, file);
    size_t block = PQ_SAMPLE_SIZE * (size_t)atol(words[2]), at = PQ_SETTINGS_SIZE;
    fclose(file);
    if (pq_begin(recording, PQ_SETTINGS_SIZE, meter.images[meter.now], PQ_IMAGE_SIZE) != PQ_OK)
        return 2;
    if (count == 4) {
        at += 2 * PQ_SAMPLE_SIZE * pq_get_u32(recording + PQ_SETTINGS_SAMPLES);
        feed(&meter, recording + PQ_SETTINGS_SIZE, at - PQ_SETTINGS_SIZE, block);
        put_values(&meter, strtoull(words[3], NULL, 10));
    }
    feed(&meter, recording + at, length - at, block);
    return 0;
}
