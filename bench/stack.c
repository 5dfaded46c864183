/* stack: how much stack the calls use. Each call runs on a stack of its own that was filled with
 * a pattern; the deepest byte that has changed tells. x86-64, glibc. */
#define _GNU_SOURCE
#include <stdio.h>
#include <stdlib.h>
#include <string.h>
#include <ucontext.h>

#include "pq.h"

enum { STACK = 1 << 20, PATTERN = 0xa5, SAMPLES = 256 * 400 };

static unsigned char stack[STACK];
static ucontext_t here, there;

/* Arguments and buffers of the call to measure. */
static uint8_t settings[PQ_SETTINGS_SIZE], image[2][PQ_IMAGE_SIZE], reply[PQ_REPLY_SIZE];
static uint8_t samples[PQ_SAMPLE_SIZE * SAMPLES], records[PQ_RECORD_SIZE * 1000], day_reply[PQ_DAY_REPLY_SIZE];
static uint8_t earlier_image[PQ_EARLIER_IMAGE_SIZE], earlier_records[PQ_EARLIER_RECORD_SIZE * 1000];
static size_t image_length = PQ_IMAGE_SIZE, samples_length;
static uint32_t number;

static void nothing(void) {}

static void begin(void)
{
    number = pq_begin(settings, sizeof settings, image[0], sizeof image[0]);
}

static void advance(void)
{
    number = pq_advance(image[0], image_length, samples, samples_length, image[1], sizeof image[1],
                        records, sizeof records, reply, sizeof reply);
}

static void try_block(void)
{
    number = pq_try(image[0], image_length, samples, samples_length, records, sizeof records, reply, sizeof reply);
}

static void count_day(void)
{
    number = pq_count_day(settings, sizeof settings, records, sizeof records, 0, 0, 0, day_reply, sizeof day_reply);
}

static void convert_image_back(void)
{
    number = pq_convert_image_back(image[1], image_length, earlier_image, sizeof earlier_image);
}

static void convert_image(void)
{
    number = pq_convert_image(earlier_image, sizeof earlier_image, image[1], sizeof image[1]);
}

static void convert_records_back(void)
{
    number = pq_convert_records_back(records, sizeof records, earlier_records, sizeof earlier_records);
}

static void convert_records(void)
{
    number = pq_convert_records(earlier_records, sizeof earlier_records, records, sizeof records);
}

/* Bytes of stack that a function touches. */
static size_t depth(void (*function)(void))
{
    memset(stack, PATTERN, sizeof stack);
    getcontext(&there);
    there.uc_stack.ss_sp = stack;
    there.uc_stack.ss_size = sizeof stack;
    there.uc_link = &here;
    makecontext(&there, function, 0);
    swapcontext(&here, &there);
    size_t low = 0;
    while (low < sizeof stack && stack[low] == PATTERN)
        low++;
    return sizeof stack - low;
}

static void tell(const char *what, void (*function)(void), uint32_t expected)
{
    size_t used = depth(function) - depth(nothing);
    /* The second measurement does not run the call, so its number stands. */
    if (number != expected) {
        printf("%s: refused %u\n", what, (unsigned)number);
        exit(1);
    }
    printf("%-44s %6zu bytes\n", what, used);
}

static void set(uint32_t samples_in_half, uint32_t declared)
{
    const uint32_t numbers[9] = {samples_in_half, 50, declared, 300, 150, 500, 9000, 11000, 200};
    for (int j = 0; j < 9; j++)
        pq_put_u32(settings + 4 * j, numbers[j]);
}

int main(void)
{
    set(8, 1600);
    tell("begin", begin, PQ_OK);
    settings[0] = 7;
    tell("begin, refused", begin, PQ_REFUSED_SAMPLES);
    set(256, 524288);
    begin();
    tell("advance, no samples", advance, PQ_OK);
    /* The greatest values there are. */
    for (size_t j = 0; j < sizeof samples; j++)
        samples[j] = j % 2 ? 0x80 : 0;
    samples_length = sizeof samples;
    tell("advance, 400 half-cycles of the least count", advance, PQ_OK);
    tell("try, 400 half-cycles of the least count", try_block, PQ_OK);
    /* Levels that change every 3 half-cycles: events of each kind. */
    set(8, 1600);
    begin();
    for (size_t j = 0; j < SAMPLES; j++) {
        int level = j < 8 * 150 ? 100 : (int[]){100, 50, 96, 120, 1}[j / 24 % 5];
        samples[2 * j] = (uint8_t)level;
        samples[2 * j + 1] = 0;
    }
    tell("advance, full of events", advance, PQ_OK);
    tell("try, full of events", try_block, PQ_OK);
    tell("convert an image back, full of events", convert_image_back, PQ_OK);
    tell("convert an image, full of events", convert_image, PQ_OK);
    samples_length = 2 * 8;
    tell("advance, one half-cycle", advance, PQ_OK);
    image_length = 1;
    tell("advance, refused", advance, PQ_REFUSED_IMAGE_LENGTH);
    tell("convert an image back, refused", convert_image_back, PQ_REFUSED_CONVERSION);
    memset(records, 0, sizeof records);
    for (size_t j = 0; j < sizeof records; j += PQ_RECORD_SIZE)
        records[j] = PQ_CHANGE;
    tell("count of a day, 1000 records", count_day, PQ_OK);
    tell("convert 1000 records back", convert_records_back, PQ_OK);
    tell("convert 1000 records", convert_records, PQ_OK);
    records[0] = 5;
    tell("convert 1000 records back, refused", convert_records_back, PQ_REFUSED_CONVERSION);
    records[0] = PQ_CHANGE;
    settings[0] = 7;
    tell("count of a day, refused", count_day, PQ_REFUSED_SAMPLES);
    return 0;
}
