/* header: uses every function of pq.h; holds each of its numbers and texts to what it was published as,
 * and what it says of places and refusals to what the calls do. Compiled as C and as C++. */
#include <inttypes.h>
#include <stdio.h>
#include <string.h>

#include "pq.h"

static int differences;

static void same(const char *what, uint64_t want, uint64_t got)
{
    if (want != got) {
        printf("different: %s: %" PRIu64 " and not %" PRIu64 "\n", what, got, want);
        differences++;
    }
}

static void same_text(const char *what, const char *want, const char *got)
{
    if (strcmp(want, got) != 0) {
        printf("different: %s: '%s' and not '%s'\n", what, got, want);
        differences++;
    }
}

/* The first byte that differs. */
static void same_bytes(const char *what, const uint8_t *want, const uint8_t *got, size_t length)
{
    size_t j = 0;
    while (j < length && want[j] == got[j])
        j++;
    if (j < length) {
        printf("different: %s: byte %zu is %d and not %d\n", what, j, got[j], want[j]);
        differences++;
    }
}

/* V's end, and the greatest number that the earlier edition has. */
#define LAST_VALUE UINT64_C(9223372036854775807)
#define EARLIER_MOST UINT64_C(4294967295)

/* This edition and the earlier one, as indices: their tables of contents, and the record of the bench reading in check_change. */
enum { THIS, EARLIER };
static const uint8_t tables[2][32] = {
    {1, 0, 0, 0, 32, 0, 36, 0, 2, 0, 0, 0, 68, 0, 32, 0, 3, 0, 0, 0, 100, 0, 0x60, 0x02, 4, 0, 0, 0, 0xc4, 0x02, 80, 0},
    {1, 0, 0, 0, 32, 0, 36, 0, 2, 0, 0, 0, 68, 0, 32, 0, 3, 0, 0, 0, 100, 0, 0x5c, 0x02, 4, 0, 0, 0, 0xc0, 0x02, 60, 0},
};
static const uint8_t change_record[PQ_RECORD_SIZE] = {4, 0, 0, 0, 0x97, 0, 0, 0, 0, 0, 0, 0, 1, 0, 0, 0, 0, 0, 0, 0, 0xe0, 0x18, 0, 0, 0xe0, 0x18, 0, 0};
static const uint8_t earlier_change_record[PQ_EARLIER_RECORD_SIZE] = {4, 0, 0, 0, 0x97, 0, 0, 0, 1, 0, 0, 0, 0xe0, 0x18, 0, 0, 0xe0, 0x18, 0, 0};

/* A name of pq.h is this number. */
#define IS(name, want) same(#name, want, name)

/* A channel: the image now and the next one, which change places, and the records since it began. */
static uint8_t images[2][PQ_IMAGE_SIZE];
static int now;
static uint8_t records[8][PQ_RECORD_SIZE];
static size_t written;

static uint32_t number_at(int place)
{
    return pq_get_u32(images[now] + place);
}

/* V, k or a start. */
static uint64_t wide_at(int place)
{
    return pq_get_u64(images[now] + place);
}

/* Settings of 8 samples in a half-cycle. */
static void put_settings(uint8_t *settings, uint32_t system, uint32_t declared, uint32_t interruption)
{
    const uint32_t numbers[] = {8, system, declared, 300, 150, interruption, 9000, 11000, 200};
    for (int j = 0; j < 9; j++)
        pq_put_u32(settings + 4 * j, numbers[j]);
}

static void begin_with(uint32_t system, uint32_t declared, uint32_t interruption)
{
    uint8_t settings[PQ_SETTINGS_SIZE];
    put_settings(settings, system, declared, interruption);
    now = 0;
    written = 0;
    memset(records, 0, sizeof records);
    same("begin", PQ_OK, pq_begin(settings, sizeof settings, images[0], sizeof images[0]));
}

/* A declared voltage of 100 counts. */
static void begin(uint32_t system)
{
    begin_with(system, 1600, 500);
}

/* Goes on with a block of bytes, all of which must be taken. */
static void advance(const uint8_t *block, size_t length)
{
    uint8_t reply[PQ_REPLY_SIZE] = {0};
    same("advance", PQ_OK, pq_advance(images[now], PQ_IMAGE_SIZE, block, length, images[!now], PQ_IMAGE_SIZE,
                                      records[written], sizeof records - PQ_RECORD_SIZE * written, reply, sizeof reply));
    now = !now;
    same("samples taken", length / PQ_SAMPLE_SIZE, pq_get_u64(reply + PQ_REPLY_TAKEN));
    same("why", PQ_ALL_TAKEN, pq_get_u64(reply + PQ_REPLY_WHY));
    written += pq_get_u64(reply + PQ_REPLY_WRITTEN);
}

/* The library is for x86-64, whose numbers have their low byte first, as samples have. */
static void put_sample(uint8_t *at, int16_t count)
{
    memcpy(at, &count, sizeof count);
}

/* Goes on with one sample after the other, all of one count. */
static void go_on(int samples, int16_t count)
{
    uint8_t sample[PQ_SAMPLE_SIZE];
    put_sample(sample, count);
    for (int j = 0; j < samples; j++)
        advance(sample, sizeof sample);
}

/* The gatherer, the values and the events that stand, on the recording of 24 samples of 100, then others. */
static void check_events(void)
{
    begin(50);
    same("newest of no values", 0, pq_newest_value(images[now]));
    same("N at 50 Hz", 100, pq_window_length(images[now]));
    same("F in the image", 50, number_at(PQ_IMAGE_SETTINGS + PQ_SETTINGS_SYSTEM));
    go_on(7, 100);
    same("count, 7 samples", 7, number_at(PQ_IMAGE_COUNT));
    same("no whole half-cycle", 0, number_at(PQ_IMAGE_WHOLE));
    go_on(1, 100);
    same("count, 8 samples", 0, number_at(PQ_IMAGE_COUNT));
    same("a whole half-cycle", 1, number_at(PQ_IMAGE_WHOLE));
    go_on(16, 100);
    go_on(13, 50);
    same("count, 37 samples", 5, number_at(PQ_IMAGE_COUNT));
    same("values", 3, wide_at(PQ_IMAGE_VALUES));
    same("oldest value", 1600, number_at(PQ_IMAGE_KEPT));
    same("newest value", 1264, pq_newest_value(images[now]));
    same("newest value kept", 1264, number_at(PQ_IMAGE_KEPT + 4 * 2));
    same("phase, few values", 0, number_at(PQ_IMAGE_PHASE));
    same("dip", 3, wide_at(PQ_IMAGE_DIP));
    same("dip so far", 1264, number_at(PQ_IMAGE_DIP_MAGNITUDE));
    go_on(3, 50);
    go_on(16, 0);
    same("dip at 0", 0, number_at(PQ_IMAGE_DIP_MAGNITUDE));
    same("interruption", 6, wide_at(PQ_IMAGE_INTERRUPTION));
    same("interruption so far", 0, number_at(PQ_IMAGE_INTERRUPTION_MAGNITUDE));
    go_on(16, 1);
    same("an interruption's least value", 0, number_at(PQ_IMAGE_INTERRUPTION_MAGNITUDE));
    go_on(16, 120);
    same("no dip", 0, wide_at(PQ_IMAGE_DIP));
    same("no interruption", 0, wide_at(PQ_IMAGE_INTERRUPTION));
    same("swell", 10, wide_at(PQ_IMAGE_SWELL));
    same("swell so far", 1920, number_at(PQ_IMAGE_SWELL_MAGNITUDE));
}

/* The window and a rapid voltage change: the bench reading of 150 half-cycles of 100, then 103 of 96. */
static void check_change(void)
{
    begin(50);
    go_on(8 * 150, 100);
    same("phase, steady", 2, number_at(PQ_IMAGE_PHASE));
    same("no change", 0, wide_at(PQ_IMAGE_CHANGE));
    go_on(8 * 2, 96);
    same("phase, in a change", 3, number_at(PQ_IMAGE_PHASE));
    same("change", 151, wide_at(PQ_IMAGE_CHANGE));
    same("newest of a full window", 1536, pq_newest_value(images[now]));
    go_on(8 * 101, 96);
    same("records", 1, written);
    same_bytes("a change's record", change_record, records[0], sizeof change_record);
    struct pq_record last = pq_get_record(records[0]);
    same("kind", PQ_CHANGE, last.kind);
    same("clipped", 0, last.clipped);
    same("start", 151, last.start);
    same("duration", 1, last.duration);
    same("first", 6368, last.first);
    same("second", 6368, last.second);
    begin(60);
    same("N at 60 Hz", 120, pq_window_length(images[now]));
    go_on(8 * 121, 100);
    go_on(8 * 2, 101);
    same("newest at 60 Hz", 1616, pq_newest_value(images[now]));
    same("oldest at 60 Hz", 1600, number_at(PQ_IMAGE_KEPT));
}

static void check_lengths(void)
{
    IS(PQ_VERSION_MAJOR, 3);
    IS(PQ_VERSION_MINOR, 0);
    IS(PQ_VERSION_PATCH, 0);
    same_text("PQ_VERSION", "3.0.0", PQ_VERSION);
    IS(PQ_SETTINGS_SIZE, 36);
    IS(PQ_IMAGE_SIZE, 788);
    IS(PQ_SAMPLE_SIZE, 2);
    IS(PQ_RECORD_SIZE, 28);
    IS(PQ_REPLY_SIZE, 24);
    IS(PQ_DAY_REPLY_SIZE, 32);
    IS(PQ_EARLIER_IMAGE_SIZE, 764);
    IS(PQ_EARLIER_RECORD_SIZE, 20);
    IS(PQ_RECORDS_ENOUGH, 112);
}

static void check_places(void)
{
    IS(PQ_SETTINGS_SAMPLES, 0);
    IS(PQ_SETTINGS_SYSTEM, 4);
    IS(PQ_SETTINGS_DECLARED, 8);
    IS(PQ_SETTINGS_LIMIT, 12);
    IS(PQ_SETTINGS_REDUCTION, 16);
    IS(PQ_SETTINGS_INTERRUPTION, 20);
    IS(PQ_SETTINGS_DIP, 24);
    IS(PQ_SETTINGS_SWELL, 28);
    IS(PQ_SETTINGS_HYSTERESIS, 32);
    IS(PQ_RECORD_KIND, 0);
    IS(PQ_RECORD_CLIPPED, 1);
    IS(PQ_RECORD_START, 4);
    IS(PQ_RECORD_DURATION, 12);
    IS(PQ_RECORD_FIRST, 20);
    IS(PQ_RECORD_SECOND, 24);
    IS(PQ_REPLY_TAKEN, 0);
    IS(PQ_REPLY_WRITTEN, 8);
    IS(PQ_REPLY_WHY, 16);
    IS(PQ_DAY_BY_SECOND, 0);
    IS(PQ_DAY_BY_FIRST, 8);
    IS(PQ_DAY_BY_SECOND_OVER, 16);
    IS(PQ_DAY_BY_FIRST_OVER, 24);
}

static void check_image_places(void)
{
    IS(PQ_IMAGE_SETTINGS, 32);
    IS(PQ_IMAGE_COUNT, 68);
    IS(PQ_IMAGE_WHOLE, 88);
    IS(PQ_IMAGE_HALF_CLIPPED, 92);
    IS(PQ_IMAGE_LAST_CLIPPED, 96);
    IS(PQ_IMAGE_VALUES, 100);
    IS(PQ_IMAGE_KEPT, 108);
    IS(PQ_IMAGE_KEPT_PLACES, 120);
    IS(PQ_IMAGE_KEPT_CLIPPED, 588);
    IS(PQ_IMAGE_PHASE, 708);
    IS(PQ_IMAGE_CHANGE, 712);
    IS(PQ_IMAGE_DIP, 736);
    IS(PQ_IMAGE_DIP_MAGNITUDE, 744);
    IS(PQ_IMAGE_SWELL, 748);
    IS(PQ_IMAGE_SWELL_MAGNITUDE, 756);
    IS(PQ_IMAGE_INTERRUPTION, 760);
    IS(PQ_IMAGE_INTERRUPTION_MAGNITUDE, 768);
    IS(PQ_IMAGE_DIP_CLIPPED, 772);
    IS(PQ_IMAGE_SWELL_CLIPPED, 776);
    IS(PQ_IMAGE_INTERRUPTION_CLIPPED, 780);
    IS(PQ_IMAGE_CHANGE_CLIPPED, 784);
}

static void check_enumerators(void)
{
    IS(PQ_DIP, 1);
    IS(PQ_SWELL, 2);
    IS(PQ_INTERRUPTION, 3);
    IS(PQ_CHANGE, 4);
    IS(PQ_ALL_TAKEN, 0);
    IS(PQ_RECORDS_FULL, 1);
    IS(PQ_VALUES_ENDED, 2);
    IS(PQ_OK, 0);
    IS(PQ_REFUSED_SETTINGS_LENGTH, 1);
    IS(PQ_REFUSED_SAMPLES, 2);
    IS(PQ_REFUSED_SYSTEM, 3);
    IS(PQ_REFUSED_DECLARED, 4);
    IS(PQ_REFUSED_LIMIT, 5);
    IS(PQ_REFUSED_LEVELS, 6);
    IS(PQ_REFUSED_IMAGE_ROOM, 7);
    IS(PQ_REFUSED_IMAGE_LENGTH, 8);
    IS(PQ_REFUSED_IMAGE_TABLE, 9);
    IS(PQ_REFUSED_IMAGE_SETTINGS, 10);
    IS(PQ_REFUSED_IMAGE_BODY, 11);
    IS(PQ_REFUSED_ODD_SAMPLES, 12);
    IS(PQ_REFUSED_REPLY_ROOM, 13);
    IS(PQ_REFUSED_Z, 15);
    IS(PQ_REFUSED_RECORDS, 16);
    IS(PQ_REFUSED_KIND, 17);
    IS(PQ_REFUSED_WIDE, 18);
    IS(PQ_REFUSED_CONVERSION, 19);
}

static void check_texts(void)
{
    static const char *const texts[] = {
        "not refused",
        "the settings are not 36 bytes",
        "settings: M, samples in a half-cycle, is not 8 to 256",
        "settings: F, the system, is neither 50 nor 60",
        "settings: U, the declared voltage, is not 16 to 524288",
        "settings: T is not 50 to 600, or H is not below T",
        "settings: I, D, W or G is out of range or out of order",
        "too few bytes to write the image or the converted records into",
        "the image is not 788 bytes",
        "the image has another table of contents",
        "the image has settings that are out of range",
        "the image has another part that cannot be",
        "an odd number of sample bytes",
        "too few bytes to write the reply into",
        "no call refuses with this number",
        "z, half-cycles from midnight to value 0, is a day or more",
        "the records are not a multiple of 28 bytes",
        "a record has a kind other than 1 to 4",
        "a number is above 4294967295, the earlier edition's greatest",
        "not a good image, or not whole records, of the edition that is converted from",
        "no call refuses with this number",
    };
    for (uint32_t number = 0; number < sizeof texts / sizeof texts[0]; number++)
        same_text("text", texts[number], pq_refusal_text(number));
    same_text("text of the greatest number", "no call refuses with this number", pq_refusal_text(UINT32_MAX));
}

/* Each setting, just out of its range, at its place. */
static void check_refused_settings(void)
{
    static const struct { int place; uint32_t number, refusal; } wrong[] = {
        {PQ_SETTINGS_SAMPLES, 7, PQ_REFUSED_SAMPLES},         {PQ_SETTINGS_SAMPLES, 257, PQ_REFUSED_SAMPLES},
        {PQ_SETTINGS_SYSTEM, 51, PQ_REFUSED_SYSTEM},          {PQ_SETTINGS_DECLARED, 15, PQ_REFUSED_DECLARED},
        {PQ_SETTINGS_DECLARED, 524289, PQ_REFUSED_DECLARED},  {PQ_SETTINGS_LIMIT, 601, PQ_REFUSED_LIMIT},
        {PQ_SETTINGS_REDUCTION, 300, PQ_REFUSED_LIMIT},       {PQ_SETTINGS_INTERRUPTION, 0, PQ_REFUSED_LEVELS},
        {PQ_SETTINGS_INTERRUPTION, 8801, PQ_REFUSED_LEVELS},  {PQ_SETTINGS_DIP, 699, PQ_REFUSED_LEVELS},
        {PQ_SETTINGS_DIP, 10600, PQ_REFUSED_LEVELS},          {PQ_SETTINGS_SWELL, 9400, PQ_REFUSED_LEVELS},
        {PQ_SETTINGS_SWELL, 20001, PQ_REFUSED_LEVELS},        {PQ_SETTINGS_HYSTERESIS, 1000, PQ_REFUSED_LEVELS},
    };
    uint8_t settings[PQ_SETTINGS_SIZE], image[PQ_IMAGE_SIZE];
    for (size_t j = 0; j < sizeof wrong / sizeof wrong[0]; j++) {
        put_settings(settings, 50, 1600, 500);
        same("settings", PQ_OK, pq_begin(settings, sizeof settings, image, sizeof image));
        pq_put_u32(settings + wrong[j].place, wrong[j].number);
        same("refused settings", wrong[j].refusal, pq_begin(settings, sizeof settings, image, sizeof image));
    }
    same("short settings", PQ_REFUSED_SETTINGS_LENGTH, pq_begin(settings, PQ_SETTINGS_SIZE - 1, image, sizeof image));
    put_settings(settings, 50, 1600, 500);
    same("little room", PQ_REFUSED_IMAGE_ROOM, pq_begin(settings, sizeof settings, image, PQ_IMAGE_SIZE - 1));
}

/* What an advance answers to an image with one number changed, and to these lengths. */
static uint32_t answer(int place, uint32_t number, size_t image_length, size_t samples_length, size_t next_length, size_t reply_length)
{
    uint8_t image[PQ_IMAGE_SIZE + 1] = {0}, samples[PQ_SAMPLE_SIZE] = {0}, reply[PQ_REPLY_SIZE];
    begin(50);
    memcpy(image, images[0], PQ_IMAGE_SIZE);
    pq_put_u32(image + place, number);
    return pq_advance(image, image_length, samples, samples_length, images[1], next_length, records[0], sizeof records, reply, reply_length);
}

static void check_refused_calls(void)
{
    same("as it is", PQ_OK, answer(PQ_IMAGE_COUNT, 0, 788, 2, 788, 24));
    same("short image", PQ_REFUSED_IMAGE_LENGTH, answer(PQ_IMAGE_COUNT, 0, 787, 2, 788, 24));
    same("long image", PQ_REFUSED_IMAGE_LENGTH, answer(PQ_IMAGE_COUNT, 0, 789, 2, 788, 24));
    same("an image of version 2", PQ_REFUSED_IMAGE_LENGTH, answer(PQ_IMAGE_COUNT, 0, 764, 2, 788, 24));
    same("an image of version 1", PQ_REFUSED_IMAGE_LENGTH, answer(PQ_IMAGE_COUNT, 0, 620, 2, 788, 24));
    same("another table", PQ_REFUSED_IMAGE_TABLE, answer(0, 0, 788, 2, 788, 24));
    same("other settings", PQ_REFUSED_IMAGE_SETTINGS, answer(PQ_IMAGE_SETTINGS, 7, 788, 2, 788, 24));
    same("another body", PQ_REFUSED_IMAGE_BODY, answer(PQ_IMAGE_COUNT, 8, 788, 2, 788, 24));
    same("odd samples", PQ_REFUSED_ODD_SAMPLES, answer(PQ_IMAGE_COUNT, 0, 788, 1, 788, 24));
    same("little room for the image", PQ_REFUSED_IMAGE_ROOM, answer(PQ_IMAGE_COUNT, 0, 788, 2, 787, 24));
    same("little room for the reply", PQ_REFUSED_REPLY_ROOM, answer(PQ_IMAGE_COUNT, 0, 788, 2, 788, 23));
}

/* What a trial answers to an image with one number changed, and to these lengths. */
static uint32_t trial(int place, uint32_t number, size_t image_length, size_t samples_length, size_t reply_length)
{
    uint8_t image[PQ_IMAGE_SIZE + 1] = {0}, samples[PQ_SAMPLE_SIZE] = {0}, reply[PQ_REPLY_SIZE];
    begin(50);
    memcpy(image, images[0], PQ_IMAGE_SIZE);
    pq_put_u32(image + place, number);
    return pq_try(image, image_length, samples, samples_length, records[0], 0, reply, reply_length);
}

static void check_refused_trials(void)
{
    same("a trial", PQ_OK, trial(PQ_IMAGE_COUNT, 0, 788, 2, 24));
    same("short image, tried", PQ_REFUSED_IMAGE_LENGTH, trial(PQ_IMAGE_COUNT, 0, 787, 1, 23));
    same("another table, tried", PQ_REFUSED_IMAGE_TABLE, trial(0, 0, 788, 1, 23));
    same("other settings, tried", PQ_REFUSED_IMAGE_SETTINGS, trial(PQ_IMAGE_SETTINGS, 7, 788, 1, 23));
    same("another body, tried", PQ_REFUSED_IMAGE_BODY, trial(PQ_IMAGE_COUNT, 8, 788, 1, 23));
    same("odd samples, tried", PQ_REFUSED_ODD_SAMPLES, trial(PQ_IMAGE_COUNT, 0, 788, 1, 23));
    same("little room for a trial's reply", PQ_REFUSED_REPLY_ROOM, trial(PQ_IMAGE_COUNT, 0, 788, 2, 23));
}

/* Tries the samples of the worked example from a fresh image, with so much room; the buffers are filled with
 * 0x5a before. Then an advance with as much room must reply and write the same; and, in case a call kept
 * something, leave the image of an advance before the trial. */
static void same_trial(size_t room, uint64_t taken, uint64_t told, uint64_t why)
{
    uint8_t samples[64 * PQ_SAMPLE_SIZE], before[PQ_IMAGE_SIZE], next[2][PQ_IMAGE_SIZE];
    uint8_t scratch[2][2 * PQ_RECORD_SIZE], reply[2][PQ_REPLY_SIZE + 1];
    for (int j = 0; j < 64; j++)
        put_sample(samples + PQ_SAMPLE_SIZE * j, j / 8 == 3 || j / 8 == 4 ? 50 : 100);
    begin(50);
    memcpy(before, images[0], PQ_IMAGE_SIZE);
    memset(scratch, 0x5a, sizeof scratch);
    memset(reply, 0x5a, sizeof reply);
    same("advance, untried", PQ_OK, pq_advance(images[0], PQ_IMAGE_SIZE, samples, sizeof samples, next[0], PQ_IMAGE_SIZE,
                                               scratch[1], room, reply[1], sizeof reply[1]));
    memset(scratch[1], 0x5a, sizeof scratch[1]);
    memset(reply[1], 0x5a, sizeof reply[1]);
    same("try", PQ_OK, pq_try(images[0], PQ_IMAGE_SIZE, samples, sizeof samples, scratch[0], room, reply[0], sizeof reply[0]));
    same_bytes("the image of a trial", before, images[0], PQ_IMAGE_SIZE);
    same("tried: taken", taken, pq_get_u64(reply[0] + PQ_REPLY_TAKEN));
    same("tried: written", told, pq_get_u64(reply[0] + PQ_REPLY_WRITTEN));
    same("tried: why", why, pq_get_u64(reply[0] + PQ_REPLY_WHY));
    same("behind a trial's reply", 0x5a, reply[0][PQ_REPLY_SIZE]);
    same("behind a trial's records", 0x5a, scratch[0][PQ_RECORD_SIZE * told]);
    same("advance, tried", PQ_OK, pq_advance(images[0], PQ_IMAGE_SIZE, samples, sizeof samples, next[1], PQ_IMAGE_SIZE,
                                             scratch[1], room, reply[1], sizeof reply[1]));
    same_bytes("the reply after a trial", reply[0], reply[1], sizeof reply[0]);
    same_bytes("the records after a trial", scratch[0], scratch[1], sizeof scratch[0]);
    same_bytes("the image after a trial", next[0], next[1], PQ_IMAGE_SIZE);
}

static void check_trials(void)
{
    same_trial(0, 55, 0, PQ_RECORDS_FULL);
    same_trial(PQ_RECORD_SIZE - 1, 55, 0, PQ_RECORDS_FULL);
    same_trial(PQ_RECORD_SIZE, 64, 1, PQ_ALL_TAKEN);
    same_trial(PQ_RECORD_SIZE + 5, 64, 1, PQ_ALL_TAKEN);
}

/* A record of the bytes 0, 1, 2, .. */
static void check_record(void)
{
    uint8_t bytes[PQ_RECORD_SIZE];
    for (uint8_t j = 0; j < sizeof bytes; j++)
        bytes[j] = j;
    struct pq_record record = pq_get_record(bytes);
    same("kind", 0, record.kind);
    same("clipped", 1, record.clipped);
    same("start", 0x0b0a090807060504, record.start);
    same("duration", 0x131211100f0e0d0c, record.duration);
    same("first", 0x17161514, record.first);
    same("second", 0x1b1a1918, record.second);
}

/* Changes of one start and two magnitudes, kept as records, and the count of a day of them. */
static uint8_t changes[25 * PQ_RECORD_SIZE + 1];
static uint8_t day_reply[PQ_DAY_REPLY_SIZE + 1];

static void put_changes(int count, uint64_t start, uint32_t first, uint32_t second)
{
    memset(changes, 0, sizeof changes);
    for (uint8_t *at = changes; count > 0; count--, at += PQ_RECORD_SIZE) {
        at[PQ_RECORD_KIND] = PQ_CHANGE;
        pq_put_u64(at + PQ_RECORD_START, start);
        pq_put_u64(at + PQ_RECORD_DURATION, 2);
        pq_put_u32(at + PQ_RECORD_FIRST, first);
        pq_put_u32(at + PQ_RECORD_SECOND, second);
    }
}

/* The answer at 50 or 60 Hz to so many bytes of the records; the reply is filled with 0x5a before. */
static uint32_t count_day(uint32_t system, size_t length, uint64_t z, uint32_t above, uint64_t day, size_t room)
{
    uint8_t settings[PQ_SETTINGS_SIZE];
    put_settings(settings, system, 1600, 500);
    memset(day_reply, 0x5a, sizeof day_reply);
    return pq_count_day(settings, sizeof settings, changes, length, z, above, day, day_reply, room);
}

/* So many records are counted as second and first, over or not. */
static void same_day(uint32_t system, size_t count, uint64_t z, uint32_t above, uint64_t day, uint64_t second, uint64_t first, uint32_t over)
{
    same("a day", PQ_OK, count_day(system, PQ_RECORD_SIZE * count, z, above, day, sizeof day_reply));
    struct pq_day told = pq_get_day(day_reply);
    same("second magnitudes", second, told.by_second);
    same("first magnitudes", first, told.by_first);
    same("second magnitudes over", over, told.by_second_over);
    same("first magnitudes over", over, told.by_first_over);
    same("behind a day's reply", 0x5a, day_reply[PQ_DAY_REPLY_SIZE]);
}

/* The limits of both counts, midnight, the caps, both verdicts by themselves; and starts of more than 4 bytes, up to the greatest. */
static void check_day(void)
{
    put_changes(25, 8639999, 8000, 4800);
    same_day(50, 1, 0, 0, 0, 1, 0, 0);
    same_day(50, 1, 0, 0, 1, 0, 0, 0);
    same_day(50, 1, 1, 0, 1, 1, 0, 0);
    same_day(50, 1, 8639999, 0, 1, 1, 0, 0);
    same_day(50, 1, 0, 0, UINT64_MAX, 0, 0, 0);
    same_day(60, 1, 0, 0, 0, 0, 0, 0);
    put_changes(1, 8640000, 8001, 4799);
    same_day(50, 1, 0, 0, 1, 0, 1, 0);
    put_changes(25, 1, 20000, 20000);
    same_day(50, 24, 0, 0, 0, 24, 24, 0);
    same_day(50, 25, 0, 0, 0, 25, 25, 1);
    same_day(60, 12, 0, 1, 0, 12, 12, 0);
    same_day(60, 13, 0, UINT32_MAX, 0, 13, 13, 1);
    for (int j = 0; j < 2; j++) {
        put_changes(13, 1, 20000, 20000);
        pq_put_u32(changes + (j == 0 ? PQ_RECORD_FIRST : PQ_RECORD_SECOND), 0);
        same("one over", PQ_OK, count_day(50, 13 * PQ_RECORD_SIZE, 0, 2, 0, PQ_DAY_REPLY_SIZE));
        same("second magnitudes over", j == 0, pq_get_u64(day_reply + PQ_DAY_BY_SECOND_OVER));
        same("first magnitudes over", j == 1, pq_get_u64(day_reply + PQ_DAY_BY_FIRST_OVER));
    }
    put_changes(1, UINT64_C(4294967296), 20000, 20000);
    same_day(50, 1, 0, 0, 497, 1, 1, 0);
    same_day(50, 1, 8639999, 0, 498, 1, 1, 0);
    same_day(50, 1, 0, 0, 0, 0, 0, 0);
    put_changes(1, UINT64_MAX, 20000, 20000);
    same_day(50, 1, 0, 0, UINT64_C(2135039823346), 1, 1, 0);
    same_day(50, 1, 8639999, 0, UINT64_C(2135039823347), 1, 1, 0);
    same_day(50, 1, 8639999, 0, 0, 0, 0, 0);
    same_day(60, 1, 10367999, 0, UINT64_C(1779199852789), 1, 1, 0);
}

/* A day's refusals: one of the settings, then 15, 16, 17, 13, each with those behind it. Nothing is written. */
static void check_refused_day(void)
{
    static const struct { uint32_t system; size_t length; uint64_t z; uint8_t kind; uint32_t refusal; } wrong[] = {
        {51, 29, 8640000, 5, PQ_REFUSED_SYSTEM}, {50, 29, 8640000, 5, PQ_REFUSED_Z}, {60, 29, 10368000, 5, PQ_REFUSED_Z},
        {50, 29, 8639999, 5, PQ_REFUSED_RECORDS}, {50, 20, 8639999, 5, PQ_REFUSED_RECORDS}, {50, 28, 8639999, 5, PQ_REFUSED_KIND},
        {50, 28, 0, 0, PQ_REFUSED_KIND}, {60, 28, 10367999, 1, PQ_REFUSED_REPLY_ROOM},
    };
    for (size_t j = 0; j < sizeof wrong / sizeof wrong[0]; j++) {
        put_changes(1, 1, 20000, 20000);
        changes[0] = wrong[j].kind;
        same("a refused day", wrong[j].refusal, count_day(wrong[j].system, wrong[j].length, wrong[j].z, 0, 0, PQ_DAY_REPLY_SIZE - 1));
        for (size_t at = 0; at < sizeof day_reply; at++)
            same("a refused day's reply", 0x5a, day_reply[at]);
    }
}

/* Clipped samples: a recording that is put together here and fed in blocks. */
static uint8_t recording[PQ_SAMPLE_SIZE * 8 * 253];
static size_t recorded;

static void add(size_t samples, int16_t count)
{
    for (; samples > 0; samples--, recorded += PQ_SAMPLE_SIZE)
        put_sample(recording + recorded, count);
}

/* Replaces one of the samples, counted from 0, of half-cycle `half`, counted from 1. */
static void replace(size_t half, size_t sample, int16_t count)
{
    put_sample(recording + PQ_SAMPLE_SIZE * (8 * (half - 1) + sample), count);
}

/* Goes on with the half-cycles `from` to `to`, so many samples at a time. */
static void feed(size_t from, size_t to, size_t samples)
{
    size_t at = PQ_SAMPLE_SIZE * 8 * (from - 1), end = PQ_SAMPLE_SIZE * 8 * to, block = PQ_SAMPLE_SIZE * samples;
    for (; at + block < end; at += block)
        advance(recording + at, block);
    advance(recording + at, end - at);
}

/* Three half-cycles of 25000, two of another level, three of 25000. */
static void put_event(int16_t level)
{
    recorded = 0;
    add(8 * 3, 25000);
    add(8 * 2, level);
    add(8 * 3, 25000);
}

/* 150 half-cycles of 32000, then 51 of one level and 52 of another: a change from value 151 on. */
static void put_change(int16_t level, int16_t later)
{
    recorded = 0;
    add(8 * 150, 32000);
    add(8 * 51, level);
    add(8 * 52, later);
}

/* A dip with a sample at an end of the range, or beside it: the record's bytes. */
static void check_clipped_dip(void)
{
    static const struct { int16_t count; uint8_t clipped, lowest; } dips[] = {
        {32767, 1, 0x29}, {-32767, 0, 0x29}, {-32768, 1, 0x2b}, {32766, 0, 0x27},
    };
    for (size_t j = 0; j < sizeof dips / sizeof dips[0]; j++) {
        const uint8_t want[] = {1, dips[j].clipped, 0, 0, 3, 0, 0, 0, 0, 0, 0, 0, 3, 0, 0, 0, 0, 0, 0, 0, dips[j].lowest, 0x12, 0x04, 0, 0, 0, 0, 0};
        put_event(15000);
        replace(4, 0, dips[j].count);
        for (size_t samples = 1; samples <= 64; samples++) {
            begin_with(50, 400000, 500);
            feed(1, 8, samples);
            same("a dip's records", 1, written);
            same_bytes("a dip's record", want, records[0], sizeof want);
        }
    }
}

/* Puts the channel into that dip, four samples after a half-cycle, with the last of them clipped. */
static void begin_in_dip(void)
{
    put_event(15000);
    replace(4, 0, 32767);
    replace(7, 3, 32767);
    begin_with(50, 400000, 500);
    feed(1, 6, 48);
    advance(recording + PQ_SAMPLE_SIZE * 8 * 6, PQ_SAMPLE_SIZE * 4);
}

/* The image of that channel, byte by byte, and what becomes of it in the earlier edition. */
static void check_clipped_image(void)
{
    static const struct { size_t length, kept, marks, dip, magnitude, mark; } places[] = {
        {788, 108, 588, 736, 744, 772}, {764, 104, 584, 724, 728, 748},
    };
    static const uint32_t values[] = {400000, 400000, 349826, 266793, 329848};
    uint8_t earlier[PQ_EARLIER_IMAGE_SIZE];
    begin_in_dip();
    same("an image with marks, back", PQ_OK, pq_convert_image_back(images[now], PQ_IMAGE_SIZE, earlier, sizeof earlier));
    for (int form = THIS; form <= EARLIER; form++) {
        uint8_t want[788] = {0};
        memcpy(want, tables[form], sizeof tables[form]);
        put_settings(want + 32, 50, 400000, 500);
        want[68] = 4;
        pq_put_u64(want + 72, 2948676289);
        pq_put_u64(want + 80, 5000000000);
        want[88] = 1;
        want[92] = 1; /* the half-cycle in progress is clipped, the last one is not */
        want[100] = 5;
        for (size_t j = 0; j < 5; j++)
            pq_put_u32(want + places[form].kept + 4 * j, values[j]);
        want[places[form].marks + 2] = want[places[form].marks + 3] = 1;
        want[places[form].dip] = 3;
        pq_put_u32(want + places[form].magnitude, 266793);
        want[places[form].mark] = 1;
        same_bytes("an image with marks", want, form == THIS ? images[now] : earlier, places[form].length);
    }
    same("the newest value's mark", 0, pq_newest_clipped(images[now]));

    begin_with(50, 400000, 500);
    same("the mark of no value", 0, pq_newest_clipped(images[now]));
    feed(1, 4, 8);
    same("the newest value's mark, clipped", 1, pq_newest_clipped(images[now]));
    same("the last half-cycle's mark", 1, number_at(PQ_IMAGE_LAST_CLIPPED));
    same("the mark of no sample", 0, number_at(PQ_IMAGE_HALF_CLIPPED));
    same("values kept", 3, pq_kept_values(images[now]));
}

/* A clipped sample in each half-cycle in turn: whether it marks the event when value 4 is there, and whether it marks the record.
 * Value i is half-cycles i and i + 1; the dip and the swell are values 3 to 5, the interruption is value 4. */
static void check_event_marks(void)
{
    static const struct { int16_t level; uint32_t records, record, kind; int place; const char *running, *marks; } events[] = {
        {15000, 2, 0, PQ_INTERRUPTION, PQ_IMAGE_INTERRUPTION_CLIPPED, "00011000", "00011000"},
        {15000, 2, 1, PQ_DIP, PQ_IMAGE_DIP_CLIPPED, "00111000", "00111100"},
        {30000, 1, 0, PQ_SWELL, PQ_IMAGE_SWELL_CLIPPED, "00111000", "00111100"},
    };
    for (size_t j = 0; j < sizeof events / sizeof events[0]; j++)
        for (size_t half = 1; half <= 8; half++)
            for (size_t sample = 0; sample < 8; sample++) {
                put_event(events[j].level);
                replace(half, sample, sample % 2 == 0 ? 32767 : -32768);
                begin_with(50, 400000, 8000);
                feed(1, 5, 1 + 3 * sample);
                same("an event's mark so far", events[j].running[half - 1] == '1', number_at(events[j].place));
                feed(6, 8, 1 + 3 * sample);
                same("no event's mark", 0, number_at(events[j].place));
                same("records of events", events[j].records, written);
                struct pq_record record = pq_get_record(records[events[j].record]);
                same("an event's kind", events[j].kind, record.kind);
                same("an event's mark", events[j].marks[half - 1] == '1', record.clipped);
            }
}

/* The same of a change: k is value 151 and m value 252, so that values 151 and 152 count. Then one that goes on: its mark so far. */
static void check_change_marks(void)
{
    for (size_t half = 1; half <= 253; half++) {
        put_change(30720, 30720);
        replace(half, half % 8, 32767);
        begin_with(50, 512000, 500);
        feed(1, 253, 1000);
        struct pq_record record = pq_get_record(records[0]);
        same("a change's records", 1, written);
        same("a change's kind", PQ_CHANGE, record.kind);
        same("a change's start", 151, record.start);
        same("a change's duration", 1, record.duration);
        same("a change's mark", half >= 151 && half <= 153, record.clipped);
        same("no change's mark", 0, number_at(PQ_IMAGE_CHANGE_CLIPPED));

        put_change(30080, 31360);
        replace(half, half % 8, 32767);
        begin_with(50, 512000, 500);
        feed(1, 251, 1000);
        same("a change's mark before k + N", 0, number_at(PQ_IMAGE_CHANGE_CLIPPED));
        feed(252, 252, 1000);
        same("a change's mark at k + N", half == 151 || half == 152, number_at(PQ_IMAGE_CHANGE_CLIPPED));
        feed(253, 253, 1000);
        same("a change's mark at k + N + 1", half >= 151 && half <= 153, number_at(PQ_IMAGE_CHANGE_CLIPPED));
        same("a change that goes on", 3, number_at(PQ_IMAGE_PHASE));
    }
}

/* What an advance answers to the image with a mark of so many bytes. If it refuses, it has written nothing, else the same image. */
static void check_mark(const char *what, int place, int width, uint32_t mark, uint32_t want)
{
    uint8_t image[PQ_IMAGE_SIZE], next[PQ_IMAGE_SIZE + 1], due[PQ_RECORDS_ENOUGH], reply[PQ_REPLY_SIZE + 1], left[PQ_IMAGE_SIZE + 1];
    memcpy(image, images[now], sizeof image);
    for (int j = 0; j < width; j++, mark >>= 8)
        image[place + j] = mark & 0xff;
    memset(next, 0xa5, sizeof next);
    memset(due, 0xa5, sizeof due);
    memset(reply, 0xa5, sizeof reply);
    memset(left, 0xa5, sizeof left);
    size_t samples = want == PQ_OK ? 0 : sizeof recording;
    same(what, want, pq_advance(image, sizeof image, recording, samples, next, sizeof next, due, sizeof due, reply, sizeof reply));
    if (want == PQ_OK)
        memcpy(left, image, sizeof image);
    same_bytes(what, left, next, sizeof next);
    memset(left, 0xa5, sizeof left);
    same_bytes(what, left, due, sizeof due);
    if (want != PQ_OK)
        same_bytes(what, left, reply, sizeof reply);
}

/* A mark that is in use is 0 or 1. */
static void used(const char *what, int place, int width)
{
    check_mark(what, place, width, 0, PQ_OK);
    check_mark(what, place, width, 1, PQ_OK);
    for (int bit = 1; bit < 8 * width; bit++)
        check_mark(what, place, width, UINT32_C(1) << bit, PQ_REFUSED_IMAGE_BODY);
}

/* One that is not is 0. */
static void unused(const char *what, int place, int width)
{
    check_mark(what, place, width, 0, PQ_OK);
    check_mark(what, place, width, 1, PQ_REFUSED_IMAGE_BODY);
}

/* The marks of so many values are in use, and no others. */
static void used_values(const char *what, int values)
{
    for (int j = 0; j < values; j++)
        used(what, PQ_IMAGE_KEPT_CLIPPED + j, 1);
    for (int j = values; j < PQ_IMAGE_KEPT_PLACES; j++)
        unused(what, PQ_IMAGE_KEPT_CLIPPED + j, 1);
}

/* Refusal 11 by a mark: each rule broken alone, and what is accepted beside it. No mark is compared with values or sums. */
static void check_mark_rules(void)
{
    begin_with(50, 400000, 500);
    unused("the half-cycle in progress, no sample", PQ_IMAGE_HALF_CLIPPED, 4);
    unused("the last half-cycle, none", PQ_IMAGE_LAST_CLIPPED, 4);
    used_values("no value", 0);
    go_on(1, 0);
    used("the half-cycle in progress, one sample", PQ_IMAGE_HALF_CLIPPED, 4);
    unused("the last half-cycle, still none", PQ_IMAGE_LAST_CLIPPED, 4);
    go_on(7, 0);
    unused("the half-cycle in progress, no sample again", PQ_IMAGE_HALF_CLIPPED, 4);
    used("the last half-cycle", PQ_IMAGE_LAST_CLIPPED, 4);
    used_values("a half-cycle and no value", 0);

    go_on(8, 25000);
    for (int event = 0; event < 3; event++) {
        int start = PQ_IMAGE_DIP + 12 * event, mark = PQ_IMAGE_DIP_CLIPPED + 4 * event;
        memset(images[now] + PQ_IMAGE_DIP, 0, PQ_IMAGE_SIZE - PQ_IMAGE_DIP);
        unused("an event that does not stand", mark, 4);
        pq_put_u64(images[now] + start, 1);
        used("an event that stands", mark, 4);
        for (int other = 0; other < 3; other++)
            if (other != event)
                unused("an event beside one that stands", PQ_IMAGE_DIP_CLIPPED + 4 * other, 4);
    }
    begin_in_dip();
    used("the half-cycle in progress, four samples", PQ_IMAGE_HALF_CLIPPED, 4);
    used("the last half-cycle, in a dip", PQ_IMAGE_LAST_CLIPPED, 4);
    used("a dip", PQ_IMAGE_DIP_CLIPPED, 4);
    used_values("five values", 5);
    unused("a change, phase 0", PQ_IMAGE_CHANGE_CLIPPED, 4);

    put_change(30720, 30720);
    begin_with(50, 512000, 500);
    feed(1, 150, 1000);
    unused("a change, phase 2", PQ_IMAGE_CHANGE_CLIPPED, 4);
    pq_put_u32(images[now] + PQ_IMAGE_PHASE, 1);
    unused("a change, phase 1", PQ_IMAGE_CHANGE_CLIPPED, 4);
    pq_put_u32(images[now] + PQ_IMAGE_PHASE, 2);
    feed(151, 251, 1000);
    same("values before k + N", 250, wide_at(PQ_IMAGE_VALUES));
    unused("a change before k + N", PQ_IMAGE_CHANGE_CLIPPED, 4);
    feed(252, 252, 1000);
    used("a change at k + N", PQ_IMAGE_CHANGE_CLIPPED, 4);
    used_values("more than N values", 100);
    memset(images[now] + PQ_IMAGE_CHANGE + 8 + 4, 0, 4); /* the greatest difference */
    for (int end = 0; end < 2; end++) {
        uint64_t last = end == 0 ? EARLIER_MOST : LAST_VALUE;
        pq_put_u64(images[now] + PQ_IMAGE_VALUES, last);
        pq_put_u64(images[now] + PQ_IMAGE_CHANGE, last - 100);
        used("a change at k + N, the last value", PQ_IMAGE_CHANGE_CLIPPED, 4);
        pq_put_u64(images[now] + PQ_IMAGE_CHANGE, last - 99);
        unused("a change before k + N, which passes the last value", PQ_IMAGE_CHANGE_CLIPPED, 4);
    }
    begin(60);
    go_on(8 * 122, 100);
    used_values("more than N values at 60 Hz", 120);
}

/* Events of samples that are not clipped, with a mark put into the image at value 4, where they stand: their record has it, and no other record has. */
static void check_held_events(void)
{
    static const struct { int16_t level; uint32_t records, record, kind; int place; } events[] = {
        {15000, 2, 0, PQ_INTERRUPTION, PQ_IMAGE_INTERRUPTION_CLIPPED},
        {15000, 2, 1, PQ_DIP, PQ_IMAGE_DIP_CLIPPED},
        {30000, 1, 0, PQ_SWELL, PQ_IMAGE_SWELL_CLIPPED},
    };
    for (size_t j = 0; j < sizeof events / sizeof events[0]; j++)
        for (uint8_t mark = 0; mark < 2; mark++) {
            put_event(events[j].level);
            begin_with(50, 400000, 8000);
            feed(1, 5, 8);
            same("an event's own mark", 0, number_at(events[j].place));
            images[now][events[j].place] = mark;
            feed(6, 8, 8);
            same("an event's records, held", events[j].records, written);
            for (uint32_t record = 0; record < events[j].records; record++)
                same("an event's mark, held", record == events[j].record ? mark : 0, records[record][PQ_RECORD_CLIPPED]);
            same("an event's kind, held", events[j].kind, records[events[j].record][PQ_RECORD_KIND]);
            same("no event's mark, held", 0, number_at(events[j].place));
        }
}

/* A change, with the mark of a kept value or, at k + N, its own. */
static void check_held_changes(void)
{
    for (int value = 151; value <= 153; value++) {
        put_change(30720, 30720);
        begin_with(50, 512000, 500);
        feed(1, 251, 1000);
        images[now][PQ_IMAGE_KEPT_CLIPPED + value - 151] = 1;
        feed(252, 253, 1000);
        same("a change's records, held", 1, written);
        same("a change's mark, of a value that is held clipped", value <= 152, pq_get_record(records[0]).clipped);
    }
    for (uint8_t mark = 0; mark < 2; mark++) {
        put_change(30720, 30720);
        begin_with(50, 512000, 500);
        feed(1, 252, 1000);
        same("a change's own mark", 0, number_at(PQ_IMAGE_CHANGE_CLIPPED));
        images[now][PQ_IMAGE_CHANGE_CLIPPED] = mark;
        feed(253, 253, 1000);
        same("a change's records, its mark held", 1, written);
        same("a change's kind, its mark held", PQ_CHANGE, pq_get_record(records[0]).kind);
        same("a change's mark, held", mark, pq_get_record(records[0]).clipped);
        same("no change's mark, held", 0, number_at(PQ_IMAGE_CHANGE_CLIPPED));
    }
}

/* From an image that no recording gives, marks go on as they stand there. */
static void check_held_marks(void)
{
    begin_with(50, 400000, 500);
    go_on(1, 25000);
    images[now][PQ_IMAGE_HALF_CLIPPED] = 1;
    go_on(15, 25000);
    same("a value of a half-cycle that is held clipped", 1, pq_newest_clipped(images[now]));
    go_on(8, 25000);
    same("the value after it", 0, pq_newest_clipped(images[now]));
    images[now][PQ_IMAGE_LAST_CLIPPED] = 1;
    go_on(8, 25000);
    same("a value of a last half-cycle that is held clipped", 1, pq_newest_clipped(images[now]));

    for (uint8_t mark = 0; mark < 2; mark++) {
        begin_in_dip();
        images[now][PQ_IMAGE_DIP_CLIPPED] = mark;
        go_on(4, 25000);
        same("a dip's records, held", 1, written);
        same("a dip's mark, held", mark, pq_get_record(records[0]).clipped);
    }
    check_held_events();
    check_held_changes();
}

/* Makes V this number, which is N or more. The channel has never yet been steady: then any values may stand before. */
static void put_values(uint64_t values)
{
    pq_put_u64(images[now] + PQ_IMAGE_VALUES, values);
    pq_put_u32(images[now] + PQ_IMAGE_PHASE, 1);
}

/* What two half-cycles find with V at such a number: how many samples are taken, why no more, and V then. */
static void check_values_end(void)
{
    static const struct { uint64_t values; uint32_t refusal; uint64_t taken, why, then; } ends[] = {
        {EARLIER_MOST - 1, PQ_OK, 16, PQ_ALL_TAKEN, EARLIER_MOST + 1},
        {EARLIER_MOST, PQ_OK, 16, PQ_ALL_TAKEN, EARLIER_MOST + 2},
        {LAST_VALUE - 2, PQ_OK, 16, PQ_ALL_TAKEN, LAST_VALUE},
        {LAST_VALUE - 1, PQ_OK, 15, PQ_VALUES_ENDED, LAST_VALUE},
        {LAST_VALUE, PQ_OK, 7, PQ_VALUES_ENDED, LAST_VALUE},
        {LAST_VALUE + 1, PQ_REFUSED_IMAGE_BODY, 0, 0, 0},
        {UINT64_MAX, PQ_REFUSED_IMAGE_BODY, 0, 0, 0},
    };
    uint8_t samples[16 * PQ_SAMPLE_SIZE], reply[PQ_REPLY_SIZE];
    for (int j = 0; j < 16; j++)
        put_sample(samples + PQ_SAMPLE_SIZE * j, 100);
    for (size_t j = 0; j < sizeof ends / sizeof ends[0]; j++) {
        begin(50);
        go_on(16, 100);
        put_values(ends[j].values);
        same("V and its end", ends[j].refusal, pq_advance(images[now], PQ_IMAGE_SIZE, samples, sizeof samples, images[!now], PQ_IMAGE_SIZE,
                                                          records[0], PQ_RECORDS_ENOUGH, reply, sizeof reply));
        if (ends[j].refusal != PQ_OK)
            continue;
        now = !now;
        same("samples up to V's end", ends[j].taken, pq_get_u64(reply + PQ_REPLY_TAKEN));
        same("why at V's end", ends[j].why, pq_get_u64(reply + PQ_REPLY_WHY));
        same("V at its end", ends[j].then, wide_at(PQ_IMAGE_VALUES));
        same("values kept at V's end", 100, pq_kept_values(images[now]));
    }
}

/* Records whose numbers pass 4 bytes: a dip that stands across, one behind; and the change of the bench reading, with k the first such value. */
static void check_past_4_bytes(void)
{
    static const uint8_t want[3][PQ_RECORD_SIZE] = {
        {1, 0, 0, 0, 0xff, 0xff, 0xff, 0xff, 0, 0, 0, 0, 3, 0, 0, 0, 0, 0, 0, 0, 0x20, 0x03, 0, 0, 0, 0, 0, 0},
        {1, 0, 0, 0, 4, 0, 0, 0, 1, 0, 0, 0, 3, 0, 0, 0, 0, 0, 0, 0, 0x20, 0x03, 0, 0, 0, 0, 0, 0},
        {4, 0, 0, 0, 0, 0, 0, 0, 1, 0, 0, 0, 1, 0, 0, 0, 0, 0, 0, 0, 0xe0, 0x18, 0, 0, 0xe0, 0x18, 0, 0},
    };
    begin(50);
    go_on(24, 100);
    put_values(EARLIER_MOST - 1);
    for (uint64_t dip = 0; dip < 2; dip++) {
        go_on(16, 50);
        same("V past 4 bytes", EARLIER_MOST + 1 + 5 * dip, wide_at(PQ_IMAGE_VALUES));
        same("a dip's start", EARLIER_MOST + 5 * dip, wide_at(PQ_IMAGE_DIP));
        go_on(24, 100);
        same("records past 4 bytes", dip + 1, written);
        same_bytes("a dip past 4 bytes", want[dip], records[dip], PQ_RECORD_SIZE);
    }
    begin(50);
    go_on(16, 100);
    put_values(EARLIER_MOST + 1 - 151);
    go_on(8 * 149, 100);
    go_on(8 * 2, 96);
    same("a change past 4 bytes", EARLIER_MOST + 1, wide_at(PQ_IMAGE_CHANGE));
    go_on(8 * 101, 96);
    same("records of a change past 4 bytes", 1, written);
    same_bytes("a change past 4 bytes, its record", want[2], records[0], PQ_RECORD_SIZE);
}

/* The converter. What is converted is put together in both editions at once, number by number, each in its width. */
static uint8_t forms[2][1000];
static size_t lengths[2];

static void add_number(uint64_t number, int width, int earlier_width)
{
    const int widths[] = {width, earlier_width};
    for (int form = THIS; form <= EARLIER; form++)
        for (int j = 0; j < widths[form]; j++)
            forms[form][lengths[form]++] = number >> 8 * j & 0xff;
}

static void add_record(uint64_t kind, uint64_t mark, uint64_t start, uint64_t duration, uint32_t first, uint32_t second)
{
    add_number(kind, 1, 1);
    add_number(mark, 1, 1);
    add_number(0, 2, 2);
    add_number(start, 8, 4);
    add_number(duration, 8, 4);
    add_number(first, 4, 4);
    add_number(second, 4, 4);
}

/* Three records; starts and durations are not compared with anything. */
static void put_list(void)
{
    lengths[THIS] = lengths[EARLIER] = 0;
    add_record(PQ_DIP, 1, 0, EARLIER_MOST, 0x04030201, 0);
    add_record(PQ_CHANGE, 0, 0x14131211, 0x18171615, 0x24232221, 0x28272625);
    add_record(PQ_INTERRUPTION, 1, EARLIER_MOST, 0, UINT32_MAX, 0x08070605);
}

/* An image with something in every part, in a change and with all three events, the last one from `start` on. */
static void put_image(uint64_t values, uint64_t began, uint64_t stand, uint64_t start)
{
    for (int form = THIS; form <= EARLIER; form++) {
        memcpy(forms[form], tables[form], sizeof tables[form]);
        put_settings(forms[form] + 32, 50, 1600, 500);
        lengths[form] = 32 + PQ_SETTINGS_SIZE;
    }
    add_number(5, 4, 4);          /* samples in progress */
    add_number(0x04030201, 8, 8); /* the sum of their squares */
    add_number(0x108070605, 8, 8);
    for (int j = 0; j < 3; j++)
        add_number(1, 4, 4);
    add_number(values, 8, 4);
    for (uint64_t j = 0; j < 120; j++)
        add_number(j < 100 ? 1000 + j : 0, 4, 4);
    for (uint64_t j = 0; j < 120; j++)
        add_number(j < 100 ? j % 2 : 0, 1, 1);
    add_number(3, 4, 4);
    add_number(began, 8, 4);
    add_number(159968, 4, 4); /* A(k - 1) */
    add_number(6368, 4, 4);   /* the greatest difference */
    add_number(stand, 8, 4);
    for (uint64_t event = 0; event < 3; event++) {
        add_number(start - 2 + event, 8, 4);
        add_number(800 + event, 4, 4);
    }
    for (int j = 0; j < 4; j++)
        add_number(1, 4, 4);
}

typedef uint32_t conversion(const uint8_t *from, size_t from_length, uint8_t *to, size_t to_length);
static conversion *const of_records[] = {pq_convert_records_back, pq_convert_records};
static conversion *const of_image[] = {pq_convert_image_back, pq_convert_image};

/* Converts the first bytes of one form, with so much room, and holds the answer to what it should be. What is written is the other form; all bytes behind it,
 * or after a refusal all bytes, are as they were, and so is what was converted. */
static void converts(const char *what, conversion *const calls[], int form, size_t length, size_t room, uint32_t refusal)
{
    uint8_t given[sizeof forms[0]], got[sizeof forms[0]], want[sizeof forms[0]];
    memcpy(given, forms[form], sizeof given);
    memset(got, 0xa5, sizeof got);
    memset(want, 0xa5, sizeof want);
    if (refusal == PQ_OK)
        memcpy(want, forms[!form], lengths[!form]);
    same(what, refusal, calls[form](given, length, got, room));
    same_bytes(what, want, got, sizeof got);
    same_bytes(what, forms[form], given, sizeof given);
}

/* The whole of one form: with just the room, with more, and with too little or none, where only 7 may be. */
static void converts_whole(const char *what, conversion *const calls[], int form, uint32_t refusal)
{
    size_t room = lengths[!form];
    converts(what, calls, form, lengths[form], room, refusal);
    converts(what, calls, form, lengths[form], room + 9, refusal);
    if (refusal == PQ_OK && room > 0)
        refusal = PQ_REFUSED_IMAGE_ROOM;
    converts(what, calls, form, lengths[form], room - (room > 0), refusal);
    converts(what, calls, form, lengths[form], 0, refusal);
}

static void converts_both_ways(const char *what, conversion *const calls[])
{
    converts_whole(what, calls, EARLIER, PQ_OK);
    converts_whole(what, calls, THIS, PQ_OK);
}

/* One byte of what is converted changed. */
static void converts_with(const char *what, conversion *const calls[], int form, size_t place, uint8_t byte, uint32_t refusal)
{
    uint8_t before = forms[form][place];
    forms[form][place] = byte;
    converts_whole(what, calls, form, refusal);
    forms[form][place] = before;
}

static void check_converted_records(void)
{
    static const struct { size_t place; uint8_t byte; } wrong[] = {
        {0, 0}, {0, 5}, {0, 255}, {1, 2}, {1, 255}, {2, 1}, {2, 255}, {3, 1}, {3, 128},
    };
    const size_t sizes[] = {PQ_RECORD_SIZE, PQ_EARLIER_RECORD_SIZE};
    lengths[THIS] = lengths[EARLIER] = 0;
    converts_both_ways("no records", of_records);
    memcpy(forms[THIS], change_record, lengths[THIS] = sizeof change_record);
    memcpy(forms[EARLIER], earlier_change_record, lengths[EARLIER] = sizeof earlier_change_record);
    converts_both_ways("a change's record", of_records);
    put_list();
    same("the length of three records", 84, lengths[THIS]);
    same("the length of three earlier records", 60, lengths[EARLIER]);
    converts_both_ways("records", of_records);
    for (int form = THIS; form <= EARLIER; form++) {
        converts("a byte less", of_records, form, lengths[form] - 1, sizeof forms[0], PQ_REFUSED_CONVERSION);
        converts("a byte more", of_records, form, lengths[form] + 1, sizeof forms[0], PQ_REFUSED_CONVERSION);
        converts("one byte", of_records, form, 1, 0, PQ_REFUSED_CONVERSION);
        for (size_t record = 0; record < 3; record++)
            for (size_t j = 0; j < sizeof wrong / sizeof wrong[0]; j++)
                converts_with("a wrong record", of_records, form, sizes[form] * record + wrong[j].place, wrong[j].byte, PQ_REFUSED_CONVERSION);
    }
    /* Each higher byte of a start and of a duration; then beside a record that is wrong, before it or behind. */
    for (size_t record = 0; record < 3; record++)
        for (size_t j = 0; j < 8; j++) {
            size_t place = PQ_RECORD_SIZE * record + (j < 4 ? PQ_RECORD_START : PQ_RECORD_DURATION) + 4 + j % 4;
            converts_with("a number above 4 bytes", of_records, THIS, place, 1, PQ_REFUSED_WIDE);
            forms[THIS][place] = 128;
            for (size_t other = 0; other < 3; other++)
                converts_with("a number above 4 bytes and a kind", of_records, THIS, PQ_RECORD_SIZE * other, 5, PQ_REFUSED_CONVERSION);
            converts("a number above 4 bytes and a byte less", of_records, THIS, lengths[THIS] - 1, 0, PQ_REFUSED_CONVERSION);
            forms[THIS][place] = 0;
        }
    converts_both_ways("records again", of_records);
}

/* Images that their edition refuses, with each of its numbers. */
static void check_refused_images(void)
{
    static const struct { size_t places[2]; uint8_t byte; } wrong[] = {
        {{0, 0}, 2}, {{20, 20}, 101}, {{22, 22}, 0x61}, {{28, 28}, 0xc1}, {{30, 30}, 61}, /* the table: 9 */
        {{32, 32}, 7}, {{36, 36}, 51},                                                    /* the settings: 10 */
        {{68, 68}, 8}, {{88, 88}, 2}, {{92, 92}, 2}, {{96, 96}, 2},                       /* body 2: 11, as all below */
        {{108 + 4 * 100, 104 + 4 * 100}, 1}, {{588 + 99, 584 + 99}, 2}, {{588 + 100, 584 + 100}, 1},
        {{708, 704}, 2}, {{708, 704}, 4},   /* the phase */
        {{712, 708}, 100}, {{713, 709}, 2}, /* k is N, and above V */
        {{723, 715}, 4}, {{727, 719}, 4},   /* A(k - 1), and the greatest difference */
        {{729, 721}, 2}, {{728, 720}, 150}, /* the first stand above V, and below k */
        {{737, 725}, 2}, {{749, 733}, 2}, {{761, 741}, 2}, /* a start above V */
        {{746, 730}, 9}, {{758, 738}, 9}, {{770, 746}, 9}, /* a magnitude */
        {{772, 748}, 2}, {{776, 752}, 2}, {{780, 756}, 2}, {{784, 760}, 2},
    };
    for (int form = THIS; form <= EARLIER; form++) {
        uint8_t out[PQ_IMAGE_SIZE];
        put_image(300, 151, 160, 10);
        converts("an image, a byte less", of_image, form, lengths[form] - 1, sizeof forms[0], PQ_REFUSED_CONVERSION);
        converts("an image, a byte more", of_image, form, lengths[form] + 1, sizeof forms[0], PQ_REFUSED_CONVERSION);
        converts("no image", of_image, form, 0, 0, PQ_REFUSED_CONVERSION);
        same("an image of the other edition", PQ_REFUSED_CONVERSION, of_image[form](forms[!form], lengths[!form], out, sizeof out));
        for (size_t j = 0; j < sizeof wrong / sizeof wrong[0]; j++)
            converts_with("a refused image", of_image, form, wrong[j].places[form], wrong[j].byte, PQ_REFUSED_CONVERSION);
        memcpy(forms[form], tables[!form], sizeof tables[form]);
        converts_whole("an image with the other edition's table", of_image, form, PQ_REFUSED_CONVERSION);
    }
}

/* Of an image V alone decides on 18; nothing else in it can be above V. */
static void check_wide_images(void)
{
    put_image(EARLIER_MOST + 1, 151, 160, 10);
    converts_whole("V above 4 bytes", of_image, THIS, PQ_REFUSED_WIDE);
    converts_with("V above 4 bytes, refused", of_image, THIS, PQ_IMAGE_CHANGE_CLIPPED, 2, PQ_REFUSED_CONVERSION);
    put_image(EARLIER_MOST + 1, EARLIER_MOST - 99, EARLIER_MOST + 1, EARLIER_MOST + 1);
    converts_whole("all above 4 bytes", of_image, THIS, PQ_REFUSED_WIDE);
    put_image(LAST_VALUE, LAST_VALUE - 100, LAST_VALUE, LAST_VALUE);
    converts_whole("V at its end", of_image, THIS, PQ_REFUSED_WIDE);
    put_image(LAST_VALUE + 1, 151, 160, 10);
    converts_whole("V above its end", of_image, THIS, PQ_REFUSED_CONVERSION);
    put_image(300, 151, 160, 10);
    forms[THIS][PQ_IMAGE_SWELL + 4] = 1;
    converts_whole("a start above V and 4 bytes", of_image, THIS, PQ_REFUSED_CONVERSION);
}

/* The channel goes on from its image, there and back. */
static void go_through(const char *what)
{
    uint8_t earlier[PQ_EARLIER_IMAGE_SIZE];
    same(what, PQ_OK, pq_convert_image_back(images[now], PQ_IMAGE_SIZE, earlier, sizeof earlier));
    same(what, PQ_OK, pq_convert_image(earlier, sizeof earlier, images[!now], PQ_IMAGE_SIZE));
    same_bytes(what, images[now], images[!now], PQ_IMAGE_SIZE);
    now = !now;
}

static void check_converted_images(void)
{
    put_image(300, 151, 160, 10);
    same("the length of an image", PQ_IMAGE_SIZE, lengths[THIS]);
    same("the length of an earlier image", PQ_EARLIER_IMAGE_SIZE, lengths[EARLIER]);
    converts_both_ways("an image", of_image);
    put_image(EARLIER_MOST, EARLIER_MOST - 100, EARLIER_MOST, EARLIER_MOST);
    converts_both_ways("an image at the earlier edition's last value", of_image);

    begin(50);
    go_through("a fresh image");
    for (int half = 1; half <= 253; half++) {
        go_on(5, half <= 150 ? 100 : 96);
        go_through("an image after five samples of a half-cycle");
        go_on(3, half <= 150 ? 100 : 96);
        go_through("an image after a half-cycle");
    }
    same("records, gone through the earlier edition", 1, written);
    same_bytes("a change's record, gone through the earlier edition", change_record, records[0], sizeof change_record);
}

/* Numbers in bytes. */
static void check_numbers(void)
{
    uint8_t bytes[8];
    pq_put_u64(bytes, 0xfedcba9876543210);
    same("lowest byte", 0x10, bytes[0]);
    same("highest byte", 0xfe, bytes[7]);
    same("8 bytes", 0xfedcba9876543210, pq_get_u64(bytes));
    same("4 bytes", 0xfedcba98, pq_get_u32(bytes + 4));
}

int main(void)
{
    check_lengths();
    check_places();
    check_image_places();
    check_enumerators();
    check_texts();
    check_numbers();
    check_record();
    check_refused_settings();
    check_refused_calls();
    check_trials();
    check_refused_trials();
    check_events();
    check_change();
    check_day();
    check_refused_day();
    check_clipped_dip();
    check_clipped_image();
    check_event_marks();
    check_change_marks();
    check_mark_rules();
    check_held_marks();
    check_values_end();
    check_past_4_bytes();
    check_converted_records();
    check_converted_images();
    check_refused_images();
    check_wide_images();
    return differences > 0;
}
