/* update: feeds a recording to a channel, puts its image and its records into version 2's form after some samples, lets the
 * code in docs/INTEGRATION.md carry both over again, goes on with the rest, and prints the records. Ends with 1 where a step is
 * not as it should be.
 *
 *   update RECORDING SAMPLES */
#define _GNU_SOURCE /* fopencookie */
#include "integration.c"

#include <errno.h>
#include <stdlib.h>
#include <string.h>

enum { LOG = 1 << 20 }; /* more than the records of a recording */

static uint8_t recording[1 << 20];

/* Takes all samples; the records go into a file. */
static int feed(struct meter *meter, const uint8_t *samples, size_t length, FILE *log)
{
    uint8_t records[PQ_RECORDS_ENOUGH], reply[PQ_REPLY_SIZE];
    do {
        if (pq_advance(meter->images[meter->now], PQ_IMAGE_SIZE, samples, length, meter->images[!meter->now], PQ_IMAGE_SIZE,
                       records, sizeof records, reply, sizeof reply) != PQ_OK)
            return 0;
        meter->now = !meter->now;
        samples += PQ_SAMPLE_SIZE * pq_get_u64(reply + PQ_REPLY_TAKEN);
        length -= PQ_SAMPLE_SIZE * (size_t)pq_get_u64(reply + PQ_REPLY_TAKEN);
        fwrite(records, PQ_RECORD_SIZE, (size_t)pq_get_u64(reply + PQ_REPLY_WRITTEN), log);
    } while (pq_get_u64(reply + PQ_REPLY_WHY) == PQ_RECORDS_FULL);
    return length == 0;
}

/* A file's bytes, all of them. */
static size_t content(FILE *file, uint8_t *bytes)
{
    rewind(file);
    return fread(bytes, 1, LOG, file);
}

/* A file with these bytes, at its first. */
static FILE *file_of(const uint8_t *bytes, size_t length)
{
    FILE *file = tmpfile();
    if (file != NULL && fwrite(bytes, 1, length, file) == length)
        rewind(file);
    return file;
}

/* The records so far, by way of version 2's form, in a file of their own. */
static FILE *carry_records(FILE *log)
{
    static uint8_t bytes[LOG], earlier[LOG], again[LOG];
    size_t length = content(log, bytes), shorter = length / PQ_RECORD_SIZE * PQ_EARLIER_RECORD_SIZE;
    if (pq_convert_records_back(bytes, length, earlier, shorter) != PQ_OK)
        return NULL;
    FILE *from = file_of(earlier, shorter), *to = tmpfile();
    if (from == NULL || to == NULL || records_update(from, to) != PQ_OK)
        return NULL;
    fclose(from);
    if (content(to, again) != length || memcmp(bytes, again, length) != 0)
        return NULL;
    return to;
}

/* Whether records_update gives this number; closes both files. */
static int gives(FILE *from, FILE *to, uint32_t number)
{
    if (from == NULL || to == NULL || records_update(from, to) != number)
        return 0;
    fclose(from);
    fclose(to); /* fails where what is left in it cannot be written */
    return 1;
}

/* Records that end with an incomplete one, or are not version 2's, and files that cannot be written: at once, or only when they are flushed. */
static int refuses_records(void)
{
    static const uint8_t dip[PQ_EARLIER_RECORD_SIZE] = {PQ_DIP};
    static const struct { size_t length; uint8_t kind; const char *name, *mode; uint32_t number; } wrong[] = {
        {20, PQ_DIP, "/dev/null", "wb", PQ_OK}, {19, PQ_DIP, "/dev/null", "wb", PQ_REFUSED_CONVERSION},
        {1, PQ_DIP, "/dev/null", "wb", PQ_REFUSED_CONVERSION}, {20, 5, "/dev/null", "wb", PQ_REFUSED_CONVERSION},
        {20, PQ_DIP, "/dev/null", "rb", RECORDS_LOST}, {20, PQ_DIP, "/dev/full", "wb", RECORDS_LOST},
    };
    for (size_t j = 0; j < sizeof wrong / sizeof wrong[0]; j++) {
        uint8_t bytes[2 * sizeof dip] = {0};
        memcpy(bytes, dip, sizeof dip);
        bytes[sizeof dip] = wrong[j].kind;
        if (!gives(file_of(bytes, sizeof dip + wrong[j].length), fopen(wrong[j].name, wrong[j].mode), wrong[j].number))
            return 0;
    }
    return 1;
}

/* The bytes of a dip and zeros, as many as are left; then the read fails. */
static ssize_t read_left(void *left, char *bytes, size_t room)
{
    size_t length = *(size_t *)left;
    if (length == 0 || length > room) {
        errno = EIO;
        return -1;
    }
    memset(bytes, 0, length);
    bytes[0] = PQ_DIP;
    *(size_t *)left = 0;
    return (ssize_t)length;
}

/* Files that cannot be read: a folder; and those that fail before, within and behind a record. */
static int loses_records(void)
{
    static const size_t lengths[] = {0, 1, PQ_EARLIER_RECORD_SIZE - 1, PQ_EARLIER_RECORD_SIZE, PQ_EARLIER_RECORD_SIZE + 1};
    for (size_t j = 0; j < sizeof lengths / sizeof lengths[0]; j++) {
        size_t left = lengths[j];
        if (!gives(fopencookie(&left, "rb", (cookie_io_functions_t){.read = read_left}), fopen("/dev/null", "wb"), RECORDS_LOST))
            return 0;
    }
    return gives(fopen("/", "rb"), fopen("/dev/null", "wb"), RECORDS_LOST);
}

/* Whether meter_resume gives this number for what was kept, whichever image is in use: a refusal leaves the channel as it was, else it has the image that is
 * wanted. */
static int resumes(const struct meter *meter, const uint8_t *kept, size_t length, uint32_t number, const uint8_t *wanted)
{
    const uint8_t *before = meter->images[meter->now];
    for (int now = 0; now < 2; now++) {
        struct meter other = {.now = now};
        memcpy(other.images[now], before, PQ_IMAGE_SIZE);
        if (meter_resume(&other, kept, length) != number || (number != PQ_OK && other.now != now))
            return 0;
        if (memcmp(other.images[other.now], number == PQ_OK ? wanted : before, PQ_IMAGE_SIZE) != 0)
            return 0;
    }
    return 1;
}

/* A channel past 4 bytes, which has no way back; and images that are of no version, or damaged. */
static int refuses_images(const struct meter *meter)
{
    struct meter wide = *meter;
    uint8_t earlier[PQ_EARLIER_IMAGE_SIZE], damaged[PQ_IMAGE_SIZE];
    if (meter_back(meter, earlier) != PQ_OK)
        return 0;
    memcpy(damaged, meter->images[meter->now], sizeof damaged);
    damaged[0] = 2;
    pq_put_u64(wide.images[wide.now] + PQ_IMAGE_VALUES, UINT64_C(4294967296));
    pq_put_u32(wide.images[wide.now] + PQ_IMAGE_WHOLE, 1);
    if (pq_get_u32(wide.images[wide.now] + PQ_IMAGE_PHASE) == 0)
        pq_put_u32(wide.images[wide.now] + PQ_IMAGE_PHASE, 1);
    const uint8_t *wanted = wide.images[wide.now];
    if (meter_back(&wide, earlier) != PQ_REFUSED_WIDE || !resumes(meter, wanted, PQ_IMAGE_SIZE, PQ_OK, wanted))
        return 0;
    if (!resumes(&wide, earlier, sizeof earlier, PQ_OK, meter->images[meter->now]))
        return 0;
    if (!resumes(meter, earlier, 620, PQ_REFUSED_IMAGE_LENGTH, NULL) || !resumes(meter, earlier, 0, PQ_REFUSED_IMAGE_LENGTH, NULL))
        return 0;
    earlier[0] = 2;
    return resumes(meter, earlier, sizeof earlier, PQ_REFUSED_CONVERSION, NULL)
        && resumes(meter, damaged, sizeof damaged, PQ_REFUSED_IMAGE_TABLE, NULL);
}

int main(int count, char **words)
{
    struct meter meter = {.now = 0}, updated = {.now = 1};
    uint8_t earlier[PQ_EARLIER_IMAGE_SIZE], record[PQ_RECORD_SIZE];
    FILE *file = count == 3 ? fopen(words[1], "rb") : NULL, *log = tmpfile();
    if (file == NULL || log == NULL)
        return 2;
    size_t length = fread(recording, 1, sizeof recording, file), at = PQ_SETTINGS_SIZE + PQ_SAMPLE_SIZE * (size_t)atol(words[2]);
    fclose(file);
    if (at > length)
        at = length;
    if (pq_begin(recording, PQ_SETTINGS_SIZE, meter.images[0], PQ_IMAGE_SIZE) != PQ_OK)
        return 2;
    if (!feed(&meter, recording + PQ_SETTINGS_SIZE, at - PQ_SETTINGS_SIZE, log))
        return 1;
    if (!refuses_images(&meter) || !refuses_records() || !loses_records())
        return 1;
    if (meter_back(&meter, earlier) != PQ_OK || meter_resume(&updated, earlier, sizeof earlier) != PQ_OK)
        return 1;
    if (updated.now != 0 || memcmp(meter.images[meter.now], updated.images[0], PQ_IMAGE_SIZE) != 0)
        return 1;
    FILE *records = carry_records(log);
    if (records == NULL || !feed(&updated, recording + at, length - at, records))
        return 1;
    rewind(records);
    while (fread(record, sizeof record, 1, records) == 1)
        store(&updated, record);
    return 0;
}
