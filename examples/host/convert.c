/* convert: carries a file of records, or of an image, from version 2 of pq.h into this version, and
 * back.
 *
 *   convert records [--back] IN OUT   records of 20 bytes become ones of 28; back: 28 become 20
 *   convert image [--back] IN OUT     an image of 764 bytes becomes one of 788; back: 764 of 788
 *
 * It reads all of IN, writes OUT.new and syncs it, which then takes the place of OUT in one step, a
 * rename. So OUT is as it was, or whole, also after a power failure. IN is neither OUT nor OUT.new:
 * it stays as it is, since records do not tell whether they are converted.
 *
 * Ends with 0 if all went well; 1 after a refusal, of which it prints 'refused' and the number,
 * with OUT as it was; 2 where a file failed or the words above are not kept to. Standard error says
 * more.
 */
#define _POSIX_C_SOURCE 200809L

#include <errno.h>
#include <fcntl.h>
#include <libgen.h>
#include <stdbool.h>
#include <stdio.h>
#include <stdlib.h>
#include <string.h>
#include <sys/stat.h>
#include <unistd.h>

#include "pq.h"

enum { PIECE = 1 << 16 }; /* bytes that are read at a time */

/* A call, and the bytes that one record, or the image, has before and after it. */
struct conversion {
    const char *name;
    bool back;
    uint32_t (*call)(const uint8_t *from, size_t from_length, uint8_t *to, size_t to_length);
    size_t before, after;
};

static const struct conversion CONVERSIONS[] = {
    {"records", false, pq_convert_records, PQ_EARLIER_RECORD_SIZE, PQ_RECORD_SIZE},
    {"records", true, pq_convert_records_back, PQ_RECORD_SIZE, PQ_EARLIER_RECORD_SIZE},
    {"image", false, pq_convert_image, PQ_EARLIER_IMAGE_SIZE, PQ_IMAGE_SIZE},
    {"image", true, pq_convert_image_back, PQ_IMAGE_SIZE, PQ_EARLIER_IMAGE_SIZE},
};

static void fail(const char *name)
{
    fprintf(stderr, "convert: %s: %s\n", name, strerror(errno));
    exit(2);
}

/* So many bytes and one more: of none there is an address, too. */
static uint8_t *space(uint8_t *bytes, size_t length, const char *name)
{
    bytes = realloc(bytes, length + 1);
    if (bytes == NULL)
        fail(name);
    return bytes;
}

static uint8_t *read_file(const char *name, size_t *length)
{
    uint8_t *bytes = NULL;
    ssize_t got;
    int file = open(name, O_RDONLY);
    if (file < 0)
        fail(name);
    *length = 0;
    do {
        bytes = space(bytes, *length + PIECE, name);
        got = read(file, bytes + *length, PIECE);
        if (got < 0)
            fail(name);
        *length += (size_t)got;
    } while (got > 0);
    if (close(file) != 0)
        fail(name);
    return bytes;
}

static void sync_and_close(int file, const char *name)
{
    if (fsync(file) != 0 || close(file) != 0)
        fail(name);
}

/* A name is safe once the folder that it stands in is synced. */
static void sync_folder(const char *name)
{
    char *copy = strdup(name);
    if (copy == NULL)
        fail(name);
    const char *folder = dirname(copy);
    int file = open(folder, O_RDONLY);
    if (file < 0)
        fail(folder);
    sync_and_close(file, folder);
    free(copy);
}

/* Whether both names are there, and of one file. */
static bool same_file(const char *one, const char *other)
{
    struct stat first, second;
    return stat(one, &first) == 0 && stat(other, &second) == 0
        && first.st_dev == second.st_dev && first.st_ino == second.st_ino;
}

/* By way of the file beside it. */
static void write_file(const char *name, const char *beside, const uint8_t *bytes, size_t length)
{
    int file = open(beside, O_WRONLY | O_CREAT | O_TRUNC, 0666);
    if (file < 0)
        fail(beside);
    while (length > 0) {
        ssize_t put = write(file, bytes, length);
        if (put < 0)
            fail(beside);
        bytes += put;
        length -= (size_t)put;
    }
    sync_and_close(file, beside);
    if (rename(beside, name) != 0)
        fail(name);
    sync_folder(name);
}

/* What the words name; null if nothing. */
static const struct conversion *named(int count, char **words)
{
    bool back = count > 2 && strcmp(words[2], "--back") == 0;
    if (count != (back ? 5 : 4))
        return NULL;
    for (size_t j = 0; j < sizeof CONVERSIONS / sizeof CONVERSIONS[0]; j++)
        if (CONVERSIONS[j].back == back && strcmp(words[1], CONVERSIONS[j].name) == 0)
            return &CONVERSIONS[j];
    return NULL;
}

int main(int count, char **words)
{
    const struct conversion *conversion = named(count, words);
    if (conversion == NULL) {
        fprintf(stderr, "convert records [--back] IN OUT\nconvert image [--back] IN OUT\n");
        return 2;
    }
    const char *in = words[count - 2], *out = words[count - 1];
    char beside[FILENAME_MAX];
    int letters = snprintf(beside, sizeof beside, "%s.new", out);
    if (letters < 0 || (size_t)letters >= sizeof beside) {
        errno = ENAMETOOLONG;
        fail(out);
    }
    if (same_file(in, out) || same_file(in, beside)) {
        fprintf(stderr, "convert: %s: is %s or %s, too\n", in, out, beside);
        return 2;
    }
    size_t length;
    uint8_t *from = read_file(in, &length);
    size_t converted = conversion->after * (length / conversion->before);
    uint8_t *to = space(NULL, converted, out);
    uint32_t number = conversion->call(from, length, to, converted);
    if (number == PQ_OK) {
        write_file(out, beside, to, converted);
    } else {
        printf("refused %u\n", (unsigned)number);
        fprintf(stderr, "convert: %s: refused: %s\n", in, pq_refusal_text(number));
    }
    free(from);
    free(to);
    return number == PQ_OK ? 0 : 1;
}
