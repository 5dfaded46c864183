/* log: logs one voltage channel through pq_begin and pq_advance of pq.h, and goes on from what
 * version 2 kept, by pq_convert_image.
 *
 *   log                 settings, then samples, from standard input; prints what the event program
 *                       prints: heading, records, count of values; and behind the line of a record
 *                       that is marked the word 'clipped', which that program does not print
 *   log STATE LOG [N]   the same into the file LOG, with the channel kept in the file STATE. Where
 *                       there is a STATE the run goes on from it, else it begins with the settings.
 *                       It takes N samples at most
 *
 * The second form may end or be ended at any moment, also by a power failure: the next run on the
 * same recording goes on, and LOG becomes what one single run would have made it. The first STATE is
 * made before the first line. After each block of samples
 *   1. the lines of its records are appended to LOG, and LOG is synced;
 *   2. STATE.new is written and synced, and takes the place of STATE in one step, a rename.
 * STATE holds the image, the samples taken so far, the bytes of LOG that belong to them, a checksum of
 * these bytes, and last a checksum of all that. A run that goes on cuts LOG to the bytes that STATE
 * counts: the lines behind them had no STATE yet and will come again. The last line, the count of
 * values, comes at the end of the input and is not counted in STATE, so that a run with more input
 * cuts it too.
 *
 * A STATE of version 2, which has a shorter image before the same numbers, is taken, too; the next
 * STATE is of this version. LOG is the same text in both.
 *
 * A run changes nothing where STATE is damaged or of yet another version, where LOG does not begin
 * with the lines that STATE counts, where there is a LOG with something in it and no STATE, and where
 * another run has LOG. Which STATE, LOG and recording belong together is the caller's to know where
 * lines and settings are alike.
 *
 * A regular file as standard input is read from its first byte on when a run begins; one that goes on
 * takes it up behind the samples taken so far, and stops if its settings are others or it has fewer
 * samples. Anything else, such as a pipe, is taken to go on where the last run stopped: a run reads no
 * further than it takes, so that runs can share a pipe one after the other. There are three
 * exceptions. At the end of the count of values the rest of the block that was read is dropped. So is
 * an odd byte at the end of a pipe. And what a run had read when it ended with 2, or was ended from
 * outside, is in no pipe any more: whoever feeds the next run finds in STATE where to go on.
 *
 * Ends with 0 if all went well; 1 after a refusal, of which it prints 'refused' and the number; 2
 * where a file failed or the words above are not kept to; 3 where the count of values is at its end,
 * and the samples from there on are not taken. Standard error says more.
 */
#define _POSIX_C_SOURCE 200809L

#include <errno.h>
#include <fcntl.h>
#include <inttypes.h>
#include <libgen.h>
#include <poll.h>
#include <stdarg.h>
#include <stdbool.h>
#include <stdio.h>
#include <stdlib.h>
#include <string.h>
#include <sys/stat.h>
#include <unistd.h>

#include "pq.h"

enum {
    BLOCK = 4096, /* bytes of samples that are read at a time */
    ROOM = 8 * PQ_RECORD_SIZE,
    LINE = 120,   /* enough for a kind of 12 letters, four numbers of 20 digits and the mark's word */

    /* STATE: the image, then four numbers of 8 bytes, at these places behind it. */
    STATE_TAKEN = 0,
    STATE_LENGTH = STATE_TAKEN + 8,
    STATE_LINES_SUM = STATE_LENGTH + 8,
    STATE_SUM = STATE_LINES_SUM + 8, /* of all the bytes before it */
    STATE_NUMBERS = STATE_SUM + 8,
    STATE_SIZE = PQ_IMAGE_SIZE + STATE_NUMBERS,
    STATE_MOST = 4096 /* of any version; a longer one counts as damaged */
};

/* So many samples have a place in a file, which is an off_t. */
#define MOST_PLACE ((UINT64_C(1) << (8 * sizeof(off_t) - 1)) - 1)
#define MOST_TAKEN ((MOST_PLACE - PQ_SETTINGS_SIZE) / PQ_SAMPLE_SIZE)

/* The checksum of no bytes. */
#define SUM_OF_NONE UINT64_C(14695981039346656037)

/* A channel and its files. */
struct meter {
    uint8_t images[2][PQ_IMAGE_SIZE]; /* the image now, and the next one; they change places */
    int now;
    uint64_t taken;   /* samples since begin */
    uint64_t length;  /* bytes of lines since begin */
    uint64_t sum;     /* their checksum */
    int lines;        /* the file that lines go into: LOG or standard output; -1 for no LOG yet */
    const char *log;  /* its name */
    const char *state;         /* null where the channel is not kept */
    char beside[FILENAME_MAX]; /* STATE.new */
};

enum end { INPUT_ENDED, ENOUGH_TAKEN, VALUES_ENDED };

static const char INPUT[] = "standard input", OUTPUT[] = "standard output";
static const char HEADING[] = "kind start halves first second\n";

static void stop(const char *format, ...)
{
    va_list names;
    va_start(names, format);
    fputs("log: ", stderr);
    vfprintf(stderr, format, names);
    fputc('\n', stderr);
    va_end(names);
    exit(2);
}

static void fail(const char *name)
{
    stop("%s: %s", name, strerror(errno));
}

/* FNV-1a of 64 bits: the checksum of bytes behind others, whose checksum is `sum`. */
static uint64_t checksum(uint64_t sum, const void *bytes, size_t length)
{
    const uint8_t *at = bytes;
    for (size_t j = 0; j < length; j++)
        sum = (sum ^ at[j]) * UINT64_C(1099511628211);
    return sum;
}

/* Whether a read or write that failed is to be tried again: it was interrupted, or it would have had
 * to wait, which is done here. */
static bool again(int file, short event)
{
    if (errno == EAGAIN || errno == EWOULDBLOCK) {
        struct pollfd ready = {.fd = file, .events = event};
        poll(&ready, 1, -1);
        return true;
    }
    return errno == EINTR;
}

/* One read, `room` bytes at most; 0 at the end of the file. */
static size_t read_some(int file, uint8_t *bytes, size_t room, const char *name)
{
    ssize_t got;
    do
        got = read(file, bytes, room);
    while (got < 0 && again(file, POLLIN));
    if (got < 0)
        fail(name);
    return (size_t)got;
}

/* Reads until `room` bytes are there or the file ends. */
static size_t read_all(int file, uint8_t *bytes, size_t room, const char *name)
{
    size_t have = 0, got;
    while (have < room && (got = read_some(file, bytes + have, room - have, name)) > 0)
        have += got;
    return have;
}

static void write_all(int file, const void *bytes, size_t length, const char *name)
{
    const uint8_t *at = bytes;
    while (length > 0) {
        ssize_t put = write(file, at, length);
        if (put < 0 && !again(file, POLLOUT))
            fail(name);
        if (put > 0) {
            at += put;
            length -= (size_t)put;
        }
    }
}

static void sync_file(int file, const char *name)
{
    while (fsync(file) != 0)
        if (errno != EINTR)
            fail(name);
}

static void close_file(int file, const char *name)
{
    if (close(file) != 0)
        fail(name);
}

/* A name is safe once the folder that it stands in is synced. */
static void sync_folder(const char *name)
{
    char *copy = strdup(name);
    if (copy == NULL)
        fail(name);
    const char *folder = dirname(copy);
    int file = open(folder, O_RDONLY);
    if (file < 0)
        fail(folder);
    sync_file(file, folder);
    close_file(file, folder);
    free(copy);
}

/* Writes a line and counts it. */
static void put_line(struct meter *meter, const char *format, ...)
{
    char line[LINE];
    va_list numbers;
    va_start(numbers, format);
    size_t length = (size_t)vsnprintf(line, sizeof line, format, numbers);
    va_end(numbers);
    write_all(meter->lines, line, length, meter->log);
    meter->length += length;
    meter->sum = checksum(meter->sum, line, length);
}

static void refuse(uint32_t number)
{
    char line[LINE];
    int length = snprintf(line, sizeof line, "refused %" PRIu32 "\n", number);
    write_all(STDOUT_FILENO, line, (size_t)length, OUTPUT);
    fprintf(stderr, "log: refused: %s\n", pq_refusal_text(number));
    exit(1);
}

static void put_records(struct meter *meter, const uint8_t *records, uint64_t count)
{
    static const char *const kinds[] = {"", "dip", "swell", "interruption", "rvc"};
    for (; count > 0; count--, records += PQ_RECORD_SIZE) {
        struct pq_record record = pq_get_record(records);
        put_line(meter, "%s %" PRIu64 " %" PRIu64 " %" PRIu32 " %" PRIu32 "%s\n", kinds[record.kind],
                 record.start, record.duration, record.first, record.second,
                 record.clipped ? " clipped" : "");
    }
}

/* Whether the open LOG has this name. */
static bool is_log(const struct meter *meter, const char *name)
{
    struct stat named, opened;
    return stat(name, &named) == 0 && fstat(meter->lines, &opened) == 0
        && named.st_dev == opened.st_dev && named.st_ino == opened.st_ino;
}

/* Opens LOG for this run alone, if it is there or the flags say that it is to be made. */
static void open_log(struct meter *meter, int flags)
{
    struct flock whole = {.l_type = F_WRLCK, .l_whence = SEEK_SET};
    meter->lines = open(meter->log, O_RDWR | O_APPEND | flags, 0666);
    if (meter->lines < 0 && errno == ENOENT && flags == 0)
        return;
    if (meter->lines < 0)
        fail(meter->log);
    if (fcntl(meter->lines, F_SETLK, &whole) != 0) {
        if (errno == EACCES || errno == EAGAIN)
            stop("%s: another run has it", meter->log);
        fail(meter->log);
    }
    if (is_log(meter, meter->state) || is_log(meter, meter->beside))
        stop("%s: is %s or %s, too", meter->log, meter->state, meter->beside);
}

/* Keeps the channel, after its lines: once STATE counts them, they are safe; unless LOG has lost its
 * name meanwhile. */
static void keep(const struct meter *meter)
{
    if (meter->state == NULL)
        return;
    sync_file(meter->lines, meter->log);

    uint8_t state[STATE_SIZE], *numbers = state + PQ_IMAGE_SIZE;
    memcpy(state, meter->images[meter->now], PQ_IMAGE_SIZE);
    pq_put_u64(numbers + STATE_TAKEN, meter->taken);
    pq_put_u64(numbers + STATE_LENGTH, meter->length);
    pq_put_u64(numbers + STATE_LINES_SUM, meter->sum);
    pq_put_u64(numbers + STATE_SUM, checksum(SUM_OF_NONE, state, PQ_IMAGE_SIZE + STATE_SUM));
    int file = open(meter->beside, O_WRONLY | O_CREAT | O_TRUNC, 0666);
    if (file < 0)
        fail(meter->beside);
    write_all(file, state, sizeof state, meter->beside);
    sync_file(file, meter->beside);
    close_file(file, meter->beside);
    if (rename(meter->beside, meter->state) != 0)
        fail(meter->state);
    sync_folder(meter->state);
    if (!is_log(meter, meter->log))
        stop("%s: removed or replaced", meter->log);
}

/* Whether standard input is a file, which has all its bytes, and not a pipe or a device. */
static bool input_is_file(void)
{
    struct stat about;
    if (fstat(STDIN_FILENO, &about) != 0)
        fail(INPUT);
    return S_ISREG(about.st_mode);
}

static off_t seek_input(off_t place, int whence)
{
    off_t now = lseek(STDIN_FILENO, place, whence);
    if (now < 0)
        fail(INPUT);
    return now;
}

/* Without a STATE there is no LOG, or an empty one of a run that did not come to its first STATE.
 * What stands in a LOG belongs to a STATE that is lost, or that has another name. */
static void check_empty(const struct meter *meter)
{
    struct stat about;
    if (meter->lines < 0)
        return;
    if (fstat(meter->lines, &about) != 0)
        fail(meter->log);
    if (about.st_size > 0)
        stop("%s: is there, and %s is not", meter->log, meter->state);
}

/* Begins with the settings from standard input: a fresh channel, and an empty LOG. */
static void begin(struct meter *meter)
{
    uint8_t settings[PQ_SETTINGS_SIZE];
    if (meter->state != NULL) {
        check_empty(meter);
        if (input_is_file())
            seek_input(0, SEEK_SET);
    }
    size_t length = read_all(STDIN_FILENO, settings, sizeof settings, INPUT);
    uint32_t number = pq_begin(settings, length, meter->images[0], PQ_IMAGE_SIZE);
    if (number != PQ_OK)
        refuse(number);
    if (meter->state == NULL)
        return;
    if (meter->lines < 0)
        open_log(meter, O_CREAT | O_EXCL);
    sync_folder(meter->log);
    keep(meter);
}

/* Makes the image in STATE the channel's, if it is good. One of version 2 is told by its length, and
 * converted; of any other an advance with no samples says whether it is good, and one of another
 * length is refused. */
static uint32_t take_image(struct meter *meter, const uint8_t *image, size_t length)
{
    uint8_t reply[PQ_REPLY_SIZE], none[1] = {0};
    if (length == PQ_EARLIER_IMAGE_SIZE)
        return pq_convert_image(image, length, meter->images[0], PQ_IMAGE_SIZE);
    return pq_advance(image, length, none, 0, meter->images[0], PQ_IMAGE_SIZE, none, 0,
                      reply, sizeof reply);
}

/* Takes the channel from STATE, if there is one. */
static bool load(struct meter *meter)
{
    uint8_t state[STATE_MOST + 1];
    int file = open(meter->state, O_RDONLY);
    if (file < 0 && errno == ENOENT)
        return false;
    if (file < 0)
        fail(meter->state);
    size_t length = read_all(file, state, sizeof state, meter->state);
    close_file(file, meter->state);
    if (length < STATE_NUMBERS || length > STATE_MOST
        || checksum(SUM_OF_NONE, state, length - 8) != pq_get_u64(state + length - 8))
        stop("%s: damaged", meter->state);

    const uint8_t *numbers = state + length - STATE_NUMBERS;
    uint32_t number = take_image(meter, state, length - STATE_NUMBERS);
    if (number != PQ_OK)
        refuse(number);
    meter->taken = pq_get_u64(numbers + STATE_TAKEN);
    meter->length = pq_get_u64(numbers + STATE_LENGTH);
    meter->sum = pq_get_u64(numbers + STATE_LINES_SUM);
    if (meter->taken > MOST_TAKEN)
        stop("%s: more samples than a file can have", meter->state);
    return true;
}

/* Takes up standard input behind the samples taken so far. Of a pipe nothing is known; a file must
 * have the settings and the samples, which are not compared. */
static void resume_input(const struct meter *meter)
{
    uint8_t settings[PQ_SETTINGS_SIZE];
    off_t place = (off_t)(PQ_SETTINGS_SIZE + PQ_SAMPLE_SIZE * meter->taken);
    if (!input_is_file())
        return;
    if (seek_input(0, SEEK_END) < place)
        stop("%s: fewer samples than %s counts", INPUT, meter->state);
    seek_input(0, SEEK_SET);
    if (read_all(STDIN_FILENO, settings, sizeof settings, INPUT) != sizeof settings
        || memcmp(settings, meter->images[0] + PQ_IMAGE_SETTINGS, sizeof settings) != 0)
        stop("%s: other settings than in %s", INPUT, meter->state);
    seek_input(place, SEEK_SET);
}

/* Whether LOG begins with the lines that STATE counts. */
static bool has_lines(const struct meter *meter)
{
    uint8_t block[BLOCK];
    uint64_t sum = SUM_OF_NONE, left = meter->length;
    while (left > 0) {
        size_t room = left < BLOCK ? (size_t)left : BLOCK;
        size_t got = read_some(meter->lines, block, room, meter->log);
        if (got == 0)
            return false;
        sum = checksum(sum, block, got);
        left -= got;
    }
    return sum == meter->sum;
}

/* Takes up standard input and LOG where the channel in STATE stands. Nothing is cut before all else
 * is known to fit. */
static void resume(struct meter *meter)
{
    if (meter->lines < 0)
        stop("%s: is not there, and %s is", meter->log, meter->state);
    resume_input(meter);
    if (!has_lines(meter))
        stop("%s: not the lines that %s counts", meter->log, meter->state);
    sync_folder(meter->state); /* which the last run may not have come to */
    if (ftruncate(meter->lines, (off_t)meter->length) != 0)
        fail(meter->log);
}

/* Takes a block of whole samples and writes the lines of its records: as many calls as the records
 * need. Gives why the last call stopped. */
static uint64_t take(struct meter *meter, const uint8_t *samples, size_t length)
{
    uint8_t records[ROOM], reply[PQ_REPLY_SIZE];
    uint64_t why;
    do {
        uint32_t number = pq_advance(meter->images[meter->now], PQ_IMAGE_SIZE, samples, length,
                                     meter->images[!meter->now], PQ_IMAGE_SIZE,
                                     records, sizeof records, reply, sizeof reply);
        if (number != PQ_OK)
            refuse(number);
        meter->now = !meter->now;
        put_records(meter, records, pq_get_u64(reply + PQ_REPLY_WRITTEN));
        size_t taken = (size_t)pq_get_u64(reply + PQ_REPLY_TAKEN);
        meter->taken += taken;
        samples += PQ_SAMPLE_SIZE * taken;
        length -= PQ_SAMPLE_SIZE * taken;
        why = pq_get_u64(reply + PQ_REPLY_WHY);
    } while (why == PQ_RECORDS_FULL);
    return why;
}

/* Takes samples from standard input, `most` at most. An odd byte waits for the next read; one at
 * the end of the input is ignored. */
static enum end take_input(struct meter *meter, uint64_t most)
{
    uint8_t block[BLOCK];
    size_t have = 0;
    while (most > 0) {
        size_t room = most < BLOCK / PQ_SAMPLE_SIZE ? PQ_SAMPLE_SIZE * (size_t)most : BLOCK;
        size_t got = read_some(STDIN_FILENO, block + have, room - have, INPUT);
        if (got == 0)
            return INPUT_ENDED;
        have += got;
        size_t samples = have / PQ_SAMPLE_SIZE;
        if (samples == 0)
            continue;
        uint64_t why = take(meter, block, PQ_SAMPLE_SIZE * samples);
        keep(meter);
        if (why == PQ_VALUES_ENDED)
            return VALUES_ENDED;
        most -= samples;
        block[0] = block[have - 1];
        have %= PQ_SAMPLE_SIZE;
    }
    return ENOUGH_TAKEN;
}

/* Ends the lines with the count of values, unless the run has just had enough. No STATE counts that
 * line: none is written any more. */
static void finish(struct meter *meter, enum end end)
{
    uint64_t values = pq_get_u64(meter->images[meter->now] + PQ_IMAGE_VALUES);
    if (end != ENOUGH_TAKEN)
        put_line(meter, "values %" PRIu64 "\n", values);
    if (meter->state != NULL)
        sync_file(meter->lines, meter->log);
    close_file(meter->lines, meter->log);
}

/* A number of samples, in digits. */
static bool parse(const char *word, uint64_t *number)
{
    char *end;
    errno = 0;
    *number = strtoull(word, &end, 10);
    return word[0] >= '0' && word[0] <= '9' && *end == '\0' && errno == 0;
}

static void name_files(struct meter *meter, const char *state, const char *log)
{
    meter->state = state;
    meter->log = log;
    int length = snprintf(meter->beside, sizeof meter->beside, "%s.new", state);
    if (length < 0 || (size_t)length >= sizeof meter->beside) {
        errno = ENAMETOOLONG;
        fail(state);
    }
    if (strcmp(log, state) == 0 || strcmp(log, meter->beside) == 0)
        stop("%s: is %s or %s, too", log, state, meter->beside);
}

/* A standard file that is closed would give its number, and what goes into it, to LOG. */
static void check_standard_files(void)
{
    static const char *const names[] = {INPUT, OUTPUT, "standard error"};
    for (int file = 0; file < 3; file++)
        if (fcntl(file, F_GETFD) < 0)
            fail(names[file]);
}

int main(int count, char **words)
{
    struct meter meter = {.lines = STDOUT_FILENO, .log = OUTPUT, .sum = SUM_OF_NONE};
    uint64_t most = UINT64_MAX;
    if (count == 2 || count > 4 || (count == 4 && !parse(words[3], &most))) {
        fprintf(stderr, "log\nlog STATE LOG [N]\n");
        return 2;
    }
    if (count > 1) {
        check_standard_files();
        name_files(&meter, words[1], words[2]);
        open_log(&meter, 0);
    }
    if (count > 1 && load(&meter))
        resume(&meter);
    else
        begin(&meter);
    if (meter.length == 0)
        put_line(&meter, "%s", HEADING);
    enum end end = take_input(&meter, most);
    finish(&meter, end);
    if (end == VALUES_ENDED) {
        fprintf(stderr, "log: the count of values is at its end: further samples are not taken\n");
        return 3;
    }
    return 0;
}
