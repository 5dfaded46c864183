/* pq.h: the measuring part of a supply-voltage logger, for a host program in C or C++.
 *
 * Samples of one voltage channel go in; records of dips, swells, interruptions and rapid voltage
 * changes (IEC 61000-4-30, Edition 3) come out, by the rules in docs/RULES.md. What the channel
 * remembers between two calls lies in an image of 788 bytes, which the host keeps: in memory, in a
 * file, or handed to another meter. What would come of a block can be asked before a channel takes
 * it. The joint events of three phases have no call here (docs/INTEGRATION.md, Three phases).
 *
 * pq_count_day counts a day's rapid voltage changes among such records, against the caps of a
 * network contract. The four pq_convert_.. carry records and images of version 2, the earlier
 * edition, over into this one, and back.
 *
 * The eight calls answer every input, with 0 or with the number of a refusal, and each ends. They
 * use the caller's buffers and a few KiB of stack, and nothing else: no allocation, no global
 * state, no input or output. Any number of threads may call them at once, each with its own
 * buffers.
 *
 * Rules for the buffers, which the calls cannot check:
 * - each one is a pointer and its length in bytes, and the bytes are there;
 * - no pointer is null, not even one of length 0: there the address of any byte will do;
 * - a buffer that is written to overlaps no other one; so the next image is not the old one in
 *   place: keep two and let them change places; nor is anything converted in place;
 * - they need no alignment.
 *
 * A refused call leaves every buffer as it was. Numbers in settings, images, records and replies
 * are unsigned and little-endian.
 */
#ifndef PQ_H
#define PQ_H

#include <stddef.h>
#include <stdint.h>

#ifdef __cplusplus
extern "C" {
#endif

/* The version, as three numbers and as a text; in two steps, so that a name becomes its number. */
#define PQ_VERSION_MAJOR 3
#define PQ_VERSION_MINOR 0
#define PQ_VERSION_PATCH 0
#define PQ_VERSION PQ_DOTTED(PQ_VERSION_MAJOR, PQ_VERSION_MINOR, PQ_VERSION_PATCH)
#define PQ_DOTTED(major, minor, patch) PQ_TEXT(major) "." PQ_TEXT(minor) "." PQ_TEXT(patch)
#define PQ_TEXT(number) #number

/* Lengths in bytes. */
#define PQ_SETTINGS_SIZE 36
#define PQ_IMAGE_SIZE 788
#define PQ_SAMPLE_SIZE 2
#define PQ_RECORD_SIZE 28
#define PQ_REPLY_SIZE 24
#define PQ_DAY_REPLY_SIZE 32

/* Those of the earlier edition, which only the converter reads and writes. */
#define PQ_EARLIER_IMAGE_SIZE 764
#define PQ_EARLIER_RECORD_SIZE 20

/* With room for this many bytes of records (four records) a call takes at least one sample of a
 * block that is not empty, unless the count of values is at its end. One value never has more. */
#define PQ_RECORDS_ENOUGH (4 * PQ_RECORD_SIZE)

/* Settings: nine numbers of 4 bytes, at these places. Levels, limit, reduction and hysteresis are
 * in hundredths of a percent of the declared voltage. */
#define PQ_SETTINGS_SAMPLES 0       /* M, samples in a half-cycle: 8 to 256 */
#define PQ_SETTINGS_SYSTEM 4        /* F, the system: 50 or 60 (Hz) */
#define PQ_SETTINGS_DECLARED 8      /* U, declared voltage in sixteenths of a count: 16 to 524288 */
#define PQ_SETTINGS_LIMIT 12        /* T, limit of a rapid voltage change: 50 to 600 */
#define PQ_SETTINGS_REDUCTION 16    /* H, by how much T is lower within a change: below T */
#define PQ_SETTINGS_INTERRUPTION 20 /* I, interruption level: at least 1, I + G at most D */
#define PQ_SETTINGS_DIP 24          /* D, dip level: D + 2 G below W */
#define PQ_SETTINGS_SWELL 28        /* W, swell level: at most 20000, as all four */
#define PQ_SETTINGS_HYSTERESIS 32   /* G, hysteresis of the three levels */

/* A record: its kind and its mark, a byte each, two bytes of 0, then start and duration, 8 bytes
 * each, and two magnitudes, 4 bytes each. */
#define PQ_RECORD_KIND 0
#define PQ_RECORD_CLIPPED 1   /* 1 if one of the values that the first magnitude is taken from is
                                 clipped, else 0. A value is clipped if one of its samples is:
                                 -32768 or 32767, where the voltage may have been beyond the
                                 range */
#define PQ_RECORD_START 4     /* the value at which the event began, counted from 1 */
#define PQ_RECORD_DURATION 12 /* in half-cycles */
#define PQ_RECORD_FIRST 20    /* dip, interruption: the least value; swell: the greatest, both in
                                 sixteenths of a count; rapid voltage change: the greatest
                                 difference from the steady state before, in N-ths of a sixteenth
                                 (N is 100 at 50 Hz and 120 at 60 Hz) */
#define PQ_RECORD_SECOND 24   /* rapid voltage change: the difference of the two steady states, in
                                 N-ths of a sixteenth; else 0 */

enum pq_kind { PQ_DIP = 1, PQ_SWELL = 2, PQ_INTERRUPTION = 3, PQ_CHANGE = 4 };

/* The reply of advance: three numbers of 8 bytes. That of try is what advance would tell; nothing
 * is taken, and the rest of a block can be tried only on the image after an advance. */
#define PQ_REPLY_TAKEN 0   /* samples taken, the block's first ones */
#define PQ_REPLY_WRITTEN 8 /* records written */
#define PQ_REPLY_WHY 16    /* why no more samples were taken */

enum pq_why {
    PQ_ALL_TAKEN = 0,    /* the whole block was taken */
    PQ_RECORDS_FULL = 1, /* the next sample's records would not fit: call again with the rest */
    PQ_VALUES_ENDED = 2  /* the next sample would pass the last value, 9223372036854775807, which is
                            2^63 - 1. At 50 Hz it comes after some 2.9 thousand million years, so
                            that only an image which no recording gave can say so. Begin anew behind
                            that sample, the last of its half-cycle: no later call takes it or any
                            behind it */
};

/* The reply of a day's count: four numbers of 8 bytes. */
#define PQ_DAY_BY_SECOND 0       /* changes with a second magnitude of 3 % of U or more */
#define PQ_DAY_BY_FIRST 8        /* changes with a first magnitude above 5 % of U */
#define PQ_DAY_BY_SECOND_OVER 16 /* 1 if the former are more than the cap, else 0 */
#define PQ_DAY_BY_FIRST_OVER 24  /* 1 if the latter are, else 0 */

/* What a host may want to read from an image, at these places: numbers of 4 bytes; V, k and starts,
 * which count values, are of 8 bytes and take pq_get_u64. A mark is 1 for clipped and 0 for not. */

/* The settings, PQ_SETTINGS_SIZE bytes, behind the table of contents. */
#define PQ_IMAGE_SETTINGS 32

/* The half-cycle in progress: its count of samples; and, behind the sums of it and of the one
 * before, whether there is one before: 1 or 0. Then the marks of the one in progress and of the one
 * before. */
#define PQ_IMAGE_COUNT (PQ_IMAGE_SETTINGS + PQ_SETTINGS_SIZE)
#define PQ_IMAGE_WHOLE (PQ_IMAGE_COUNT + 4 + 8 + 8)
#define PQ_IMAGE_HALF_CLIPPED (PQ_IMAGE_WHOLE + 4)
#define PQ_IMAGE_LAST_CLIPPED (PQ_IMAGE_HALF_CLIPPED + 4)

/* V, the count of values so far (8 bytes), and the last values, oldest first: V of them, N at most;
 * the places behind them are 0. N is 100 at 50 Hz and 120 at 60 Hz. Then their marks, in the same
 * order and in as many places, of one byte each. */
#define PQ_IMAGE_VALUES (PQ_IMAGE_LAST_CLIPPED + 4)
#define PQ_IMAGE_KEPT (PQ_IMAGE_VALUES + 8)
#define PQ_IMAGE_KEPT_PLACES 120
#define PQ_IMAGE_KEPT_CLIPPED (PQ_IMAGE_KEPT + 4 * PQ_IMAGE_KEPT_PLACES)

/* The phase: 0 fewer than N values, 1 never yet steady, 2 steady, 3 in a rapid voltage change. Then
 * four numbers of the change, 0 in other phases; the first is k, the value at which it began (8
 * bytes). */
#define PQ_IMAGE_PHASE (PQ_IMAGE_KEPT_CLIPPED + PQ_IMAGE_KEPT_PLACES)
#define PQ_IMAGE_CHANGE (PQ_IMAGE_PHASE + 4)

/* The dip, swell and interruption that stand: the value at which each began (8 bytes), 0 if none
 * stands, and its magnitude so far: the least value, of a swell the greatest. */
#define PQ_IMAGE_DIP (PQ_IMAGE_CHANGE + 8 + 4 + 4 + 8)
#define PQ_IMAGE_DIP_MAGNITUDE (PQ_IMAGE_DIP + 8)
#define PQ_IMAGE_SWELL (PQ_IMAGE_DIP_MAGNITUDE + 4)
#define PQ_IMAGE_SWELL_MAGNITUDE (PQ_IMAGE_SWELL + 8)
#define PQ_IMAGE_INTERRUPTION (PQ_IMAGE_SWELL_MAGNITUDE + 4)
#define PQ_IMAGE_INTERRUPTION_MAGNITUDE (PQ_IMAGE_INTERRUPTION + 8)

/* The marks of these events so far: of a dip, swell or interruption over the values from its start
 * on, of a rapid voltage change over k to V - N. */
#define PQ_IMAGE_DIP_CLIPPED (PQ_IMAGE_INTERRUPTION_MAGNITUDE + 4)
#define PQ_IMAGE_SWELL_CLIPPED (PQ_IMAGE_DIP_CLIPPED + 4)
#define PQ_IMAGE_INTERRUPTION_CLIPPED (PQ_IMAGE_SWELL_CLIPPED + 4)
#define PQ_IMAGE_CHANGE_CLIPPED (PQ_IMAGE_INTERRUPTION_CLIPPED + 4)

/* What the calls return. */
enum pq_refusal {
    PQ_OK = 0,
    PQ_REFUSED_SETTINGS_LENGTH = 1, /* settings that are not 36 bytes */
    PQ_REFUSED_SAMPLES = 2,         /* settings: M */
    PQ_REFUSED_SYSTEM = 3,          /* settings: F */
    PQ_REFUSED_DECLARED = 4,        /* settings: U */
    PQ_REFUSED_LIMIT = 5,           /* settings: T or H */
    PQ_REFUSED_LEVELS = 6,          /* settings: I, D, W or G */
    PQ_REFUSED_IMAGE_ROOM = 7,      /* fewer than 788 bytes to write the image into; of the
                                       converter, fewer than what is converted takes */
    PQ_REFUSED_IMAGE_LENGTH = 8,    /* an image that is not 788 bytes; those of version 2 are 764,
                                       those of version 1 are 620 */
    PQ_REFUSED_IMAGE_TABLE = 9,     /* an image with another table of contents */
    PQ_REFUSED_IMAGE_SETTINGS = 10, /* an image with settings that begin refuses */
    PQ_REFUSED_IMAGE_BODY = 11,     /* an image with another body that cannot be */
    PQ_REFUSED_ODD_SAMPLES = 12,    /* an odd number of sample bytes */
    PQ_REFUSED_REPLY_ROOM = 13,     /* fewer than 24 bytes to write the reply into; a day's: 32 */
    /* 14 is the three-phase logger's, which has no call here */
    PQ_REFUSED_Z = 15,              /* z that is a day or more */
    PQ_REFUSED_RECORDS = 16,        /* records that are not a multiple of 28 bytes */
    PQ_REFUSED_KIND = 17,           /* a record with a kind other than 1 to 4 */
    PQ_REFUSED_WIDE = 18,           /* converting back: a number above 4294967295 */
    PQ_REFUSED_CONVERSION = 19      /* to convert: an image that its own edition refuses, with 8 to
                                       11; or bytes that are not whole records of their edition */
};

/* Begins: writes the image of a channel that has taken no sample into the first 788 bytes of
 * `image`, and leaves its further bytes.
 * Returns 0, or the first that applies of 1 to 7, in this order. */
uint32_t pq_begin(const uint8_t *settings, size_t settings_length,
                  uint8_t *image, size_t image_length);

/* Goes on from `image` with the block `samples`: signed 16-bit counts, low byte first. Takes as
 * many of the block's samples as it can, in order, and writes
 * - into `next` the image after them, 788 bytes;
 * - into `records` the records due at the values that they complete, 28 bytes each, in order;
 * - into `reply` how many samples were taken, how many records written, and why no more.
 * Bytes behind these are left as they were. Samples that were not taken are still the caller's.
 * Returns 0, or the first that applies of 8, 9, 10, 11, 12, 7, 13, in this order. */
uint32_t pq_advance(const uint8_t *image, size_t image_length,
                    const uint8_t *samples, size_t samples_length,
                    uint8_t *next, size_t next_length,
                    uint8_t *records, size_t records_length,
                    uint8_t *reply, size_t reply_length);

/* Tries a block: what would pq_advance do with it, given `scratch` as its room for records? Writes
 * - into `scratch` the records that it would write;
 * - into `reply` what it would tell.
 * Bytes behind these are left as they were, and there is no next image: the channel stays as it is.
 * pq_advance with the same image and samples then replies and writes the same bytes, if it is given
 * as many bytes for records, or room for just the records that were told.
 * Returns 0, or the first that applies of 8, 9, 10, 11, 12, 13, in this order. */
uint32_t pq_try(const uint8_t *image, size_t image_length,
                const uint8_t *samples, size_t samples_length,
                uint8_t *scratch, size_t scratch_length,
                uint8_t *reply, size_t reply_length);

/* Counts the rapid voltage changes that start on one day, among records made under these settings,
 * 28 bytes each, in any order. Dips, swells and interruptions are passed over. One count is of
 * second magnitudes (the difference of the steady states) of 3 % of U or more, the other of first
 * ones (the greatest difference) above 5 %; a change may be in both. Each count is over if it is
 * above 24, or above 12 for a supply above 35 kV.
 * - `z`: half-cycles from midnight to value 0, below 86400 x N, which is a day. Value 1 begins with
 *   the first sample, value 0 lies a half-cycle before it;
 * - `above`: whether the supply is above 35 kV: 0 for no, any other number for yes;
 * - `day`: 0 is the day of value 0, 1 the next one. Where the first sample is taken at midnight, z
 *   is 86400 x N - 1, and that sample's day is 1.
 * Writes four numbers (PQ_DAY_..) into the first 32 bytes of `reply`, and leaves its further bytes.
 * Returns 0, or the first that applies of 1 to 6, 15, 16, 17, 13, in this order. */
uint32_t pq_count_day(const uint8_t *settings, size_t settings_length,
                      const uint8_t *records, size_t records_length,
                      uint64_t z, uint32_t above, uint64_t day,
                      uint8_t *reply, size_t reply_length);

/* The converter. In the earlier edition V, k, starts and durations, and the value at which a dip or
 * a swell first stood in a change, have 4 bytes each, and the table of contents says so; all else
 * is alike, and in the same order. There and back gives the same bytes, whichever way is first, and
 * a converted image goes on as the same channel.
 *
 * Each call reads its first buffer, writes what comes of it into the front of the second, and
 * leaves that one's further bytes. Each returns 0, or the first that applies of
 * - 19: an image that its own edition refuses, with 8 to 11; or bytes that are not whole records of
 *   their edition, each with kind 1 to 4, mark 0 or 1 and two bytes of 0. No bytes at all are no
 *   records, and good;
 * - 18, only going back: a number above 4294967295; in an image exactly if V is, since no other
 *   count is above V; in records a start or a duration;
 * - 7: the second buffer has fewer bytes than are to be written. */

/* Records: n bytes, 20 each, become 28 x (n / 20) bytes. Returns 0, 19 or 7. */
uint32_t pq_convert_records(const uint8_t *earlier, size_t earlier_length,
                            uint8_t *records, size_t records_length);

/* Records back: n bytes, 28 each, become 20 x (n / 28) bytes. Returns 0, 19, 18 or 7. */
uint32_t pq_convert_records_back(const uint8_t *records, size_t records_length,
                                 uint8_t *earlier, size_t earlier_length);

/* An image: 764 bytes become 788. Returns 0, 19 or 7. */
uint32_t pq_convert_image(const uint8_t *earlier, size_t earlier_length,
                          uint8_t *image, size_t image_length);

/* An image back: 788 bytes become 764. Returns 0, 19, 18 or 7. */
uint32_t pq_convert_image_back(const uint8_t *image, size_t image_length,
                               uint8_t *earlier, size_t earlier_length);

/* Numbers in bytes, on any machine. */
static inline uint32_t pq_get_u32(const uint8_t *at)
{
    uint32_t b0 = at[0], b1 = at[1], b2 = at[2], b3 = at[3];
    return b0 | b1 << 8 | b2 << 16 | b3 << 24;
}

static inline uint64_t pq_get_u64(const uint8_t *at)
{
    uint64_t low = pq_get_u32(at), high = pq_get_u32(at + 4);
    return low | high << 32;
}

static inline void pq_put_u32(uint8_t *at, uint32_t number)
{
    for (int j = 0; j < 4; j++, number >>= 8)
        at[j] = number & 0xff;
}

static inline void pq_put_u64(uint8_t *at, uint64_t number)
{
    for (int j = 0; j < 8; j++, number >>= 8)
        at[j] = number & 0xff;
}

/* A record as numbers; see PQ_RECORD_.. for what they mean. */
struct pq_record {
    uint32_t kind;    /* one of enum pq_kind */
    uint32_t clipped; /* 1 or 0 */
    uint64_t start;
    uint64_t duration;
    uint32_t first;
    uint32_t second;
};

static inline struct pq_record pq_get_record(const uint8_t *at)
{
    struct pq_record record;
    record.kind = at[PQ_RECORD_KIND];
    record.clipped = at[PQ_RECORD_CLIPPED];
    record.start = pq_get_u64(at + PQ_RECORD_START);
    record.duration = pq_get_u64(at + PQ_RECORD_DURATION);
    record.first = pq_get_u32(at + PQ_RECORD_FIRST);
    record.second = pq_get_u32(at + PQ_RECORD_SECOND);
    return record;
}

/* A day's count as numbers; see PQ_DAY_.. for what they mean. */
struct pq_day {
    uint64_t by_second;
    uint64_t by_first;
    uint32_t by_second_over; /* 1 or 0 */
    uint32_t by_first_over;  /* 1 or 0 */
};

static inline struct pq_day pq_get_day(const uint8_t *reply)
{
    struct pq_day day;
    day.by_second = pq_get_u64(reply + PQ_DAY_BY_SECOND);
    day.by_first = pq_get_u64(reply + PQ_DAY_BY_FIRST);
    day.by_second_over = pq_get_u32(reply + PQ_DAY_BY_SECOND_OVER);
    day.by_first_over = pq_get_u32(reply + PQ_DAY_BY_FIRST_OVER);
    return day;
}

/* N of an image's channel, which also divides the magnitudes of a rapid voltage change. */
static inline uint32_t pq_window_length(const uint8_t *image)
{
    return pq_get_u32(image + PQ_IMAGE_SETTINGS + PQ_SETTINGS_SYSTEM) == 50 ? 100 : 120;
}

/* How many values an image keeps: V, and N at most. The newest one is the last of them. */
static inline uint32_t pq_kept_values(const uint8_t *image)
{
    uint32_t most = pq_window_length(image);
    /* A V below N stands in its low 4 bytes. */
    return pq_get_u64(image + PQ_IMAGE_VALUES) < most ? pq_get_u32(image + PQ_IMAGE_VALUES) : most;
}

/* The newest value in an image, in sixteenths of a count; 0 if there is none yet. */
static inline uint32_t pq_newest_value(const uint8_t *image)
{
    uint32_t kept = pq_kept_values(image);
    return kept == 0 ? 0 : pq_get_u32(image + PQ_IMAGE_KEPT + 4 * (kept - 1));
}

/* Whether the newest value is clipped: 1 or 0; 0 if there is none yet. */
static inline uint32_t pq_newest_clipped(const uint8_t *image)
{
    uint32_t kept = pq_kept_values(image);
    return kept == 0 ? 0 : image[PQ_IMAGE_KEPT_CLIPPED + (kept - 1)];
}

/* What a refusal means, for a message. */
static inline const char *pq_refusal_text(uint32_t number)
{
    switch (number) {
    case PQ_OK: return "not refused";
    case PQ_REFUSED_SETTINGS_LENGTH: return "the settings are not 36 bytes";
    case PQ_REFUSED_SAMPLES: return "settings: M, samples in a half-cycle, is not 8 to 256";
    case PQ_REFUSED_SYSTEM: return "settings: F, the system, is neither 50 nor 60";
    case PQ_REFUSED_DECLARED: return "settings: U, the declared voltage, is not 16 to 524288";
    case PQ_REFUSED_LIMIT: return "settings: T is not 50 to 600, or H is not below T";
    case PQ_REFUSED_LEVELS: return "settings: I, D, W or G is out of range or out of order";
    case PQ_REFUSED_IMAGE_ROOM:
        return "too few bytes to write the image or the converted records into";
    case PQ_REFUSED_IMAGE_LENGTH: return "the image is not 788 bytes";
    case PQ_REFUSED_IMAGE_TABLE: return "the image has another table of contents";
    case PQ_REFUSED_IMAGE_SETTINGS: return "the image has settings that are out of range";
    case PQ_REFUSED_IMAGE_BODY: return "the image has another part that cannot be";
    case PQ_REFUSED_ODD_SAMPLES: return "an odd number of sample bytes";
    case PQ_REFUSED_REPLY_ROOM: return "too few bytes to write the reply into";
    case PQ_REFUSED_Z: return "z, half-cycles from midnight to value 0, is a day or more";
    case PQ_REFUSED_RECORDS: return "the records are not a multiple of 28 bytes";
    case PQ_REFUSED_KIND: return "a record has a kind other than 1 to 4";
    case PQ_REFUSED_WIDE: return "a number is above 4294967295, the earlier edition's greatest";
    case PQ_REFUSED_CONVERSION:
        return "not a good image, or not whole records, of the edition that is converted from";
    default: return "no call refuses with this number";
    }
}

#ifdef __cplusplus
}
#endif

#endif
