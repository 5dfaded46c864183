/* A program that calls begin and advance and nothing else, to see what they add to a program. */
#include "pq.h"

uint8_t settings[PQ_SETTINGS_SIZE], image[2][PQ_IMAGE_SIZE], reply[PQ_REPLY_SIZE];
uint8_t samples[256], records[PQ_RECORDS_ENOUGH];

#ifdef WITHOUT
#define pq_begin(a, b, c, d) (0)
#define pq_advance(a, b, c, d, e, f, g, h, i, j) (0)
#endif

int main(void)
{
    return (int)(pq_begin(settings, sizeof settings, image[0], sizeof image[0])
                 + pq_advance(image[0], sizeof image[0], samples, sizeof samples,
                              image[1], sizeof image[1], records, sizeof records,
                              reply, sizeof reply));
}
