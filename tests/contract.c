/* contract: the code in docs/INTEGRATION.md that counts a day's changes: contract RECORDING SECONDS DAY < LINES
 * The settings are the recording's; the records are made of the lines that an event program prints. */
#include "integration.c"

#include <stdlib.h>
#include <string.h>

int main(int count, char **words)
{
    static const char *const kinds[] = {"", "dip", "swell", "interruption", "rvc"};
    static uint8_t records[PQ_RECORD_SIZE * 1000];
    uint8_t settings[PQ_SETTINGS_SIZE];
    char kind[16];
    unsigned long long numbers[4];
    size_t length = 0;
    FILE *file = count == 4 ? fopen(words[1], "rb") : NULL;
    if (file == NULL || fread(settings, 1, sizeof settings, file) != sizeof settings)
        return 2;
    fclose(file);
    while (length < sizeof records && scanf("%15s %llu %llu %llu %llu", kind, &numbers[0], &numbers[1], &numbers[2], &numbers[3]) == 5) {
        for (uint8_t j = PQ_DIP; j <= PQ_CHANGE; j++)
            if (strcmp(kinds[j], kind) == 0)
                records[length + PQ_RECORD_KIND] = j;
        pq_put_u64(records + length + PQ_RECORD_START, numbers[0]);
        pq_put_u64(records + length + PQ_RECORD_DURATION, numbers[1]);
        pq_put_u32(records + length + PQ_RECORD_FIRST, (uint32_t)numbers[2]);
        pq_put_u32(records + length + PQ_RECORD_SECOND, (uint32_t)numbers[3]);
        length += PQ_RECORD_SIZE;
    }
    uint32_t refused = contract_day(settings, strtoull(words[2], NULL, 10), records, length, strtoull(words[3], NULL, 10));
    if (refused != PQ_OK)
        printf("refused %u\n", (unsigned)refused);
    return 0;
}
