/* A shop's own sink table: made, written as a field, loaded, and used for a plunge's motions. Built and run by examples/run. */
#include "haruseopda.h"

#include <stdio.h>

int main(void)
{
    static const uint8_t file[20] = {1, 0, 3, 8, 3, 3, 2, 0, 4, 1, 1, 0, 9, 3, 0, 4, 0, 0, 0, 1};
    const haru_scale scale = {0.125, 12.5, 7.3};
    uint16_t shop[HARU_TABLE_ENTRIES], table[HARU_TABLE_ENTRIES];
    uint8_t field[HARU_TABLE_BYTES];
    haru_answer answer;
    size_t depth;

    haru_built_in_table(table); /* what the press starts with */
    for (depth = 0; depth < HARU_TABLE_ENTRIES; depth++)
        shop[depth] = (uint16_t)(table[depth] + table[depth] / 8); /* graphite wears by an eighth more */
    answer = haru_write_table(shop, field, sizeof field);
    if (answer.number != 0) {
        printf("refused %u %zu\n", (unsigned)answer.number, answer.place);
        return 1;
    }
    printf("built-in: sinks %g mm\n", haru_table_motions(table, file, sizeof file, 0, scale).sink);
    haru_load_table(field, sizeof field, table);
    printf("loaded:   sinks %g mm\n", haru_table_motions(table, file, sizeof file, 0, scale).sink);
    field[4] = 1; /* entry 0 must be 0 */
    answer = haru_load_table(field, sizeof field, table);
    printf("refused %u at byte %zu: still %g mm\n", (unsigned)answer.number, answer.place,
           haru_table_motions(table, file, sizeof file, 0, scale).sink);
    return 0;
}
