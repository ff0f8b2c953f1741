/* Lists a small relief and prints its plunges. Built and run by examples/run. */
#include "haruseopda.h"

#include <stdio.h>

int main(void)
{
    static const uint8_t relief[9] = {4, 4, 4, 4, 9, 4, 4, 4, 4};
    uint8_t a[9], b[9], file[64];
    haru_list_answer answer = haru_list(relief, sizeof relief, 8, 3, 3, file, sizeof file, a, sizeof a, b, sizeof b);
    size_t i;

    if (answer.number != 0) {
        printf("refused %u %zu\n", (unsigned)answer.number, answer.place);
        return 1;
    }
    for (i = 0; i < answer.plunges; i++) {
        const uint8_t *field = file + 6 + 7 * i;
        printf("column %u row %u reach %u depth %u\n", field[3], field[4], field[5], field[6]);
    }
    printf("%zu plunges in %zu bytes, %zu rungs climbed\n", answer.plunges, answer.bytes, answer.rungs);
    return 0;
}
