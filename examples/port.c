/* A run of the press port, as docs/PORT-OTHER.md has it: each write or event, the refusal if there is one, and the eight bytes after it. Built and run by
 * examples/run. */
#include "haruseopda.h"

#include <stdio.h>

enum who { WRITE, EVENT };

struct input {
    enum who who;
    unsigned number; /* of the byte, or of the event */
    unsigned value;
    const char *about;
};

static const struct input run[] = {
    {WRITE, HARU_PORT_COLUMN, 17, "column 17"},
    {WRITE, HARU_PORT_ROW, 31, "row 31"},
    {WRITE, HARU_PORT_REACH, 2, "reach 2"},
    {WRITE, HARU_PORT_DEPTH, 110, "depth 110"},
    {WRITE, HARU_PORT_COMMAND, HARU_START, "command 1: sink"},
    {WRITE, HARU_PORT_COLUMN, 40, "too early: busy"},
    {EVENT, HARU_EVENT_DONE, 0, "done"},
    {WRITE, HARU_PORT_COLUMN, 40, "too early: 129 is not 1"},
    {WRITE, HARU_PORT_COMMAND, HARU_ACKNOWLEDGE, "command 2: seen"},
    {WRITE, HARU_PORT_COLUMN, 40, "column 40"},
    {WRITE, HARU_PORT_COMMAND, HARU_START, "command 1: sink"},
    {EVENT, HARU_EVENT_FAULT, 0, "fault"},
    {WRITE, HARU_PORT_COMMAND, HARU_CLEAR, "not seen yet"},
    {WRITE, HARU_PORT_COMMAND, HARU_ACKNOWLEDGE, "command 2: seen"},
    {WRITE, HARU_PORT_COMMAND, HARU_CLEAR, "command 3: mended"},
    {WRITE, HARU_PORT_DONE_HIGH, 0, "the count is the port's"},
};

static void show(const char *what, unsigned refusal, haru_port port, const char *about)
{
    size_t i;

    printf("%-12s ", what);
    if (refusal != 0)
        printf("%2u", refusal);
    else
        printf("  ");
    for (i = 0; i < HARU_PORT_BYTES; i++)
        printf(" %3u", (unsigned)port.bytes[i]);
    printf("  %s\n", about);
}

static haru_port step(haru_port port, const struct input *input)
{
    haru_port_answer answer;
    char what[24];

    if (input->who == WRITE) {
        answer = haru_port_write(port, input->number, (uint8_t)input->value);
        snprintf(what, sizeof what, "write %u %u", input->number, input->value);
    } else {
        answer = haru_port_event(port, input->number);
        snprintf(what, sizeof what, "event %u", input->number);
    }
    show(what, (unsigned)answer.number, answer.port, input->about);
    return answer.port; /* after a refusal: the port that was handed in */
}

int main(void)
{
    haru_port port = haru_fresh_port();
    size_t i;

    show("", 0, port, "at start");
    for (i = 0; i < sizeof run / sizeof run[0]; i++)
        port = step(port, &run[i]);
    return 0;
}
