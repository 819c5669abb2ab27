/* Runs the script of the scope document, and prints its answers. */
#include "yagvost.h"
#include <stdio.h>
#include <stdlib.h>

static const char script[] = "n 3\nw 0 65\nd 1\nd 3\nd 4\nd 5\nc 0\ns 0\nd 6\nd 7\nd 8\nd 9\nd 10\nd 12\nd 13\nd 14\n";

int main(void)
{
    size_t length = sizeof script - 1, room = YAGVOST_LINE_ROOM;
    for (size_t at = 0; at < length; at++)
        room += script[at] == '\n' ? YAGVOST_LINE_ROOM : 0;
    uint8_t *answers = malloc(room);
    if (answers == NULL)
        return 1;
    size_t printed = yagvost_run_script((const uint8_t *)script, length, answers, room);
    int failed = printed == SIZE_MAX || fwrite(answers, 1, printed, stdout) != printed;
    free(answers);
    return failed;
}
