/* The example of README.md, taken out of it by tests/run, on a sheet of one format and one size. */
#include "example-of-readme.c"

#include <stdio.h>
#include <string.h>

enum { LINE = 64, HEIGHT = 2, IMAGE = LINE * HEIGHT };

static void put(uint8_t *at, uint32_t word)
{
    int i;
    for (i = 0; i < 4; i++) at[i] = (uint8_t)(word >> 8 * i);
}

int main(void)
{
    static const uint32_t contents[8] = {32, 1, 116, 1, 152, 1, 220, 0};
    static const uint32_t geometry[17] = {2, 2, 2, 2, 2, 2, 64, 0, 0, 2, 2, 0, 0, 2, 2, 1, 1};
    uint8_t sheet[220], frame[IMAGE];
    int i, complete;
    memset(sheet, 0, sizeof sheet);
    memset(frame, 7, sizeof frame);
    for (i = 0; i < 8; i++) put(sheet + 4 * i, contents[i]);
    put(sheet + 116, 0x59455247u); /* GREY */
    for (i = 0; i < 17; i++) put(sheet + 152 + 4 * i, geometry[i]);
    complete = captured(sheet, sizeof sheet, frame, sizeof frame);
    printf("%s\n", complete && memory[IMAGE - 1] == 7 ? "the example captures a frame" : "the example FAILED");
    return !complete;
}
