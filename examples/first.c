/* The heads and bars of examples/first.txt, from C. */
#include "acorde.h"
#include <stdio.h>

int main(void) {
    const uint32_t sizes[] = {480, 1, 3}, deltas[] = {0, 480, 0}, words[] = {151010368, 134233088, 100663296};
    uint64_t starts[8], marks[8];
    AcordeHead head = acorde_head(sizes, 3, deltas, 3, words, 3);
    AcordeCount bars = acorde_bars(sizes, 3, deltas, 3, words, 3, starts, 8, marks, 8);
    if (head.number != ACORDE_OK || bars.number != ACORDE_OK) {
        printf("refused %u\n", (unsigned)(head.number != ACORDE_OK ? head.number : bars.number));
        return 1;
    }
    printf("tempo %u meter %u/%u bars %u\n", (unsigned)head.tempo, (unsigned)head.upper, (unsigned)head.lower,
           (unsigned)bars.count);
    return 0;
}
