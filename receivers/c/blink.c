/* An example, outside the proved program: the loop of a board. It lights a lamp as long as the last verdict was an accept, and sleeps through the slots that don't
 * matter. The board's own file has the three functions below; plan.h is made by plan.py, with the board's reader. */
#include "air.h"
#include "plan.h"

/* Waits for a datagram, at most as long as a receiver sleeps at most, and answers its length; of a longer one the first bytes. */
size_t board_hear(uint8_t *bytes, size_t most);
/* Turns the radio off for this many slots. */
void board_sleep(uint32_t slots);
void board_light(int is_on);

/* as many bytes as a bucket of this many items has in version 1, which are more than in version 2; and one, so that a longer datagram is told from it */
static uint8_t bytes[24 + 4 * AIR_ITEMS + 1];
static struct air_receiver receiver;

int main(void)
{
    struct air_verdict verdict;
    uint32_t slots;

    if (air_init(&receiver, air_plan, sizeof air_plan / sizeof *air_plan, 0) != AIR_READY)
        return 1;
    for (slots = 0; slots != AIR_FOREVER; slots = air_wake(&receiver)) {
        if (slots > 0)
            board_sleep(slots);
        air_hear(&receiver, bytes, board_hear(bytes, sizeof bytes));
        while (air_next(&receiver, &verdict))
            board_light(verdict.end == AIR_ACCEPT);
    }
    return 0;
}
