/*
 * A host that carries one packet through the square of the bench's paper, with the cable at port 2 of switch 2 dead: at each switch it asks
 * for the step, and then follows the cable to its other end. It prints each hop as switch:port, and how the walk ended.
 *
 *   gcc -std=c11 -Wall -Wextra -Werror agent/example.c target/staticlib/libswitch.a -o example
 */
#include <inttypes.h>
#include <stdio.h>

#include "switch.h"

static const uint8_t sheet[] = {
    1, 5,
    2, 1, 1, 0, 2, 1, 0,
    2, 2, 2, 0, 3, 1, 0,
    2, 3, 2, 0, 4, 1, 0,
    2, 4, 2, 0, 1, 2, 0,
};
static const uint8_t faults[] = {3, 2, 2};

/* On a real switch the packet itself arrives at the other end; here the sheet tells where that is. */
static void cross(uint64_t *at, uint64_t *arrival, unsigned port)
{
    for (size_t row = 2; row < sizeof sheet; row += 7) {
        const uint8_t *near = sheet + row + 1, *far = sheet + row + 4;
        if (far[0] == *at && far[1] == port) {
            const uint8_t *other = near;
            near = far;
            far = other;
        }
        if (near[0] == *at && near[1] == port) {
            *at = far[0];
            *arrival = far[1];
            return;
        }
    }
}

int main(void)
{
    const uint64_t destination = 3;
    uint64_t at = 1, arrival = 0;
    uint8_t tag[2 * 5] = {0};

    for (;;) {
        const uint64_t answer = switch_step(at, arrival, destination, sheet, sizeof sheet, faults, sizeof faults, tag, sizeof tag);
        switch (switch_end_of(answer)) {
        case SWITCH_FORWARDED:
            printf("%" PRIu64 ":%u\n", at, switch_port(answer));
            cross(&at, &arrival, switch_port(answer));
            break;
        case SWITCH_DELIVERED:
            printf("delivered at %" PRIu64 "\n", at);
            return 0;
        case SWITCH_NONE:
            printf("none at %" PRIu64 "\n", at);
            return 0;
        default:
            printf("refused %u\n", switch_refusal_of(answer));
            return 1;
        }
    }
}
