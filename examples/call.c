/*
 * Asks the library about one table, from C: judges it, fires an event, lifts a run, and shows refusals.
 *
 * At the top of the repository, on x86-64 (docs/C.md tells more):
 *
 *     driver/archive target/libdovetrellis.a
 *     cc -Wall -Iinclude -o target/call examples/call.c target/libdovetrellis.a
 *     target/call
 */
#include <dovetrellis.h>
#include <inttypes.h>
#include <stdio.h>

/* Conditions 0, 1, [2], 3; events 0: {0} -> {1,2}, 1: {1,2} -> {3}, 2: {3} -> {1}; start {0}. */
static const uint8_t table[] = {
    0x04, 0x00, 0x01, 0x00, 0x00, 0x00, 0x01, 0x00,
    0x0a, 0x00, 0x02, 0x00, 0x01, 0x00, 0x02, 0x00, 0x00, 0x00, 0x01, 0x00, 0x02, 0x00,
    0x0a, 0x00, 0x02, 0x00, 0x02, 0x00, 0x01, 0x00, 0x01, 0x00, 0x02, 0x00, 0x03, 0x00,
    0x08, 0x00, 0x02, 0x00, 0x01, 0x00, 0x01, 0x00, 0x03, 0x00, 0x01, 0x00,
    0x02, 0x00, 0x03, 0x00, 0x00, 0x00,
};

/* Tells how a call went; true where it worked. Only two refusals come with a condition. */
static bool worked(const char *what, struct dovetrellis_answer answer) {
    if (answer.number == DOVETRELLIS_FINE) {
        printf("%s: worked\n", what);
        return true;
    }
    printf("%s: refused %" PRIu64 " at %" PRIu64, what, answer.number, answer.place);
    if (answer.number == DOVETRELLIS_NOT_HELD || answer.number == DOVETRELLIS_CONTACT) {
        printf(" by condition %" PRIu64, answer.by);
    }
    printf("\n");
    return false;
}

int main(void) {
    if (!worked("judge", dovetrellis_judge(table, sizeof table))) return 1;

    uint8_t marking[4];
    if (!worked("start", dovetrellis_start(table, sizeof table, marking, 4))) return 1;
    if (!worked("fire 0", dovetrellis_fire(table, sizeof table, marking, 4, 0))) return 1;
    printf("after it hold:");
    for (int b = 0; b < 4; b++) {
        if (marking[b] == 1) printf(" %d", b);
    }
    printf("\n");

    const uint16_t run[] = {0, 1, 2, 1};
    uint16_t lifted[4];
    if (!worked("lift 0,1,2,1", dovetrellis_lift(table, sizeof table, run, 4, lifted, 4))) return 1;
    printf("lifted: %d,%d,%d,%d\n", lifted[0], lifted[1], lifted[2], lifted[3]);

    /* condition 3 does not hold, so event 2 is refused at it, and the marking stays as it is */
    worked("fire 2", dovetrellis_fire(table, sizeof table, marking, 4, 2));

    /* in a run the place is the step, and the condition stands beside it */
    const uint16_t early[] = {0, 2};
    worked("lift 0,2", dovetrellis_lift(table, sizeof table, early, 2, lifted, 4));

    /* an output that is too short is refused with the number of elements that are needed */
    worked("lift into three", dovetrellis_lift(table, sizeof table, run, 4, lifted, 3));
    return 0;
}
