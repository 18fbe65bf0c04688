/*
 * Makes the calls that take a number of less than a register with garbage in the bits above it, which the conventions of C leave open,
 * and tells which of them are led astray by it; the exit status is 1 where one is. A truth value has its byte and garbage above that.
 */
#include <dovetrellis.h>
#include <stdio.h>

#define ABOVE_8(number) ((uint64_t)0xA5A5A5A5A5A5A500 | (number))
#define ABOVE_16(number) ((uint64_t)0xA5A5A5A5A5A50000 | (number))
#define ABOVE_32(number) ((uint64_t)0xA5A5A5A500000000 | (number))

/* Net A: conditions 0, 1, [2], 3; events 0: {0} -> {1,2}, 1: {1,2} -> {3}, 2: {3} -> {1}; start {0}. */
static const uint8_t table[] = {
    0x04, 0x00, 0x01, 0x00, 0x00, 0x00, 0x01, 0x00,
    0x0a, 0x00, 0x02, 0x00, 0x01, 0x00, 0x02, 0x00, 0x00, 0x00, 0x01, 0x00, 0x02, 0x00,
    0x0a, 0x00, 0x02, 0x00, 0x02, 0x00, 0x01, 0x00, 0x01, 0x00, 0x02, 0x00, 0x03, 0x00,
    0x08, 0x00, 0x02, 0x00, 0x01, 0x00, 0x01, 0x00, 0x03, 0x00, 0x01, 0x00,
    0x02, 0x00, 0x03, 0x00, 0x00, 0x00,
};
#define TABLE table, sizeof table

/* The calls with each such number as wide as a register. */
typedef struct dovetrellis_answer lists(const uint8_t *, size_t, uint64_t, uint16_t *, size_t, uint64_t *);
typedef struct dovetrellis_answer fires(const uint8_t *, size_t, uint8_t *, size_t, uint64_t);
typedef struct dovetrellis_answer event_origin(const uint8_t *, size_t, uint64_t, uint32_t *, size_t, uint16_t *, uint64_t *);
typedef struct dovetrellis_answer event_number(const uint8_t *, size_t, uint64_t, const uint32_t *, size_t, uint16_t *);
typedef struct dovetrellis_answer condition_origin(const uint8_t *, size_t, uint64_t, uint16_t *, bool *, uint32_t *, uint16_t *);
typedef struct dovetrellis_answer condition_number(const uint8_t *, size_t, uint64_t, uint64_t, uint64_t, uint64_t, uint16_t *);

typedef void any(void);
static bool astray;

/* A call as one of another type, of which the compiler knows nothing. */
static any *opaque(any *call) {
    static any *volatile kept;
    kept = call;
    return kept;
}
#define WIDE(type, call) ((type *)opaque((any *)dovetrellis_##call))

/* Tells a call that did not work or did not answer what it should. */
static void right(const char *call, struct dovetrellis_answer answer, bool is_right) {
    if (answer.number == DOVETRELLIS_FINE && is_right) return;
    printf("%s: answers wrongly with garbage above a number\n", call);
    astray = true;
}

/* Makes a call that lists something of an event, which must have so many elements and this one first. */
static void listed(const char *name, lists *call, uint64_t number, uint64_t first, uint64_t count) {
    uint16_t list[4] = {9, 9, 9, 9};
    uint64_t found = 9;
    struct dovetrellis_answer answer = call(TABLE, ABOVE_16(number), list, 4, &found);
    right(name, answer, found == count && list[0] == first);
}

/* Makes the calls that list and fire. What a call leaves is looked at after it: arguments are worked out in any order. */
static void events(void) {
    uint8_t marking[4] = {1, 0, 0, 0}, unfolded[5] = {1, 0, 0, 0, 0};
    struct dovetrellis_answer answer;
    listed("pre", WIDE(lists, pre), 1, 1, 2);
    listed("post", WIDE(lists, post), 2, 1, 1);
    listed("unfolded_pre", WIDE(lists, unfolded_pre), 2, 1, 2);
    listed("unfolded_post", WIDE(lists, unfolded_post), 3, 1, 1);
    right("can_fire", WIDE(fires, can_fire)(TABLE, marking, 4, ABOVE_16(0)), true);
    answer = WIDE(fires, fire)(TABLE, marking, 4, ABOVE_16(0));
    right("fire", answer, marking[1] == 1);
    answer = WIDE(fires, unfolded_fire)(TABLE, unfolded, 5, ABOVE_16(0));
    right("unfolded_fire", answer, unfolded[3] == 1);
}

/* Makes the calls that go from a number of the unfolding to its origin, and back. */
static void numbers(void) {
    uint32_t markers[1] = {9}, marker = 9;
    uint16_t event = 9, number = 9, condition = 9, user = 9;
    uint64_t count = 9;
    bool copy = false;
    struct dovetrellis_answer answer;
    answer = WIDE(event_origin, event_origin)(TABLE, ABOVE_16(2), markers, 1, &event, &count);
    right("event_origin", answer, event == 1 && count == 1 && markers[0] == 0);
    answer = WIDE(event_number, event_number)(TABLE, ABOVE_16(1), markers, 1, &number);
    right("event_number", answer, number == 2);
    answer = WIDE(condition_origin, condition_origin)(TABLE, ABOVE_16(2), &condition, &copy, &marker, &user);
    right("condition_origin", answer, condition == 2 && copy && marker == DOVETRELLIS_START && user == 1);
    answer = WIDE(condition_number, condition_number)(TABLE, ABOVE_16(2), ABOVE_8(1), ABOVE_32(marker), ABOVE_16(1), &number);
    right("condition_number of a copy", answer, number == 2);
    answer = WIDE(condition_number, condition_number)(TABLE, ABOVE_16(3), ABOVE_8(0), ABOVE_32(0), ABOVE_16(0), &number);
    right("condition_number of an ordinary condition", answer, number == 4);
}

int main(void) {
    events();
    numbers();
    return astray;
}
