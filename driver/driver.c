/*
 * Calls the library on requests from stdin and writes what came of each to stdout, so that programs of any machine can ask an
 * archive for x86-64 over pipes. It decides nothing by itself.
 *
 * A request is twelve little-endian words of eight bytes, then three pieces of bytes:
 *   0       the call, numbered from 0 in the order of include/dovetrellis.h
 *   1       bytes of the table, or SAME for the table of the request before
 *   2       bytes of what is given: the marking, run, lifted run, markers or record of the call
 *   3       bytes of the output that is lent
 *   4 to 7  the numbers that are asked, in the order of the call's arguments
 *   8 to 11 what the single values hold before the call, in the order of the call's arguments
 * An answer is eight words, then two pieces:
 *   0 to 2  the call's number, place and condition
 *   3 to 6  what the single values hold after it
 *   7       1 if the table and the memory around the other two pieces are as they were, else 0
 * and the bytes of what was given and of what was lent, whole, as the call left them.
 *
 * Answers are held back until no request is left to read, so that many can be sent at once.
 */
#include "../include/dovetrellis.h"

#define SAME (~(uint64_t)0)
#define MOST ((size_t)1 << 22)
#define GUARD ((size_t)64)
#define GUARD_BYTE 0xA5
#define BUFFER ((size_t)1 << 16)

long read(int file, void *to, size_t count);
long write(int file, const void *from, size_t count);
void *memcpy(void *to, const void *from, size_t count);
void *memset(void *to, int byte, size_t count);
int memcmp(const void *one, const void *other, size_t count);
void _exit(int status) __attribute__((noreturn));

enum { REQUEST_WORDS = 12, ANSWER_WORDS = 8, NUMBERS = 4, VALUES = 8 };

/* A piece of a request, with room on both sides that no call may touch. */
struct piece {
    size_t count;
    uint8_t before[GUARD];
    uint8_t bytes[MOST + GUARD];
};

static struct piece given __attribute__((aligned(64))), lent __attribute__((aligned(64)));
static uint8_t table[MOST] __attribute__((aligned(64))), table_sent[MOST] __attribute__((aligned(64)));
static size_t table_count;

static uint8_t input[BUFFER], output[BUFFER];
static size_t input_at, input_end, output_end;

/* Writes what was held back. */
static void flush(void) {
    size_t done = 0;
    while (done < output_end) {
        long count = write(1, output + done, output_end - done);
        if (count <= 0) _exit(1);
        done += (size_t)count;
    }
    output_end = 0;
}

static void put(const void *from, size_t count) {
    const uint8_t *bytes = from;
    while (count > 0) {
        if (output_end == BUFFER) flush();
        size_t room = BUFFER - output_end, some = count < room ? count : room;
        memcpy(output + output_end, bytes, some);
        output_end += some, bytes += some, count -= some;
    }
}

/* Takes so many bytes of the input; false where it ends before them. */
static bool take(void *to, size_t count) {
    uint8_t *bytes = to;
    while (count > 0) {
        if (input_at == input_end) {
            flush();
            long got = read(0, input, BUFFER);
            if (got <= 0) return false;
            input_at = 0, input_end = (size_t)got;
        }
        size_t here = input_end - input_at, some = count < here ? count : here;
        memcpy(bytes, input + input_at, some);
        input_at += some, bytes += some, count -= some;
    }
    return true;
}

static bool take_piece(struct piece *piece, uint64_t count) {
    if (count > MOST) _exit(2);
    piece->count = (size_t)count;
    memset(piece->before, GUARD_BYTE, GUARD);
    memset(piece->bytes + count, GUARD_BYTE, GUARD);
    return take(piece->bytes, piece->count);
}

static bool take_table(uint64_t count) {
    if (count == SAME) return true;
    if (count > MOST) _exit(2);
    table_count = (size_t)count;
    if (!take(table, table_count)) return false;
    memcpy(table_sent, table, table_count);
    return true;
}

static bool is_guard(const uint8_t *bytes) {
    for (size_t i = 0; i < GUARD; i++) {
        if (bytes[i] != GUARD_BYTE) return false;
    }
    return true;
}

static bool kept(void) {
    return is_guard(given.before) && is_guard(given.bytes + given.count) && is_guard(lent.before) &&
           is_guard(lent.bytes + lent.count) && memcmp(table, table_sent, table_count) == 0;
}

/* The pieces as the arguments that calls take. */
#define TABLE table, table_count
#define GIVEN8 given.bytes, given.count
#define GIVEN16 (uint16_t *)(void *)given.bytes, given.count / 2
#define GIVEN32 (const uint32_t *)(void *)given.bytes, given.count / 4
#define LENT8 lent.bytes, lent.count
#define LENT16 (uint16_t *)(void *)lent.bytes, lent.count / 2
#define LENT32 (uint32_t *)(void *)lent.bytes, lent.count / 4

/* Makes a call on a table and its game; the single values go in and come out as words. */
static struct dovetrellis_answer call_table(uint64_t which, const uint64_t *asked, uint64_t *values) {
    uint16_t event = (uint16_t)asked[0];
    switch (which) {
    case 0: return dovetrellis_judge(TABLE);
    case 1: return dovetrellis_counts(TABLE, &values[0], &values[1]);
    case 2: return dovetrellis_pre(TABLE, event, LENT16, &values[0]);
    case 3: return dovetrellis_post(TABLE, event, LENT16, &values[0]);
    case 4: return dovetrellis_start(TABLE, LENT8);
    case 5: return dovetrellis_can_fire(TABLE, GIVEN8, event);
    case 6: return dovetrellis_fire(TABLE, GIVEN8, event);
    case 7: return dovetrellis_replay(TABLE, GIVEN16, LENT8);
    case 8: return dovetrellis_exchange(TABLE, GIVEN16, asked[0]);
    default: _exit(2);
    }
}

/* Makes a call that goes from a number of the unfolding to its origin, or back. */
static struct dovetrellis_answer call_numbers(uint64_t which, const uint64_t *asked, uint64_t *values) {
    struct dovetrellis_answer answer;
    uint16_t number = (uint16_t)asked[0], first = (uint16_t)values[0], user = (uint16_t)values[3];
    uint32_t marker = (uint32_t)values[2];
    bool copy = values[1] != 0;
    switch (which) {
    case 10: answer = dovetrellis_event_origin(TABLE, number, LENT32, &first, &values[1]); break;
    case 11: answer = dovetrellis_event_number(TABLE, number, GIVEN32, &first); break;
    case 12:
        answer = dovetrellis_condition_origin(TABLE, number, &first, &copy, &marker, &user);
        values[1] = copy, values[2] = marker, values[3] = user;
        break;
    case 13:
        answer = dovetrellis_condition_number(TABLE, number, asked[1] != 0, (uint32_t)asked[2], (uint16_t)asked[3], &first);
        break;
    default: _exit(2);
    }
    values[0] = first;
    return answer;
}

/* Makes a call on the unfolding, on a run across, on a record, on the export, or on what the unfolded net may lose. */
static struct dovetrellis_answer call_unfolding(uint64_t which, const uint64_t *asked, uint64_t *values) {
    uint16_t unfolded = (uint16_t)asked[0];
    switch (which) {
    case 9: return dovetrellis_unfolded_counts(TABLE, &values[0], &values[1]);
    case 14: return dovetrellis_unfolded_pre(TABLE, unfolded, LENT16, &values[0]);
    case 15: return dovetrellis_unfolded_post(TABLE, unfolded, LENT16, &values[0]);
    case 16: return dovetrellis_unfolded_start(TABLE, LENT8);
    case 17: return dovetrellis_unfolded_fire(TABLE, GIVEN8, unfolded);
    case 18: return dovetrellis_lift(TABLE, GIVEN16, LENT16);
    case 19: return dovetrellis_project(TABLE, GIVEN16, LENT16);
    case 20: return dovetrellis_lift_end(TABLE, GIVEN16, LENT8);
    case 21: return dovetrellis_unfolded_replay(TABLE, GIVEN16, LENT8);
    case 22: return dovetrellis_read_run(GIVEN8, LENT16, &values[0]);
    case 23: return dovetrellis_read_lifted(GIVEN8, LENT16, &values[0]);
    case 24: return dovetrellis_write_run(GIVEN16, LENT8, &values[0]);
    case 25: return dovetrellis_write_lifted(GIVEN16, LENT8, &values[0]);
    case 26: return dovetrellis_element_count(TABLE, &values[0]);
    case 27: return dovetrellis_element(TABLE, asked[0], LENT8, &values[0]);
    case 28: return dovetrellis_lossy(TABLE, LENT8);
    default: _exit(2);
    }
}

static struct dovetrellis_answer call(uint64_t which, const uint64_t *asked, uint64_t *values) {
    if (which < 9) return call_table(which, asked, values);
    if (10 <= which && which < 14) return call_numbers(which, asked, values);
    return call_unfolding(which, asked, values);
}

int main(void) {
    uint64_t request[REQUEST_WORDS];
    while (take(request, sizeof request)) {
        if (!take_table(request[1]) || !take_piece(&given, request[2]) || !take_piece(&lent, request[3])) return 1;
        uint64_t *values = request + VALUES;
        struct dovetrellis_answer a = call(request[0], request + NUMBERS, values);
        uint64_t answer[ANSWER_WORDS] = {a.number, a.place, a.by, values[0], values[1], values[2], values[3], kept()};
        put(answer, sizeof answer);
        put(given.bytes, given.count);
        put(lent.bytes, lent.count);
    }
    return 0;
}
