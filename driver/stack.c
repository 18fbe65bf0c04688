/*
 * Runs each call of include/dovetrellis.h on a stack of its own and prints how much of it was written to, as lines of `name bytes`. The
 * stack is painted before, and the deepest byte that changed tells. Counted are the return address and all below it, not the arguments
 * above it.
 *
 * The calls are tried on three tables: net A, the largest table there is, and one whose lists are as long as they may be with 16
 * persistent preconditions at their end, so that every recursion goes as deep as it can.
 */
#include <dovetrellis.h>
#include <inttypes.h>
#include <stdio.h>

#define PAINT 0xA5
#define STACK ((size_t)1 << 20)

enum { WORDS = 8, IN_REGISTERS = 6, CALLS = 64, STEPS = 4096, MOST = 65536, NO_EXCHANGE = 17 };

/* The painted stack; above it stand the arguments that no register has room for. */
static struct {
    uint8_t bytes[STACK];
    uint64_t words[WORDS - IN_REGISTERS];
} stack __attribute__((aligned(64)));

/* What the calls were seen to need, in the order in which they are made. */
static struct {
    const char *name;
    size_t bytes;
} seen[CALLS];
static size_t call_at;
static bool refused;

/* The table, built record by record, and the run that is tried on it. */
static uint8_t table[1 << 19];
static size_t table_count;
static uint16_t run[STEPS];

/* The library's two needs of a C library, with no stack of their own, so that only the library's is seen. */
void *memset(void *to, int byte, size_t count) {
    void *at = to;
    __asm__ volatile("rep stosb" : "+D"(at), "+c"(count) : "a"(byte) : "memory");
    return to;
}

void *memcpy(void *to, const void *from, size_t count) {
    void *at = to;
    __asm__ volatile("rep movsb" : "+D"(at), "+S"(from), "+c"(count) : : "memory");
    return to;
}

/* Calls a function with its words on the painted stack, as the calling convention of x86-64 has it. */
static void call_there(uint64_t function, const uint64_t *words) {
    register uint64_t fifth __asm__("r8") = words[4], sixth __asm__("r9") = words[5];
    register uint64_t top __asm__("r12") = (uint64_t)stack.words, callee __asm__("r13") = function;
    uint64_t first = words[0], second = words[1], third = words[2], fourth = words[3];
    memcpy(stack.words, words + IN_REGISTERS, sizeof stack.words);
    __asm__ volatile("mov %%rsp, %%rbx\n\tmov %[top], %%rsp\n\tcall *%[callee]\n\tmov %%rbx, %%rsp"
                     : "+D"(first), "+S"(second), "+d"(third), "+c"(fourth), "+r"(fifth), "+r"(sixth)
                     : [top] "r"(top), [callee] "r"(callee)
                     : "rax", "rbx", "r10", "r11", "cc", "memory", "xmm0", "xmm1", "xmm2", "xmm3", "xmm4", "xmm5", "xmm6", "xmm7",
                       "xmm8", "xmm9", "xmm10", "xmm11", "xmm12", "xmm13", "xmm14", "xmm15");
}

/* Makes a call and keeps how deep it went; all but a refused exchange must work, since a refusal may come before the deepest place. */
static void see(const char *name, uint64_t function, const uint64_t *words) {
    const struct dovetrellis_answer *answer = (const struct dovetrellis_answer *)words[0];
    size_t untouched = 0;
    call_there(function, words);
    while (untouched < STACK && stack.bytes[untouched] == PAINT) untouched++;
    memset(stack.bytes + untouched, PAINT, STACK - untouched);
    seen[call_at].name = name;
    if (seen[call_at].bytes < STACK - untouched) seen[call_at].bytes = STACK - untouched;
    call_at++;
    if (answer->number != 0 && answer->number != NO_EXCHANGE) {
        printf("%s is refused %" PRIu64 " at %" PRIu64 "\n", name, answer->number, answer->place);
        refused = true;
    }
}

/* Sees a call with its words after the answer's; the table is the first of most. */
#define SEE(name, ...) see(#name, (uint64_t)dovetrellis_##name, (const uint64_t[WORDS]){(uint64_t)&answer, __VA_ARGS__})
#define OF_TABLE (uint64_t)table, table_count
#define AT(what) (uint64_t)(what)

/* Makes every call on the table and its run, each with what those before it answered. */
static void see_all(size_t steps) {
    static uint16_t list[MOST], lifted[STEPS], back[STEPS];
    static uint8_t marking[256], unfolded_marking[MOST], end[MOST], text[MOST];
    static uint32_t markers[16];
    struct dovetrellis_answer answer;
    uint64_t conditions, events, count, unfolded_conditions, unfolded_events, elements, bytes;
    uint16_t event, condition, user = 0, number;
    uint32_t marker = 0;
    bool copy = false;
    const uint64_t last = steps - 1, step = run[last];

    call_at = 0;
    SEE(judge, OF_TABLE);
    SEE(counts, OF_TABLE, AT(&conditions), AT(&events));
    SEE(pre, OF_TABLE, step, AT(list), MOST, AT(&count));
    SEE(post, OF_TABLE, step, AT(list), MOST, AT(&count));
    SEE(start, OF_TABLE, AT(marking), conditions);
    dovetrellis_replay(table, table_count, run, last, marking, conditions);
    SEE(can_fire, OF_TABLE, AT(marking), conditions, step);
    SEE(fire, OF_TABLE, AT(marking), conditions, step);
    SEE(replay, OF_TABLE, AT(run), steps, AT(end), MOST);
    SEE(exchange, OF_TABLE, AT(run), steps, 0);
    SEE(unfolded_counts, OF_TABLE, AT(&unfolded_conditions), AT(&unfolded_events));
    dovetrellis_lift(table, table_count, run, steps, lifted, steps);
    SEE(event_origin, OF_TABLE, lifted[last], AT(markers), 16, AT(&event), AT(&count));
    SEE(event_number, OF_TABLE, event, AT(markers), count, AT(&number));
    SEE(condition_origin, OF_TABLE, unfolded_conditions - 1, AT(&condition), AT(&copy), AT(&marker), AT(&user));
    SEE(condition_number, OF_TABLE, condition, copy, marker, user, AT(&number));
    SEE(unfolded_pre, OF_TABLE, lifted[last], AT(list), MOST, AT(&count));
    SEE(unfolded_post, OF_TABLE, lifted[last], AT(list), MOST, AT(&count));
    SEE(unfolded_start, OF_TABLE, AT(unfolded_marking), MOST);
    dovetrellis_unfolded_replay(table, table_count, lifted, last, unfolded_marking, MOST);
    SEE(unfolded_fire, OF_TABLE, AT(unfolded_marking), unfolded_conditions, lifted[last]);
    SEE(lift, OF_TABLE, AT(run), steps, AT(lifted), STEPS);
    SEE(project, OF_TABLE, AT(lifted), steps, AT(back), STEPS);
    SEE(lift_end, OF_TABLE, AT(run), steps, AT(end), MOST);
    SEE(unfolded_replay, OF_TABLE, AT(lifted), steps, AT(end), MOST);
    SEE(write_run, AT(run), steps, AT(text), MOST, AT(&bytes));
    SEE(read_run, AT(text), bytes, AT(back), STEPS, AT(&count));
    SEE(write_lifted, AT(lifted), steps, AT(text), MOST, AT(&bytes));
    SEE(read_lifted, AT(text), bytes, AT(back), STEPS, AT(&count));
    SEE(element_count, OF_TABLE, AT(&elements));
    SEE(element, OF_TABLE, elements - 2, AT(text), MOST, AT(&bytes));
    SEE(lossy, OF_TABLE, AT(text), MOST);
}

/* Puts a number of two bytes behind the table. */
static void put(size_t number) {
    table[table_count++] = (uint8_t)number;
    table[table_count++] = (uint8_t)(number >> 8);
}

/* Puts the numbers from one up to another. */
static void put_range(size_t from, size_t to) {
    for (size_t i = from; i < to; i++) put(i);
}

/* Begins a table whose conditions are persistent from one number up to another. */
static void conditions(size_t count, size_t from, size_t to) {
    table_count = 0;
    put(count);
    put(1);
    for (size_t i = 0; i < count; i++) table[table_count++] = from <= i && i < to;
}

/* Puts an event that takes conditions from a up to b and puts those from c up to d. */
static void event(size_t a, size_t b, size_t c, size_t d) {
    put(4 + 2 * (b - a + d - c));
    put(2);
    put(b - a);
    put(d - c);
    put_range(a, b);
    put_range(c, d);
}

/* Ends a table with the conditions that hold at the start, those under a number. */
static void marking(size_t to) {
    put(2 * to);
    put(3);
    put_range(0, to);
}

/* Net A and the run 0, 1, 2, 1. */
static void net_a(void) {
    conditions(4, 2, 3);
    event(0, 1, 1, 3);
    event(1, 3, 3, 4);
    event(3, 4, 1, 2);
    marking(1);
    for (size_t i = 0; i < 4; i++) run[i] = i == 3 ? 1 : (uint16_t)i;
    see_all(4);
}

/* The largest table: 256 events that take and put all of 256 conditions. */
static void largest(void) {
    conditions(256, 0, 0);
    for (size_t i = 0; i < 256; i++) event(0, 256, 0, 256);
    marking(256);
    for (size_t i = 0; i < STEPS; i++) run[i] = 255;
    see_all(STEPS);
}

/* Event 1 takes all of 256 conditions, the last 16 of them persistent; event 0 marks 15 of these, and event 2 can change places with it. */
static void deepest(void) {
    conditions(256, 240, 256);
    event(0, 0, 241, 256);
    event(0, 256, 0, 240);
    event(240, 241, 0, 0);
    marking(241);
    for (size_t i = 0; i < STEPS; i++) run[i] = 1;
    run[0] = 0;
    run[1] = 2;
    see_all(STEPS);
}

int main(void) {
    memset(stack.bytes, PAINT, STACK);
    net_a();
    largest();
    deepest();
    for (size_t i = 0; i < call_at; i++) printf("%s %lu\n", seen[i].name, seen[i].bytes);
    return refused;
}
