/*
 * Dovetrellis for C: net tables with persistent conditions, judged, played, unfolded, their runs taken across, and the unfolded net
 * exported.
 *
 * Every call is proved, is given all that it works on, and keeps nothing: no allocation, no global state, no pointer kept after the
 * return. Calls may run at once in several threads as long as none writes memory that another one is given.
 *
 * What a caller owes:
 * - A lent slice is a pointer and a length, counted in elements of the pointer's type. The pointer is not null, even where the
 *   length is 0, is aligned for its type, and that many elements stand behind it.
 * - Outputs overlap neither each other nor what is read. Inputs may overlap.
 * - Memory that is read is set before the call. A lent output may hold anything, but a `bool` is false or true.
 * Nothing else is assumed: any bytes may be a table, any numbers a run.
 *
 * What every call does:
 * - It answers with number 0 and place 0 where it worked, else with a refusal's number, which `enum dovetrellis_refusal` names, and its
 *   place.
 * - Beside 11 and 12 it tells the condition that stopped the step: for 11 the lowest precondition that does not hold, for 12 the lowest
 *   ordinary condition in contact. It is a condition of the table, but an unfolded condition in unfolded_fire, project and
 *   unfolded_replay, where unfolded events are fired.
 * - Where it refuses, nothing that was lent is changed, and neither are the single values.
 * - Where it worked, a lent output has its answer from the first element on, and everything past the answer stays. A longer output
 *   than needed is fine. Single values (the pointers at the end) are written only then.
 * - A call that shows no count writes as many elements as its comment says.
 *
 * The refusals of a call come in the order in which its comment lists them: the first that applies is given. At one step of a run 10
 * comes before 11 and 11 before 12; all steps come before what is listed after them. "The table's" are 1 to 9.
 *
 * A table is the bytes of its records (docs/FORMAT.md). By its rule a held ordinary postcondition stops an event unless it is a
 * precondition too (rule 0, also without a Rule record), or stops it all the same (1, the old rule); in the unfolded net this goes for
 * what stands for an ordinary condition, and copies of persistent conditions follow rule 0. No call tells the rule: it is byte 4 of a
 * table whose bytes 2 and 3 are 6 and 0. Nor does one tell which conditions are persistent: of an accepted table condition b is, if byte
 * 4 + b is 1, or byte 9 + b in a table with a Rule record. A marking is one byte for each condition, 0 or 1. Events, conditions, their
 * unfolded forms and the elements of the export are numbered from 0. A colour of an event is a choice of one marker for each of its
 * persistent preconditions.
 */
#ifndef DOVETRELLIS_H
#define DOVETRELLIS_H

#include <stdbool.h>
#include <stddef.h>
#include <stdint.h>

#ifdef __cplusplus
extern "C" {
#endif

/*
 * The version of this header and of the archive that belongs to it, which `dovetrellis --version` tells too. The number is 10,000 for the
 * first part, 100 for the second and 1 for the third.
 */
#define DOVETRELLIS_VERSION "0.6.0"
#define DOVETRELLIS_VERSION_NUMBER 600

/*
 * The limits, in elements, so that outputs can be as long as any answer. Of a table: conditions, events, persistent preconditions of one
 * event, which are also the markers behind an unfolded event, and bytes. Of a run: steps, and bytes of its record. Of an unfolding:
 * conditions, and as many events. Of the export: bytes of one element.
 */
#define DOVETRELLIS_MOST_CONDITIONS 256
#define DOVETRELLIS_MOST_EVENTS 256
#define DOVETRELLIS_MOST_MARKERS 16
#define DOVETRELLIS_MOST_TABLE_BYTES 264973
#define DOVETRELLIS_MOST_STEPS 4096
#define DOVETRELLIS_MOST_RECORD_BYTES 8196
#define DOVETRELLIS_MOST_UNFOLDED 65535
#define DOVETRELLIS_MOST_ELEMENT_BYTES 139

/*
 * The numbers that calls answer with. Each refusal is given exactly if what stands above it is so, and what stands after the dash is its
 * place. docs/REFUSALS.md has the same words, and an example of each.
 */
enum dovetrellis_refusal {
    /* it worked - 0 */
    DOVETRELLIS_FINE = 0,
    /* a header or a payload runs past the input - the record's offset */
    DOVETRELLIS_CUT_OFF = 1,
    /* the kind is not allowed there - the record's offset */
    DOVETRELLIS_WRONG_KIND = 2,
    /* the payload's length breaks its kind's rule, or a run has over 4,096 steps - the record's offset; 0 for a run */
    DOVETRELLIS_WRONG_LENGTH = 3,
    /* a condition byte, or the byte of a Rule record, is above 1 - the record's offset */
    DOVETRELLIS_WRONG_BYTE = 4,
    /* a list does not strictly ascend, or names no condition - the record's offset */
    DOVETRELLIS_WRONG_LIST = 5,
    /* there is a 257th event - the record's offset */
    DOVETRELLIS_TOO_MANY_EVENTS = 6,
    /* both lists of an event are empty - the record's offset */
    DOVETRELLIS_EMPTY_EVENT = 7,
    /* an event has over 16 persistent preconditions - the record's offset */
    DOVETRELLIS_TOO_MANY_PERSISTENT = 8,
    /* bytes follow the last record - their offset */
    DOVETRELLIS_BYTES_AFTER = 9,
    /* there is no such event, condition, marker, colour, step or element of the export - 0; in a run, the step */
    DOVETRELLIS_UNKNOWN = 10,
    /* a precondition does not hold - the condition; in a run, the step */
    DOVETRELLIS_NOT_HELD = 11,
    /*
     * contact: an ordinary postcondition holds and is no precondition, or is one in a table with the old rule - the condition; in a
     * run, the step
     */
    DOVETRELLIS_CONTACT = 12,
    /* an event touches nothing once unfolded - the lowest such event */
    DOVETRELLIS_TOUCHES_NOTHING = 13,
    /* there are over 65,535 unfolded conditions or unfolded events - 0 */
    DOVETRELLIS_UNFOLDS_TOO_FAR = 14,
    /*
     * no run of the unfolded net reads back as the run that is lifted: an event comes twice that has a persistent postcondition which
     * another event uses - the first step at which such an event comes again
     */
    DOVETRELLIS_COMES_AGAIN = 15,
    /* a lent output is too short - the number of elements needed */
    DOVETRELLIS_OUTPUT_TOO_SHORT = 16,
    /* two steps may not change places, by the rule below - k */
    DOVETRELLIS_NO_EXCHANGE = 17,
    /* a lent marking has the wrong length, or a byte above 1 - the number of conditions; else the first such byte */
    DOVETRELLIS_WRONG_MARKING = 18
};

/*
 * What every call answers: 0 and 0 where it worked, else a refusal. With 11 and 12, and with no other number, `by` is the condition
 * that stopped the step. Elsewhere it is 0 and means nothing; 0 is a condition too, so the number tells whether there is one.
 */
struct dovetrellis_answer {
    uint64_t number;
    uint64_t place;
    uint64_t by;
};

/* A marker is the number of the event that marked, or this: the condition held at the start. */
#define DOVETRELLIS_START 0xFFFFFFFFu

/* ---- the table ---- */

/* Judges a table. Refusals: the table's. Nothing is written. */
struct dovetrellis_answer dovetrellis_judge(const uint8_t *table, size_t table_length);

/* The numbers of conditions (1 to 256) and of events (0 to 256). Refusals: the table's. */
struct dovetrellis_answer dovetrellis_counts(const uint8_t *table, size_t table_length, uint64_t *conditions, uint64_t *events);

/* The preconditions of an event, ascending, and their count. Refusals: the table's, 10, 16 (counts conditions of the list). */
struct dovetrellis_answer dovetrellis_pre(const uint8_t *table, size_t table_length, uint16_t event, uint16_t *out,
                                          size_t out_length, uint64_t *count);

/* The postconditions of an event, ascending, and their count. Refusals: the table's, 10, 16 (counts conditions of the list). */
struct dovetrellis_answer dovetrellis_post(const uint8_t *table, size_t table_length, uint16_t event, uint16_t *out,
                                           size_t out_length, uint64_t *count);

/* The marking at the start, one byte for each condition. Refusals: the table's, 16 (counts conditions). */
struct dovetrellis_answer dovetrellis_start(const uint8_t *table, size_t table_length, uint8_t *out, size_t out_length);

/* ---- the token game ---- */

/*
 * Whether an event can fire at a marking: it worked if it can, else the refusals of firing. Nothing is written.
 * Refusals: the table's, 18, 10, 11 and 12 at the condition.
 */
struct dovetrellis_answer dovetrellis_can_fire(const uint8_t *table, size_t table_length, const uint8_t *marking,
                                               size_t marking_length, uint16_t event);

/* Fires an event: the new marking is written over the lent one. Refusals: the table's, 18, 10, 11 and 12 at the condition. */
struct dovetrellis_answer dovetrellis_fire(const uint8_t *table, size_t table_length, uint8_t *marking, size_t marking_length,
                                           uint16_t event);

/*
 * Plays a run from the table's start and writes the marking at its end, one byte for each condition.
 * Refusals: the table's, 3 at 0, 10 to 12 at the step, 16 (counts conditions).
 */
struct dovetrellis_answer dovetrellis_replay(const uint8_t *table, size_t table_length, const uint16_t *run, size_t run_length,
                                             uint8_t *end, size_t end_length);

/*
 * Steps k and k + 1 of the lent run change places; only those two numbers are written. Any k may be asked. The steps may change
 * places where their events differ and touch no ordinary condition both, and where each persistent condition that the second reads
 * or that both mark held before step k.
 * Refusals: the table's, 3 at 0, 10 to 12 at the step, 10 at k (there is no step k + 1), 17 at k.
 */
struct dovetrellis_answer dovetrellis_exchange(const uint8_t *table, size_t table_length, uint16_t *run, size_t run_length,
                                               uint64_t k);

/* ---- the unfolding ---- */

/* The numbers of unfolded conditions and of unfolded events. Refusals: the table's, 13, 14. */
struct dovetrellis_answer dovetrellis_unfolded_counts(const uint8_t *table, size_t table_length, uint64_t *conditions,
                                                      uint64_t *events);

/*
 * The event behind an unfolded event, and its markers: one for each persistent precondition of the event, in their order, at most 16.
 * Refusals: the table's, 13, 14, 10, 16 (counts markers).
 */
struct dovetrellis_answer dovetrellis_event_origin(const uint8_t *table, size_t table_length, uint16_t unfolded, uint32_t *markers,
                                                   size_t markers_length, uint16_t *event, uint64_t *count);

/*
 * The unfolded event for an event and markers, one for each persistent precondition in their order.
 * Refusals: the table's, 13, 14, 10 (also for another number of markers, and for a marker that does not mark its condition).
 */
struct dovetrellis_answer dovetrellis_event_number(const uint8_t *table, size_t table_length, uint16_t event,
                                                   const uint32_t *markers, size_t markers_length, uint16_t *unfolded);

/*
 * The condition behind an unfolded condition. Of an ordinary one *copy becomes false, and *marker and *user stay as they were; of
 * one copy of a persistent condition *copy becomes true, and *marker and *user tell for whom it is.
 * Refusals: the table's, 13, 14, 10.
 */
struct dovetrellis_answer dovetrellis_condition_origin(const uint8_t *table, size_t table_length, uint16_t unfolded,
                                                       uint16_t *condition, bool *copy, uint32_t *marker, uint16_t *user);

/*
 * The unfolded condition for an ordinary condition (copy false; marker and user are not looked at), or for a persistent one with
 * the marker and the user of its copy (copy true). Refusals: the table's, 13, 14, 10 (also for an ordinary condition with copy true,
 * a persistent one with copy false, a marker that does not mark it, a user that does not read it).
 */
struct dovetrellis_answer dovetrellis_condition_number(const uint8_t *table, size_t table_length, uint16_t condition, bool copy,
                                                       uint32_t marker, uint16_t user, uint16_t *unfolded);

/*
 * The preconditions of an unfolded event, ascending, and their count; they are unfolded conditions.
 * Refusals: the table's, 13, 14, 10, 16 (counts unfolded conditions of the list).
 */
struct dovetrellis_answer dovetrellis_unfolded_pre(const uint8_t *table, size_t table_length, uint16_t unfolded, uint16_t *out,
                                                   size_t out_length, uint64_t *count);

/*
 * The postconditions of an unfolded event, ascending, and their count; they are unfolded conditions.
 * Refusals: the table's, 13, 14, 10, 16 (counts unfolded conditions of the list).
 */
struct dovetrellis_answer dovetrellis_unfolded_post(const uint8_t *table, size_t table_length, uint16_t unfolded, uint16_t *out,
                                                    size_t out_length, uint64_t *count);

/* The unfolded marking at the start, one byte for each unfolded condition. Refusals: the table's, 13, 14, 16 (counts those). */
struct dovetrellis_answer dovetrellis_unfolded_start(const uint8_t *table, size_t table_length, uint8_t *out, size_t out_length);

/*
 * Fires an unfolded event: the new unfolded marking is written over the lent one.
 * Refusals: the table's, 13, 14, 18 (counts unfolded conditions), 10, 11 and 12 at the unfolded condition.
 */
struct dovetrellis_answer dovetrellis_unfolded_fire(const uint8_t *table, size_t table_length, uint8_t *marking,
                                                    size_t marking_length, uint16_t unfolded);

/* ---- runs across ---- */

/*
 * Lifts a run of the table; as many numbers are written as the run has steps. Each persistent precondition takes its earliest marker, but
 * an event that occurred before takes itself for those that it marks.
 * Refusals: the table's, 3 at 0, 13, 14, 10 to 12 at the step, 15 at the step, 16 (counts steps).
 */
struct dovetrellis_answer dovetrellis_lift(const uint8_t *table, size_t table_length, const uint16_t *run, size_t run_length,
                                           uint16_t *out, size_t out_length);

/*
 * Plays a run of unfolded events from the unfolded start and writes the run of the table behind it, as many numbers as it has steps.
 * Refusals: the table's, 3 at 0, 13, 14, 10 to 12 at the step, 16 (counts steps).
 */
struct dovetrellis_answer dovetrellis_project(const uint8_t *table, size_t table_length, const uint16_t *lifted,
                                              size_t lifted_length, uint16_t *out, size_t out_length);

/*
 * Lifts a run and writes the unfolded marking in which the lifted run ends, one byte for each unfolded condition.
 * Refusals: the table's, 3 at 0, 13, 14, 10 to 12 at the step, 15 at the step, 16 (counts unfolded conditions).
 */
struct dovetrellis_answer dovetrellis_lift_end(const uint8_t *table, size_t table_length, const uint16_t *run, size_t run_length,
                                               uint8_t *out, size_t out_length);

/*
 * Plays a run of unfolded events from the unfolded start and writes the unfolded marking at its end, one byte for each unfolded
 * condition. Refusals: the table's, 3 at 0, 13, 14, 10 to 12 at the step, 16 (counts unfolded conditions).
 */
struct dovetrellis_answer dovetrellis_unfolded_replay(const uint8_t *table, size_t table_length, const uint16_t *lifted,
                                                      size_t lifted_length, uint8_t *end, size_t end_length);

/* ---- records of runs: no table is needed ---- */

/* Reads a Run record: its steps, and their count. Refusals: 1, 2, 3, 9, 16 (counts steps). */
struct dovetrellis_answer dovetrellis_read_run(const uint8_t *record, size_t record_length, uint16_t *out, size_t out_length,
                                               uint64_t *count);

/* Reads a Lifted record: its steps, and their count. Refusals: 1, 2, 3, 9, 16 (counts steps). */
struct dovetrellis_answer dovetrellis_read_lifted(const uint8_t *record, size_t record_length, uint16_t *out, size_t out_length,
                                                  uint64_t *count);

/* Writes a Run record: its bytes, 4 and 2 for each step, and their count. Refusals: 3 at 0, 16 (counts bytes). */
struct dovetrellis_answer dovetrellis_write_run(const uint16_t *run, size_t run_length, uint8_t *out, size_t out_length,
                                                uint64_t *count);

/* Writes a Lifted record: its bytes, 4 and 2 for each step, and their count. Refusals: 3 at 0, 16 (counts bytes). */
struct dovetrellis_answer dovetrellis_write_lifted(const uint16_t *lifted, size_t lifted_length, uint8_t *out, size_t out_length,
                                                   uint64_t *count);

/* ---- the export ---- */

/*
 * The number of elements of the export: the text of the unfolded net for model checkers, one place/transition net in PNML (ISO/IEC
 * 15909-2, type ptnet). Such nets have no contact, so each unfolded condition c has two places: pc, and qc, which holds a token exactly
 * when pc does not. Elements are, in this order: all that opens; the places p0, p1 and on; the places q0, q1 and on; the transitions;
 * the arcs; all that closes. One after another, with nothing between them, they are the file. Refusals: the table's, 13, 14.
 */
struct dovetrellis_answer dovetrellis_element_count(const uint8_t *table, size_t table_length, uint64_t *count);

/*
 * The text of an element: its bytes, with no zero byte after them, and their count. An arc is found by walking the transitions before
 * it, so that all elements of a large net one after another take very long; `dovetrellis export` writes a whole file without that.
 * Refusals: the table's, 13, 14, 10, 16 (counts bytes).
 */
struct dovetrellis_answer dovetrellis_element(const uint8_t *table, size_t table_length, uint64_t element, uint8_t *out,
                                              size_t out_length, uint64_t *count);

/* ---- what the unfolded net may lose ---- */

/*
 * Writes one byte for each event, 1 where a run in which the event comes again may be lost in the unfolded net: the event marks for
 * another (a persistent postcondition of it is a precondition of another event), its ordinary preconditions and postconditions are not
 * the same, so that a further firing may change the marking, and it takes no ordinary condition that no event puts, so that it can come a
 * second time. Where every byte is 0 and the table unfolds, every marking that a run of the table reaches is reached by a run that the
 * unfolded net has too; it is the given run with steps left out that change nothing. Whether it unfolds is not asked here:
 * dovetrellis_unfolded_counts tells 13 and 14. Refusals: the table's, 16 (counts events).
 */
struct dovetrellis_answer dovetrellis_lossy(const uint8_t *table, size_t table_length, uint8_t *out, size_t out_length);

#ifdef __cplusplus
}
#endif

#endif
