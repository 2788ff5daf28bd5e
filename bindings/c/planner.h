/* The device planner for C. It gives devices their memory, ports, wired inputs, host IRQs and message interrupts, and hands no
 * number to two devices, but for a wired input that both hold as shared. The library keeps nothing of its own: all stands in what it is lent.
 *
 * In short
 * --------
 *     static uint64_t state[PLANNER_STATE_WORDS];
 *     uint64_t requests[PLANNER_REQUEST] = {4, 7, 0};        a host IRQ for device 7, slot 0; which one, the planner chooses
 *     uint64_t results[PLANNER_RECORD], answer[PLANNER_ANSWER];
 *
 *     if (planner_begin(state)) ..                           the tables, empty
 *     if (planner_pool_host(state, 0, 40, 60)) ..            what it may choose from: 40 to 59
 *     if (planner_hold_host(state, 100, 40, 41)) ..          what owner 100 has already
 *     if (planner_start(state)) ..                           the reservations become the first owners
 *     if (planner_run(state, requests, 1, results, answer))  a plan of one request
 *         ..                                                 answer says which request was refused, and why
 *     results[3]                                             41
 *
 * The state
 * ---------
 * It is your memory: PLANNER_STATE_SIZE bytes, aligned to 8, lent to every call. planner_begin makes a fresh one; bytes that were kept
 * elsewhere, or any others, may stand in it too: each call judges them, and refuses with 1 what is not sound, a row of LPIs below
 * PLANNER_FIRST_LPI among it. Its last five numbers are the last answer, written by every call but those that read.
 * It holds 28 tables, one of each part and kind. Parts: 1 automatic pools, 2 fixed pools (PLANNER_POOL_ROWS rows a table), 3 reservations,
 * 4 owners (PLANNER_ROWS rows a table). Kinds: 1 MMIO, 2 PIO, 3 input, 4 host IRQ, 5 device, 6 event, 7 LPI. A row more than a table has
 * is refused with 9.
 * A start makes the owners copies of the reservations and forgets all grants. After a reservation made since then the owners no longer
 * begin with the reservations: requests, plans and withdrawals are answered with 1 until the planner is started again. Pools may be added at
 * any time.
 * A withdrawal takes from the owners all that was granted to one requester, and no reservation: those behind close up in their order, and later
 * requests may have the rows and numbers that are free again.
 *
 * Numbers
 * -------
 * Ranges are half-open. MMIO, inputs and host IRQs are 64-bit, PIO 16-bit; owner, requester, slot, controller, ITS, device, event, LPI,
 * counts and codes 32-bit. The largest number of a width is never granted. LPIs begin at PLANNER_FIRST_LPI: no range of them, pooled or
 * reserved, starts below it. Owner and requester are not 0, nor is a size or a count; an alignment has exactly one bit set. Trigger is a
 * code 0 to 3, sharing 0 (exclusive) or 1 (shared): an input that has owners is granted only where it is asked for by its number, and the
 * owners and the request are all shared, with one trigger.
 *
 * A request is twelve numbers: kind, requester, slot, three of its kind, and three choices of two numbers each, a code and a number. Its
 * record is nine: kind, requester, slot, and what was granted. What a kind does not use is not looked at in a request and 0 in a record.
 *
 *                 three of its kind               choices                 granted
 *     1 MMIO      size, alignment, -              base                    base, size
 *     2 PIO       size, alignment, -              base                    base, size
 *     3 input     controller, trigger, sharing    input                   controller, input, trigger, sharing
 *     4 host IRQ  -, -, -                         IRQ                     IRQ
 *     5 MSI       controller, ITS, count          device, event, LPI      controller, ITS, device, first event, first LPI, count
 *
 * Code 0 leaves a choice to the planner, and the number beside it is not looked at; code 1 asks for that number. The planner chooses the
 * least that is aligned, lies in one automatic pool and meets no owner; what is asked for must lie in one fixed pool. Of MSI it chooses a
 * device, then a run of that device's events, then a run of LPIs, and tries no other device.
 *
 * Answers
 * -------
 * An answer is five numbers: number, index (of the refused request of a plan, from 0), namespace, owner, detail; what is not named is 0. Of
 * registers none is named: the number stands alone.
 * That of planner_pin_text has the order of the program's `no` line: LINE (from 1; 0 where no line is to blame), number, namespace, owner, detail.
 *      0 accepted
 *      1 malformed: the tables are not sound, or a state of another size, or (helpers) a null pointer or another library than this header's
 *      2 bad input: size, count or requester 0, no such alignment, an unknown code or kind, a number too large for its field, a register's word over 32 bits
 *      3 bad owner: owner 0                                4 empty range: start is not below end
 *      5 reserved: overlaps a reservation of `owner`       6 fixed not allowed: no fixed pool of `namespace` holds it, or not aligned
 *      7 exhausted: nothing in `namespace` fits            8 conflict: `owner` is in the way in `namespace`, as `detail` says
 *      9 full: a table needs a row and has none            10 bad line: a line that cannot be read, or a text over PLANNER_TEXT bytes
 *     11 short: a list is too short, or a plan longer than PLANNER_MOST requests, or a pinned text longer than its buffer or than PLANNER_TEXT bytes, or
 *        fewer words than PLANNER_REGISTERS, or a list that cannot hold all requests of a device's registers
 *     12 bad LPI: a pool or a reservation whose range of LPIs starts below PLANNER_FIRST_LPI; a request for such an LPI is 6
 *     13 not found: nothing is granted to the requester that is to be withdrawn; reservations are no grants
 *     14 bad type: a register of memory that is neither of 32 nor of 64 bits
 *     15 bad pair: a register of 64 bits begins at the last word, and has no high half
 *     16 bad mask: the mask of a register is zero, or its ones are not contiguous from the top
 *     17 ports too large: a register asks for 65,536 ports or more, which the 16 bits of PIO cannot hold
 * Where more than one applies the order is 1, 11, 2, 3, 4, 12, then 5, 6 or 7, then 8, then 9, of an MSI pool each tried on all three of its ranges; of a
 * withdrawal it is 1, 11, 2, 13; a text's own refusal comes before the 11 of its pinned text. Of registers it is 11 for too few words, 2, then for each
 * register in its turn 14, 15, 16, 17, and last 11 for the requests: the first fault decides.
 * Namespaces: 1 MMIO, 2 PIO, 3 input of a controller, 4 host IRQ, 5 an ITS of a controller (device, event), 6 LPI of a controller.
 * Details: 1 address ranges overlap, 2 trigger differs, 3 not shareable, 4 host IRQ taken, 5 device taken, 6 events overlap, 7 LPIs overlap.
 *
 * A refused call changes no table (an MSI pool adds its three ranges or none), and no number of a list: a record is not written; of a
 * plan the records before the refused request stand in front of the results, with 1 or 11 none, and the rest is as it was; of a pinned
 * text no byte is written, of registers no request.
 *
 * Lists and pointers
 * ------------------
 * A list is a pointer and a count of numbers, all of them yours to read or write; a list without numbers still wants a pointer that is
 * not null. No two lists of a call may overlap, and none may overlap the state. Numbers behind those that a call needs are not looked at.
 * The exported functions test the size that they are told before anything else, and answer 1 where it is another. That a state is then
 * left alone is proved for callers who lend a whole one; that shorter memory is not even read is what the compiler makes of it, and
 * tested. Null is tested by the helpers below alone.
 *
 * Stack, as measured (docs/SPEED.md): planner_call 5 KB and, where it withdraws, 24 KB; planner_allocate 2 KB, planner_plan 24 KB where it is refused; planner_read, planner_pin and
 * planner_registers less than 1 KB; planner_text and planner_pin_text keep a state and the results of a plan there: give a thread that makes them PLANNER_TEXT_STACK bytes. */
#ifndef PLANNER_H
#define PLANNER_H

#include <stddef.h>
#include <stdint.h>

#ifdef __cplusplus
extern "C" {
#endif

#define PLANNER_POOL_ROWS 64u   /* rows of a pool table */
#define PLANNER_ROWS 256u       /* rows of a reservation table, and of an owner table */
#define PLANNER_MOST 256u       /* requests of a plan */
#define PLANNER_REQUEST 12u     /* numbers of a request */
#define PLANNER_RECORD 9u       /* numbers of a record */
#define PLANNER_ANSWER 5u       /* numbers of an answer */
#define PLANNER_ROW 9u          /* numbers of a row: the table's count, controller, ITS, device, start, end, trigger, sharing, owner */
#define PLANNER_TEXT 65536u     /* bytes of a text, read or pinned */
#define PLANNER_FIRST_LPI 8192u /* the least LPI: the Arm GICv3 architecture has none below it */
#define PLANNER_REGISTERS 6u    /* base address registers of a PCI device, and the most requests that they make */

/* The words of a state: twice seven pool tables, twice seven tables of rows that are held (one of inputs among them), the last answer. Each table is
 * its count and its columns; two 32-bit numbers share a word. */
#define PLANNER_HALF(n) (((n) + 1) / 2)
#define PLANNER_POOL_WORDS (1 + 3 * PLANNER_POOL_ROWS)
#define PLANNER_RANGE_WORDS (1 + PLANNER_HALF(3 * PLANNER_ROWS) + 2 * PLANNER_ROWS + PLANNER_HALF(PLANNER_ROWS))
#define PLANNER_INPUT_WORDS (1 + PLANNER_HALF(PLANNER_ROWS) + PLANNER_ROWS + PLANNER_HALF(3 * PLANNER_ROWS))
#define PLANNER_STATE_WORDS (14 * PLANNER_POOL_WORDS + 2 * (6 * PLANNER_RANGE_WORDS + PLANNER_INPUT_WORDS) + PLANNER_ANSWER)
#define PLANNER_STATE_SIZE (8 * PLANNER_STATE_WORDS)
#define PLANNER_SAID (PLANNER_STATE_WORDS - PLANNER_ANSWER) /* where the last answer stands in a state */

/* The bytes of the longest output of a text: for each request the longest `got` line, eight numbers of a tab and twenty digits each beside its
 * words, and the longest `end` line. */
#define PLANNER_TEXT_OUTPUT (PLANNER_MOST * (8 + 8 * 21) + 4 + 21)

/* Stack enough for planner_text and planner_pin_text: a state, and 64 KB for all else, of which they take less than half. */
#define PLANNER_TEXT_STACK (PLANNER_STATE_SIZE + (64u << 10))

/* ---- what the library exports; the helpers below are what you mostly want */

/* The bytes of a state. */
uint64_t planner_state_size(void);

/* A fresh state, whatever stood there. */
uint64_t planner_fresh(uint64_t *state, uint64_t size);

/* A call from its numbers. It answers with the answer's number, and tells all five where `answer` has room for them.
 *   1, use (0 automatic, 1 fixed), kind, ..   a pool range:   1 MMIO s e, 2 PIO s e, 3 input c s e, 4 host s e, 5 MSI c its ds de es ee ls le
 *   2, owner, kind, ..                        a reservation:  1 MMIO s e, 2 PIO s e, 3 input c n trigger sharing, 4 host s e, 5 device c its s e,
 *                                             6 event c its device s e, 7 LPI c s e, 8 pair c n trigger host
 *   3                                         start
 *   4, then a request's twelve numbers        one request, whose record is not told
 *   5, requester                              withdraw: everything granted to the requester goes, from plans and single requests, for all its slots
 * Too few numbers are 11; an unknown first number, use or kind, or a number too large for its field, is 2. */
uint64_t planner_call(uint64_t *state, uint64_t size, const uint64_t *numbers, size_t n, uint64_t *answer, size_t m);

/* One request, with its record. It answers with the answer's number: 11 where a list is too short. */
uint64_t planner_allocate(uint64_t *state, uint64_t size, const uint64_t *request, size_t n, uint64_t *record, size_t m);

/* A plan: its requests one behind the other, granted in order, all or none. It answers with how many numbers of `results` it filled, nine for
 * each request granted before the first refused one (1 for a state of another size); whether all was granted says the answer in the state.
 * 11: a list that ends within a request, over PLANNER_MOST requests, or a results list shorter than nine numbers a request. No requests are accepted. */
uint64_t planner_plan(uint64_t *state, uint64_t size, const uint64_t *requests, size_t n, uint64_t *results, size_t m);

/* Writes granted records back into their requests, in order: what was automatic then asks for the number that it was given. Lend it the
 * filled front part of the results and no more. Of the requests that were accepted since one start, one by one or in plans accepted whole, and
 * whose requester was not withdrawn after them, any selection of at most PLANNER_MOST, written back, gets the same numbers again, in any order, as one plan from a
 * fresh start on the pools and reservations of that start, provided that each automatic pool range lies inside a fixed one. For a plan that is
 * a text there is planner_pin_text. */
void planner_pin(uint64_t *requests, size_t n, const uint64_t *results, size_t m);

/* Reading back. `what` is 0: the last answer's five numbers; or part, kind, row: the nine numbers of a row, used or not, as it is stored. What a
 * table does not keep is 0; an input is its start, and its end is 0. It answers 0, 2 where there is no such row, 11 where a list is too short. */
uint64_t planner_read(const uint64_t *state, uint64_t size, const uint64_t *what, size_t n, uint64_t *out, size_t m);

/* What the planner's program answers to a text of lines, in front of `out`. It answers with how many bytes it wrote: 0 where `out` has fewer than
 * PLANNER_TEXT_OUTPUT bytes, and nothing is written then. To write the text itself back with its answers there is planner_pin_text. */
uint64_t planner_text(const uint8_t *text, size_t n, uint8_t *out, size_t m);

/* The same text pinned, to be kept and run again: it is read and planned on fresh tables of its own, as planner_text does, and stands in front of
 * `out` with the number granted in place of the `auto` that a `want` line ends in, of MSI the three numbers device, event, LPI; every other byte is
 * as it was read. It answers with how many bytes it wrote. Where `answer` has room for five numbers it tells them, LINE FIRST: line, number,
 * namespace, owner, detail, five zeros where the text was written; a shorter list is left alone.
 * The text's own refusal comes first, with its line: 10 at line 0 where it is over PLANNER_TEXT bytes. Then 11 at line 0, where the pinned text is
 * longer than `out` or than PLANNER_TEXT bytes: numbers may be longer than `auto`. A buffer of PLANNER_TEXT bytes is never too short. Refused it
 * writes 0 bytes, and none of `out` changes; else none behind those written. An empty text is accepted: 0 bytes, also where `out` has none.
 * The `pool` and `hold` lines of a pinned text, then any of its wants, each at most once, in any order: such a text gets the same `got` lines from
 * planner_text as these wants got before, provided that each automatic pool range lies inside a fixed one. */
uint64_t planner_pin_text(const uint8_t *text, size_t n, uint8_t *out, size_t m, uint64_t *answer, size_t k);

/* The automatic requests of a PCI device, in front of `requests`, twelve numbers each, as planner_plan takes them. `words` are those that its base address
 * registers read after all ones were written (PCI Local Bus Specification), PLANNER_REGISTERS of them, that of index 0 first. It answers with how many
 * requests it made: 0 to PLANNER_REGISTERS. It needs no state. Where `answer` has room for five numbers it tells them, NUMBER FIRST: five zeros where the
 * requests were written; a shorter list is left alone. Refused it answers 0, and no number of `requests` changes; else none behind those written.
 *   - A word of zero is no register, unless it is a high half. Six of them are accepted, and make no request.
 *   - Bit 0 set: ports. The low two bits are cleared; where the upper 16 bits read zero they are taken as ones.
 *   - Else memory, whose low four bits are cleared. Bits 2 and 1 say 32-bit (00), or 64-bit (10): the next word is its high half, whatever it holds, and
 *     no register of its own. Other types are 14, a 64-bit one at the last word 15.
 * What is left is the mask, of 64 bits for a pair. The size is the mask inverted and one added, the alignment is the size, and the slot is the register's
 * index, of a pair that of its low word: slots may have holes. 0xFFFFF000 is 4096 bytes of memory, 0xFFFFFF01 is 256 ports. No request made so is
 * answered with 2 by a plan. */
uint64_t planner_registers(const uint64_t *words, size_t n, uint64_t requester, uint64_t *requests, size_t m, uint64_t *answer, size_t k);

/* ---- helpers
 *
 * Each answers with the answer's number, and refuses null pointers with 1 (planner_respond: the bytes written, and 0). None takes the library's
 * word alone for an accepted call: the answer, in the state, of a pinned text or of registers, is 1 before it, and a library that writes none (one of
 * another build) has refused. */

/* Whether memory of so many bytes can be a state: not null, aligned, and of the one size that this header and the library both have. */
static inline int planner_fits(const void *memory, size_t bytes) {
    return memory && (uintptr_t)memory % 8 == 0 && bytes == PLANNER_STATE_SIZE && planner_state_size() == PLANNER_STATE_SIZE;
}

/* The five numbers of the last answer, which stand last in the state. */
static inline uint64_t planner_answer(const uint64_t *state, uint64_t answer[PLANNER_ANSWER]) {
    if (!state || !answer) return 1;
    for (size_t i = 0; i < PLANNER_ANSWER; i++) answer[i] = state[PLANNER_SAID + i];
    return 0;
}

/* No answer yet, which is 1. */
static inline void planner_unsay(uint64_t answer[PLANNER_ANSWER]) {
    for (size_t i = 0; i < PLANNER_ANSWER; i++) answer[i] = i == 0;
}

/* The number that a call answered with, if the state says the same. */
static inline uint64_t planner_said(const uint64_t *state, uint64_t number) {
    return state[PLANNER_SAID] == number ? number : 1;
}

/* A fresh state. */
static inline uint64_t planner_begin(uint64_t *state) {
    if (!planner_fits(state, PLANNER_STATE_SIZE)) return 1;
    planner_unsay(state + PLANNER_SAID);
    return planner_said(state, planner_fresh(state, PLANNER_STATE_SIZE));
}

/* A call from its numbers; its five numbers are in the state. */
static inline uint64_t planner_do(uint64_t *state, const uint64_t *numbers, size_t n) {
    uint64_t none[1];
    if (!state || !numbers) return 1;
    planner_unsay(state + PLANNER_SAID);
    return planner_said(state, planner_call(state, PLANNER_STATE_SIZE, numbers, n, none, 0));
}

/* One request with its record. */
static inline uint64_t planner_ask(uint64_t *state, const uint64_t request[PLANNER_REQUEST], uint64_t record[PLANNER_RECORD]) {
    if (!state || !request || !record) return 1;
    planner_unsay(state + PLANNER_SAID);
    return planner_said(state, planner_allocate(state, PLANNER_STATE_SIZE, request, PLANNER_REQUEST, record, PLANNER_RECORD));
}

/* How many records a plan of `count` requests has filled, by its answer. */
static inline size_t planner_granted(const uint64_t answer[PLANNER_ANSWER], size_t count) {
    if (!answer) return 0;
    if (answer[0] == 0) return count;
    return answer[1] < count ? (size_t)answer[1] : 0;
}

/* A plan of `count` requests, with room for as many records; the answer's five numbers, written whatever comes of it. Over PLANNER_MOST requests are 11. */
static inline uint64_t planner_run(uint64_t *state, const uint64_t *requests, size_t count, uint64_t *results, uint64_t answer[PLANNER_ANSWER]) {
    if (!answer) return 1;
    planner_unsay(answer);
    if (!state || !requests || !results) return 1;
    if (count > PLANNER_MOST) count = PLANNER_MOST + 1; /* one too many says it: 12 times any count may be no size */
    planner_unsay(state + PLANNER_SAID);
    uint64_t filled = planner_plan(state, PLANNER_STATE_SIZE, requests, PLANNER_REQUEST * count, results, PLANNER_RECORD * count);
    planner_answer(state, answer);
    if (filled == PLANNER_RECORD * planner_granted(answer, count)) return answer[0];
    planner_unsay(answer);
    return 1;
}

/* Writes the records of a plan of `count` requests back into them: those that planner_run filled, as its answer says, and no others. */
static inline uint64_t planner_write_back(uint64_t *requests, size_t count, const uint64_t *results, const uint64_t answer[PLANNER_ANSWER]) {
    if (!requests || !results || !answer) return 1;
    size_t granted = planner_granted(answer, count);
    if (granted > PLANNER_MOST) return 1;
    planner_pin(requests, PLANNER_REQUEST * granted, results, PLANNER_RECORD * granted);
    return 0;
}

/* Row i of a table, from 0: PLANNER_ROW says its numbers. */
static inline uint64_t planner_row(const uint64_t *state, uint64_t part, uint64_t kind, uint64_t i, uint64_t row[PLANNER_ROW]) {
    const uint64_t what[3] = {part, kind, i};
    if (!state || !row) return 1;
    return planner_read(state, PLANNER_STATE_SIZE, what, 3, row, PLANNER_ROW);
}

/* What the planner's program answers to a text, in front of `out`, which has room for PLANNER_TEXT_OUTPUT bytes; how many bytes it wrote, or 0. */
static inline size_t planner_respond(const char *text, size_t n, char *out, size_t m) {
    if (!text || !out || m < PLANNER_TEXT_OUTPUT) return 0;
    out[0] = 0; /* no answer begins so: a library that writes nothing is seen */
    uint64_t written = planner_text((const uint8_t *)text, n, (uint8_t *)out, m);
    return out[0] != 0 && written <= PLANNER_TEXT_OUTPUT ? (size_t)written : 0;
}

/* No answer of a text yet: line 0, and 1. */
static inline void planner_unsay_line(uint64_t answer[PLANNER_ANSWER]) {
    for (size_t i = 0; i < PLANNER_ANSWER; i++) answer[i] = i == 1;
}

/* A text pinned, in front of `out`, for which PLANNER_TEXT bytes are never too few. `written` is how many bytes they are, 0 where it is refused; the
 * answer's five numbers, LINE FIRST (its number is answer[1]), are written whatever comes of it. */
static inline uint64_t planner_write_text(const char *text, size_t n, char *out, size_t m, size_t *written, uint64_t answer[PLANNER_ANSWER]) {
    if (written) *written = 0;
    if (!answer) return 1;
    planner_unsay_line(answer);
    if (!text || !out || !written) return 1;
    uint64_t bytes = planner_pin_text((const uint8_t *)text, n, (uint8_t *)out, m, answer, PLANNER_ANSWER);
    /* a refusal writes nothing, an empty text alone is written as nothing, and no text is longer than its buffer or than a text may be */
    if (answer[1] ? bytes == 0 : (bytes == 0) == (n == 0) && bytes <= m && bytes <= PLANNER_TEXT) {
        *written = (size_t)bytes;
        return answer[1];
    }
    planner_unsay_line(answer);
    return 1;
}

/* The requests of a PCI device from its registers' words, in front of `requests`, which has room for `most` of them: PLANNER_REGISTERS are never too few.
 * `count` is how many they are, 0 where it is refused. */
static inline uint64_t planner_size(const uint64_t words[PLANNER_REGISTERS], uint64_t requester, uint64_t *requests, size_t most, size_t *count) {
    uint64_t answer[PLANNER_ANSWER];
    if (count) *count = 0;
    if (!words || !requests || !count) return 1;
    if (most > PLANNER_REGISTERS) most = PLANNER_REGISTERS; /* there are no more: 12 times any count may be no size */
    planner_unsay(answer);
    uint64_t made = planner_registers(words, PLANNER_REGISTERS, requester, requests, PLANNER_REQUEST * most, answer, PLANNER_ANSWER);
    if (answer[0] ? made != 0 : made > most) return 1; /* a refusal makes none, and no list has more than it has room for */
    *count = (size_t)made;
    return answer[0];
}

/* Starts: the owners become the reservations, and all grants are forgotten. */
static inline uint64_t planner_start(uint64_t *state) {
    const uint64_t x[1] = {3};
    return planner_do(state, x, 1);
}

/* Withdraws everything granted to a requester: 13 where there is nothing. Its reservations stay, and so does what all others have. */
static inline uint64_t planner_withdraw(uint64_t *state, uint64_t requester) {
    const uint64_t x[2] = {5, requester};
    return planner_do(state, x, 2);
}

/* Adds a range to the pools of a use: 0 automatic, 1 fixed. */
static inline uint64_t planner_pool_mmio(uint64_t *state, uint64_t use, uint64_t start, uint64_t end) {
    const uint64_t x[5] = {1, use, 1, start, end};
    return planner_do(state, x, 5);
}
static inline uint64_t planner_pool_pio(uint64_t *state, uint64_t use, uint16_t start, uint16_t end) {
    const uint64_t x[5] = {1, use, 2, start, end};
    return planner_do(state, x, 5);
}
static inline uint64_t planner_pool_input(uint64_t *state, uint64_t use, uint32_t controller, uint64_t start, uint64_t end) {
    const uint64_t x[6] = {1, use, 3, controller, start, end};
    return planner_do(state, x, 6);
}
static inline uint64_t planner_pool_host(uint64_t *state, uint64_t use, uint64_t start, uint64_t end) {
    const uint64_t x[5] = {1, use, 4, start, end};
    return planner_do(state, x, 5);
}
/* Devices, events and LPIs of one ITS: all three ranges or none. Any empty one is 4, then LPIs below PLANNER_FIRST_LPI are 12, then a row that is lacking is 9. */
static inline uint64_t planner_pool_msi(uint64_t *state, uint64_t use, uint32_t controller, uint32_t its, uint32_t device_start, uint32_t device_end,
                                        uint32_t event_start, uint32_t event_end, uint32_t lpi_start, uint32_t lpi_end) {
    const uint64_t x[11] = {1, use, 5, controller, its, device_start, device_end, event_start, event_end, lpi_start, lpi_end};
    return planner_do(state, x, 11);
}

/* Reserves for an owner, so that no request is granted it. */
static inline uint64_t planner_hold_mmio(uint64_t *state, uint32_t owner, uint64_t start, uint64_t end) {
    const uint64_t x[5] = {2, owner, 1, start, end};
    return planner_do(state, x, 5);
}
static inline uint64_t planner_hold_pio(uint64_t *state, uint32_t owner, uint16_t start, uint16_t end) {
    const uint64_t x[5] = {2, owner, 2, start, end};
    return planner_do(state, x, 5);
}
static inline uint64_t planner_hold_input(uint64_t *state, uint32_t owner, uint32_t controller, uint64_t input, uint32_t trigger, uint32_t sharing) {
    const uint64_t x[7] = {2, owner, 3, controller, input, trigger, sharing};
    return planner_do(state, x, 7);
}
static inline uint64_t planner_hold_host(uint64_t *state, uint32_t owner, uint64_t start, uint64_t end) {
    const uint64_t x[5] = {2, owner, 4, start, end};
    return planner_do(state, x, 5);
}
static inline uint64_t planner_hold_device(uint64_t *state, uint32_t owner, uint32_t controller, uint32_t its, uint32_t start, uint32_t end) {
    const uint64_t x[7] = {2, owner, 5, controller, its, start, end};
    return planner_do(state, x, 7);
}
static inline uint64_t planner_hold_event(uint64_t *state, uint32_t owner, uint32_t controller, uint32_t its, uint32_t device, uint32_t start, uint32_t end) {
    const uint64_t x[8] = {2, owner, 6, controller, its, device, start, end};
    return planner_do(state, x, 8);
}
static inline uint64_t planner_hold_lpi(uint64_t *state, uint32_t owner, uint32_t controller, uint32_t start, uint32_t end) {
    const uint64_t x[6] = {2, owner, 7, controller, start, end};
    return planner_do(state, x, 6);
}
/* One input of a controller, exclusive, and one host IRQ: both or neither. */
static inline uint64_t planner_hold_pair(uint64_t *state, uint32_t owner, uint32_t controller, uint64_t input, uint32_t trigger, uint64_t host) {
    const uint64_t x[7] = {2, owner, 8, controller, input, trigger, host};
    return planner_do(state, x, 7);
}

#ifdef __cplusplus
}
#endif

#endif
