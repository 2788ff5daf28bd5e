/* A library that does nothing, as one built for another size: every function answers with ANSWER and touches nothing; SIZE is what it says of its states.
 * planner_pin_text and planner_registers alone may be told to write an answer, and how many bytes or requests to say that they wrote. */
#include "planner.h"
#include "stub.h"

#define LISTS const uint64_t *from, size_t n, uint64_t *to, size_t m
#define NOTHING (void)state, (void)size, (void)from, (void)n, (void)to, (void)m

uint64_t planner_state_size(void) { return SIZE; }
uint64_t planner_fresh(uint64_t *state, uint64_t size) { return (void)state, (void)size, (uint64_t)ANSWER; }
uint64_t planner_call(uint64_t *state, uint64_t size, LISTS) { return NOTHING, (uint64_t)ANSWER; }
uint64_t planner_allocate(uint64_t *state, uint64_t size, LISTS) { return NOTHING, (uint64_t)ANSWER; }
uint64_t planner_plan(uint64_t *state, uint64_t size, LISTS) { return NOTHING, (uint64_t)ANSWER; }
uint64_t planner_read(const uint64_t *state, uint64_t size, LISTS) { return NOTHING, (uint64_t)ANSWER; }
void planner_pin(uint64_t *requests, size_t n, const uint64_t *results, size_t m) { (void)requests, (void)n, (void)results, (void)m; }
uint64_t planner_text(const uint8_t *text, size_t n, uint8_t *out, size_t m) { return (void)text, (void)n, (void)out, (void)m, (uint64_t)ANSWER; }
const uint64_t *stub_said;
uint64_t stub_count = ANSWER;
static uint64_t told(uint64_t *answer, size_t k) {
    for (size_t i = 0; stub_said && i < k; i++) answer[i] = stub_said[i];
    return stub_count;
}
uint64_t planner_pin_text(const uint8_t *text, size_t n, uint8_t *out, size_t m, uint64_t *answer, size_t k) {
    return (void)text, (void)n, (void)out, (void)m, told(answer, k);
}
uint64_t planner_registers(const uint64_t *words, size_t n, uint64_t requester, uint64_t *requests, size_t m, uint64_t *answer, size_t k) {
    return (void)words, (void)n, (void)requester, (void)requests, (void)m, told(answer, k);
}
