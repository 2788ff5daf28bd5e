/* What stub.c's planner_pin_text and planner_registers write as their answer, if anything, and answer with. */
#ifndef STUB_H
#define STUB_H

#include <stdint.h>

extern const uint64_t *stub_said;
extern uint64_t stub_count;

#endif
