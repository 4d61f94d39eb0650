/* Bounds, reasons and exits that are wrong: where LOWERED is window or flight, that call's answer is one less than the archive's,
 * where REASON is a number, a step tells it as each flow's reason, where LOST is set, many steps in one call lose their last exit,
 * and where BURST is a number, every burst is refused with it. Linked into the desk with --wrap, to see that it tells what can't
 * happen. */
#include "hrt.h"
#include <stdlib.h>
#include <string.h>

uint32_t __real_hrt_window(const uint8_t *plan, size_t plan_bytes, uint32_t flow);
uint64_t __real_hrt_burst(const uint8_t *plan, size_t plan_bytes, uint32_t flow, uint32_t packets);
uint64_t __real_hrt_flight(const uint8_t *plan, size_t plan_bytes, uint32_t flow);
uint64_t __real_hrt_step_reasons(uint32_t *state, size_t state_words, uint32_t *delivery, size_t delivery_words,
                                 uint32_t *reasons, size_t reason_words);

uint64_t __real_hrt_steps(uint32_t *state, size_t state_words, uint32_t *delivery, size_t delivery_words, uint32_t cycles);

static int lowered(const char *call) {
  const char *name = getenv("LOWERED");
  return name && strcmp(name, call) == 0;
}

uint32_t __wrap_hrt_window(const uint8_t *plan, size_t plan_bytes, uint32_t flow) {
  return __real_hrt_window(plan, plan_bytes, flow) - lowered("window");
}

uint64_t __wrap_hrt_burst(const uint8_t *plan, size_t plan_bytes, uint32_t flow, uint32_t packets) {
  const char *number = getenv("BURST");
  return number ? (uint64_t)strtoul(number, NULL, 10) << 32 : __real_hrt_burst(plan, plan_bytes, flow, packets);
}

uint64_t __wrap_hrt_flight(const uint8_t *plan, size_t plan_bytes, uint32_t flow) {
  return __real_hrt_flight(plan, plan_bytes, flow) - lowered("flight");
}

uint64_t __wrap_hrt_step_reasons(uint32_t *state, size_t state_words, uint32_t *delivery, size_t delivery_words,
                                 uint32_t *reasons, size_t reason_words) {
  uint64_t answer = __real_hrt_step_reasons(state, state_words, delivery, delivery_words, reasons, reason_words);
  const char *reason = getenv("REASON");
  for (size_t flow = 0; reason && flow < reason_words; flow++)
    reasons[flow] = (uint32_t)strtoul(reason, NULL, 10);
  return answer;
}

uint64_t __wrap_hrt_steps(uint32_t *state, size_t state_words, uint32_t *delivery, size_t delivery_words, uint32_t cycles) {
  uint64_t answer = __real_hrt_steps(state, state_words, delivery, delivery_words, cycles);
  int lost = getenv("LOST") && !HRT_IS_REFUSED(answer) && answer > 0;
  return answer - lost;
}
