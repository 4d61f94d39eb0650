/* The C interface of Kimboryu. Link with target/staticlib/libhost.a (binding/archive).
 *
 * Memory is lent as a pointer and a count of its elements. The pointer is not null, even for a count of 0.
 * Memories lent to one call don't overlap: hrt_reset's plan and state, hrt_step's and hrt_steps' state and delivery,
 * hrt_step_reasons' state, delivery and reasons, hrt_recent's records and its state or deliveries, hrt_write's target and its
 * state or notes, hrt_offer_set's state and flows lie apart. Only what is merely read may overlap, as hrt_write's state and notes.
 * The functions have no memory of their own. Calls may run at once, in several threads, if what one of them writes is lent to
 * no other: all may read one plan, and a state is in one hrt_reset, hrt_offer, hrt_offer_trial, hrt_offer_set, hrt_step,
 * hrt_steps or hrt_step_reasons at a time.
 *
 * A refused call changes nothing that was lent to it.
 * hrt_window answers the window T, 1 to 65,535, or 65,536 + the refusal number.
 * Every other call answers its value when accepted, or number * 2^32 + place when refused. */
#ifndef HRT_H
#define HRT_H

#include <stddef.h>
#include <stdint.h>

#ifdef __cplusplus
extern "C" {
#endif

/* The limits. A torus has 1 to 16 columns Sx and rows Sy, a plan 1 to 256 flows. */
#define HRT_MOST_PLAN_BYTES 65536
#define HRT_MOST_SIZE 16
#define HRT_MOST_FLOWS 256
#define HRT_MOST_PERIOD 16777215    /* cycles of a flow's period; the least is 1 */
#define HRT_MOST_BURST 255          /* tokens of a flow's bucket, and packets of a burst; the least is 1 */
#define HRT_MOST_WAITING 65535      /* packets of a flow that wait; one offer more is refused with 13 */
#define HRT_MOST_TRIAL 255          /* as many, whoever offered them: one more of the trial generator is refused with 18 */
#define HRT_LAST_CLOCK 4294967295u  /* a step in this cycle is refused with 11 */
#define HRT_MOST_RECENT 16          /* deliveries that a record may hold; the least is 1 */

/* Whether a flow entered in a step, or why it didn't: the first of these that applies, judged on the state before the step. */
#define HRT_REASON_ENTERED 0         /* it entered */
#define HRT_REASON_NOTHING_WAITING 1 /* nothing waiting */
#define HRT_REASON_NO_TOKEN 2        /* no token */
#define HRT_REASON_WEST_HELD 3       /* its port is E and W held a packet */
#define HRT_REASON_SOUTH_TAKEN 4     /* its port is S and a network packet took S; one that exits there takes S too */
#define HRT_REASON_LOWER_ENTERED 5   /* a lower-numbered flow of its client entered */

/* The words of a state, and the fewest that may be lent for the deliveries of a step. */
#define HRT_STATE_WORDS(flows, sx, sy) ((size_t)8 + 10 * (size_t)(flows) + 8 * (size_t)(sx) * (size_t)(sy))
#define HRT_DELIVERY_WORDS(sx, sy) (5 * (size_t)(sx) * (size_t)(sy))
#define HRT_MOST_STATE_WORDS (8 + 10 * HRT_MOST_FLOWS + 8 * HRT_MOST_SIZE * HRT_MOST_SIZE)
#define HRT_MOST_DELIVERY_WORDS (5 * HRT_MOST_SIZE * HRT_MOST_SIZE)

/* What an answer says, of every call but hrt_window. The number of an accepted call is 0. */
#define HRT_IS_REFUSED(answer) ((uint64_t)(answer) >> 32 != 0)
#define HRT_NUMBER(answer) ((uint32_t)((uint64_t)(answer) >> 32))
#define HRT_PLACE(answer) ((uint32_t)((uint64_t)(answer) & 0xFFFFFFFFu)) /* of a refused call */

/* What an answer of hrt_window says. */
#define HRT_WINDOW_IS_REFUSED(answer) ((uint32_t)(answer) >= 65536u)
#define HRT_WINDOW_NUMBER(answer) ((uint32_t)(answer) - 65536u) /* of a refused call */

/* The least window T of a flow. */
uint32_t hrt_window(const uint8_t *plan, size_t plan_bytes, uint32_t flow);

/* The least window B of a burst, 1 to 65,535: `packets` is k, how many packets of a flow it has, 1 to the flow's burst size sigma.
 * Where the flow's queue is empty, it has at least k tokens, and k packets of it are accepted before one step, all k have entered
 * once B cycles are stepped, whatever else is offered. B of 1 is the window T. Another k is refused with 20, after 12; a burst with
 * no such window with 14, whose place is the flow. */
uint64_t hrt_burst(const uint8_t *plan, size_t plan_bytes, uint32_t flow, uint32_t packets);

/* The flight bound of a flow. */
uint64_t hrt_flight(const uint8_t *plan, size_t plan_bytes, uint32_t flow);

/* The length of the notes, which lead the file. */
uint64_t hrt_notes(const uint8_t *plan, size_t plan_bytes);

/* Makes the state of a plan, of HRT_STATE_WORDS(F, Sx, Sy) words, and leaves the words past it. Answers 0. */
uint64_t hrt_reset(const uint8_t *plan, size_t plan_bytes, uint32_t *state, size_t state_words);

/* Offers one packet of a flow. Answers 0. */
uint64_t hrt_offer(uint32_t *state, size_t state_words, uint32_t flow);

/* Offers one packet of a flow for the trial generator, which must not fill the sonar's queues: with HRT_MOST_TRIAL or more
 * packets of the flow waiting, whichever call offered them, it is refused with 18. An accepted packet is as any other.
 * Answers 0. */
uint64_t hrt_offer_trial(uint32_t *state, size_t state_words, uint32_t flow);

/* Offers one packet for each entry of a list of flows, of any length and in any order; a flow named twice gets two. Either all
 * are accepted or none is. The first entry that would be refused, counting the entries before it as already added, gives its
 * number, 12 or 13, and its position in the list, from 0, as the place. An empty list is accepted and changes nothing; no state
 * is refused with 8 or 9 all the same. Answers 0. */
uint64_t hrt_offer_set(uint32_t *state, size_t state_words, const uint32_t *flows, size_t flow_count);

/* One cycle. Answers the number of exits, for each of which it delivers five words: flow, serial, entry cycle, exit cycle,
 * deflections. The delivery memory has at least HRT_DELIVERY_WORDS(Sx, Sy) words. */
uint64_t hrt_step(uint32_t *state, size_t state_words, uint32_t *delivery, size_t delivery_words);

/* So many cycles in one call: as that many hrt_step, one after the other, each delivering behind the last. Answers the number
 * of all exits, and the state's clock tells how many steps ran: it ends early before a step for which the delivery memory left
 * is too short, under HRT_DELIVERY_WORDS(Sx, Sy) words, and at HRT_LAST_CLOCK. It is refused as hrt_step would be at its start,
 * for 0 cycles too, which otherwise change nothing. It uses at most the first 5 * 4,294,967,295 words of the delivery memory,
 * so that its answer fits. Words behind the last exit stay. Cycles in which nothing can move take hardly any time, and others
 * nearly that of a step: ask for fewer where the call must return soon. */
uint64_t hrt_steps(uint32_t *state, size_t state_words, uint32_t *delivery, size_t delivery_words, uint32_t cycles);

/* As hrt_step, and also writes a word for each flow, flow n's at place n: an HRT_REASON_. Words after the last flow stay. Fewer
 * words than flows are refused with 19, after 11. */
uint64_t hrt_step_reasons(uint32_t *state, size_t state_words, uint32_t *delivery, size_t delivery_words,
                          uint32_t *reasons, size_t reason_words);

/* The last deliveries of a flow: how many are held, the longest flight and the most deflections among them, then the flight and
 * the deflections of each, oldest first, zeros behind. All zeros holds none. In C++ it is always struct hrt_recent, since the
 * call has that name too. */
struct hrt_recent {
    uint32_t held;
    uint32_t longest;
    uint32_t most;
    uint32_t flights[HRT_MOST_RECENT];
    uint32_t deflections[HRT_MOST_RECENT];
};

/* Feeds deliveries, five words each as a step delivers them, to the records of their flows: record n is flow n's, and it then
 * holds the flow's last deliveries, at most `last` of them, 1 to HRT_MOST_RECENT. A record that says it holds more than `last`
 * is taken as empty. Lend the five words of each exit that hrt_step, hrt_steps or hrt_step_reasons answered, and not the whole
 * delivery memory: older deliveries behind them would be kept again. Words behind the last whole delivery aren't read, and records without a delivery stay. Fewer
 * records than flows are refused with 16, another `last` with 17, and a delivery with 12 if the plan has no such flow, or that
 * flow can't have such a flight and deflections. Answers 0. */
uint64_t hrt_recent(const uint32_t *state, size_t state_words, const uint32_t *deliveries, size_t delivery_words,
                    struct hrt_recent *records, size_t record_count, uint32_t last);

/* Writes the plan file of a state, behind the given notes. Answers the file's length in bytes. */
uint64_t hrt_write(const uint32_t *state, size_t state_words, const uint8_t *notes, size_t notes_bytes,
                   uint8_t *target, size_t target_bytes);

#ifdef __cplusplus
}
#endif

#endif
