/* A host to start from: reads a plan file, prints each flow's bounds, offers one packet of each
 * flow at once, as a ping does, and steps until all of them have left, keeping each flow's last
 * flights. It lets the cycles to the next ping pass in one call, and does the same again. Last it
 * prints the flights, and writes the plan back from the state.
 *
 *     host PLAN
 *
 * Its status is 0; 1 if a call is refused or something isn't as it should be; 2 if it is called
 * wrongly or the file can't be read.
 */
#include "hrt.h"

#include <errno.h>
#include <stdio.h>
#include <string.h>

/* One byte more than a plan may have, so that a longer file is told. */
static uint8_t plan[HRT_MOST_PLAN_BYTES + 1];
static uint32_t state[HRT_MOST_STATE_WORDS];
static uint32_t delivery[HRT_MOST_DELIVERY_WORDS];
static uint8_t written[HRT_MOST_PLAN_BYTES];

/* How many flights of a flow are kept, 1 to HRT_MOST_RECENT, and a record of them for each flow.
 * Zeros hold none. */
#define LAST_FLIGHTS 4
static struct hrt_recent recent[HRT_MOST_FLOWS];

/* Says that a call was refused, if it was. */
static int is_refused(const char *call, uint64_t answer)
{
    if (!HRT_IS_REFUSED(answer))
        return 0;
    fprintf(stderr, "host: %s is refused: number %u, place %u\n", call, (unsigned)HRT_NUMBER(answer),
            (unsigned)HRT_PLACE(answer));
    return 1;
}

/* Reads the file whole, or one byte more than a plan may have. */
static int read_plan(const char *name, size_t *bytes)
{
    FILE *file = fopen(name, "rb");
    if (file != NULL) {
        *bytes = fread(plan, 1, sizeof plan, file);
        int failed = ferror(file);
        int why = errno;
        fclose(file);
        if (!failed)
            return 0;
        errno = why;
    }
    fprintf(stderr, "host: '%s' can't be read: %s\n", name, strerror(errno));
    return 1;
}

/* Prints window and flight bound of each flow, and adds up the flight bounds. */
static int print_bounds(size_t bytes, uint32_t flows, uint64_t *flights)
{
    for (uint32_t flow = 0; flow < flows; flow++) {
        uint32_t window = hrt_window(plan, bytes, flow);
        uint64_t flight = hrt_flight(plan, bytes, flow);
        if (is_refused("the flight bound", flight))
            return 1;
        printf("flow %u: ", (unsigned)flow);
        if (HRT_WINDOW_IS_REFUSED(window))
            printf("no window (refusal %u)", (unsigned)HRT_WINDOW_NUMBER(window));
        else
            printf("window %u", (unsigned)window);
        printf(", flight at most %u\n", (unsigned)flight);
        *flights += flight;
    }
    return 0;
}

/* Offers one packet of each flow: all are accepted or none is. hrt_offer offers a single packet, and
 * hrt_offer_trial one for a trial's traffic generator. */
static int ping(uint32_t flows)
{
    static uint32_t list[HRT_MOST_FLOWS];
    for (uint32_t flow = 0; flow < flows; flow++)
        list[flow] = flow;
    return is_refused("the ping", hrt_offer_set(state, HRT_MOST_STATE_WORDS, list, flows));
}

/* Keeps the flights of so many packets that a step delivered. */
static int keep(uint64_t exits)
{
    size_t words = 5 * (size_t)exits;
    return is_refused("keeping the flights",
                      hrt_recent(state, HRT_MOST_STATE_WORDS, delivery, words, recent, HRT_MOST_FLOWS,
                                 LAST_FLIGHTS));
}

/* Steps until so many packets have left, prints each and keeps its flight. Every one of them has a
 * token, so in each cycle one is under way or enters, and none is under way for longer than its
 * flight bound: after as many steps as the flight bounds add up to, all have left. */
static int run(uint32_t packets, uint64_t most_steps)
{
    for (uint64_t step = 0; packets > 0; step++) {
        if (step == most_steps) {
            fprintf(stderr, "host: %u packets haven't left after %u steps, the sum of the flight bounds\n",
                    (unsigned)packets, (unsigned)most_steps);
            return 1;
        }
        uint64_t exits = hrt_step(state, HRT_MOST_STATE_WORDS, delivery, HRT_MOST_DELIVERY_WORDS);
        if (is_refused("a step", exits))
            return 1;
        for (uint64_t i = 0; i < exits; i++) {
            const uint32_t *d = delivery + 5 * i; /* flow, serial, entry cycle, exit cycle, D */
            printf("flow %u, packet %u: cycles %u to %u, %u deflections, flight %u\n", (unsigned)d[0],
                   (unsigned)d[1], (unsigned)d[2], (unsigned)d[3], (unsigned)d[4],
                   (unsigned)(d[3] - d[2] + 2));
        }
        if (keep(exits))
            return 1;
        packets -= (uint32_t)exits;
    }
    return 0;
}

/* Lets the cycles to the next ping pass in one call. Nothing waits and nothing is under way, so none
 * leaves and they take hardly any time. After the longest period each flow has a token again. */
static int rest(void)
{
    uint64_t exits = hrt_steps(state, HRT_MOST_STATE_WORDS, delivery, HRT_MOST_DELIVERY_WORDS, HRT_MOST_PERIOD);
    if (is_refused("the rest", exits))
        return 1;
    printf("nothing to do until cycle %u\n", (unsigned)state[3]);
    return 0;
}

/* Prints the last flights of each flow, oldest first. */
static void print_recent(uint32_t flows)
{
    for (uint32_t flow = 0; flow < flows; flow++) {
        const struct hrt_recent *r = &recent[flow];
        printf("flow %u, last flights:", (unsigned)flow);
        for (uint32_t i = 0; i < r->held; i++)
            printf(" %u with %u deflections%s", (unsigned)r->flights[i], (unsigned)r->deflections[i],
                   i + 1 < r->held ? "," : ";");
        printf(" longest %u, most deflections %u\n", (unsigned)r->longest, (unsigned)r->most);
    }
}

/* Writes the plan back, with its notes, and says whether it is the file that was read. */
static int write_back(size_t bytes, size_t notes)
{
    uint64_t length = hrt_write(state, HRT_MOST_STATE_WORDS, plan, notes, written, HRT_MOST_PLAN_BYTES);
    if (is_refused("writing", length))
        return 1;
    int same = length == bytes && memcmp(plan, written, bytes) == 0;
    printf("the plan written back is %s\n", same ? "the same" : "another");
    return !same;
}

int main(int argc, char **argv)
{
    if (argc != 2) {
        fprintf(stderr, "host: it takes one plan file\nusage: host PLAN\n");
        return 2;
    }
    size_t bytes;
    if (read_plan(argv[1], &bytes))
        return 2;

    uint64_t notes = hrt_notes(plan, bytes);
    if (is_refused("the plan", notes)
        || is_refused("the reset", hrt_reset(plan, bytes, state, HRT_MOST_STATE_WORDS)))
        return 1;
    fwrite(plan, 1, (size_t)notes, stdout);
    uint32_t flows = state[2]; /* the state starts with Sx, Sy, F and the clock */
    uint64_t flights = 0;
    if (print_bounds(bytes, flows, &flights))
        return 1;
    if (ping(flows) || run(flows, flights) || rest() || ping(flows) || run(flows, flights))
        return 1;
    print_recent(flows);
    return write_back(bytes, (size_t)notes);
}
