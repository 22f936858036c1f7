/*
 * One step of a packet's detour, for a host program on a switch.
 *
 * Link with libswitch.a (see README.md). The function reads and writes nothing but what it is passed, keeps nothing between two calls, calls
 * no other library, and always returns.
 */
#ifndef SWITCH_H
#define SWITCH_H

#include <stddef.h>
#include <stdint.h>

#ifdef __cplusplus
extern "C" {
#endif

/* How a step ends. */
enum switch_end {
    SWITCH_FORWARDED = 0, /* the packet leaves by switch_port() */
    SWITCH_DELIVERED = 1, /* the packet is at its destination */
    SWITCH_NONE = 2,      /* no way is left: the packet is back at its source */
    SWITCH_REFUSED = 3    /* the input breaks the rule switch_refusal() */
};

/* Why a step is refused. The sheet is looked at first, then the fault list, then the rest in the order of these numbers. */
enum switch_refusal {
    SWITCH_SHEET_BROKEN = 1,     /* sheet: empty, a wrong kind, a record cut short, or a 513th cable */
    SWITCH_COUNT_WRONG = 2,      /* the number of switches is 0 or over 64 */
    SWITCH_ROW_WRONG = 3,        /* a cable row: switch or port out of range, both ends on one switch, or a port used twice */
    SWITCH_FAULTS_BROKEN = 4,    /* fault list: a wrong kind, a record cut short, or a 513th fault */
    SWITCH_FAULT_UNCABLED = 5,   /* a fault names a port that no cable of the sheet is in */
    SWITCH_OFF_THE_SHEET = 6,    /* the present switch or the destination is not one of the sheet's */
    SWITCH_TAG_SHORT = 7,        /* the tag has fewer than two bytes for each switch */
    SWITCH_ARRIVAL_WRONG = 8,    /* the arrival port is neither 0 nor a live cabled port of this switch */
    SWITCH_TAG_NOT_FRESH = 9,    /* the packet comes from a host (arrival port 0) with a tag that is not all zero */
    SWITCH_TAG_WRONG = 10        /* this switch's two tag bytes name ports that it cannot have chosen */
};

/*
 * The step of switch `present` for a packet that came in by port `arrival` (0: from a host) and is bound for switch `destination`.
 *
 *   sheet    the cabling sheet: 1 n, then for each cable 2 switch port preference switch port preference
 *   faults   the fault list: for each fault 3 switch port, of either end of a dead cable
 *   tag      the packet's tag, two bytes for each switch, switch 1 first: parent port, then current port
 *
 * Every pointer may be NULL where its length is 0. Any numbers and any bytes may be passed. The three areas may not overlap.
 *
 * Written: after SWITCH_FORWARDED the two tag bytes of `present`; otherwise nothing. Bytes past the sheet's switches are never written.
 *
 * The answer is taken apart by the three functions below.
 */
uint64_t switch_step(uint64_t present, uint64_t arrival, uint64_t destination,
                     const uint8_t *sheet, size_t sheet_len,
                     const uint8_t *faults, size_t faults_len,
                     uint8_t *tag, size_t tag_len);

/* The end of the step, one of enum switch_end. */
static inline unsigned switch_end_of(uint64_t answer)
{
    return (unsigned)(answer >> 32);
}

/* The port by which the packet leaves; 0 unless the step forwarded it. */
static inline unsigned switch_port(uint64_t answer)
{
    return switch_end_of(answer) == SWITCH_FORWARDED ? (unsigned)(answer & 0xffffffffu) : 0u;
}

/* The refusal number, one of enum switch_refusal; 0 unless the step was refused. */
static inline unsigned switch_refusal_of(uint64_t answer)
{
    return switch_end_of(answer) == SWITCH_REFUSED ? (unsigned)(answer & 0xffffffffu) : 0u;
}

#ifdef __cplusplus
}
#endif

#endif
