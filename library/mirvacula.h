/*
 * The counting core of a beam loss counter crate: rehearses a patching away from the beam; makes the words that patch a
 * counter; makes traces of captures; gives sliding sums of a count.
 */
#ifndef MIRVACULA_H
#define MIRVACULA_H

#include <stddef.h>
#include <stdint.h>

#define MIRVACULA_VERSION "0.3.0"

#define MIRVACULA_MEMORY_WORDS 16384 /* threshold memory */
#define MIRVACULA_REPORT_WORDS 5     /* stop, next offset, ticks, records passed, records refused */
#define MIRVACULA_IMAGE_WORDS 5120   /* registers 0x0600 to 0x19FF in address order, 0 where a read is refused */
#define MIRVACULA_IMAGE_START 0x0600
#define MIRVACULA_OUTPUTS 6          /* interlock outputs */
#define MIRVACULA_SCAN_WORDS 12      /* levels of outputs 0 to 5, then the selection words read of each */

/* Why a run stopped. */
#define MIRVACULA_END 0          /* end of the trace */
#define MIRVACULA_BAD_MEMORY 1   /* memory not 16,384 words: the rest of the report, and image or outputs, are 0; the memory is left */
#define MIRVACULA_UNKNOWN_TAG 7
#define MIRVACULA_WRONG_LENGTH 8
#define MIRVACULA_CUT 9
#define MIRVACULA_NO_REPEAT 10
#define MIRVACULA_SPENT 254      /* a tick record exceeds the ticks left */
#define MIRVACULA_BAD_BUFFER 255 /* report, image or outputs of the wrong length, and the memory as it should be: nothing is done */

#define MIRVACULA_FRAME_BYTES 9  /* frame of a capture: 7 bytes of inputs, 2 of gates, high bytes first */
#define MIRVACULA_TICK_BYTES 14  /* tick record of a trace */
#define MIRVACULA_ANSWER_WORDS 2 /* length of the trace in bytes, first frame with a bad level */

/* What a conversion returns; the refusals in the order of the checks. */
#define MIRVACULA_DONE 0
#define MIRVACULA_NOT_FRAMES 12  /* capture not a multiple of 9 bytes */
#define MIRVACULA_BAD_LEVEL 6    /* input 54 or 55 or gate 12 to 15 is 1 in a frame */
#define MIRVACULA_NO_ROOM 13     /* output shorter than the trace */
/* MIRVACULA_BAD_BUFFER 255         answer of the wrong length, and the capture of whole frames: nothing is done */

#define MIRVACULA_GROUND 54        /* selection: no signal; 0 to 53 are the inputs, 55 to 63 the test signals */
#define MIRVACULA_NO_GATE 15       /* gate: never open, as 12 to 14; 0 to 11 are the gates */
#define MIRVACULA_NO_WORD 0x10000u /* no word of 16 bits: a number does not fit its field */

#define MIRVACULA_SUM_STATE_WORDS 3        /* window, place in the ring, sum in two's complement */
#define MIRVACULA_SUM_LARGEST_WINDOW 65536 /* samples */

/* What a start or a sample of a sliding sum returns. */
/* MIRVACULA_DONE 0 */
#define MIRVACULA_BAD_SUM 14     /* window not from 1 to 65,536, ring shorter than the window, or place not below the window */
/* MIRVACULA_BAD_BUFFER 255         state or sum of the wrong length, whatever else is wrong: nothing is done */

/*
 * Powers up a crate on the lent memory (which it clears), runs the trace with a budget of ticks and fills in report and
 * image. Returns why the run stopped; report[0] says the same. Where report or image has the wrong
 * length nothing is done, and it returns MIRVACULA_BAD_MEMORY or MIRVACULA_BAD_BUFFER. Each length is the number
 * of elements behind the pointer before it. A pointer may not be NULL, and the four areas may not overlap.
 */
uint16_t mirvacula_run(uint16_t *memory, size_t memory_words, const uint8_t *trace, size_t trace_bytes, uint64_t budget,
                       uint64_t *report, size_t report_words, uint16_t *image, size_t image_words);

/*
 * Runs a trace as mirvacula_run does, and scans the six interlock outputs that the crate then has. outputs[o] is the level of
 * output o, 0 or 1, as register 0x0719 has it; outputs[MIRVACULA_OUTPUTS + o] says how many of its 22 selection words were
 * read: from the lowest address to the first by which those read make the level 0, and all where it is 1. Returns why the run
 * stopped; report[0] says the same. Where report or outputs has the wrong length nothing is done, and it returns
 * MIRVACULA_BAD_MEMORY or MIRVACULA_BAD_BUFFER. Lengths and pointers are as for mirvacula_run.
 */
uint16_t mirvacula_scan(uint16_t *memory, size_t memory_words, const uint8_t *trace, size_t trace_bytes, uint64_t budget,
                        uint64_t *report, size_t report_words, uint16_t *outputs, size_t outputs_words);

/*
 * Writes the trace of a capture of the pulse recorder from the start of out on. Equal neighbouring frames become one tick
 * record, with a repeat up to 65,535; no trace of tick records for these frames has fewer records. MIRVACULA_TICK_BYTES of output
 * for each MIRVACULA_FRAME_BYTES of capture are always enough, and bytes past the trace stay. Returns MIRVACULA_DONE or
 * why the capture is refused; then the whole output stays. answer[0] is the length of the trace in bytes, 0 where it is
 * refused; answer[1] is, for MIRVACULA_BAD_LEVEL, the first frame with a bad level, counted from 0, and else 0. Where
 * answer has the wrong length nothing is done, and it returns MIRVACULA_NOT_FRAMES or MIRVACULA_BAD_BUFFER. Each length is
 * the number of elements behind the pointer before it. A pointer may not be NULL, and the three areas may not overlap.
 */
uint16_t mirvacula_convert(const uint8_t *capture, size_t capture_bytes, uint8_t *out, size_t out_bytes,
                           uint64_t *answer, size_t answer_words);

/*
 * The word that patches a counter, for its input register, 0x1000 + its number: UP in bits 5-0, DOWN in 11-6, the gate in
 * 15-12. Returns MIRVACULA_NO_WORD where a selection is above 63 or the gate above 15. A number of more than 16 bits loses its
 * high bits at the call: look before.
 */
uint32_t mirvacula_input_word(uint16_t up, uint16_t down, uint16_t gate);

/*
 * The word that puts a counter into a group, for its group register, 0x1600 + its number div 4, which holds the groups of four
 * counters: `word` is what stands there, and the other three counters' groups stay. Returns MIRVACULA_NO_WORD where the counter
 * is above 127 or the group above 15. Numbers are as for mirvacula_input_word.
 */
uint32_t mirvacula_group_word(uint16_t word, uint16_t counter, uint16_t group);

/*
 * Starts a sliding sum of a count over the last `window` samples: clears that many words of the ring from its first on, leaves
 * those past them and makes the state window, 0, 0. Returns MIRVACULA_DONE, or MIRVACULA_BAD_SUM: then the ring stays and the
 * state is 0, 0, 0, so that every sample on it is refused. Where state has the wrong length nothing is done, and it returns
 * MIRVACULA_BAD_BUFFER. Each length is the number of elements behind the pointer before it. A pointer may not be NULL, and the
 * areas may not overlap.
 */
uint16_t mirvacula_sum_start(uint64_t *state, size_t state_words, int64_t *ring, size_t ring_words, uint64_t window);

/*
 * Takes a sample: sum[0], the only word of sum, and the state's sum become that of the last `window` samples since the start,
 * where those before the start count as 0; it cannot wrap. The sample replaces the ring word at the state's place, and the place
 * moves on, from the window's last word to the first. Between two samples state and ring have to stay as they are: on a state
 * or a ring that a start and its samples did not leave the sum is the state's sum plus the sample less the ring word at the
 * place, wrapped to a signed number of 64 bits. Returns MIRVACULA_DONE, or MIRVACULA_BAD_SUM: then state and ring stay and
 * sum[0] is 0. Where state or sum has the wrong length nothing is done, and it returns MIRVACULA_BAD_BUFFER. Lengths and
 * pointers are as for mirvacula_sum_start.
 */
uint16_t mirvacula_sum_sample(uint64_t *state, size_t state_words, int64_t *ring, size_t ring_words, int32_t sample,
                              int64_t *sum, size_t sum_words);

#endif
