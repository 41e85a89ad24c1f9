/*
 * Runs the trace on standard input with 1,000,000 ticks and prints its report and the six interlock outputs, with the
 * selection words that each took to be known. With the argument `capture` the input is a capture of the pulse recorder,
 * of at most 1,000,000 frames, and its trace is run. With the arguments `patch UP DOWN GATE` counter 0 is patched so, and a
 * pulse on input 0 with gate 0 open is run. With the argument `sums` the input is samples of a count, one whole number of
 * 32 bits a line, and it prints after each the sum over the last four.
 */
#include <inttypes.h>
#include <stdio.h>
#include <stdlib.h>
#include <string.h>

#include "mirvacula.h"

#define TRACE_BYTES 65536
#define BUDGET 1000000
#define OUTPUTS 0x0719 /* register of the interlock outputs */
#define DIRECT 0x0802  /* gates that are open whenever their input is high */
#define INPUT 0x1000   /* input register of counter 0 */
#define OVER 0x1108    /* positive overflows of counters 0 to 15 on which output 0 trips */
#define GROUPS 0x1600  /* groups of counters 0 to 3 */
#define WINDOW 4       /* samples of a sliding sum */
#define LINE_BYTES 64

static uint16_t memory[MIRVACULA_MEMORY_WORDS];
static uint16_t image[MIRVACULA_IMAGE_WORDS];
static uint8_t capture[BUDGET * MIRVACULA_FRAME_BYTES];
static uint8_t trace[BUDGET * MIRVACULA_TICK_BYTES];

/* Runs so many bytes of the trace once more, for the outputs. */
static void scan(size_t bytes)
{
    uint64_t report[MIRVACULA_REPORT_WORDS];
    uint16_t outputs[MIRVACULA_SCAN_WORDS];

    mirvacula_scan(memory, MIRVACULA_MEMORY_WORDS, trace, bytes, BUDGET, report, MIRVACULA_REPORT_WORDS, outputs,
                   MIRVACULA_SCAN_WORDS);
    for (int o = 0; o < MIRVACULA_OUTPUTS; o++)
        printf("output %d: %u, words read %u\n", o, (unsigned)outputs[o], (unsigned)outputs[MIRVACULA_OUTPUTS + o]);
}

/* Runs so many bytes of the trace. */
static int run(size_t bytes)
{
    uint64_t report[MIRVACULA_REPORT_WORDS];
    uint16_t stop = mirvacula_run(memory, MIRVACULA_MEMORY_WORDS, trace, bytes, BUDGET, report, MIRVACULA_REPORT_WORDS,
                                  image, MIRVACULA_IMAGE_WORDS);

    printf("stop %u, next %" PRIu64 ", ticks %" PRIu64 ", records %" PRIu64 ", refused %" PRIu64 "\n", (unsigned)stop,
           report[1], report[2], report[3], report[4]);
    printf("outputs %02x\n", (unsigned)image[OUTPUTS - MIRVACULA_IMAGE_START]);
    scan(bytes);
    return stop == MIRVACULA_END ? 0 : 1;
}

/* Says why the input is refused. */
static int refuse(const char *why)
{
    fprintf(stderr, "%s\n", why);
    return 1;
}

/* The trace has room for every capture that is read, so there are two ways to be refused. */
static int convert_and_run(void)
{
    uint64_t answer[MIRVACULA_ANSWER_WORDS];
    size_t bytes = fread(capture, 1, sizeof capture, stdin);

    if (bytes == sizeof capture && getchar() != EOF)
        return refuse("the capture is longer than the 1,000,000 ticks of a run");
    switch (mirvacula_convert(capture, bytes, trace, sizeof trace, answer, MIRVACULA_ANSWER_WORDS)) {
    case MIRVACULA_DONE:
        return run(answer[0]);
    case MIRVACULA_BAD_LEVEL:
        fprintf(stderr, "frame %" PRIu64 ": a line that does not exist (6)\n", answer[1]);
        return 1;
    default:
        return refuse("the capture is not of whole frames of nine bytes (12)");
    }
}

/* Puts a write record at this place of the trace. Returns where the next record goes. */
static size_t put_write(size_t at, uint16_t address, uint16_t word)
{
    const uint8_t record[] = {0x02, 0, 4, address >> 8, address & 0xff, word >> 8, word & 0xff};

    memcpy(trace + at, record, sizeof record);
    return at + sizeof record;
}

/* Puts the record of one tick with input 0 and gate 0 high. */
static size_t put_pulse(size_t at)
{
    static const uint8_t record[] = {0x01, 0, 11, 0, 1, 0, 0, 0, 0, 0, 0, 1, 0, 1};

    memcpy(trace + at, record, sizeof record);
    return at + sizeof record;
}

/* Counter 0 is put into group 1 and counter 1 into group 2, one after the other. */
static int patch_and_run(uint16_t up, uint16_t down, uint16_t gate)
{
    uint32_t input = mirvacula_input_word(up, down, gate);
    uint32_t first = mirvacula_group_word(0, 0, 1);
    uint32_t groups = mirvacula_group_word(first, 1, 2);
    size_t bytes;

    if (input == MIRVACULA_NO_WORD)
        return refuse("a selection is above 63, or the gate above 15");
    bytes = put_write(0, INPUT, input);
    bytes = put_write(bytes, GROUPS, groups);
    bytes = put_write(bytes, DIRECT, 1);
    bytes = put_write(bytes, OVER, 1);
    printf("input %04x, groups %04x\n", (unsigned)input, (unsigned)groups);
    return run(put_pulse(bytes));
}

/* A number of 16 bits; 65,535, which no field has room for, where the text is none. */
static uint16_t number_in(const char *text)
{
    char *rest;
    unsigned long number = strtoul(text, &rest, 10);

    return rest != text && *rest == '\0' && number < UINT16_MAX ? number : UINT16_MAX;
}

/* Whether a line of the input is one number of 32 bits, and that number. A longer line comes in parts without its end. */
static int is_sample(const char *line, int32_t *sample)
{
    const char *end_of_line = feof(stdin) ? "" : "\n";
    char *rest;
    long long number = strtoll(line, &rest, 10);

    *sample = (int32_t)number;
    return rest != line && strcmp(rest, end_of_line) == 0 && number >= INT32_MIN && number <= INT32_MAX;
}

/* Window and ring are good, so no sample is refused once the start is not. */
static int sum_up(void)
{
    static int64_t ring[WINDOW];
    uint64_t state[MIRVACULA_SUM_STATE_WORDS];
    char line[LINE_BYTES];
    int32_t sample;
    int64_t sum;

    if (mirvacula_sum_start(state, MIRVACULA_SUM_STATE_WORDS, ring, WINDOW, WINDOW) != MIRVACULA_DONE)
        return refuse("the window is not from 1 to 65,536 (14)");
    for (unsigned long lines = 1; fgets(line, sizeof line, stdin) != NULL; lines++) {
        if (!is_sample(line, &sample)) {
            fprintf(stderr, "line %lu: not a whole number of 32 bits\n", lines);
            return 1;
        }
        mirvacula_sum_sample(state, MIRVACULA_SUM_STATE_WORDS, ring, WINDOW, sample, &sum, 1);
        printf("%" PRId64 "\n", sum);
    }
    return 0;
}

int main(int argc, char **argv)
{
    if (argc == 2 && strcmp(argv[1], "capture") == 0)
        return convert_and_run();
    if (argc == 5 && strcmp(argv[1], "patch") == 0)
        return patch_and_run(number_in(argv[2]), number_in(argv[3]), number_in(argv[4]));
    if (argc == 2 && strcmp(argv[1], "sums") == 0)
        return sum_up();
    return run(fread(trace, 1, TRACE_BYTES, stdin));
}
