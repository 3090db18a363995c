/* quoting N JOB < INPUT: an input of `rate`, loaded once and rated N times with the records of the C functions (02, requests 10 and 13). Prints the last
   result, as `rate` does. The job is a class number, 1 to 4, for the two functions of include/motmotdivan.h, with the sheet in all four classes of the
   desk, so that the other three are full; or `c`, the rating of reference.c with the same bytes in and out: 128 of doubles, which have to be whole
   numbers, and 192 of doubles, cleared where the rating is refused.

   Built with -DONE_CLASS it takes an archive from before request 13, whose functions have no class number, and whose desk is 512 bytes. The class number
   is then left out of the calls.

   What the C does not do is find the sheet in the bytes of a desk at each rating: it keeps the sheet as it was loaded, with the sets worked out. */
#define main reference_main
#include "reference.c"
#undef main

#ifdef ONE_CLASS
#define MOTMOTDIVAN_STATE_LENGTH 512
#define MOTMOTDIVAN_RANGES_LENGTH 128
#define MOTMOTDIVAN_RESULT_LENGTH 192
uint64_t motmotdivan_load(uint8_t *state, size_t state_length, const uint8_t *text, size_t text_length);
uint64_t motmotdivan_rate(const uint8_t *state, size_t state_length, const uint8_t *ranges, size_t ranges_length, uint8_t *result,
                          size_t result_length);
#define OF_CLASS(class_number)
#else
#include "motmotdivan.h"
#define OF_CLASS(class_number) class_number,
#endif

#define CLASSES 4
#define WHOLE 9007199254740992.0 /* 2^53: from there on all doubles are whole numbers */

/* 18 before 9, each of all factors; a whole number beyond 2^53 is one beyond the limit */
static uint64_t numbers_of(int factors, const uint8_t *ranges, int64_t *numbers) {
    for (int k = 0; k < 2 * factors; k++) {
        double x;
        memcpy(&x, ranges + 8 * k, sizeof x);
        if (x > -WHOLE && x < WHOLE) {
            numbers[k] = (int64_t)x;
            if ((double)numbers[k] != x) return 18 + 100 * (uint64_t)(k / 2 + 1);
        } else {
            if (!isfinite(x)) return 18 + 100 * (uint64_t)(k / 2 + 1);
            numbers[k] = x < 0 ? -2 * LIMIT : 2 * LIMIT;
        }
    }
    return 0;
}

static void put_range(double *at, Range r) {
    at[0] = (double)r.low;
    at[1] = (double)r.high;
}

static __attribute__((noinline)) uint64_t rate_record(const Sheet *s, const uint8_t *ranges, size_t ranges_length, uint8_t *record,
                                                      size_t record_length, Line *lines) {
    if (record_length != MOTMOTDIVAN_RESULT_LENGTH) return 8;
    int64_t numbers[2 * MOST_FACTORS];
    uint64_t code = ranges_length == MOTMOTDIVAN_RANGES_LENGTH ? numbers_of(s->factors, ranges, numbers) : 8;
    Result result;
    if (!code) {
        Refusal refusal = (s->earlier ? rate_2014 : rate)(s, numbers, 2 * (size_t)s->factors, lines, &result);
        code = (uint64_t)refusal.number + 100 * (uint64_t)refusal.place;
    }
    if (code) {
        memset(record, 0, record_length);
        return code;
    }
    double doubles[24];
    put_range(doubles, result.value);
    for (int a = 0; a < MOST_FACTORS; a++) put_range(doubles + 2 + 2 * a, result.slopes[a]);
    doubles[18] = result.depends;
    doubles[19] = result.bent;
    put_range(doubles + 20, result.bend);
    put_range(doubles + 22, result.full);
    memcpy(record, doubles, sizeof doubles);
    return 0;
}

static Range get_range(const double *at) { return (Range){(int64_t)at[0], (int64_t)at[1]}; }

static void print_record(int factors, const uint8_t *record) {
    double doubles[24];
    Result result;
    memcpy(doubles, record, sizeof doubles);
    result.value = get_range(doubles);
    for (int a = 0; a < MOST_FACTORS; a++) result.slopes[a] = get_range(doubles + 2 + 2 * a);
    result.depends = (uint8_t)doubles[18];
    result.bent = (uint8_t)doubles[19];
    result.bend = get_range(doubles + 20);
    result.full = get_range(doubles + 22);
    print_result(factors, &result);
}

int main(int count, char **arguments) {
    static char input[MOST_INPUT + 1];
    static Sheet sheet;
    static Line lines[MOST_LINES];
    static uint8_t desk[MOTMOTDIVAN_STATE_LENGTH], ranges[MOTMOTDIVAN_RANGES_LENGTH], record[MOTMOTDIVAN_RESULT_LENGTH];
    uint64_t class_number = count == 3 ? strtoul(arguments[2], NULL, 10) : 0; /* 0 for the C */
    if (count != 3 || class_number > CLASSES || (class_number == 0 && strcmp(arguments[2], "c"))) {
        fprintf(stderr, "quoting N CLASS < INPUT, or quoting N c < INPUT\n");
        return 2;
    }
    size_t n = fread(input, 1, sizeof input, stdin);
    Text all = {input, input + n}, text, behind;
    part(all, &text, &behind);
    int64_t numbers[2 * MOST_FACTORS];
    if (load(&sheet, text).number || !behind.at || box(&sheet, behind, numbers).number) {
        fprintf(stderr, "not an input of `rate`\n");
        return 2;
    }
    for (int k = 0; k < 2 * sheet.factors; k++) {
        double x = (double)numbers[k];
        memcpy(ranges + 8 * k, &x, sizeof x);
    }
    uint64_t code = 0;
    for (uint64_t k = 1; class_number && !code && k <= CLASSES; k++)
        code = motmotdivan_load(OF_CLASS(k) desk, sizeof desk, (const uint8_t *)text.at, (size_t)(text.end - text.at));
    for (long times = atol(arguments[1]); !code && times > 0; times--) {
        code = class_number ? motmotdivan_rate(OF_CLASS(class_number) desk, sizeof desk, ranges, sizeof ranges, record, sizeof record)
                            : rate_record(&sheet, ranges, sizeof ranges, record, sizeof record, lines);
        __asm__ volatile("" : : "r"(record) : "memory"); /* each rating is done */
    }
    if (code) printf("refused\t%d\t%d\n", (int)(code % 100), (int)(code / 100));
    else print_record(sheet.factors, record);
    return 0;
}
