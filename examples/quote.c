/* quote SAIL MOTOR DINGHY CHARTER DINGHY: quotes four classes from one desk, then loads the dinghies anew and quotes all four again.

   Each argument is an input of the program `rate`: a sheet, a line `box`, and the ranges of a class. Of each class the low and the high end of the value
   are printed, as `rate` prints them; two refusals follow. README.md, "Use from C and Python", says how it is built. */
#include <stdio.h>
#include <stdlib.h>
#include <string.h>

#include "motmotdivan.h"

enum { CLASSES = 4, DINGHY = 3, ENDS = 16, MOST_INPUT = 8192 };

typedef struct {
    char text[MOST_INPUT + 1];
    size_t sheet_length; /* the sheet is the text as far as the line `box` */
    double ends[ENDS];   /* in units of 1/10,000, low and high of each factor; those past the last factor are ignored */
} Input;

/* Whether a file has a sheet, and ranges behind it. */
static int read_input(Input *input, const char *name) {
    FILE *file = fopen(name, "rb");
    if (file == NULL) return 0;
    input->text[fread(input->text, 1, MOST_INPUT, file)] = '\0';
    fclose(file);
    char *box = strstr(input->text, "\nbox\n");
    if (box == NULL) return 0;
    input->sheet_length = (size_t)(box + 1 - input->text);
    char *at = box + strlen("\nbox\n"), *behind;
    for (int k = 0; k < ENDS; k++, at = behind) input->ends[k] = strtod(at, &behind);
    return 1;
}

/* What a function returned, where it is not 0. */
static void print_refusal(uint64_t code) { printf("refused\t%d\t%d\n", (int)(code % 100), (int)(code / 100)); }

static void load(int number, uint8_t *desk, const Input *input) {
    uint64_t code = motmotdivan_load((uint64_t)number, desk, MOTMOTDIVAN_STATE_LENGTH, (const uint8_t *)input->text, input->sheet_length);
    if (code != 0) print_refusal(code); /* and the class is what it was, as the other three are in any case */
}

/* Rates the ranges of a class by the sheet that is loaded under its number, and prints the ends of the value, or the refusal. */
static void quote(int number, const uint8_t *desk, const Input *input) {
    /* The records are bytes: a double is eight of IEEE 754, the lowest first. So it is in the memory of x86-64, and memcpy does; a machine that has
       the highest byte first would have to turn each double round. */
    uint8_t ranges[MOTMOTDIVAN_RANGES_LENGTH], result[MOTMOTDIVAN_RESULT_LENGTH];
    double limits[24]; /* value, slopes of eight factors, depends, bent, bend, full: docs/STATE.md */
    memcpy(ranges, input->ends, sizeof ranges);
    uint64_t code = motmotdivan_rate((uint64_t)number, desk, MOTMOTDIVAN_STATE_LENGTH, ranges, sizeof ranges, result, sizeof result);
    if (code != 0) {
        print_refusal(code);
        return;
    }
    memcpy(limits, result, sizeof result);
    printf("class\t%d\t%.0f\t%.0f\n", number, limits[0], limits[1]);
}

int main(int count, char **arguments) {
    static Input classes[CLASSES], dearer;
    uint8_t desk[MOTMOTDIVAN_STATE_LENGTH] = {0};
    int good = count == CLASSES + 2 && read_input(&dearer, arguments[CLASSES + 1]);
    for (int number = 1; good && number <= CLASSES; number++) good = read_input(&classes[number - 1], arguments[number]);
    if (!good) {
        fprintf(stderr, "quote SAIL MOTOR DINGHY CHARTER DINGHY: five files with a sheet, a line `box` and ranges each\n");
        return 2;
    }

    for (int number = 1; number <= CLASSES; number++) load(number, desk, &classes[number - 1]);
    for (int number = 1; number <= CLASSES; number++) quote(number, desk, &classes[number - 1]);

    classes[DINGHY - 1] = dearer;
    load(DINGHY, desk, &dearer);
    for (int number = 1; number <= CLASSES; number++) quote(number, desk, &classes[number - 1]);

    /* Half a unit more is no whole number: 18, and the place is the factor. And there is no fifth class: 21. */
    classes[0].ends[0] += 0.5;
    quote(1, desk, &classes[0]);
    quote(5, desk, &classes[0]);
    return 0;
}
