/* fuzz CALLS SEED: calls of the two functions with any class number, on bytes that are random, or good and then damaged, and what has to hold of every
   call:

   - it comes to its end, with a code that is one of its refusals' and a place that this refusal can have;
   - the class number alone decides 21, whatever else is wrong;
   - no byte beside a buffer changes, and none of the desk, text or ranges that it only reads. A buffer may lie against a page that cannot be touched;
   - a refused load leaves the desk as it was, and an accepted one the bytes of the other three classes; after it, rating the class is never refused
     with 10, nor is a class that was loaded before and not touched since;
   - after a refused rating the result is zeros, or as it was where it is of another length; after an accepted one it has whole numbers within the
     limit, low ends that are not above the high ends, sets of factors, and no minus zero;
   - lengths alone decide a load's 10, and a rating's 8 where the class is good; the same bytes give the same answer, and so do the bytes of one class
     with any others in the place of the other three.

   The seed is printed, so that a run can be made again. Ends with 1 where something does not hold, or where a refusal was never met. */
#define _DEFAULT_SOURCE
#include <stdio.h>
#include <stdlib.h>
#include <string.h>
#include <sys/mman.h>
#include <unistd.h>

#include "motmotdivan.h"

enum { CLASSES = 4, SLOT = MOTMOTDIVAN_STATE_LENGTH / CLASSES }; /* the bytes of a class */
enum { MOST_TEXT = 4200, MOST_LENGTH = 2 * MOTMOTDIVAN_STATE_LENGTH, BESIDE = 64, NUMBERS = 22, FACTORS = 8, LINES = 64, TEXT_LINES = 65 };
#define LIMIT 2000000000.0

/* ---- random numbers */

static uint64_t state;

static uint64_t next(void) { /* splitmix64 */
    uint64_t z = state += 0x9e3779b97f4a7c15u;
    z = (z ^ z >> 30) * 0xbf58476d1ce4e5b9u;
    z = (z ^ z >> 27) * 0x94d049bb133111ebu;
    return z ^ z >> 31;
}

static size_t below(size_t count) { return (size_t)(next() % count); }
static int one_in(size_t count) { return below(count) == 0; }

static void randomize(uint8_t *bytes, size_t length) {
    for (size_t k = 0; k < length; k += 8) {
        uint64_t eight = next();
        memcpy(bytes + k, &eight, length - k < 8 ? length - k : 8);
    }
}

/* Mostly one of the four classes; else a number near them, one that comes to them where bits or the sign are left out, or any. */
static uint64_t some_class(void) {
    static const uint64_t large[] = {UINT64_MAX, (uint64_t)1 << 8, (uint64_t)1 << 16, (uint64_t)1 << 32, (uint64_t)1 << 63};
    if (!one_in(8)) return 1 + below(CLASSES);
    switch (below(4)) {
    case 0: return below(7);
    case 1: return large[below(sizeof large / sizeof *large)] + below(CLASSES + 2);
    case 2: return (uint64_t)0 - below(7);
    default: return next();
    }
}

static int known(uint64_t class_number) { return class_number >= 1 && class_number <= CLASSES; }

/* ---- buffers, each in pages of its own between two that nothing may touch */

typedef struct {
    uint8_t *first;          /* of the pages that may be used */
    size_t room;
    uint8_t *bytes;          /* the buffer */
    size_t length;
    uint8_t given[MOST_TEXT]; /* what stood in it before the call */
} Lent;

static long calls_made;

static void fail(const char *what) {
    printf("call %ld: %s\n", calls_made, what);
    exit(1);
}

static void make(Lent *lent) {
    size_t page = (size_t)sysconf(_SC_PAGESIZE), pages = (MOST_TEXT + 2 * BESIDE) / page + 1;
    uint8_t *all = mmap(NULL, (pages + 2) * page, PROT_NONE, MAP_PRIVATE | MAP_ANONYMOUS, -1, 0);
    if (all == MAP_FAILED || mprotect(all + page, pages * page, PROT_READ | PROT_WRITE) != 0) fail("no memory");
    lent->first = all + page;
    lent->room = pages * page;
}

static uint8_t beside(const uint8_t *at) { return (uint8_t)((uintptr_t)at * 167 + 89); }

/* The bytes beside a buffer, as far as there are any: each is set where `set` says so, and else has to be as it was set. */
static void keep_beside(const Lent *lent, int set) {
    uint8_t *end = lent->bytes + lent->length, *last = lent->first + lent->room;
    uint8_t *from = lent->bytes - lent->first > BESIDE ? lent->bytes - BESIDE : lent->first, *to = last - end > BESIDE ? end + BESIDE : last;
    for (uint8_t *at = from; at < to; at++) {
        if (at == lent->bytes) at = end;
        if (at == to) break;
        if (set) *at = beside(at);
        else if (*at != beside(at)) fail("a byte beside a buffer has changed");
    }
}

/* Lends so many bytes, at the start of the pages, at their end, or between. */
static void lend(Lent *lent, const uint8_t *bytes, size_t length) {
    size_t spare = lent->room - length;
    lent->bytes = lent->first + (one_in(3) ? 0 : one_in(2) ? spare : below(spare + 1));
    lent->length = length;
    memcpy(lent->given, bytes, length);
    memcpy(lent->bytes, bytes, length);
    keep_beside(lent, 1);
}

static int unchanged(const Lent *lent) { return memcmp(lent->bytes, lent->given, lent->length) == 0; }

/* ---- sheets, desks and ranges */

static uint8_t good[MOTMOTDIVAN_STATE_LENGTH]; /* the desk that the last accepted load left */
static int loaded[CLASSES];                    /* which of its classes an accepted load has left so */
static uint64_t last = 1;                      /* the class of that load */

static long constant(void) {
    static const long edges[] = {0, 1, -1, 10000, -10000, 2000000000, -2000000000, 2000000001, -2000000001};
    if (one_in(8)) return edges[below(sizeof edges / sizeof *edges)];
    long most = 10;
    for (size_t digits = below(7); digits > 0; digits--) most *= 10;
    return (long)below((size_t)(2 * most + 1)) - most;
}

/* A sheet that loads, but for its constants now and then. */
static size_t write_sheet(char *text) {
    static const char *const two[] = {"add", "mul"}, *const constants[] = {"addc", "mulc"};
    int factors = 1 + (int)below(FACTORS), lines = one_in(10) ? LINES + (int)below(3) : factors + 1 + (int)below(9), at = 0;
    at += sprintf(text, one_in(3) ? "factors\t%d\t2014\n" : "factors\t%d\n", factors);
    for (int line = factors; line < lines; line++) {
        int i = 1 + (int)below((size_t)line), j = 1 + (int)below((size_t)line);
        switch (below(5)) {
        case 0: at += sprintf(text + at, "%s\t%d\t%d\n", two[below(2)], i, j); break;
        case 1: case 2: at += sprintf(text + at, "%s\t%d\t%ld\n", constants[below(2)], i, constant()); break;
        case 3: at += sprintf(text + at, "pow\t%d\t%d\n", i, 2 + (int)below(one_in(3) ? 8 : 2)); break;
        default: at += sprintf(text + at, "inv\t%d\n", i);
        }
    }
    return (size_t)at;
}

/* Bytes changed, put in or taken out. */
static size_t damage_text(uint8_t *text, size_t length) {
    static const char likely[] = "\t\n\r -0123456789abcdfimnoprtuvx";
    for (size_t times = 1 + below(3); times > 0; times--) {
        size_t at = below(length + 1);
        uint8_t byte = one_in(4) ? (uint8_t)next() : (uint8_t)likely[below(sizeof likely - 1)];
        switch (below(4)) {
        case 0: case 1: if (at < length) text[at] = byte; break;
        case 2:
            if (at < length) memmove(text + at, text + at + 1, --length - at);
            break;
        default:
            if (length < MOST_TEXT) memmove(text + at + 1, text + at, length++ - at), text[at] = byte;
        }
    }
    return one_in(8) ? below(length + 1) : length;
}

static size_t write_text(uint8_t *text) {
    char sheet[MOST_TEXT];
    size_t length;
    switch (below(8)) {
    case 0: randomize(text, length = below(one_in(8) ? MOST_TEXT + 1 : 100)); return length;
    case 1: /* fields of a sheet in any order */
        for (length = 0; length < 60 && !one_in(12);) {
            static const char *const words[] = {"factors", "add", "mul", "addc", "mulc", "pow", "inv", "\t", "\t", "\t", "\n", "\n", "1", "2", "9",
                                                "2014", "2015"};
            const char *word = words[below(sizeof words / sizeof *words)];
            memcpy(text + length, word, strlen(word));
            length += strlen(word);
        }
        return length;
    default: length = write_sheet(sheet);
    }
    memcpy(text, sheet, length);
    if (one_in(3)) length = damage_text(text, length);
    if (one_in(40)) { /* around the most bytes of a sheet */
        size_t more = 4090 + below(12);
        while (length < more) text[length] = text[length % 16], length++;
    }
    return length;
}

static size_t some_length(size_t right) {
    static const size_t edges[] = {0, 1, 8, 127, 128, 129, 191, 192, 193, 511, 512, 513, 1024, 1536, 2047, 2048, 2049, 4096};
    if (!one_in(12)) return right;
    return one_in(2) ? edges[below(sizeof edges / sizeof *edges)] : below(MOST_LENGTH + 1);
}

static void write_double(uint8_t *at, double x) { memcpy(at, &x, sizeof x); }

/* Doubles in pairs: mostly ranges of whole numbers, else other doubles, or any bytes. */
static void write_ranges(uint8_t *ranges) {
    static const double others[] = {0.5, -0.5, 1e300, -1e300, 5e-324, 2000000001, -2000000001, 18446744073709551616.0, 9223372036854775808.0, -0.0};
    for (size_t at = 0; at < MOTMOTDIVAN_RANGES_LENGTH; at += 16) {
        double low = (double)constant(), width = (double)below(one_in(2) ? 10 : 100000);
        write_double(ranges + at, low);
        write_double(ranges + at + 8, one_in(20) ? low - width : low + width);
        if (one_in(12)) write_double(ranges + at + 8 * below(2), others[below(sizeof others / sizeof *others)]);
        if (one_in(16)) {
            uint8_t *one = ranges + at + 8 * below(2);
            randomize(one, 8);
            if (one_in(2)) one[7] |= 0x7f, one[6] |= 0xf0; /* an infinity or a NaN */
        }
    }
}

/* ---- the calls, and what has to hold of them */

static long met[2][NUMBERS]; /* loads and ratings, by the refusal's number */

static void count(int rating, uint64_t code) {
    uint64_t number = code % 100, place = code / 100, least = 0, most = 0;
    calls_made++;
    if (number >= NUMBERS) fail("no such refusal");
    met[rating][number]++;
    if (rating) {
        switch (number) {
        case 0: case 8: case 10: case 21: break;
        case 9: case 18: least = 1, most = FACTORS; break;
        case 11: case 12: least = 2, most = LINES; break;
        default: fail("a refusal that is not a rating's");
        }
    } else {
        switch (number) {
        case 0: case 1: case 10: case 21: break;
        case 3: case 17: least = most = 1; break;
        case 2: case 4: least = 1, most = TEXT_LINES; break;
        case 5: case 6: case 7: case 15: least = 2, most = LINES; break;
        default: fail("a refusal that is not a load's");
        }
    }
    if (place < least || place > most) fail("a place that this refusal cannot have");
}

static int zeros(const uint8_t *bytes, size_t length) {
    for (size_t k = 0; k < length; k++)
        if (bytes[k]) return 0;
    return 1;
}

static void check_result(const uint8_t *result) {
    static const uint8_t minus_zero[8] = {0, 0, 0, 0, 0, 0, 0, 0x80};
    double x[24];
    memcpy(x, result, sizeof x);
    for (int k = 0; k < 24; k++) {
        if (!(x[k] >= -LIMIT && x[k] <= LIMIT) || x[k] != (double)(long)x[k]) fail("a result with something that is no whole number within the limit");
        if (memcmp(result + 8 * k, minus_zero, 8) == 0) fail("a result with a minus zero");
        if (k % 2 == 0 && k != 18 && x[k] > x[k + 1]) fail("a low end above the high end");
        if ((k == 18 || k == 19) && (x[k] < 0 || x[k] > 255)) fail("a set of other factors");
    }
}

static Lent desk, text, ranges, result;

static uint64_t rate(uint64_t class_number) {
    return motmotdivan_rate(class_number, desk.bytes, desk.length, ranges.bytes, ranges.length, result.bytes, result.length);
}

/* The bytes of a class in a desk of the right length. */
static uint8_t *slot(uint8_t *bytes, uint64_t class_number) { return bytes + SLOT * (class_number - 1); }

/* Whether the desk has the bytes that it was given, but for those of one class. */
static int others_unchanged(uint64_t class_number) {
    for (uint64_t k = 1; k <= CLASSES; k++)
        if (k != class_number && memcmp(slot(desk.bytes, k), slot(desk.given, k), SLOT) != 0) return 0;
    return 1;
}

/* The last rating once more: with the same bytes, and where the class is known with others in the place of the other three classes. */
static void rate_again(uint64_t class_number, uint64_t code) {
    uint8_t once[MOST_LENGTH];
    memcpy(once, result.bytes, result.length);
    if (rate(class_number) != code || memcmp(once, result.bytes, result.length) != 0) fail("the same rating comes to something else");
    calls_made++;
    if (!known(class_number) || desk.length != MOTMOTDIVAN_STATE_LENGTH) return;
    for (uint64_t k = 1; k <= CLASSES; k++) {
        if (k == class_number) continue;
        if (one_in(2)) randomize(slot(desk.bytes, k), SLOT);
        else memset(slot(desk.bytes, k), 0, SLOT);
    }
    if (rate(class_number) != code || memcmp(once, result.bytes, result.length) != 0) fail("a rating depends on the bytes of another class");
    calls_made++;
}

/* A rating by the lent desk; `whole` where an accepted load has left the class's bytes as they are. */
static void call_rate(uint64_t class_number, int whole) {
    uint8_t bytes[MOST_LENGTH] = {0};
    size_t length = some_length(MOTMOTDIVAN_RANGES_LENGTH);
    randomize(bytes, length);
    if (length >= MOTMOTDIVAN_RANGES_LENGTH && !one_in(16)) write_ranges(bytes);
    lend(&ranges, bytes, length);
    length = some_length(MOTMOTDIVAN_RESULT_LENGTH);
    randomize(bytes, length);
    lend(&result, bytes, length);
    uint64_t code = rate(class_number);
    count(1, code);
    keep_beside(&desk, 0);
    keep_beside(&ranges, 0);
    keep_beside(&result, 0);
    if (!unchanged(&desk)) fail("a rating has changed the desk");
    if (!unchanged(&ranges)) fail("a rating has changed the ranges");
    int fits = ranges.length == MOTMOTDIVAN_RANGES_LENGTH && result.length == MOTMOTDIVAN_RESULT_LENGTH;
    if (known(class_number) == (code == 21)) fail("21 of a class, or a rating of no class that is not refused with 21");
    if (known(class_number) && desk.length != MOTMOTDIVAN_STATE_LENGTH && code != 10) fail("a desk of another length, and not 10");
    if (whole && code == 10) fail("10 of a class that was loaded");
    if (code != 10 && code != 21 && fits != (code != 8)) fail("8 where the lengths fit, or not 8 where they do not");
    if (result.length != MOTMOTDIVAN_RESULT_LENGTH) {
        if (!unchanged(&result)) fail("a result of another length has changed");
    } else if (code != 0) {
        if (!zeros(result.bytes, result.length)) fail("no zeros behind a refusal");
    } else {
        check_result(result.bytes);
    }
    if (one_in(16)) rate_again(class_number, code);
}

/* A load into a desk of zeros, of any bytes, or the last good one, and a rating behind it: of the class, or of any that is loaded. */
static void call_load(void) {
    uint8_t bytes[MOST_TEXT];
    size_t length = some_length(MOTMOTDIVAN_STATE_LENGTH);
    int kind = (int)below(8);
    if (kind < 2) memset(bytes, 0, length);
    else randomize(bytes, length);
    if (kind >= 3) memcpy(bytes, good, length < sizeof good ? length : sizeof good);
    lend(&desk, bytes, length);
    length = write_text(bytes);
    lend(&text, bytes, length);
    uint64_t class_number = some_class(), code = motmotdivan_load(class_number, desk.bytes, desk.length, text.bytes, text.length);
    count(0, code);
    keep_beside(&desk, 0);
    keep_beside(&text, 0);
    if (!unchanged(&text)) fail("a load has changed the text");
    if (known(class_number) == (code == 21)) fail("21 of a class, or a load of no class that is not refused with 21");
    if (known(class_number) && (desk.length != MOTMOTDIVAN_STATE_LENGTH) != (code == 10)) fail("10 of a load, and not by the desk's length alone");
    if (code != 0) {
        if (!unchanged(&desk)) fail("a refused load has changed the desk");
        return;
    }
    if (!others_unchanged(class_number)) fail("a load has changed the bytes of another class");
    if (kind < 3) memset(loaded, 0, sizeof loaded);
    loaded[class_number - 1] = 1;
    last = class_number;
    memcpy(good, desk.bytes, sizeof good);
    memcpy(desk.given, good, sizeof good);
    uint64_t rated = one_in(4) ? 1 + below(CLASSES) : class_number;
    call_rate(rated, loaded[rated - 1]);
}

/* A rating by the last good desk, by that with some bytes changed, or by others. */
static void call_rate_by_any(void) {
    uint8_t bytes[MOST_LENGTH] = {0};
    uint64_t class_number = some_class();
    if (known(class_number) && !loaded[class_number - 1] && !one_in(4)) class_number = last;
    uint64_t changed = one_in(2) || !known(class_number) ? 1 + below(CLASSES) : class_number;
    size_t length = some_length(MOTMOTDIVAN_STATE_LENGTH);
    int kind = (int)below(8), whole = known(class_number) && length == sizeof good && loaded[class_number - 1];
    if (kind == 0) randomize(bytes, length);
    if (kind >= 2) memcpy(bytes, good, length < sizeof good ? length : sizeof good);
    if (kind >= 4)
        for (size_t times = 1 + below(3); times > 0; times--) {
            size_t used = 8 + 8 * (size_t)slot(good, changed)[1], at = SLOT * (changed - 1) + below(one_in(4) || used > SLOT ? SLOT : used);
            if (at < length) bytes[at] = one_in(2) ? (uint8_t)next() : (uint8_t)(bytes[at] ^ 1u << below(8));
        }
    lend(&desk, bytes, length);
    call_rate(class_number, whole && (kind == 2 || kind == 3 || (kind >= 4 && changed != class_number)));
}

int main(int argument_count, char **arguments) {
    long calls = argument_count > 1 ? atol(arguments[1]) : 1000000, seed = argument_count > 2 ? atol(arguments[2]) : 1;
    Lent *const all[] = {&desk, &text, &ranges, &result};
    static const int numbers[2][NUMBERS] = {{0, 1, 2, 3, 4, 5, 6, 7, 10, 15, 17, 21, -1}, {0, 8, 9, 10, 11, 12, 18, 21, -1}};
    state = (uint64_t)seed;
    printf("fuzz: seed %ld\n", seed);
    fflush(stdout);
    for (int k = 0; k < 4; k++) make(all[k]);
    while (calls_made < calls) {
        if (one_in(3)) call_load();
        else call_rate_by_any();
    }
    int missed = 0;
    for (int rating = 0; rating < 2; rating++)
        for (const int *number = numbers[rating]; *number >= 0; number++) {
            printf("%9ld  fuzz: %s, %d\n", met[rating][*number], rating ? "rate" : "load", *number);
            missed += met[rating][*number] == 0;
        }
    printf("%9ld  fuzz: calls\n", calls_made);
    if (missed) printf("fuzz: %d refusals never met\n", missed);
    return missed != 0;
}
