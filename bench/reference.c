/* The rules of paper 01, with requests 2, 4, 5 and 9 of 02, in plain C, unverified and written for speed: what the proved engine is timed against.
   reference < INPUT prints what `rate` prints; reference N < INPUT loads once, rates N times and prints the last result.

   Ends of ranges are within 2,000,000,000 units, so a product of two fits 64 bits; only a sum of squares and the product under Cross's root may
   need more.
   The two sets of a line do not depend on the ranges: loading works them out, and so which `mul` is one of request 4; slopes outside
   depends-on sets stay 0. A sheet of 2014 has functions of its own: its slopes are those of 2016, and its bends the plain formulas over all n factors,
   for which no set is looked at. */
#include <math.h>
#include <stdint.h>
#include <stdio.h>
#include <stdlib.h>
#include <string.h>

#define LIMIT 2000000000LL
#define PAIR_LIMIT 1000000000LL /* of A, B and C in request 4 */
#define UNIT 10000LL
#define MOST_FACTORS 8
#define MOST_LINES 64
#define MOST_SHEET 4096
#define MOST_INPUT 8192

typedef struct { int64_t low, high; } Range;
typedef struct { Range value, bend, slopes[MOST_FACTORS]; } Line;
typedef enum { ADD, MUL, ADDC, MULC, POW, INV, PAIR } Name; /* PAIR: a `mul` of two single-factor lines, at least one bent */
typedef struct { Name name; int i, j; int64_t number; } Operation; /* number: constant or exponent; lines counted from 0 */
typedef struct {
    int factors, lines, earlier; /* earlier: of 2014 */
    Operation operations[MOST_LINES]; /* by line; those of the factors are not used */
    uint8_t depends[MOST_LINES], bent[MOST_LINES];
} Sheet;
typedef struct { int number, place; } Refusal;

/* ---- range arithmetic; a step that passes the limit leaves its line with 12 */

static inline int passes(Range r) { return r.low < -LIMIT || r.high > LIMIT; }
#define STEP(name, formula) Range name = (formula); if (passes(name)) return 12

static inline int64_t down(int64_t x) { return x / UNIT - (x % UNIT < 0); }
static inline int64_t up(int64_t x) { return x / UNIT + (x % UNIT > 0); }
static inline int64_t lesser(int64_t x, int64_t y) { return x < y ? x : y; }
static inline int64_t greater(int64_t x, int64_t y) { return x > y ? x : y; }
static inline int64_t half_down(int64_t x) { return x >> 1; } /* of a negative number, too: the shift keeps the sign */

static inline Range sum(Range a, Range b) { return (Range){a.low + b.low, a.high + b.high}; }
static inline Range negation(Range a) { return (Range){-a.high, -a.low}; }
static inline Range multiple(int64_t k, Range a) { return (Range){k * a.low, k * a.high}; }
static inline Range hull(Range a, Range b) { return (Range){lesser(a.low, b.low), greater(a.high, b.high)}; }
static inline int64_t magnitude(Range a) { return greater(-a.low, a.high); }

/* by signs, so that two of the four end products do where one range has one sign */
static inline Range product(Range a, Range b) {
    int64_t low, high;
    if (a.low >= 0) {
        low = (b.low >= 0 ? a.low : a.high) * b.low;
        high = (b.high >= 0 ? a.high : a.low) * b.high;
    } else if (a.high <= 0) {
        low = (b.high >= 0 ? a.low : a.high) * b.high;
        high = (b.low >= 0 ? a.high : a.low) * b.low;
    } else if (b.low >= 0) {
        low = a.low * b.high;
        high = a.high * b.high;
    } else if (b.high <= 0) {
        low = a.high * b.low;
        high = a.low * b.low;
    } else {
        low = lesser(a.low * b.high, a.high * b.low);
        high = greater(a.low * b.low, a.high * b.high);
    }
    return (Range){down(low), up(high)};
}

static inline Range constant_product(int64_t c, Range a) {
    return c >= 0 ? (Range){down(c * a.low), up(c * a.high)} : (Range){down(c * a.high), up(c * a.low)};
}

/* of a range without 0; an end is at most 100,000,000 */
static inline Range inverse(Range a) {
    int64_t square = UNIT * UNIT, low = square / a.high, high = square / a.low;
    if (a.low > 0) high += high * a.low != square;
    else low -= low * a.high != square;
    return (Range){low, high};
}

/* A power past the limit is given back at once, as the next step could pass 64 bits; the upper end then passes the limit, too. */
static inline int64_t power_down(int64_t x, int e) {
    int64_t power = x;
    while (--e && power <= LIMIT) power = power * x / UNIT;
    return power;
}

static inline int64_t power_up(int64_t x, int e) {
    int64_t power = x;
    while (--e && power <= LIMIT) power = (power * x + (UNIT - 1)) / UNIT;
    return power;
}

static inline Range power(Range a, int e) {
    if (e == 0) return (Range){UNIT, UNIT};
    if (a.low >= 0) return (Range){power_down(a.low, e), power_up(a.high, e)};
    int even = e % 2 == 0;
    if (a.high <= 0) {
        int64_t least = power_down(-a.high, e), most = power_up(-a.low, e);
        return even ? (Range){least, most} : (Range){-most, -least};
    }
    if (even) return (Range){0, power_up(magnitude(a), e)};
    return (Range){-power_up(-a.low, e), power_up(a.high, e)};
}

/* ---- sets and bends */

#define EACH(a, set) for (unsigned rest_ = (set), a; rest_ && (a = (unsigned)__builtin_ctz(rest_), 1); rest_ &= rest_ - 1)
static inline int single(unsigned set) { return (set & (set - 1)) == 0; } /* of a set that is not empty */

static inline Range lift(Range bend, unsigned bent, unsigned larger) {
    return bent == larger ? bend : hull(bend, (Range){0, 0});
}

static inline Range join(Range a, unsigned a_bent, Range b, unsigned b_bent) {
    if (a_bent && b_bent && !(a_bent & b_bent)) return hull(a, b);
    unsigned both = a_bent | b_bent;
    return sum(lift(a, a_bent, both), lift(b, b_bent, both));
}

/* the exact sum, divided and rounded up once; slopes have to be near the limit for it to pass 64 bits, where a division is slow */
static inline int64_t squares(const Range *slopes, unsigned over) {
    unsigned __int128 total = UNIT - 1;
    EACH(a, over) {
        int64_t most = magnitude(slopes[a]);
        total += (unsigned __int128)(most * most);
    }
    return total >> 64 ? (int64_t)(total / UNIT) : (int64_t)((uint64_t)total / UNIT);
}

static inline Range square_sum(const Range *slopes, unsigned over) {
    if (single(over)) return power(slopes[__builtin_ctz(over)], 2);
    return (Range){0, squares(slopes, over)};
}

/* The square root rounded up, of at most 8,000,000,000,000,000,000. Past 2^53 the double is rounded; its root is less than one off even so. */
static inline int64_t root_up(uint64_t x) {
    uint64_t root = (uint64_t)sqrt((double)x);
    while (root * root > x) root--;
    while (root * root < x) root++;
    return (int64_t)root;
}

/* over the union of the two depends-on sets; products are 0 outside the shared part, squares outside their own */
static inline int cross(Range *out, const Range *g, unsigned g_depends, const Range *h, unsigned h_depends) {
    unsigned over = g_depends | h_depends;
    if (single(over)) {
        unsigned a = (unsigned)__builtin_ctz(over);
        STEP(once, product(g[a], h[a]));
        *out = multiple(2, once);
        return passes(*out) ? 12 : 0;
    }
    unsigned __int128 both = (unsigned __int128)squares(g, g_depends) * (unsigned __int128)squares(h, h_depends);
    if (both > (unsigned __int128)LIMIT * LIMIT) return 12;
    int64_t beta = root_up((uint64_t)both);
    Range total = {-beta, beta};
    EACH(a, g_depends & h_depends) total = sum(total, product(g[a], h[a]));
    *out = total;
    return passes(total) ? 12 : 0;
}

/* ---- the lines: 0, or 11 or 12 */

static inline int add_line(Line *z, const Line *x, unsigned px, unsigned bx, const Line *y, unsigned py, unsigned by) {
    STEP(value, sum(x->value, y->value));
    z->value = value;
    EACH(a, px | py) {
        STEP(slope, sum(x->slopes[a], y->slopes[a]));
        z->slopes[a] = slope;
    }
    STEP(bend, join(x->bend, bx, y->bend, by));
    z->bend = bend;
    return 0;
}

static inline int addc_line(Line *z, const Line *x, int64_t c) {
    *z = *x;
    z->value = sum(x->value, (Range){c, c});
    return passes(z->value) ? 12 : 0;
}

static inline int mulc_line(Line *z, const Line *x, unsigned px, int64_t c) {
    STEP(value, constant_product(c, x->value));
    z->value = value;
    EACH(a, px) {
        STEP(slope, constant_product(c, x->slopes[a]));
        z->slopes[a] = slope;
    }
    STEP(bend, constant_product(c, x->bend));
    z->bend = bend;
    return 0;
}

/* Half of a + b - R and of a + b + R', R of the low ends and R' of the high ends, of request 4: a and b are A and B, most is M. Under a root is at
   most 8 times the square of PAIR_LIMIT; the bend is within LIMIT. */
static inline Range eigenvalues(Range a, Range b, int64_t most) {
    int64_t low = a.low - b.low, high = a.high - b.high, crossed = 4 * most * most;
    return (Range){half_down(a.low + b.low - root_up((uint64_t)(low * low + crossed))),
                   half_down(a.high + b.high + root_up((uint64_t)(high * high + crossed)) + 1)};
}

/* The bend of a `mul` of request 4. C's largest magnitude is the product of the slopes' largest, rounded up. */
static inline int pair_bend(Range *bend, const Line *x, unsigned px, const Line *y, unsigned py) {
    Range left = product(y->value, x->bend), right = product(x->value, y->bend);
    int64_t most = up(magnitude(x->slopes[__builtin_ctz(px)]) * magnitude(y->slopes[__builtin_ctz(py)]));
    if (greater(greater(magnitude(left), magnitude(right)), most) > PAIR_LIMIT) return 12;
    *bend = eigenvalues(left, right, most);
    return 0;
}

static inline int mul_line(Line *z, const Line *x, unsigned px, unsigned bx, const Line *y, unsigned py, unsigned by, int pair) {
    STEP(value, product(x->value, y->value));
    z->value = value;
    EACH(a, px & ~py) {
        STEP(slope, product(y->value, x->slopes[a]));
        z->slopes[a] = slope;
    }
    EACH(a, py & ~px) {
        STEP(slope, product(x->value, y->slopes[a]));
        z->slopes[a] = slope;
    }
    EACH(a, px & py) {
        STEP(left, product(x->value, y->slopes[a]));
        STEP(right, product(y->value, x->slopes[a]));
        STEP(slope, sum(left, right));
        z->slopes[a] = slope;
    }
    if (pair) return pair_bend(&z->bend, x, px, y, py);
    Range crossed;
    if (cross(&crossed, x->slopes, px, y->slopes, py)) return 12;
    Range joined = {0, 0};
    if (bx | by) {
        STEP(left, product(y->value, x->bend));
        STEP(right, product(x->value, y->bend));
        joined = join(left, bx, right, by);
        if (passes(joined)) return 12;
        joined = lift(joined, bx | by, px | py);
    }
    STEP(bend, sum(crossed, joined));
    z->bend = bend;
    return 0;
}

static inline int pow_line(Line *z, const Line *x, unsigned px, unsigned bx, int m) {
    STEP(value, power(x->value, m));
    STEP(outer, power(x->value, m - 1));
    STEP(second, power(x->value, m - 2));
    z->value = value;
    EACH(a, px) {
        STEP(once, product(outer, x->slopes[a]));
        STEP(slope, multiple(m, once));
        z->slopes[a] = slope;
    }
    STEP(square, square_sum(x->slopes, px));
    STEP(squared, multiple(m - 1, square));
    STEP(curved, product(x->value, lift(x->bend, bx, px)));
    STEP(inner, sum(squared, curved));
    STEP(once, product(second, inner));
    STEP(bend, multiple(m, once));
    z->bend = bend;
    return 0;
}

static inline int inv_line(Line *z, const Line *x, unsigned px, unsigned bx) {
    if (x->value.low <= 0 && 0 <= x->value.high) return 11;
    Range value = inverse(x->value);
    STEP(square, power(value, 2));
    z->value = value;
    EACH(a, px) {
        STEP(slope, negation(product(square, x->slopes[a])));
        z->slopes[a] = slope;
    }
    STEP(squared, square_sum(x->slopes, px));
    STEP(once, product(value, squared));
    STEP(twice, multiple(2, once));
    STEP(inner, sum(twice, negation(lift(x->bend, bx, px))));
    STEP(bend, product(square, inner));
    z->bend = bend;
    return 0;
}

/* ---- the lines of 2014: source document 001, Table 2, with (23) and (24); `addc` and `mulc` have no rule of their own */

#define EVERY(a, n) for (int a = 0; a < (n); a++)

static inline int64_t squares_2014(const Range *slopes, int n) {
    unsigned __int128 total = UNIT - 1;
    EVERY(a, n) {
        int64_t most = magnitude(slopes[a]);
        total += (unsigned __int128)(most * most);
    }
    return total >> 64 ? (int64_t)(total / UNIT) : (int64_t)((uint64_t)total / UNIT);
}

static inline Range lambda_s(const Range *slopes, int n) {
    return n == 1 ? power(slopes[0], 2) : (Range){0, squares_2014(slopes, n)};
}

static inline int lambda_t(Range *out, const Range *g, const Range *h, int n) {
    if (n == 1) {
        STEP(once, product(g[0], h[0]));
        *out = multiple(2, once);
        return passes(*out) ? 12 : 0;
    }
    unsigned __int128 both = (unsigned __int128)squares_2014(g, n) * (unsigned __int128)squares_2014(h, n);
    if (both > (unsigned __int128)LIMIT * LIMIT) return 12;
    int64_t beta = root_up((uint64_t)both);
    Range total = {-beta, beta};
    EVERY(a, n) total = sum(total, product(g[a], h[a]));
    *out = total;
    return passes(total) ? 12 : 0;
}

static inline int add_2014(Line *z, const Line *x, unsigned px, const Line *y, unsigned py) {
    STEP(value, sum(x->value, y->value));
    z->value = value;
    EACH(a, px | py) {
        STEP(slope, sum(x->slopes[a], y->slopes[a]));
        z->slopes[a] = slope;
    }
    STEP(bend, sum(x->bend, y->bend));
    z->bend = bend;
    return 0;
}

static inline int mul_2014(Line *z, const Line *x, unsigned px, const Line *y, unsigned py, int n) {
    STEP(value, product(x->value, y->value));
    z->value = value;
    EACH(a, px & ~py) {
        STEP(slope, product(y->value, x->slopes[a]));
        z->slopes[a] = slope;
    }
    EACH(a, py & ~px) {
        STEP(slope, product(x->value, y->slopes[a]));
        z->slopes[a] = slope;
    }
    EACH(a, px & py) {
        STEP(left, product(x->value, y->slopes[a]));
        STEP(right, product(y->value, x->slopes[a]));
        STEP(slope, sum(left, right));
        z->slopes[a] = slope;
    }
    Range crossed;
    if (lambda_t(&crossed, x->slopes, y->slopes, n)) return 12;
    STEP(left, product(y->value, x->bend));
    STEP(right, product(x->value, y->bend));
    STEP(scaled, sum(left, right));
    STEP(bend, sum(crossed, scaled));
    z->bend = bend;
    return 0;
}

static inline int pow_2014(Line *z, const Line *x, unsigned px, int m, int n) {
    STEP(value, power(x->value, m));
    STEP(outer, power(x->value, m - 1));
    STEP(second, power(x->value, m - 2));
    z->value = value;
    EACH(a, px) {
        STEP(once, product(outer, x->slopes[a]));
        STEP(slope, multiple(m, once));
        z->slopes[a] = slope;
    }
    STEP(square, lambda_s(x->slopes, n));
    STEP(squared, multiple(m - 1, square));
    STEP(curved, product(x->value, x->bend));
    STEP(inner, sum(squared, curved));
    STEP(once, product(second, inner));
    STEP(bend, multiple(m, once));
    z->bend = bend;
    return 0;
}

static inline int inv_2014(Line *z, const Line *x, unsigned px, int n) {
    if (x->value.low <= 0 && 0 <= x->value.high) return 11;
    Range value = inverse(x->value);
    STEP(square, power(value, 2));
    z->value = value;
    EACH(a, px) {
        STEP(slope, negation(product(square, x->slopes[a])));
        z->slopes[a] = slope;
    }
    STEP(squared, lambda_s(x->slopes, n));
    STEP(once, product(value, squared));
    STEP(twice, multiple(2, once));
    STEP(inner, sum(twice, negation(x->bend)));
    STEP(bend, product(square, inner));
    z->bend = bend;
    return 0;
}

/* ---- ratings */

typedef struct { Range value, slopes[MOST_FACTORS], bend, full; uint8_t depends, bent; } Result;

/* What is timed: a whole rating, from two numbers per factor to the result. Slopes outside a depends-on set are not written: the caller has
   them 0. */
static __attribute__((noinline)) Refusal rate(const Sheet *s, const int64_t *numbers, size_t count, Line *lines, Result *result) {
    const uint8_t *p = s->depends, *b = s->bent;
    memset(result, 0, sizeof *result);
    if (count != 2 * (size_t)s->factors) return (Refusal){8, 0};
    for (int a = 0; a < s->factors; a++) {
        Range r = {numbers[2 * a], numbers[2 * a + 1]};
        if (r.low > r.high || passes(r)) return (Refusal){9, a + 1};
        lines[a].value = r;
        lines[a].slopes[a] = (Range){UNIT, UNIT};
    }
    for (int k = s->factors; k < s->lines; k++) {
        const Operation *o = &s->operations[k];
        int i = o->i, j = o->j, refused = 0;
        Line *z = &lines[k];
        switch (o->name) {
        case ADD: refused = add_line(z, &lines[i], p[i], b[i], &lines[j], p[j], b[j]); break;
        case MUL: refused = mul_line(z, &lines[i], p[i], b[i], &lines[j], p[j], b[j], 0); break;
        case PAIR: refused = mul_line(z, &lines[i], p[i], b[i], &lines[j], p[j], b[j], 1); break;
        case ADDC: refused = addc_line(z, &lines[i], o->number); break;
        case MULC: refused = mulc_line(z, &lines[i], p[i], o->number); break;
        case POW: refused = pow_line(z, &lines[i], p[i], b[i], (int)o->number); break;
        case INV: refused = inv_line(z, &lines[i], p[i], b[i]); break;
        }
        if (refused) return (Refusal){refused, k + 1};
    }
    const Line *last = &lines[s->lines - 1];
    unsigned bent = s->bent[s->lines - 1];
    result->value = last->value;
    memcpy(result->slopes, last->slopes, sizeof result->slopes);
    result->depends = s->depends[s->lines - 1];
    result->bent = (uint8_t)bent;
    result->bend = last->bend;
    result->full = lift(last->bend, bent, (1u << s->factors) - 1);
    return (Refusal){0, 0};
}

/* the same of a sheet of 2014 */
static __attribute__((noinline)) Refusal rate_2014(const Sheet *s, const int64_t *numbers, size_t count, Line *lines, Result *result) {
    const uint8_t *p = s->depends;
    int n = s->factors;
    memset(result, 0, sizeof *result);
    if (count != 2 * (size_t)n) return (Refusal){8, 0};
    for (int a = 0; a < n; a++) {
        Range r = {numbers[2 * a], numbers[2 * a + 1]};
        if (r.low > r.high || passes(r)) return (Refusal){9, a + 1};
        lines[a].value = r;
        lines[a].slopes[a] = (Range){UNIT, UNIT};
    }
    for (int k = n; k < s->lines; k++) {
        const Operation *o = &s->operations[k];
        int i = o->i, j = o->j, refused = 0;
        Line *z = &lines[k];
        switch (o->name) {
        case ADD: refused = add_2014(z, &lines[i], p[i], &lines[j], p[j]); break;
        case MUL: case PAIR: /* in 2014 a product as any other */ refused = mul_2014(z, &lines[i], p[i], &lines[j], p[j], n); break;
        case ADDC: refused = addc_line(z, &lines[i], o->number); break;
        case MULC: refused = mulc_line(z, &lines[i], p[i], o->number); break;
        case POW: refused = pow_2014(z, &lines[i], p[i], (int)o->number, n); break;
        case INV: refused = inv_2014(z, &lines[i], p[i], n); break;
        }
        if (refused) return (Refusal){refused, k + 1};
    }
    const Line *last = &lines[s->lines - 1];
    result->value = last->value;
    memcpy(result->slopes, last->slopes, sizeof result->slopes);
    result->depends = s->depends[s->lines - 1];
    result->bent = (uint8_t)((1u << n) - 1);
    result->bend = result->full = last->bend;
    return (Refusal){0, 0};
}

/* ---- reading: each reader moves the text on and says whether it found its form */

typedef struct { const char *at, *end; } Text;

static int word(Text *t, const char *w) {
    size_t n = strlen(w);
    if ((size_t)(t->end - t->at) < n || memcmp(t->at, w, n)) return 0;
    t->at += n;
    return 1;
}

static int numeral(Text *t, int64_t *out) {
    int minus = word(t, "-"), digits = 0;
    int64_t x = 0;
    const char *first = t->at;
    for (; t->at < t->end && *t->at >= '0' && *t->at <= '9'; t->at++, digits++)
        if (digits < 10) x = 10 * x + (*t->at - '0');
    if (digits < 1 || digits > 10 || (*first == '0' && (digits > 1 || minus))) return 0;
    *out = minus ? -x : x;
    return 1;
}

static int field(Text *t, int64_t *out) { return word(t, "\t") && numeral(t, out); }

/* is a `mul` of these lines one of request 4? */
static int pair(const Sheet *s, int i, int j) {
    unsigned p = s->depends[i], q = s->depends[j];
    return single(p) && single(q) && p != q && (s->bent[i] || s->bent[j]);
}

static Refusal load(Sheet *s, Text t) {
    static const char *const names[] = {"add\t", "mul\t", "addc\t", "mulc\t", "pow\t", "inv\t"};
    if (t.end - t.at > MOST_SHEET) return (Refusal){1, 0};
    int64_t n, year = 2016;
    if (!word(&t, "factors") || !field(&t, &n)) return (Refusal){2, 1};
    if (!word(&t, "\n") && (!field(&t, &year) || !word(&t, "\n"))) return (Refusal){2, 1};
    if (n < 1 || n > MOST_FACTORS) return (Refusal){3, 1};
    if (year != 2016 && year != 2014) return (Refusal){17, 1};
    s->factors = (int)n;
    s->earlier = year == 2014;
    memset(s->depends, 0, sizeof s->depends);
    memset(s->bent, 0, sizeof s->bent);
    for (int a = 0; a < s->factors; a++) s->depends[a] = (uint8_t)(1u << a);
    int k = s->factors;
    for (int place = 2; t.at < t.end; place++, k++) {
        int64_t i = 0, j = 0;
        int name = ADD;
        while (name <= INV && !word(&t, names[name])) name++;
        if (name > INV || !numeral(&t, &i) || (name != INV && !field(&t, &j)) || !word(&t, "\n")) return (Refusal){2, place};
        if (k >= MOST_LINES) return (Refusal){4, place};
        int two = name == ADD || name == MUL;
        if (i < 1 || i > k || (two && (j < 1 || j > k))) return (Refusal){5, place};
        if (name == POW && (j < 2 || j > 8)) return (Refusal){6, place};
        if ((name == ADDC || name == MULC) && (j < -LIMIT || j > LIMIT)) return (Refusal){7, place};
        if (name == MULC && j == 0) return (Refusal){15, place};
        i--;
        s->operations[k] = (Operation){(Name)name, (int)i, two ? (int)j - 1 : 0, j};
        s->depends[k] = s->depends[i];
        s->bent[k] = s->bent[i];
        if (two) s->depends[k] |= s->depends[j - 1];
        if (name == ADD) s->bent[k] |= s->bent[j - 1];
        if (name == MUL || name == POW || name == INV) s->bent[k] = s->depends[k];
        if (name == MUL && pair(s, (int)i, (int)j - 1)) s->operations[k].name = PAIR;
    }
    if (k == s->factors) return (Refusal){4, 1};
    s->lines = k;
    return (Refusal){0, 0};
}

static Refusal box(const Sheet *s, Text t, int64_t *numbers) {
    for (int a = 0; a < s->factors; a++)
        if (!numeral(&t, &numbers[2 * a]) || !field(&t, &numbers[2 * a + 1]) || !word(&t, "\n")) return (Refusal){8, 0};
    return t.at != t.end ? (Refusal){8, 0} : (Refusal){0, 0};
}

/* "The sheet ends before the first line `box` that has its byte 10; without one all is sheet." */
static void part(Text all, Text *sheet, Text *ranges) {
    *sheet = all;
    *ranges = (Text){NULL, NULL};
    for (const char *at = all.at; at; at = memchr(at, '\n', (size_t)(all.end - at)), at = at ? at + 1 : at) {
        Text line = {at, all.end};
        if (!word(&line, "box\n")) continue;
        sheet->end = at;
        *ranges = line;
        return;
    }
}

/* ---- printing */

static void print_range(const char *name, Range r) { printf("%s\t%lld\t%lld\n", name, (long long)r.low, (long long)r.high); }

static void print_set(const char *name, unsigned set) {
    printf("%s", name);
    EACH(a, set) printf("\t%u", a + 1);
    printf("\n");
}

static void print_result(int factors, const Result *r) {
    print_range("value", r->value);
    for (int a = 0; a < factors; a++)
        printf("slope\t%d\t%lld\t%lld\n", a + 1, (long long)r->slopes[a].low, (long long)r->slopes[a].high);
    print_set("depends", r->depends);
    print_set("bent", r->bent);
    print_range("bend", r->bend);
    print_range("full", r->full);
}

static Refusal run(Text input, long times, Sheet *s, Line *lines, Result *result) {
    if (input.end - input.at > MOST_INPUT) return (Refusal){1, 0};
    Text sheet, ranges;
    part(input, &sheet, &ranges);
    Refusal refusal = load(s, sheet);
    if (refusal.number) return refusal;
    if (!ranges.at) return (Refusal){8, 0};
    int64_t numbers[2 * MOST_FACTORS];
    refusal = box(s, ranges, numbers);
    while (!refusal.number && times-- > 0) {
        refusal = (s->earlier ? rate_2014 : rate)(s, numbers, 2 * (size_t)s->factors, lines, result);
        __asm__ volatile("" : : "r"(result) : "memory"); /* each rating is done */
    }
    return refusal;
}

int main(int count, char **arguments) {
    static char input[MOST_INPUT + 1];
    static Sheet sheet;
    static Line lines[MOST_LINES];
    static Result result;
    size_t n = fread(input, 1, sizeof input, stdin);
    long times = count > 1 ? atol(arguments[1]) : 1;
    Refusal refusal = run((Text){input, input + n}, times, &sheet, lines, &result);
    if (refusal.number) printf("refused\t%d\t%d\n", refusal.number, refusal.place);
    else print_result(sheet.factors, &result);
    return 0;
}
