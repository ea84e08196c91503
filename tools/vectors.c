/* Writes the cases of crates/vectors/stdin: operations of the number kinds, with answers from this machine's
   floating-point unit and from plain 64-bit C arithmetic. It shares no code with the engine.

   Build and run, from the repository's root:
       cc -O0 -ffp-contract=off -o /tmp/vectors tools/vectors.c -lm && /tmp/vectors > crates/vectors/stdin

   The rules are those of docs/RULES.md, "Number kinds". An answer that is a NaN is written 7FC00000h, its admitted form. */
#include <inttypes.h>
#include <math.h>
#include <stdint.h>
#include <stdio.h>
#include <string.h>

static float as_float(uint32_t w) { float x; memcpy(&x, &w, 4); return x; }

static uint32_t as_word(float x) {
    uint32_t w;
    if (isnan(x)) return 0x7fc00000;
    memcpy(&w, &x, 4);
    return w;
}

/* xorshift64*, from a fixed state, so that the file is the same every time */
static uint64_t state = 0x9e3779b97f4a7c15;
static uint32_t draw(void) {
    state ^= state >> 12; state ^= state << 25; state ^= state >> 27;
    return (uint32_t)((state * 0x2545f4914f6cdd1d) >> 32);
}

enum { ADD, SUBTRACT, MULTIPLY, DIVIDE, LESS, EQUAL, REMAINDER };
static const char *names[] = {"add", "subtract", "multiply", "divide", "less", "equal", "remainder"};

static void word_case(const char *kind, const char *op, uint32_t a, uint32_t b, uint32_t r) {
    printf("%s %s %08" PRIX32 "h %08" PRIX32 "h %08" PRIX32 "h\n", kind, op, a, b, r);
}
static void flag_case(const char *kind, const char *op, uint32_t a, uint32_t b, int r) {
    printf("%s %s %08" PRIX32 "h %08" PRIX32 "h %d\n", kind, op, a, b, r ? 1 : 0);
}
static void stop_case(const char *kind, const char *op, uint32_t a, uint32_t b, int r) {
    printf("%s %s %08" PRIX32 "h %08" PRIX32 "h stop %d\n", kind, op, a, b, r);
}
static void one_word(const char *kind, const char *op, uint32_t a, uint32_t r) {
    printf("%s %s %08" PRIX32 "h %08" PRIX32 "h\n", kind, op, a, r);
}
static void one_stop(const char *kind, const char *op, uint32_t a, int r) {
    printf("%s %s %08" PRIX32 "h stop %d\n", kind, op, a, r);
}

static void float_pair(int op, uint32_t a, uint32_t b) {
    volatile float x = as_float(a), y = as_float(b);
    switch (op) {
    case ADD: word_case("float", names[op], a, b, as_word(x + y)); break;
    case SUBTRACT: word_case("float", names[op], a, b, as_word(x - y)); break;
    case MULTIPLY: word_case("float", names[op], a, b, as_word(x * y)); break;
    case DIVIDE: word_case("float", names[op], a, b, as_word(x / y)); break;
    case LESS: flag_case("float", names[op], a, b, x < y); break;
    case EQUAL: flag_case("float", names[op], a, b, x == y); break;
    }
}

static void float_single(uint32_t a) {
    float x = as_float(a);
    one_word("float", "admit", a, isnan(x) ? 0x7fc00000 : a);
    one_word("float", "negate", a, as_word(-x));
    double t = trunc((double)x);
    if (isnan(x) || !(t >= -2147483648.0 && t <= 2147483647.0)) one_stop("float", "to-whole", a, 2);
    else one_word("float", "to-whole", a, (uint32_t)(int32_t)t);
}

static void float_from_whole(uint32_t a) {
    int32_t n = (int32_t)a;
    if (n < -16777216 || n > 16777216) one_stop("float", "from-whole", a, 2);
    else one_word("float", "from-whole", a, as_word((float)n));
}

static uint32_t clip(int64_t n) {
    if (n < INT32_MIN) n = INT32_MIN;
    if (n > INT32_MAX) n = INT32_MAX;
    return (uint32_t)(int32_t)n;
}

static void fixed_pair(int op, uint32_t a, uint32_t b) {
    int64_t x = (int32_t)a, y = (int32_t)b;
    switch (op) {
    case ADD: word_case("fixed", names[op], a, b, clip(x + y)); break;
    case SUBTRACT: word_case("fixed", names[op], a, b, clip(x - y)); break;
    case MULTIPLY: word_case("fixed", names[op], a, b, clip(x * y / 65536)); break;
    case DIVIDE:
        if (y == 0) stop_case("fixed", names[op], a, b, 1);
        else word_case("fixed", names[op], a, b, clip(x * 65536 / y));
        break;
    case LESS: flag_case("fixed", names[op], a, b, x < y); break;
    case EQUAL: flag_case("fixed", names[op], a, b, x == y); break;
    }
}

static void fixed_single(uint32_t a) {
    int64_t x = (int32_t)a;
    one_word("fixed", "admit", a, a);
    one_word("fixed", "negate", a, clip(-x));
    one_word("fixed", "to-whole", a, (uint32_t)(int32_t)floor((double)x / 65536.0));
    if (x < -32768 || x > 32767) one_stop("fixed", "from-whole", a, 2);
    else one_word("fixed", "from-whole", a, (uint32_t)(int32_t)(x * 65536));
}

static void whole_pair(int op, uint32_t a, uint32_t b) {
    int64_t x = (int32_t)a, y = (int32_t)b;
    switch (op) {
    case ADD: word_case("whole", names[op], a, b, a + b); break;
    case SUBTRACT: word_case("whole", names[op], a, b, a - b); break;
    case MULTIPLY: word_case("whole", names[op], a, b, (uint32_t)(x * y)); break;
    case DIVIDE:
        if (y == 0) stop_case("whole", names[op], a, b, 1);
        else word_case("whole", names[op], a, b, (uint32_t)(x / y));
        break;
    case REMAINDER:
        if (y == 0) stop_case("whole", names[op], a, b, 1);
        else word_case("whole", names[op], a, b, (uint32_t)(x % y));
        break;
    case LESS: flag_case("whole", names[op], a, b, x < y); break;
    case EQUAL: flag_case("whole", names[op], a, b, x == y); break;
    }
}

/* zeros, subnormals, the ends of the normals, infinities, NaNs of both signs and several payloads, and numbers beside powers of two */
static const uint32_t floats[] = {
    0x00000000, 0x80000000, 0x00000001, 0x80000001, 0x007fffff, 0x807fffff, 0x00800000, 0x80800000,
    0x7f7fffff, 0xff7fffff, 0x7f800000, 0xff800000, 0x7fc00000, 0xffc00000, 0x7f800001, 0xff812345,
    0x7fffffff, 0x3f800000, 0xbf800000, 0x3f800001, 0x3f7fffff, 0x40000000, 0x34000000, 0x33800000,
    0x4b800000, 0x4b7fffff, 0x7f000000, 0x00ffffff, 0x3effffff, 0xc0200000,
};

/* where a float becomes whole: at and beside the ends, and fractions of both signs */
static const uint32_t wholes[] = {
    0x4effffff, 0x4f000000, 0x4f000001, 0xcf000000, 0xcf000001, 0xceffffff, 0x3f7fffff, 0x3f800000,
    0xbf7fffff, 0xc0200000, 0x40200000, 0x3effffff, 0x5f000000, 0xdf000000, 0x4b000001, 0xcb000001,
};

static const uint32_t words[] = {
    0, 1, 0xffffffff, 2, 0xfffffffe, 7, 0xfffffff9, 0x00007fff, 0x00008000, 0xffff8000, 0xffff7fff, 0x0000ffff,
    0x00010000, 0x00018000, 0xffff0000, 0x00030000, 0x7fffffff, 0x80000000, 0x80000001, 0x7ffffffe, 0x00ffffff,
    0x01000000, 0x01000001, 0xff000000, 0xfeffffff,
};

#define COUNT(a) (sizeof(a) / sizeof((a)[0]))

/* pairs whose exact answer lies at or beside the middle between two floats */
static void near_boundaries(void) {
    for (int i = 0; i < 600; i++) {
        uint32_t e = 30 + draw() % 190, m = draw() & 0x7fffff, s = (draw() & 1) << 31;
        uint32_t a = (e << 23) | m, half = ((e - 24) << 23), b = half | s;
        float_pair(ADD, a, b);
        float_pair(ADD, a | 1, b);
        float_pair(SUBTRACT, a & ~1u, b + 1);
        float_pair(SUBTRACT, a, b - 1);
        /* the product of two numbers of 12 and 13 bits has 25: every odd one is a tie */
        uint32_t p = 0x3f800000 | ((draw() & 0x7ff) << 12), q = 0x3f800000 | ((draw() & 0xfff) << 11) | 0x800;
        float_pair(MULTIPLY, p | 0x1000, q);
        /* subnormal answers */
        float_pair(MULTIPLY, (1 + draw() % 40) << 23 | (draw() & 0x7fffff), (90 + draw() % 30) << 23 | (draw() & 0x7fffff));
        float_pair(DIVIDE, (1 + draw() % 30) << 23 | (draw() & 0x7fffff), (127 + draw() % 26) << 23 | (draw() & 0x7fffff));
        /* at the edge of overflow: half a last place more than the largest, or beside it */
        float_pair(ADD, 0x7f7fffff, 0x73000000 - 2 + draw() % 5);
    }
}

int main(void) {
    for (size_t i = 0; i < COUNT(floats); i++) float_single(floats[i]);
    for (size_t i = 0; i < COUNT(wholes); i++) float_single(wholes[i]);
    for (size_t i = 0; i < COUNT(words); i++) { float_from_whole(words[i]); fixed_single(words[i]); one_word("whole", "negate", words[i], 0u - words[i]); }
    for (size_t i = 0; i < COUNT(floats); i++)
        for (size_t j = 0; j < COUNT(floats); j++)
            for (int op = ADD; op <= EQUAL; op++) float_pair(op, floats[i], floats[j]);
    for (size_t i = 0; i < COUNT(words); i++)
        for (size_t j = 0; j < COUNT(words); j++) {
            for (int op = ADD; op <= EQUAL; op++) fixed_pair(op, words[i], words[j]);
            for (int op = ADD; op <= REMAINDER; op++) whole_pair(op, words[i], words[j]);
        }
    near_boundaries();
    for (int i = 0; i < 10000; i++) {
        uint32_t a = draw(), b = draw();
        if (i % 3 == 0) b = (a & 0xff800000) ^ (draw() & 0x80ffffff); /* of like size, so that sums round and cancel */
        float_pair(i % 6, a, b);
    }
    for (int i = 0; i < 1500; i++) {
        uint32_t a = draw() >> (draw() % 24), b = draw() >> (draw() % 24);
        if (draw() & 1) a = 0u - a;
        if (draw() & 1) b = 0u - b;
        fixed_pair(i % 6, a, b);
        whole_pair(i % 7, a, b);
        if (i % 5 == 0) { float_single(a); fixed_single(a); float_from_whole(b); }
    }
    return 0;
}
