/* How much stack the library's functions take on the deepest inputs: blocks and vectors nested 32 deep, paths of 32
 * names, step lists and tables of depth 32, and the same with a byte damaged. Each call is made on a stack of its own
 * that was filled with one word before. Writes a line a function; the exit status is how many took more than SF_STACK,
 * the few bytes of the caller among them. */
#define _XOPEN_SOURCE 700
#include "../saftmagnet.h"
#include <stdio.h>
#include <string.h>
#include <ucontext.h>

#define ROOM 262144u /* bytes, in words of 8 */
#define FILL UINT64_C(0xa5a5a5a5a5a5a5a5)
#define DEEPEST 32

static _Alignas(16) uint64_t stack[ROOM / 8];
static ucontext_t here, there;
static uint8_t source[65536], list[SF_LIST], start[SF_TABLE], whole[SF_TABLE], out[SF_TABLE];
static uint8_t work1[SF_WORK], work2[SF_WORK], work3[SF_WORK];
static size_t source_len, list_len, start_len;
static uint64_t answer;

static void translate(void) {
    answer = sf_translate(source, source_len, list, sizeof list, work1, sizeof work1);
}

static void run(void) {
    answer = sf_run(list, list_len, start, start_len, whole, sizeof whole, work1, sizeof work1, work2, sizeof work2);
}

static void take_main(void) { answer = sf_main(start, start_len, out, sizeof out); }

static void resolve(void) {
    answer = sf_resolve(source, source_len, out, sizeof out, work1, sizeof work1, work2, sizeof work2, work3,
                        sizeof work3);
}

static struct {
    const char *name;
    void (*call)(void);
    size_t most, calls, accepted;
} functions[] = {
    {"sf_translate", translate, 0, 0, 0},
    {"sf_run", run, 0, 0, 0},
    {"sf_main", take_main, 0, 0, 0},
    {"sf_resolve", resolve, 0, 0, 0},
};
enum { TRANSLATE, RUN, MAIN, RESOLVE };

/* One call on the filled stack; how much of it was written is how far the first word that changed is from the top. */
static void try(int f) {
    size_t i = 0;
    getcontext(&there);
    there.uc_stack.ss_sp = stack;
    there.uc_stack.ss_size = ROOM;
    there.uc_link = &here;
    makecontext(&there, functions[f].call, 0);
    swapcontext(&here, &there);
    while (i < ROOM / 8 && stack[i] == FILL) i++;
    if (functions[f].most < ROOM - 8 * i) functions[f].most = ROOM - 8 * i;
    while (i < ROOM / 8) stack[i++] = FILL;
    functions[f].calls++;
    functions[f].accepted += !sf_is_refused(answer);
}

static void add(const char *text) {
    size_t n = strlen(text);
    memcpy(source + source_len, text, n);
    source_len += n;
}

static void times(size_t n, const char *text) {
    while (n-- > 0) add(text);
}

/* So many blocks, in them so many vectors, in them or in the blocks what is given. */
static void describe(size_t blocks, size_t vectors, const char *inner) {
    source_len = 0;
    for (size_t i = 0; i < blocks; i++) add(i == 0 ? "sfConfig extends {" : "a extends {");
    if (vectors > 0) add("v ");
    times(vectors, "[");
    add(inner);
    times(vectors, "]");
    if (vectors > 0) add(";");
    times(blocks, "}");
}

/* The description as it stands, over the table that is there: translated, run, resolved. */
static void try_source(void) {
    try(TRANSLATE);
    if (!sf_is_refused(answer)) {
        list_len = answer;
        try(RUN);
    }
    try(RESOLVE);
}

/* The whole table of a description is the starting table, and its step list the list. */
static void begin_with(size_t blocks, size_t vectors, const char *inner) {
    static const uint8_t empty[24] = {2, 0, 0, 0, 24, 0, 0, 0, 0, 0, 0, 0, 24, 0, 0, 0, 0, 0, 0, 0, 24, 0, 0, 0};
    describe(blocks, vectors, inner);
    memcpy(start, empty, sizeof empty);
    start_len = sizeof empty;
    translate();
    list_len = answer;
    run();
    if (sf_is_refused(answer)) return;
    memcpy(start, whole, answer);
    start_len = answer;
}

/* Every byte of what the function reads, changed in three ways. */
static void damage(int f, uint8_t *bytes, size_t n) {
    static const uint8_t by[] = {1, 32, 255};
    for (size_t i = 0; i < n; i++)
        for (size_t k = 0; k < sizeof by; k++) {
            bytes[i] ^= by[k];
            try(f);
            bytes[i] ^= by[k];
        }
}

#define A8 "a:a:a:a:a:a:a:a"
#define NAMES31 "sfConfig:" A8 ":" A8 ":" A8 ":a:a:a:a:a:a"
static const char *const statements[] = {
    "", "b 1;", "b nowhere;", "b nowhere:" A8 ";", "b " NAMES31 ";", "b " NAMES31 ":nowhere;", "b " NAMES31 ":a:a;",
    "b extends " NAMES31 ";", "b extends " NAMES31 ":nowhere;", "b extends nowhere, {}", NAMES31 ":a 1;",
    NAMES31 ":b extends sfConfig;", A8 ":" A8 " extends sfConfig;", "b DATA " NAMES31 ":a;", "b -12.5e-3;",
    "b \"\\n\\101\";", "b \"", "b 9223372036854775808;", "b [1, \"x\", [DATA y]];", "b /* c */ true; // d", "b {", "[",
    "b extends {c 1;}, sfConfig, {d 2;}", "b sfConfig;", "b a; c b; d c;",
};
static const char *const elements[] = {"", "1", "1, \"x\", DATA " NAMES31, "NULL, [", "[[[", "1.", "]"};

static const struct {
    size_t blocks, vectors;
    const char *inner;
} tables[] = {{0, 0, ""}, {31, 0, "b 1;"}, {0, 32, ""}, {16, 16, ""}};

int main(void) {
    int failed = 0;
    for (size_t i = 0; i < ROOM / 8; i++) stack[i] = FILL;

    for (size_t from = 0; from < sizeof tables / sizeof *tables; from++) {
        begin_with(tables[from].blocks, tables[from].vectors, tables[from].inner);
        try(MAIN);
        for (size_t blocks = 0; blocks <= DEEPEST + 1; blocks++) {
            for (size_t k = 0; k < sizeof statements / sizeof *statements; k++) {
                describe(blocks, 0, statements[k]);
                try_source();
            }
            for (size_t vectors = 1; vectors <= DEEPEST + 1 - blocks; vectors++)
                for (size_t k = 0; k < sizeof elements / sizeof *elements; k++) {
                    describe(blocks, vectors, elements[k]);
                    try_source();
                }
        }
    }
    for (size_t blocks = 1; blocks < DEEPEST; blocks += 6) {
        begin_with(blocks, DEEPEST - blocks, "");
        try(MAIN);
        damage(MAIN, start, start_len);
        damage(RUN, start, start_len);
        damage(RUN, list, list_len);
        damage(RESOLVE, source, source_len);
    }
    for (size_t f = 0; f < 4; f++) {
        int fits = functions[f].most <= SF_STACK;
        printf("%s: %s took at the most %zu bytes of stack, in %zu calls of which %zu were accepted\n",
               fits ? "yes" : "NO", functions[f].name, functions[f].most, functions[f].calls, functions[f].accepted);
        failed += !fits;
    }
    return failed;
}
