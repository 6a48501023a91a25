/* The library as a C program calls it. Writes a line a check; the exit status is how many failed. */
#include "../saftmagnet.h"
#include <stdio.h>
#include <string.h>

static uint8_t list[SF_LIST], whole[SF_TABLE], table[SF_TABLE], again[SF_TABLE];
static uint8_t work1[SF_WORK + 8], work2[SF_WORK], work3[SF_WORK];
static int failed;

static void check(const char *what, int holds) {
    printf("%s: %s\n", holds ? "yes" : "NO", what);
    failed += !holds;
}

static int all(const uint8_t *s, size_t n, uint8_t x) {
    while (n > 0)
        if (s[--n] != x) return 0;
    return 1;
}

int main(void) {
    static const uint8_t src[] = "base extends { age 42; } sfConfig extends base;";
    static const uint8_t empty[24] = {2, 0, 0, 0, 24, 0, 0, 0, 0, 0, 0, 0, 24, 0, 0, 0, 0, 0, 0, 0, 24, 0, 0, 0};
    static const uint8_t wrong[] = "sfConfig extends { age elsewhere; }";
    memset(work1, 7, sizeof work1);

    uint64_t n = sf_translate(src, sizeof src - 1, list, sizeof list, work1, sizeof work1);
    check("a description is translated", !sf_is_refused(n) && n > 24);
    check("the work slice is cleared, and no byte behind it", all(work1, SF_WORK, 0) && all(work1 + SF_WORK, 8, 7));

    uint64_t m = sf_run(list, n, empty, sizeof empty, whole, sizeof whole, work1, sizeof work1, work2, sizeof work2);
    check("its list runs over the empty table", !sf_is_refused(m));

    uint64_t k = sf_main(whole, m, table, sizeof table);
    check("main is taken out of it", !sf_is_refused(k) && k == 24 + 16 + 4);

    uint64_t r = sf_resolve(src, sizeof src - 1, again, sizeof again, work1, sizeof work1, work2, sizeof work2, work3, sizeof work3);
    check("resolve gives the same bytes", r == k && memcmp(table, again, k) == 0);

    r = sf_resolve(wrong, sizeof wrong - 1, again, sizeof again, work1, sizeof work1, work2, sizeof work2, work3, sizeof work3);
    check("a link that finds nothing is 11 at its first byte", sf_is_refused(r) && sf_number(r) == 11 && sf_place(r) == 23);
    check("and the output is as it was", memcmp(table, again, k) == 0);

    r = sf_resolve(wrong, sizeof wrong - 1, again, sizeof again, work1, sizeof work1, work2, sizeof work2, work3, 0);
    check("a slice too short is 8", sf_number(r) == 8 && sf_place(r) == 0);

    r = sf_main(NULL, 0, table, sizeof table);
    check("no bytes are no table", sf_number(r) == 10);
    return failed;
}
