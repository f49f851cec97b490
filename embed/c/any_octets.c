/* Tries "any octets are a state and a profile": any_octets CALLS SEED makes so many calls, of every kind, on states and
 * profiles that calls reached, that are damaged, and that are any octets at all, and prints how many were refused by
 * which number and how many came back wrong. For those who want to see the claim tried; ../try_any_octets runs it. */
#include "any_octets.h"

#include <stdio.h>
#include <stdlib.h>

#define NUMBERS 8

static const char *const kind_names[KINDS] = {
    "packet", "take", "open", "accept", "update", "request_key", "completed", "drop", "remote_disconnect",
    "complete_disconnect", "advertising_timeout", "has_connection", "terminating", "free_handle", "buffers_in_use", "row_bitmap",
};
static const char *const origin_names[ORIGINS] = {
    "reached by calls", "with any flags", "damaged", "any octets, counts fit", "any octets", "all 0 or all 0xFF",
};

static unsigned long by_kind[KINDS][NUMBERS], by_origin[ORIGINS][NUMBERS], wrong;

static void print_row(const char *name, const unsigned long *numbers) {
    unsigned long calls = 0;
    for (int n = 0; n < NUMBERS; n++) {
        calls += numbers[n];
    }
    printf("%-24s %10lu", name, calls);
    for (int n = 0; n < NUMBERS; n++) {
        printf(" %9lu", numbers[n]);
    }
    printf("\n");
}

static void print_head(const char *title) {
    printf("%-24s %10s", title, "calls");
    for (int n = 0; n < NUMBERS; n++) {
        printf(" %9d", n);
    }
    printf("\n");
}

static void print_table(void) {
    unsigned long all[NUMBERS] = {0};
    print_head("call, answered by");
    for (int k = 0; k < KINDS; k++) {
        print_row(kind_names[k], by_kind[k]);
        for (int n = 0; n < NUMBERS; n++) {
            all[n] += by_kind[k][n];
        }
    }
    print_row("all", all);
    print_head("state, answered by");
    for (int o = 0; o < ORIGINS; o++) {
        print_row(origin_names[o], by_origin[o]);
    }
    printf("%lu wrong\n", wrong);
}

static void count(const trial *t, const given *g, unsigned long call) {
    const char *what = trial_wrong(t, g);
    if (g->number < NUMBERS) {
        by_kind[t->kind][g->number]++;
        if (t->kind != ROW_BITMAP) {
            by_origin[t->origin][g->number]++;
        }
    }
    if (what != NULL) {
        wrong++;
        if (wrong <= 20) {
            printf("call %lu, %s on a state %s, number %d, due %d: %s\n", call, kind_names[t->kind], origin_names[t->origin],
                   g->number, number_due(t), what);
        }
    }
}

int main(int words_count, char **words) {
    static trial t;
    static given g;
    if (words_count != 3) {
        fprintf(stderr, "any_octets CALLS SEED\n");
        return 2;
    }
    unsigned long calls = strtoul(words[1], NULL, 10);
    random_seed(strtoull(words[2], NULL, 10));
    trials_prepare(&t);
    for (unsigned long call = 0; call < calls; call++) {
        trial_make(&t);
        trial_call(&t, &g);
        count(&t, &g, call);
        trial_learn(&t, &g);
    }
    print_table();
    return wrong == 0 ? 0 : 1;
}
