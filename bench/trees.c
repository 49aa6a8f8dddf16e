/* Trees of labels against plain C, on tables of 1,000 to 1,048,576 items: building one, appending the last item, and the label of a run; and the
   sum of the run item by item, which the tree saves. Each time is the least of several turns; the turns alternate, and each begins with another
   of the ways. Before each way its results are overwritten, untimed, and at the end of each turn all are compared. Prints a table:
   bench_trees [--csv FILE], which has the times in seconds. */
#include <stdio.h>
#include <stdlib.h>
#include <string.h>

#include "measure.h"
#include "plain_trees.h"
#include "recon.h"

enum { MOST = 1 << 20, TURNS = 15, RUNS = 256 };

/* A table, the runs of it that are asked for, and the two trees over it. */
typedef struct {
    uint64_t *times;
    uint8_t *ids;
    size_t n;
    size_t from[RUNS], to[RUNS];
    uint8_t *proved, *plain;
    size_t bytes;
} input;

/* The labels of the runs, and how many labels were visited for each. */
static uint8_t by_proved[RUNS][40], by_plain[RUNS][40], by_sum[RUNS][40];
static uint64_t visited_by_proved[RUNS], visited_by_plain[RUNS];

static void proved_build(input *in) { must(recon_tree_build(in->times, in->n, in->ids, 32 * in->n, in->proved, in->bytes) == 0); }

static void plain_build(input *in) { must(plain_tree_build(in->times, in->n, in->ids, 32 * in->n, in->plain, in->bytes) == 0); }

static void proved_append(input *in) {
    size_t n = in->n - 1;
    must(recon_tree_append(in->times, n, in->ids, 32 * n, in->times[n], in->ids + 32 * n, 32, in->proved, in->bytes) == 0);
}

static void plain_append(input *in) {
    size_t n = in->n - 1;
    must(plain_tree_append(in->times, n, in->ids, 32 * n, in->times[n], in->ids + 32 * n, 32, in->plain, in->bytes) == 0);
}

static void proved_runs(input *in) {
    for (int r = 0; r < RUNS; r++) {
        recon_tree_answer a = recon_tree_label(in->proved, in->bytes, in->from[r], in->to[r]);
        must(a.refusal == 0);
        memcpy(by_proved[r], a.label.sum, 32);
        memcpy(by_proved[r] + 32, &a.label.count, 8);
        visited_by_proved[r] = a.visited;
    }
}

static void plain_runs(input *in) {
    for (int r = 0; r < RUNS; r++) {
        plain_run a = plain_tree_label(in->plain, in->bytes, in->from[r], in->to[r]);
        must(a.refusal == 0);
        memcpy(by_plain[r], a.label, 40);
        visited_by_plain[r] = a.visited;
    }
}

static void plain_sums(input *in) {
    for (int r = 0; r < RUNS; r++)
        plain_sum(in->ids, in->from[r], in->to[r], by_sum[r]);
}

static void spoil_proved(input *in) { memset(in->proved, 0xa5, in->bytes); }

static void spoil_plain(input *in) { memset(in->plain, 0xa5, in->bytes); }

/* The tree over all items but the last. */
static void shorten(input *in, uint8_t *tree) { must(plain_tree_build(in->times, in->n - 1, in->ids, 32 * (in->n - 1), tree, in->bytes) == 0); }

static void shorten_proved(input *in) { shorten(in, in->proved); }

static void shorten_plain(input *in) { shorten(in, in->plain); }

static void forget_runs(input *in) {
    (void)in;
    memset(by_proved, 0xa5, sizeof by_proved);
    memset(visited_by_proved, 0xa5, sizeof visited_by_proved);
}

static void forget_plain_runs(input *in) {
    (void)in;
    memset(by_plain, 0x5a, sizeof by_plain);
    memset(visited_by_plain, 0x5a, sizeof visited_by_plain);
}

static void forget_sums(input *in) {
    (void)in;
    memset(by_sum, 0x33, sizeof by_sum);
}

static void compare(const input *in) {
    must(memcmp(in->proved, in->plain, in->bytes) == 0);
    must(memcmp(by_proved, by_plain, sizeof by_proved) == 0 && memcmp(by_proved, by_sum, sizeof by_proved) == 0);
    must(memcmp(visited_by_proved, visited_by_plain, sizeof visited_by_proved) == 0);
}

/* What is done before, untimed, and what is timed. A tree is whole again after each way that changes it. */
typedef struct {
    const char *name;
    void (*before)(input *);
    void (*run)(input *);
} way;
enum { PROVED_BUILD, PLAIN_BUILD, PROVED_APPEND, PLAIN_APPEND, PROVED_RUN, PLAIN_RUN, PLAIN_SUM, WAYS };
static const way ways[WAYS] = {
    {"build", spoil_proved, proved_build},        {"plain_build", spoil_plain, plain_build},
    {"append", shorten_proved, proved_append},    {"plain_append", shorten_plain, plain_append},
    {"run", forget_runs, proved_runs},            {"plain_run", forget_plain_runs, plain_runs},
    {"plain_sum", forget_sums, plain_sums},
};

/* The least time of each way; of a run, the mean over all of them. Small trees are built, and appended to, several times in a turn, since reading the clock
   takes time too. */
static void measure(input *in, double best[WAYS]) {
    size_t times = in->n < 65536 ? 65536 / in->n : 1;
    for (int w = 0; w < WAYS; w++)
        best[w] = 1e9;
    for (int turn = 0; turn < TURNS; turn++) {
        for (int i = 0; i < WAYS; i++) {
            int w = (turn + i) % WAYS;
            size_t repeats = w < PROVED_RUN ? times : 1;
            ways[w].before(in);
            double start = seconds();
            for (size_t k = 0; k < repeats; k++)
                ways[w].run(in);
            double took = (seconds() - start) / (double)(w < PROVED_RUN ? repeats : RUNS);
            if (took < best[w])
                best[w] = took;
        }
        compare(in);
    }
}

/* The first n items, and runs between two places that are any of 0 to n alike. */
static void choose(input *in, size_t n) {
    in->n = n;
    in->bytes = recon_tree_bytes(n);
    for (int r = 0; r < RUNS; r++) {
        size_t a = next() % (n + 1), b = next() % (n + 1);
        in->from[r] = a < b ? a : b;
        in->to[r] = a < b ? b : a;
    }
}

static void print_row(size_t n, const double t[WAYS]) {
    printf("| %zu | %.3f ms | %.2f | %.3f ms | %.2f | %.3f µs | %.2f | %.2f µs | %.1f |\n", n, 1e3 * t[PROVED_BUILD],
           t[PROVED_BUILD] / t[PLAIN_BUILD], 1e3 * t[PROVED_APPEND], t[PROVED_APPEND] / t[PLAIN_APPEND], 1e6 * t[PROVED_RUN],
           t[PROVED_RUN] / t[PLAIN_RUN], 1e6 * t[PLAIN_SUM], t[PLAIN_SUM] / t[PROVED_RUN]);
    fflush(stdout);
}

static FILE *open_csv(int count, char **arguments) {
    if (count == 1)
        return NULL;
    FILE *csv = count == 3 && strcmp(arguments[1], "--csv") == 0 ? fopen(arguments[2], "w") : NULL;
    if (csv == NULL) {
        fprintf(stderr, "usage: bench_trees [--csv FILE], a file that can be written\n");
        exit(2);
    }
    fprintf(csv, "n");
    for (int w = 0; w < WAYS; w++)
        fprintf(csv, ",%s", ways[w].name);
    fprintf(csv, "\n");
    return csv;
}

static void write_row(FILE *csv, size_t n, const double t[WAYS]) {
    fprintf(csv, "%zu", n);
    for (int w = 0; w < WAYS; w++)
        fprintf(csv, ",%.10f", t[w]);
    fprintf(csv, "\n");
}

int main(int count, char **arguments) {
    const size_t sizes[] = {1000, 4096, 16384, 65536, 262144, 1048576};
    FILE *csv = open_csv(count, arguments);
    const size_t most_bytes = recon_tree_bytes(MOST);
    input in = {.times = malloc(8 * MOST), .ids = malloc(32 * MOST), .proved = malloc(most_bytes), .plain = malloc(most_bytes)};
    must(in.times && in.ids && in.proved && in.plain);
    fill(in.times, in.ids, MOST);
    printf("| items | build | / plain C | append | / plain C | label of a run | / plain C | run summed in plain C | summed / label |\n"
           "|---|---|---|---|---|---|---|---|---|\n");
    for (size_t i = 0; i < sizeof sizes / sizeof *sizes; i++) {
        double best[WAYS];
        choose(&in, sizes[i]);
        measure(&in, best);
        print_row(sizes[i], best);
        if (csv != NULL)
            write_row(csv, sizes[i], best);
    }
    free(in.times);
    free(in.ids);
    free(in.proved);
    free(in.plain);
    return csv == NULL || fclose(csv) == 0 ? 0 : 1;
}
