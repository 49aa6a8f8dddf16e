/* What the macros of include/recon.h hand to the library. Functions of the library's names stand here in its place and write down what they
   are handed: every argument as it was given, evaluated once, and a slice of length 0 with an address that is not null. C and C++; not to be
   linked with the library. Exits 1 at the first difference. */
#include <stdio.h>
#include <stdlib.h>
#include <string.h>

#include "recon.h"

enum { MOST = 20 };

/* What came over, in order: slices with their lengths, and numbers. */
static struct {
    const void *at;
    uint64_t value;
} handed[MOST];
static size_t count;

static void slice(const void *at, size_t len) {
    handed[count].at = at;
    handed[count++].value = len;
}

static void number(uint64_t value) {
    handed[count].at = NULL;
    handed[count++].value = value;
}

static void table(const uint64_t *times, size_t times_len, const uint8_t *ids, size_t ids_len) {
    slice(times, times_len);
    slice(ids, ids_len);
}

static void kept(recon_session s) {
    number(s.marked), number(s.needed), number(s.done);
    for (size_t i = 0; i < 4; i++)
        number(s.label.sum[i]);
    number(s.label.count);
}

/* What the calls of an opener answer. */
static const recon_session_answer sent = {12, 34, {56, 78, true, {{90, 12, 34, 56}, 78}}};

recon_session_answer(recon_open)(const uint64_t *times, size_t times_len, const uint8_t *ids, size_t ids_len, size_t parts, size_t limit,
                                 uint8_t *marks, size_t marks_len, const uint8_t *needed, size_t needed_len, uint8_t *out, size_t out_len) {
    table(times, times_len, ids, ids_len);
    number(parts), number(limit);
    slice(marks, marks_len), slice(needed, needed_len), slice(out, out_len);
    return sent;
}

recon_answer_t(recon_answer)(const uint64_t *times, size_t times_len, const uint8_t *ids, size_t ids_len, size_t parts, size_t limit,
                             const uint8_t *query, size_t query_len, uint8_t *out, size_t out_len) {
    const recon_answer_t answer = {12, 34};
    table(times, times_len, ids, ids_len);
    number(parts), number(limit);
    slice(query, query_len), slice(out, out_len);
    return answer;
}

recon_session_answer(recon_take)(const uint64_t *times, size_t times_len, const uint8_t *ids, size_t ids_len, size_t parts, size_t limit,
                                 const uint8_t *reply, size_t reply_len, recon_session session, uint8_t *marks, size_t marks_len,
                                 uint8_t *needed, size_t needed_len, uint8_t *out, size_t out_len) {
    table(times, times_len, ids, ids_len);
    number(parts), number(limit);
    slice(reply, reply_len);
    kept(session);
    slice(marks, marks_len), slice(needed, needed_len), slice(out, out_len);
    return sent;
}

recon_session_answer(recon_open_within)(const uint64_t *times, size_t times_len, const uint8_t *ids, size_t ids_len, size_t parts, size_t limit,
                                        size_t bytes, uint8_t *marks, size_t marks_len, const uint8_t *needed, size_t needed_len, uint8_t *out,
                                        size_t out_len) {
    table(times, times_len, ids, ids_len);
    number(parts), number(limit), number(bytes);
    slice(marks, marks_len), slice(needed, needed_len), slice(out, out_len);
    return sent;
}

recon_answer_t(recon_answer_within)(const uint64_t *times, size_t times_len, const uint8_t *ids, size_t ids_len, size_t parts, size_t limit,
                                    size_t bytes, const uint8_t *query, size_t query_len, uint8_t *out, size_t out_len) {
    const recon_answer_t answer = {12, 34};
    table(times, times_len, ids, ids_len);
    number(parts), number(limit), number(bytes);
    slice(query, query_len), slice(out, out_len);
    return answer;
}

recon_session_answer(recon_take_within)(const uint64_t *times, size_t times_len, const uint8_t *ids, size_t ids_len, size_t parts, size_t limit,
                                        size_t bytes, const uint8_t *reply, size_t reply_len, recon_session session, uint8_t *marks,
                                        size_t marks_len, uint8_t *needed, size_t needed_len, uint8_t *out, size_t out_len) {
    table(times, times_len, ids, ids_len);
    number(parts), number(limit), number(bytes);
    slice(reply, reply_len);
    kept(session);
    slice(marks, marks_len), slice(needed, needed_len), slice(out, out_len);
    return sent;
}

recon_session_answer(recon_session_convert)(const uint64_t *times, size_t times_len, const uint8_t *ids, size_t ids_len,
                                            recon_unlabelled_session session, const uint8_t *marks, size_t marks_len, const uint8_t *needed,
                                            size_t needed_len) {
    table(times, times_len, ids, ids_len);
    number(session.marked), number(session.needed), number(session.done);
    slice(marks, marks_len), slice(needed, needed_len);
    return sent;
}

recon_inquiry(recon_fold_inquire)(const uint64_t *times, size_t times_len, const uint8_t *ids, size_t ids_len, size_t items,
                                  recon_session session, const uint8_t *needed, size_t needed_len, const uint64_t *batch_times,
                                  size_t batch_times_len, const uint8_t *batch_ids, size_t batch_ids_len) {
    const recon_inquiry answer = {12, 34, 56};
    table(times, times_len, ids, ids_len);
    number(items), kept(session);
    slice(needed, needed_len);
    table(batch_times, batch_times_len, batch_ids, batch_ids_len);
    return answer;
}

recon_commit(recon_fold_commit)(uint64_t *times, size_t times_len, uint8_t *ids, size_t ids_len, size_t items, recon_session session,
                                uint8_t *needed, size_t needed_len, const uint64_t *batch_times, size_t batch_times_len,
                                const uint8_t *batch_ids, size_t batch_ids_len) {
    const recon_commit answer = {12, 34, sent.session};
    table(times, times_len, ids, ids_len);
    number(items), kept(session);
    slice(needed, needed_len);
    table(batch_times, batch_times_len, batch_ids, batch_ids_len);
    return answer;
}

uint64_t(recon_fingerprint)(const uint64_t *times, size_t times_len, const uint8_t *ids, size_t ids_len, bool lower_infinite,
                            uint64_t lower_time, const uint8_t *lower_prefix, size_t lower_prefix_len, bool upper_infinite,
                            uint64_t upper_time, const uint8_t *upper_prefix, size_t upper_prefix_len, uint8_t out[16]) {
    table(times, times_len, ids, ids_len);
    number(lower_infinite), number(lower_time);
    slice(lower_prefix, lower_prefix_len);
    number(upper_infinite), number(upper_time);
    slice(upper_prefix, upper_prefix_len);
    slice(out, 16);
    return 12;
}

recon_judgement(recon_judge)(const uint64_t *times, size_t times_len, const uint8_t *ids, size_t ids_len, const uint8_t *query, size_t query_len,
                             const uint8_t *reply, size_t reply_len) {
    const recon_judgement answer = {12, true};
    table(times, times_len, ids, ids_len);
    slice(query, query_len), slice(reply, reply_len);
    return answer;
}

void(recon_sha256)(const uint8_t *m, size_t m_len, uint8_t out[32]) {
    slice(m, m_len);
    slice(out, 32);
}

uint64_t(recon_tree_build)(const uint64_t *times, size_t times_len, const uint8_t *ids, size_t ids_len, uint8_t *tree, size_t tree_len) {
    table(times, times_len, ids, ids_len);
    slice(tree, tree_len);
    return 12;
}

uint64_t(recon_tree_append)(const uint64_t *times, size_t times_len, const uint8_t *ids, size_t ids_len, uint64_t time, const uint8_t *id,
                            size_t id_len, uint8_t *tree, size_t tree_len) {
    table(times, times_len, ids, ids_len);
    number(time);
    slice(id, id_len), slice(tree, tree_len);
    return 12;
}

recon_tree_answer(recon_tree_label)(const uint8_t *tree, size_t tree_len, size_t from, size_t to) {
    const recon_tree_answer answer = {12, {{34, 56, 78, 90}, 123}, 45};
    slice(tree, tree_len);
    number(from), number(to);
    return answer;
}

/* The arguments to be given. Slice k, counted from 0, has the length 100 + k, or is null with length 0 if bit k of `nulls` is set. */
static unsigned nulls, lengths_evaluated, numbers_evaluated;
static uint64_t words[MOST];
static uint8_t bytes[32];

static uint64_t *words_at(size_t k) { return nulls >> k & 1 ? NULL : words + k; }

static uint8_t *bytes_at(size_t k) { return nulls >> k & 1 ? NULL : bytes + k; }

static size_t length_at(size_t k) { return nulls >> k & 1 ? 0 : 100 + k; }

static size_t length(size_t k) {
    lengths_evaluated++;
    return length_at(k);
}

static size_t evaluated(size_t value) {
    numbers_evaluated++;
    return value;
}

#define TIMES(k) words_at(k), length(k)
#define BYTES(k) bytes_at(k), length(k)

static int is_slice(size_t i, size_t k, int of_words) {
    if (handed[i].value != length_at(k))
        return 0;
    if (nulls >> k & 1)
        return handed[i].at != NULL && (!of_words || (uintptr_t)handed[i].at % sizeof(uint64_t) == 0);
    return handed[i].at == (of_words ? (const void *)words_at(k) : (const void *)bytes_at(k));
}

/* Whether what came over is of this form: T times, B bytes (slices counted together), a digit that number, and O the fixed-size out. */
static int has_form(const char *form) {
    size_t i = 0, k = 0;
    for (; form[i] != 0; i++) {
        if (form[i] == 'T' || form[i] == 'B') {
            if (!is_slice(i, k++, form[i] == 'T'))
                return 0;
        } else if (form[i] == 'O') {
            if (handed[i].at != bytes)
                return 0;
        } else if (handed[i].at != NULL || handed[i].value != (uint64_t)(form[i] - '0')) {
            return 0;
        }
    }
    return count == i && lengths_evaluated == k;
}

static unsigned long compared;

static void expect(const char *call, const char *form, unsigned numbers, int answered) {
    compared++;
    if (!has_form(form) || numbers_evaluated != numbers || !answered) {
        printf("handed: %s with the null pointers %#x: an argument or the answer does not come over as it was given\n", call, nulls);
        exit(1);
    }
    count = lengths_evaluated = numbers_evaluated = 0;
}

static int is_session(recon_session s) {
    const recon_label l = s.label;
    return s.marked == 56 && s.needed == 78 && s.done && l.sum[0] == 90 && l.sum[1] == 12 && l.sum[2] == 34 && l.sum[3] == 56 && l.count == 78;
}

static int is_answer(recon_session_answer a) { return a.refusal == 12 && a.length == 34 && is_session(a.session); }

static int is_tree_answer(recon_tree_answer a) {
    return a.refusal == 12 && a.label.sum[0] == 34 && a.label.sum[1] == 56 && a.label.sum[2] == 78 && a.label.sum[3] == 90 &&
           a.label.count == 123 && a.visited == 45;
}

/* The calls with a byte limit, which is 6. */
static void calls_within(recon_session session) {
    recon_session_answer opened = recon_open_within(TIMES(0), BYTES(1), evaluated(2), evaluated(3), evaluated(6), BYTES(2), BYTES(3), BYTES(4));
    expect("recon_open_within", "TB236BBB", 3, is_answer(opened));
    recon_answer_t answer = recon_answer_within(TIMES(0), BYTES(1), evaluated(2), evaluated(3), evaluated(6), BYTES(2), BYTES(3));
    expect("recon_answer_within", "TB236BB", 3, answer.refusal == 12 && answer.length == 34);
    recon_session_answer taken =
        recon_take_within(TIMES(0), BYTES(1), evaluated(2), evaluated(3), evaluated(6), BYTES(2), session, BYTES(3), BYTES(4), BYTES(5));
    expect("recon_take_within", "TB236B45167893BBB", 3, is_answer(taken));
}

/* Folding in, into a table of 6 items. */
static void calls_for_folding(recon_session session) {
    recon_inquiry asked = recon_fold_inquire(TIMES(0), BYTES(1), evaluated(6), session, BYTES(2), TIMES(3), BYTES(4));
    expect("recon_fold_inquire", "TB645167893BTB", 1, asked.refusal == 12 && asked.entering == 34 && asked.staying == 56);
    recon_commit done = recon_fold_commit(TIMES(0), BYTES(1), evaluated(6), session, BYTES(2), TIMES(3), BYTES(4));
    expect("recon_fold_commit", "TB645167893BTB", 1, done.refusal == 12 && done.items == 34 && is_session(done.session));
}

static void all_calls(void) {
    const recon_session session = {4, 5, true, {{6, 7, 8, 9}, 3}};
    const recon_unlabelled_session unlabelled = {4, 5, true};
    recon_session_answer opened = recon_open(TIMES(0), BYTES(1), evaluated(2), evaluated(3), BYTES(2), BYTES(3), BYTES(4));
    expect("recon_open", "TB23BBB", 2, is_answer(opened));
    recon_answer_t answer = recon_answer(TIMES(0), BYTES(1), evaluated(2), evaluated(3), BYTES(2), BYTES(3));
    expect("recon_answer", "TB23BB", 2, answer.refusal == 12 && answer.length == 34);
    recon_session_answer taken = recon_take(TIMES(0), BYTES(1), evaluated(2), evaluated(3), BYTES(2), session, BYTES(3), BYTES(4), BYTES(5));
    expect("recon_take", "TB23B45167893BBB", 2, is_answer(taken));
    calls_within(session);
    recon_session_answer converted = recon_session_convert(TIMES(0), BYTES(1), unlabelled, BYTES(2), BYTES(3));
    expect("recon_session_convert", "TB451BB", 0, is_answer(converted));
    calls_for_folding(session);
    uint64_t lower = recon_fingerprint(TIMES(0), BYTES(1), false, evaluated(3), BYTES(2), true, evaluated(5), BYTES(3), bytes);
    expect("recon_fingerprint", "TB03B15BO", 2, lower == 12);
    uint64_t upper = recon_fingerprint(TIMES(0), BYTES(1), true, evaluated(3), BYTES(2), false, evaluated(5), BYTES(3), bytes);
    expect("recon_fingerprint", "TB13B05BO", 2, upper == 12);
    recon_judgement judged = recon_judge(TIMES(0), BYTES(1), BYTES(2), BYTES(3));
    expect("recon_judge", "TBBB", 0, judged.refusal == 12 && judged.approved);
    recon_sha256(BYTES(0), bytes);
    expect("recon_sha256", "BO", 0, 1);
    uint64_t built = recon_tree_build(TIMES(0), BYTES(1), BYTES(2));
    expect("recon_tree_build", "TBB", 0, built == 12);
    uint64_t appended = recon_tree_append(TIMES(0), BYTES(1), evaluated(4), BYTES(2), BYTES(3));
    expect("recon_tree_append", "TB4BB", 1, appended == 12);
    recon_tree_answer run = recon_tree_label(BYTES(0), evaluated(2), evaluated(3));
    expect("recon_tree_label", "B23", 2, is_tree_answer(run));
}

int main(void) {
    for (nulls = 0; nulls < 64; nulls++)
        all_calls();
    printf("handed: %lu calls hand over what they are given, and no null pointer\n", compared);
    return 0;
}
