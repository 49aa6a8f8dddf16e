/* Calls the library from C, by include/recon.h: worked examples of the specification, with every lent byte looked at. Exits 1 at the first
   difference. */
#include <stdio.h>
#include <stdlib.h>
#include <string.h>

#include "recon.h"

enum { OLD = 0xa5 };

static unsigned long looked_at;

static void expect(const char *what, int holds) {
    looked_at++;
    if (!holds) {
        printf("calls: not as expected: %s\n", what);
        exit(1);
    }
}

/* The first n bytes are those given, and the others are as they were. */
static int begins(const uint8_t *buffer, size_t size, const uint8_t *given, size_t n) {
    if (memcmp(buffer, given, n) != 0)
        return 0;
    for (size_t i = n; i < size; i++)
        if (buffer[i] != OLD)
            return 0;
    return 1;
}

/* The label of n ids, summed byte by byte from the first. */
static recon_label summed(const uint8_t *i, size_t n) {
    recon_label label = {{0, 0, 0, 0}, n};
    uint8_t sum[32] = {0};
    for (size_t k = 0; k < n; k++) {
        unsigned carry = 0;
        for (size_t j = 0; j < 32; j++) {
            carry += (unsigned)sum[j] + i[32 * k + j];
            sum[j] = (uint8_t)carry;
            carry >>= 8;
        }
    }
    for (size_t j = 0; j < 32; j++)
        label.sum[j / 8] |= (uint64_t)sum[j] << 8 * (j % 8);
    return label;
}

static int is_label(recon_label a, recon_label b) { return memcmp(a.sum, b.sum, sizeof a.sum) == 0 && a.count == b.count; }

static int is_session(recon_session s, size_t marked, size_t needed, bool done, recon_label label) {
    return s.marked == marked && s.needed == needed && s.done == done && is_label(s.label, label);
}

static int same_session(recon_session a, recon_session b) { return is_session(a, b.marked, b.needed, b.done, b.label); }

/* What an opening leaves that has n ids. */
static recon_session begun(const uint8_t *i, size_t n) { return (recon_session){0, 0, false, summed(i, n)}; }

/* What stands beside a refused opening and a refused conversion. */
static const recon_session no_session = {0, 0, false, {{0, 0, 0, 0}, 0}};

static const uint64_t times[3] = {5, 5, 7};
static const uint8_t ids[96] = {[0] = 1, [32] = 2, [64] = 3};
static const uint8_t nothing[1] = {0};

/* E3: two empty tables. */
static void empty_tables(void) {
    const uint8_t message[5] = {0x61, 0, 0, 2, 0};
    uint8_t marks[1] = {OLD}, needed[32], out[8];
    memset(needed, OLD, sizeof needed);
    memset(out, OLD, sizeof out);
    recon_session_answer opened = recon_open(times, 0, ids, 0, 2, 2, marks, 0, needed, 32, out, 8);
    expect("E3 opens with five bytes", opened.refusal == RECON_OK && opened.length == 5 && begins(out, 8, message, 5));
    expect("E3 leaves a session that is open", same_session(opened.session, no_session));
    memset(out, OLD, sizeof out);
    recon_answer_t answer = recon_answer(times, 0, ids, 0, 2, 2, message, 5, out, 8);
    expect("E3 is answered with the same bytes", answer.refusal == RECON_OK && answer.length == 5 && begins(out, 8, message, 5));
    memset(out, OLD, sizeof out);
    recon_session_answer taken = recon_take(times, 0, ids, 0, 2, 2, message, 5, opened.session, marks, 0, needed, 32, out, 8);
    expect("E3 is done", taken.refusal == RECON_OK && taken.length == 0 && is_session(taken.session, 0, 0, true, no_session.label));
    expect("E3 reports nothing", begins(out, 8, nothing, 0) && begins(needed, 32, nothing, 0) && marks[0] == OLD);
}

/* E4: two fingerprint ranges; the same with one byte too little. */
static void two_ranges(void) {
    const uint8_t query[40] = {0x61, 0x06, 0x01, 0x02, 0x01, 0x2e, 0x25, 0x50, 0x99, 0xd6, 0xd6, 0xbe, 0xe3, 0x07,
                               0xc8, 0xe7, 0x07, 0x5a, 0xcc, 0x78, 0xf9, 0x00, 0x00, 0x01, 0xd2, 0x7c, 0x48, 0x77,
                               0x95, 0x63, 0xae, 0x9b, 0x8f, 0x7b, 0xfc, 0x1b, 0xa0, 0x54, 0x62, 0xc8};
    uint8_t marks[4], needed[64], out[41];
    const uint8_t zeros[3] = {0};
    memset(marks, OLD, sizeof marks);
    memset(needed, OLD, sizeof needed);
    memset(out, OLD, sizeof out);
    recon_session_answer refused = recon_open(times, 3, ids, 96, 2, 2, marks, 3, needed, 64, out, 39);
    expect("E4 has no room in 39 bytes", refused.refusal == RECON_NO_ROOM && refused.length == 0);
    expect("a refused opening is not done", same_session(refused.session, no_session));
    expect("a refused opening changes nothing", begins(marks, 4, nothing, 0) && begins(needed, 64, nothing, 0) && begins(out, 41, nothing, 0));
    recon_session_answer opened = recon_open(times, 3, ids, 96, 2, 2, marks, 3, needed, 64, out, 40);
    expect("E4 opens with 40 bytes", opened.refusal == RECON_OK && opened.length == 40 && begins(out, 41, query, 40));
    expect("E4 has the sum 6 and the count 3", is_session(opened.session, 0, 0, false, (recon_label){{6, 0, 0, 0}, 3}));
    expect("E4 sets the marks to 0", begins(marks, 4, zeros, 3) && begins(needed, 64, nothing, 0));
}

/* E4's query by the former rule, which cut its items into the first two and the third: it is answered, and the answer ends the session that it
   opened. The other end lacks the second item. */
static void former_rule(void) {
    const uint8_t query[39] = {0x61, 0x08, 0x00, 0x01, 0x05, 0x5e, 0xc4, 0x05, 0xfe, 0xbf, 0xad, 0x80, 0x4c, 0x1c, 0x56, 0x38, 0xd7, 0x36, 0x93, 0x61,
                               0x00, 0x00, 0x01, 0x7e, 0x83, 0x9d, 0x7a, 0xa6, 0xd0, 0x79, 0xf6, 0x8e, 0x25, 0x89, 0xf6, 0xc6, 0x68, 0xa0, 0x0f};
    const uint64_t other_times[2] = {5, 7};
    const uint8_t other_ids[64] = {[0] = 1, [32] = 3}, same[1] = {0x61}, listed[37] = {0x61, 8, 0, 2, 1, 1}, second[3] = {0, 1, 0};
    uint8_t marks[4] = {0, 0, 0, OLD}, needed[1] = {OLD}, out[40], none[1] = {OLD};
    memset(out, OLD, sizeof out);
    recon_answer_t equal = recon_answer(times, 3, ids, 96, 2, 2, query, 39, out, 40);
    expect("a query by the former rule finds equal items", equal.refusal == RECON_OK && equal.length == 1 && begins(out, 40, same, 1));
    recon_answer_t answer = recon_answer(other_times, 2, other_ids, 64, 2, 2, query, 39, out, 40);
    expect("a query by the former rule is answered", answer.refusal == RECON_OK && answer.length == 37 && begins(out, 40, listed, 37));
    const recon_session session = begun(ids, 3);
    recon_session_answer taken = recon_take(times, 3, ids, 96, 2, 2, out, 37, session, marks, 3, needed, 0, none, 0);
    expect("a session of the former rule is done", taken.refusal == RECON_OK && taken.length == 0 && is_session(taken.session, 1, 0, true, session.label));
    expect("a session of the former rule reports", begins(marks, 4, second, 3) && needed[0] == OLD && none[0] == OLD);
}

/* E11, and then a done session; a reply with an id that is lacking. */
static void reports(void) {
    const uint8_t reply[5] = {0x61, 0, 0, 2, 0};
    uint8_t listed[69] = {0x61, 0, 0, 2, 2, [5] = 9, [37] = 1};
    uint8_t marks[2] = {0, OLD}, needed[64];
    const uint8_t one[1] = {1}, nine[32] = {9}, marked[2] = {1, OLD};
    memset(needed, OLD, sizeof needed);
    recon_session session = begun(ids, 1);
    const recon_label label = session.label;
    uint8_t none[1] = {OLD};
    recon_session_answer taken = recon_take(times, 1, ids, 32, 2, 2, reply, 5, session, marks, 1, needed, 64, none, 0);
    expect("E11 marks its item and is done", taken.refusal == RECON_OK && taken.length == 0 && is_session(taken.session, 1, 0, true, label) && begins(marks, 2, one, 1));
    recon_session_answer again = recon_take(times, 1, ids, 32, 2, 2, reply, 5, taken.session, marks, 1, needed, 64, none, 0);
    expect("a session that is done takes nothing", again.refusal == RECON_SESSION_DONE && is_session(again.session, 1, 0, true, label));
    session.marked = 1;
    recon_session_answer more = recon_take(times, 1, ids, 32, 2, 2, listed, 69, session, marks, 1, needed, 64, none, 0);
    expect("an id that is lacking joins", more.refusal == RECON_OK && is_session(more.session, 1, 1, true, label) && begins(needed, 64, nine, 32));
    expect("marks remain", memcmp(marks, marked, 2) == 0);
    recon_session_answer full = recon_take(times, 1, ids, 32, 2, 2, listed, 69, session, marks, 1, needed, 0, none, 0);
    expect("no room for it", full.refusal == RECON_NEEDED_FULL && is_session(full.session, 1, 0, false, label));
}

/* Where each field of a session stands. A session without a label has its fields where the other has them. */
static void layouts(void) {
    expect("a label", sizeof(recon_label) == 40 && offsetof(recon_label, sum) == 0 && offsetof(recon_label, count) == 32);
    expect("a session", sizeof(recon_session) == 64 && offsetof(recon_session, marked) == 0 && offsetof(recon_session, needed) == 8 &&
                            offsetof(recon_session, done) == 16 && offsetof(recon_session, label) == 24);
    expect("a session without a label", sizeof(recon_unlabelled_session) == 24 && offsetof(recon_unlabelled_session, marked) == 0 &&
                                            offsetof(recon_unlabelled_session, needed) == 8 && offsetof(recon_unlabelled_session, done) == 16);
    expect("an answer with a session", sizeof(recon_session_answer) == 80 && offsetof(recon_session_answer, session) == 16);
    expect("an answer of a commit", sizeof(recon_commit) == 80 && offsetof(recon_commit, session) == 16);
}

/* All that a take or a conversion is handed: three items, the second marked, and two needed ids in a buffer for three. */
typedef struct {
    uint64_t times[4];
    uint8_t ids[128], marks[4], needed[97];
    size_t times_len, ids_len, marks_len, needed_len;
    recon_session session;
} kept_session;

static void put_kept(kept_session *k, bool done) {
    const uint8_t needed[96] = {[0] = 8, [32] = 9, [64] = 7};
    memset(k, 0, sizeof *k);
    memcpy(k->times, times, sizeof times);
    memcpy(k->ids, ids, sizeof ids);
    memcpy(k->needed, needed, sizeof needed);
    k->times[3] = 8;
    k->ids[96] = 4;
    k->marks[1] = 1;
    k->times_len = k->marks_len = 3;
    k->ids_len = k->needed_len = 96;
    k->session.marked = 1;
    k->session.needed = 2;
    k->session.done = done;
    k->session.label = summed(ids, 3);
}

/* A take of a reply that says nothing; it changes no byte, whether it is refused or ends the session. Its number. */
static uint64_t take_kept(kept_session *k) {
    const uint8_t reply[1] = {0x61};
    static kept_session before;
    uint8_t none[1] = {OLD};
    memcpy(&before, k, sizeof before);
    recon_session_answer a = recon_take(k->times, k->times_len, k->ids, k->ids_len, 2, 2, reply, 1, k->session, k->marks, k->marks_len, k->needed,
                                        k->needed_len, none, 0);
    recon_session session = k->session;
    session.done |= a.refusal == RECON_OK;
    expect("a take that says nothing", a.length == 0 && same_session(a.session, session));
    expect("it changes no byte", memcmp(&before, k, sizeof before) == 0 && none[0] == OLD);
    return a.refusal;
}

/* Changes the table, or the label: 18, of sessions that are done too. */
static void other_table(const char *what, kept_session *k, uint64_t number) {
    expect(what, take_kept(k) == number);
    k->session.done = true;
    expect(what, take_kept(k) == (number == RECON_OK ? RECON_SESSION_DONE : number));
}

static void other_tables(void) {
    static kept_session k;
    put_kept(&k, false);
    other_table("the table of the opening", &k, RECON_OK);
    for (size_t byte = 0; byte < 32; byte++) {
        put_kept(&k, false);
        k.ids[64 + byte] ^= 8;
        other_table("another byte of an id", &k, RECON_OTHER_TABLE);
    }
    put_kept(&k, false);
    k.times_len = 4;
    k.ids_len = 128;
    other_table("an item more", &k, RECON_WRONG_STATE);
    k.marks_len = 4;
    k.session.done = false;
    other_table("an item and a mark more", &k, RECON_OTHER_TABLE);
    k.ids[96] = 0;
    k.session.done = false;
    other_table("an item more whose id is 0", &k, RECON_OTHER_TABLE);
    put_kept(&k, false);
    k.times_len = k.marks_len = 2;
    k.ids_len = 64;
    other_table("an item and a mark less", &k, RECON_OTHER_TABLE);
    for (size_t word = 0; word < 4; word++) {
        put_kept(&k, false);
        k.session.label.sum[word]++;
        other_table("another word of the sum", &k, RECON_OTHER_TABLE);
    }
    put_kept(&k, false);
    k.session.label.count--;
    other_table("another count", &k, RECON_OTHER_TABLE);
    put_kept(&k, false);
    k.session.label.count = 0;
    k.marks[0] = 2;
    other_table("4 before 18", &k, RECON_WRONG_STATE);
    put_kept(&k, false);
    k.times[2] = 9;
    other_table("another time, and the same label", &k, RECON_OK);
    put_kept(&k, false);
    k.ids[0] = 0, k.ids[64] = 4;
    other_table("other ids with the same sum", &k, RECON_OK);
}

static recon_session_answer convert_kept(const kept_session *k) {
    const recon_unlabelled_session session = {k->session.marked, k->session.needed, k->session.done};
    return recon_session_convert(k->times, k->times_len, k->ids, k->ids_len, session, k->marks, k->marks_len, k->needed, k->needed_len);
}

/* What can be wrong with a session that is to be converted, and its number. */
enum {
    FEW_IDS, NO_TIMES, FALLING, INFINITE, /* 1 and 2 */
    FEW_MARKS, MORE_MARKS, HIGH_MARK, MARKED_LESS, MARKED_MORE, NEEDED_BYTES, FEW_NEEDED, MUCH_NEEDED, LISTED_MORE, EQUAL_IDS, KEPT_FAULTS
};
static const uint64_t kept_numbers[KEPT_FAULTS] = {1, 1, 2, 2, 4, 4, 4, 4, 4, 4, 4, 4, 4, 4};

static void put_kept_fault(kept_session *k, unsigned fault) {
    k->ids_len = fault == FEW_IDS ? 95 : k->ids_len;
    k->times_len = fault == NO_TIMES ? 0 : k->times_len;
    k->times[0] = fault == FALLING ? 6 : k->times[0];
    k->times[2] = fault == INFINITE ? UINT64_MAX : k->times[2];
    k->marks_len = fault == FEW_MARKS ? 2 : fault == MORE_MARKS ? 4 : k->marks_len;
    k->marks[2] = fault == HIGH_MARK ? 2 : k->marks[2];
    k->session.marked = fault == MARKED_LESS ? 0 : fault == MARKED_MORE ? 2 : k->session.marked;
    k->needed_len = fault == NEEDED_BYTES ? 97 : fault == FEW_NEEDED ? 32 : k->needed_len;
    k->session.needed = fault == MUCH_NEEDED ? (size_t)1 << 59 : fault == LISTED_MORE ? 3 : k->session.needed;
    k->needed[32] = fault == EQUAL_IDS ? 8 : k->needed[32];
}

/* Every fault by itself and with each of a higher number, of sessions that are open and that are done; and no fault. */
static void conversions(void) {
    static kept_session k, before;
    for (unsigned done = 0; done < 2; done++) {
        put_kept(&k, done);
        recon_session_answer a = convert_kept(&k);
        expect("a session gets its label", a.refusal == RECON_OK && a.length == 0 && is_session(a.session, 1, 2, done, summed(ids, 3)));
        for (unsigned first = 0; first < KEPT_FAULTS; first++)
            for (unsigned second = first; second < KEPT_FAULTS; second++) {
                if (kept_numbers[first] == kept_numbers[second] && first != second)
                    continue;
                put_kept(&k, done);
                put_kept_fault(&k, second);
                put_kept_fault(&k, first);
                memcpy(&before, &k, sizeof k);
                a = convert_kept(&k);
                expect("a refused conversion", a.refusal == kept_numbers[first] && a.length == 0 && same_session(a.session, no_session));
                expect("a conversion changes no byte", memcmp(&before, &k, sizeof k) == 0);
            }
    }
    recon_session_answer none = recon_session_convert(times, 0, ids, 0, (recon_unlabelled_session){0, 0, true}, nothing, 0, nothing, 0);
    expect("a session over no items gets the empty label", none.refusal == RECON_OK && is_session(none.session, 0, 0, true, no_session.label));
}

/* The fingerprint of E4's first two items, and what 9 refuses. */
static void fingerprints(void) {
    const uint8_t first[16] = {0x05, 0x5e, 0xc4, 0x05, 0xfe, 0xbf, 0xad, 0x80, 0x4c, 0x1c, 0x56, 0x38, 0xd7, 0x36, 0x93, 0x61};
    const uint8_t prefix[33] = {0};
    uint8_t out[17];
    memset(out, OLD, sizeof out);
    expect("a prefix at infinity", recon_fingerprint(times, 3, ids, 96, false, 0, nothing, 0, true, 0, prefix, 1, out) == RECON_BAD_BOUND);
    expect("a prefix of 33 bytes", recon_fingerprint(times, 3, ids, 96, false, 0, prefix, 33, true, 0, nothing, 0, out) == RECON_BAD_BOUND);
    expect("a table before its bounds", recon_fingerprint(times, 3, ids, 95, false, 0, prefix, 33, true, 0, nothing, 0, out) == RECON_TABLE_SIZE);
    expect("a refused fingerprint changes nothing", begins(out, 17, nothing, 0));
    expect("the items below time 7", recon_fingerprint(times, 3, ids, 96, false, 0, nothing, 0, false, 7, nothing, 0, out) == RECON_OK && begins(out, 17, first, 16));
}

/* A refused label of a run, and one that is not. */
static int is_refused(recon_tree_answer a) { return a.refusal == RECON_WRONG_TREE && a.visited == 0 && is_label(a.label, summed(nothing, 0)); }

static int is_run(recon_tree_answer a, recon_label label, uint64_t visited) {
    return a.refusal == RECON_OK && a.visited == visited && is_label(a.label, label);
}

/* Eight bytes, least significant first. */
static void put_word(uint8_t *p, uint64_t word) {
    for (size_t j = 0; j < 8; j++)
        p[j] = (uint8_t)(word >> 8 * j);
}

/* Label i of a tree. */
static void put_label(uint8_t *tree, size_t i, recon_label label) {
    for (size_t j = 0; j < 4; j++)
        put_word(tree + RECON_LABEL_BYTES * i + 8 * j, label.sum[j]);
    put_word(tree + RECON_LABEL_BYTES * i + 32, label.count);
}

/* The tree over n ids: every label is summed from the items at its places. Its number of bytes. */
static size_t put_tree(uint8_t *tree, size_t places, const uint8_t *i, size_t n) {
    size_t at = 0;
    for (size_t size = places; size > 0; size /= 2)
        for (size_t first = 0; first < places; first += size) {
            const size_t from = first < n ? first : n, to = first + size < n ? first + size : n;
            put_label(tree, at++, summed(i + 32 * from, to - from));
        }
    return RECON_LABEL_BYTES * at;
}

/* Nine items, the last three of one time. The sums of their ids carry from byte to byte, and those of some pass 2^256. */
enum { NINE = 9 };
static const uint64_t nine_times[NINE] = {0, 1, 2, 3, 5, 8, 13, 13, 13};

static void nine_ids(uint8_t i[32 * NINE]) {
    for (size_t k = 0; k < 32 * NINE; k++)
        i[k] = (uint8_t)(k % 32 == 0 ? k / 32 + 1 : k % 5 == 0 ? 7 * k : 255);
}

/* E14, and the lengths of a tree that 13 refuses. */
static void tree_bytes(void) {
    const uint64_t two_times[2] = {5, 7};
    uint8_t two_ids[64] = {[32] = 1}, expected[120] = {[32] = 2, [72] = 1, [80] = 1, [112] = 1}, tree[281];
    memset(two_ids, 255, 32);
    memset(expected + 40, 255, 32);
    memset(tree, OLD, sizeof tree);
    for (size_t length = 0; length < sizeof tree; length++)
        if (length != 120)
            expect("another length than E14's", recon_tree_build(two_times, 2, two_ids, 64, tree, length) == RECON_WRONG_TREE);
    expect("a refused build changes nothing", begins(tree, sizeof tree, nothing, 0));
    expect("E14 is built", recon_tree_build(two_times, 2, two_ids, 64, tree, 120) == RECON_OK && begins(tree, sizeof tree, expected, 120));
    memset(tree, OLD, sizeof tree);
    expect("the table's size before its order and the tree", recon_tree_build(times, 2, two_ids, 63, tree, 0) == RECON_TABLE_SIZE);
    expect("the table's order before the tree", recon_tree_build(times, 2, two_ids, 64, tree, 0) == RECON_TABLE_ORDER);
    expect("the table's size", recon_tree_build(two_times, 1, two_ids, 64, tree, 40) == RECON_TABLE_SIZE);
    expect("the table's order", recon_tree_build(times, 2, two_ids, 64, tree, 120) == RECON_TABLE_ORDER);
    expect("no refused build changes anything", begins(tree, sizeof tree, nothing, 0));
}

/* E15: recon_tree_bytes is what the library takes, and only that. */
static void tree_lengths(void) {
    static const struct {
        size_t items, k;
    } rows[] = {{0, 0}, {1, 0}, {2, 1}, {3, 2}, {4, 2}, {5, 3}, {8, 3}, {9, 4}};
    uint8_t i[32 * NINE], tree[1241], expected[1240];
    nine_ids(i);
    for (size_t r = 0; r < sizeof rows / sizeof rows[0]; r++) {
        const size_t n = rows[r].items, places = (size_t)1 << rows[r].k, bytes = recon_tree_bytes(n);
        expect("the bytes of a tree", bytes == 40 * (2 * places - 1) && bytes == put_tree(expected, places, i, n));
        memset(tree, OLD, sizeof tree);
        expect("a byte too few", recon_tree_build(nine_times, n, i, 32 * n, tree, bytes - 1) == RECON_WRONG_TREE);
        expect("a byte too many", recon_tree_build(nine_times, n, i, 32 * n, tree, bytes + 1) == RECON_WRONG_TREE);
        expect("a refused build changes nothing", begins(tree, sizeof tree, nothing, 0));
        expect("a tree is built", recon_tree_build(nine_times, n, i, 32 * n, tree, bytes) == RECON_OK);
        expect("each label has the sum of its items", begins(tree, sizeof tree, expected, bytes));
    }
    expect("the bytes of the largest tree", recon_tree_bytes(RECON_MAX_ITEMS) == 83886040);
    expect("the fewest items that need as many", recon_tree_bytes(524289) == 83886040 && recon_tree_bytes(524288) == 41943000);
    expect("no tree over more items", recon_tree_bytes((size_t)RECON_MAX_ITEMS + 1) == 0 && recon_tree_bytes(SIZE_MAX) == 0);
}

/* The labels that are visited: the whole, and two for each half of two places or more that the run has in part. */
static uint64_t visits(size_t places, size_t from, size_t to) {
    uint64_t count = 1;
    for (size_t size = 2; size <= places; size *= 2)
        for (size_t first = 0; first < places; first += size) {
            size_t inside = 0;
            for (size_t place = first; place < first + size; place++)
                inside += from <= place && place < to;
            count += inside > 0 && inside < size ? 2 : 0;
        }
    return count;
}

/* E16; and every run of every tree over up to nine items: the places are 2^k, not n, and what is behind them is cut off. */
static void runs(void) {
    static const size_t by_hand[][3] = {{0, 8, 1}, {0, 5, 7}, {1, 7, 11}, {3, 4, 7}, {8, 9, 1}, {5, 2, 1}, {3, 3, 1},
                                        {0, SIZE_MAX, 1}, {SIZE_MAX, 0, 1}, {SIZE_MAX - 1, SIZE_MAX, 1}, {7, SIZE_MAX, 7}, {0, 0, 1}};
    uint8_t i[32 * NINE], tree[1240], before[1240];
    nine_ids(i);
    for (size_t n = 0; n <= NINE; n++) {
        const size_t bytes = recon_tree_bytes(n), places = (bytes / 40 + 1) / 2;
        expect("a tree is built", recon_tree_build(nine_times, n, i, 32 * n, tree, bytes) == RECON_OK);
        memcpy(before, tree, bytes);
        for (size_t from = 0; from < 20; from++)
            for (size_t to = 0; to < 20; to++) {
                const size_t end = to < n ? to : n;
                const recon_label label = from < end ? summed(i + 32 * from, end - from) : summed(i, 0);
                expect("the label of a run", is_run(recon_tree_label(tree, bytes, from, to), label, visits(places, from, to)));
            }
        expect("the label of a run changes nothing", memcmp(tree, before, bytes) == 0);
    }
    for (size_t n = 5; n <= 8; n++) {
        expect("a tree of 8 places", recon_tree_build(nine_times, n, i, 32 * n, tree, 600) == RECON_OK);
        for (size_t r = 0; r < sizeof by_hand / sizeof by_hand[0]; r++)
            expect("the visits of E16", recon_tree_label(tree, 600, by_hand[r][0], by_hand[r][1]).visited == by_hand[r][2]);
        expect("the whole has all items", is_run(recon_tree_label(tree, 600, 0, 8), summed(i, n), 1));
        expect("all items are not the whole", is_run(recon_tree_label(tree, 600, 0, 5), summed(i, 5), 7));
    }
}

/* 13 for the label of a run: the tree has another length than any tree. */
static void run_lengths(void) {
    uint8_t tree[601] = {[32] = 7};
    const recon_label seven = {{0, 0, 0, 0}, 7};
    for (size_t length = 0; length < sizeof tree; length++) {
        recon_tree_answer a = recon_tree_label(tree, length, 0, SIZE_MAX);
        const int fits = length == 40 || length == 120 || length == 280 || length == 600;
        expect("the lengths of trees", fits ? is_run(a, seven, 1) : is_refused(a));
    }
    /* More places than a table can have items. */
    const size_t places = (size_t)2 * RECON_MAX_ITEMS, bytes = 40 * (2 * places - 1);
    uint8_t *large = calloc(bytes, 1);
    if (large == NULL)
        exit(2);
    large[32] = 7;
    large[40 + 32] = 6;
    large[bytes - 8] = 5;
    expect("a larger tree than any of a table", recon_tree_label(large, bytes, 0, places).label.count == 7);
    expect("its left half", recon_tree_label(large, bytes, 0, places / 2).label.count == 6);
    recon_tree_answer last = recon_tree_label(large, bytes, places - 1, places);
    expect("its last place", last.label.count == 5 && last.visited == 43);
    expect("two labels fewer", is_refused(recon_tree_label(large, bytes - 80, 0, places)));
    free(large);
}

/* Appending items one by one, until no place is free: the bytes are those of a build. */
static void appends(void) {
    uint8_t i[32 * NINE], tree[1241], expected[1240];
    nine_ids(i);
    for (size_t n = 0; n < NINE; n++) {
        const size_t bytes = recon_tree_bytes(n), places = (bytes / 40 + 1) / 2;
        size_t m = n;
        memset(tree, OLD, sizeof tree);
        expect("a tree to append to", recon_tree_build(nine_times, n, i, 32 * n, tree, bytes) == RECON_OK);
        put_tree(expected, places, i, n);
        for (; m < places && m < NINE; m++) {
            expect("an item is appended", recon_tree_append(nine_times, m, i, 32 * m, nine_times[m], i + 32 * m, 32, tree, bytes) == RECON_OK);
            put_tree(expected, places, i, m + 1);
            expect("an append gives the bytes of a build", begins(tree, sizeof tree, expected, bytes));
        }
        if (m < places)
            continue;
        const size_t twice = recon_tree_bytes(m + 1);
        expect("no place is free", recon_tree_append(nine_times, m, i, 32 * m, nine_times[m], i + 32 * m, 32, tree, bytes) == RECON_WRONG_TREE);
        expect("twice the places", recon_tree_append(nine_times, m, i, 32 * m, nine_times[m], i + 32 * m, 32, tree, twice) == RECON_WRONG_TREE);
        expect("a full tree stays", begins(tree, sizeof tree, expected, bytes));
        expect("then it is built anew", recon_tree_build(nine_times, m + 1, i, 32 * (m + 1), tree, twice) == RECON_OK);
        put_tree(expected, 2 * places, i, m + 1);
        expect("with twice the places", begins(tree, sizeof tree, expected, twice));
    }
}

/* What an append refuses, and in which order. */
static void refused_appends(void) {
    const uint64_t equal[3] = {5, 5, 5};
    uint8_t id[33] = {4}, lower[32] = {2, 255}, tree[600], expected[280], four_ids[128] = {[0] = 1, [32] = 2, [64] = 3, [96] = 4};
    memset(tree, OLD, sizeof tree);
    expect("an id of 31 bytes", recon_tree_append(times, 3, ids, 96, 9, id, 31, tree, 280) == RECON_TABLE_SIZE);
    expect("an id of 33 bytes", recon_tree_append(times, 3, ids, 96, 9, id, 33, tree, 280) == RECON_TABLE_SIZE);
    expect("an id of no bytes", recon_tree_append(times, 0, ids, 0, 9, id, 0, tree, 40) == RECON_TABLE_SIZE);
    expect("an id before the rest", recon_tree_append(equal, 3, tree, 96, UINT64_MAX, id, 31, tree + 96, 0) == RECON_TABLE_SIZE);
    expect("the table's size before the item and the tree", recon_tree_append(times, 3, ids, 95, UINT64_MAX, id, 32, tree, 0) == RECON_TABLE_SIZE);
    expect("a table that does not rise", recon_tree_append(equal, 3, tree, 96, 9, id, 32, tree + 96, 280) == RECON_TABLE_ORDER);
    expect("its order before the tree", recon_tree_append(equal, 3, tree, 96, 9, id, 32, tree + 96, 0) == RECON_TABLE_ORDER);
    expect("the largest time", recon_tree_append(times, 3, ids, 96, UINT64_MAX, id, 32, tree, 280) == RECON_TABLE_ORDER);
    expect("the largest time, with no items", recon_tree_append(times, 0, ids, 0, UINT64_MAX, id, 32, tree, 40) == RECON_TABLE_ORDER);
    expect("a time below the last", recon_tree_append(times, 3, ids, 96, 6, id, 32, tree, 280) == RECON_TABLE_ORDER);
    expect("the last item again", recon_tree_append(times, 3, ids, 96, 7, ids + 64, 32, tree, 280) == RECON_TABLE_ORDER);
    expect("an id below the last", recon_tree_append(times, 3, ids, 96, 7, lower, 32, tree, 280) == RECON_TABLE_ORDER);
    expect("an item before the tree", recon_tree_append(times, 3, ids, 96, 6, id, 32, tree, 279) == RECON_TABLE_ORDER);
    expect("an item before a full tree", recon_tree_append(times, 2, ids, 64, 5, ids + 32, 32, tree, 120) == RECON_TABLE_ORDER);
    expect("a full tree", recon_tree_append(times, 2, ids, 64, 7, ids + 64, 32, tree, 120) == RECON_WRONG_TREE);
    expect("a larger tree", recon_tree_append(times, 2, ids, 64, 7, ids + 64, 32, tree, 280) == RECON_WRONG_TREE);
    for (size_t length = 0; length < sizeof tree; length++)
        if (length != 280)
            expect("another length", recon_tree_append(times, 3, ids, 96, 7, id, 32, tree, length) == RECON_WRONG_TREE);
    expect("a refused append changes nothing", begins(tree, sizeof tree, nothing, 0));
    expect("one below the largest time", recon_tree_append(times, 0, ids, 0, UINT64_MAX - 1, id, 32, tree, 40) == RECON_OK);
    put_tree(expected, 1, id, 1);
    expect("an item is appended to none", begins(tree, sizeof tree, expected, 40));
    put_tree(tree, 4, ids, 3);
    put_tree(expected, 4, four_ids, 4);
    expect("an id above the last", recon_tree_append(times, 3, ids, 96, 7, id, 32, tree, 280) == RECON_OK);
    expect("an item is appended to three", begins(tree, sizeof tree, expected, 280));
}

/* Trees that are not from a build and appends: the stored labels answer, and an append makes those above its place afresh. */
static void foreign_trees(void) {
    const uint64_t most = UINT64_MAX;
    const recon_label whole = {{10, 20, 30, 40}, 50}, zero = {{0, 0, 0, 0}, 0}, one = {{1, 0, 0, 0}, 1}, two = {{2, 0, 0, 0}, 2};
    const recon_label three = {{3, 0, 0, 0}, 3}, four = {{4, 0, 0, 0}, 4}, low = {{most, most, most, 0}, most};
    const recon_label all = {{most, most, most, most}, most}, all_and_low = {{most - 1, most, most, 0}, most - 1};
    /* Of four places: the whole, the two halves, the places. */
    const recon_label stored[7] = {whole, two, low, all, all, one, two};
    uint8_t tree[281], expected[280], id[32] = {1};
    memset(tree, OLD, sizeof tree);
    for (size_t k = 0; k < 7; k++)
        put_label(tree, k, stored[k]);
    memcpy(expected, tree, 280);
    expect("the whole as it is stored", is_run(recon_tree_label(tree, 280, 0, 4), whole, 1));
    expect("a left half as it is stored", is_run(recon_tree_label(tree, 280, 0, 2), two, 3));
    expect("a right half as it is stored", is_run(recon_tree_label(tree, 280, 2, SIZE_MAX), low, 3));
    expect("a place as it is stored", is_run(recon_tree_label(tree, 280, 0, 1), all, 5));
    expect("a place behind the items", is_run(recon_tree_label(tree, 280, 3, 9), two, 5));
    expect("a half and a place", is_run(recon_tree_label(tree, 280, 0, 3), three, 5));
    expect("sums modulo 2^256 and counts modulo 2^64", is_run(recon_tree_label(tree, 280, 1, 3), zero, 7));
    expect("each word carries into the next", is_run(recon_tree_label(tree, 280, 1, 4), all_and_low, 5));
    expect("the label of a run changes nothing", begins(tree, sizeof tree, expected, 280));
    /* The item comes to the last place. */
    put_label(expected, 6, one);
    put_label(expected, 2, two);
    put_label(expected, 0, four);
    expect("an append to such a tree", recon_tree_append(times, 3, ids, 96, 9, id, 32, tree, 280) == RECON_OK);
    expect("all labels above, and no other, are made afresh", begins(tree, sizeof tree, expected, 280));
    put_label(tree, 5, all);
    put_label(expected, 5, all);
    put_label(expected, 2, zero);
    put_label(expected, 0, two);
    expect("another append to it", recon_tree_append(times, 3, ids, 96, 9, id, 32, tree, 280) == RECON_OK);
    expect("they are made modulo 2^256 and 2^64", begins(tree, sizeof tree, expected, 280));
}

/* The tree over as many items as a table can have, at the times 0, 1, .. and with ids of zeros; t and i have room for one more. */
static void largest_tree(const uint64_t *t, const uint8_t *i) {
    const size_t most = RECON_MAX_ITEMS, bytes = recon_tree_bytes(most);
    uint8_t *tree = malloc(bytes);
    if (tree == NULL)
        exit(2);
    expect("the most items", recon_tree_build(t, most, i, most * RECON_ID_BYTES, tree, bytes) == RECON_OK);
    expect("all of them", is_run(recon_tree_label(tree, bytes, 0, most), (recon_label){{0, 0, 0, 0}, most}, 1));
    expect("all but the first and the last", is_run(recon_tree_label(tree, bytes, 1, most - 1), (recon_label){{0, 0, 0, 0}, most - 2}, 79));
    expect("no place is free", recon_tree_append(t, most, i, most * RECON_ID_BYTES, most, i, 32, tree, bytes) == RECON_WRONG_TREE);
    expect("too many to append to", recon_tree_append(t, most + 1, i, (most + 1) * RECON_ID_BYTES, most + 1, i, 32, tree, bytes) == RECON_TABLE_SIZE);
    expect("one item more", recon_tree_build(t, most + 1, i, (most + 1) * RECON_ID_BYTES, tree, bytes) == RECON_TABLE_SIZE);
    expect("the tree stays", is_run(recon_tree_label(tree, bytes, 0, most), (recon_label){{0, 0, 0, 0}, most}, 1));
    free(tree);
}

/* Every refusal has a number of its own, from 1 on, and a text of its own. */
static void refusal_texts(void) {
#define ROW(name, number, text) {name, number, text},
    static const struct {
        int name, number;
        const char *text;
    } rows[] = {RECON_REFUSALS(ROW)};
#undef ROW
    const size_t count = sizeof rows / sizeof rows[0];
    for (size_t i = 0; i < count; i++) {
        expect("refusals are numbered from 1 on", rows[i].name == (int)i + 1 && rows[i].number == (int)i + 1);
        expect("a refusal has its text", strcmp(recon_strerror(i + 1), rows[i].text) == 0 && strlen(rows[i].text) > 10);
        for (size_t k = 0; k < i; k++)
            expect("two refusals have two texts", strcmp(rows[i].text, rows[k].text) != 0);
    }
    expect("0 is no refusal", RECON_OK == 0 && strcmp(recon_strerror(RECON_OK), "no refusal") == 0);
    expect("a number behind the last is unknown", strcmp(recon_strerror(count + 1), "unknown refusal") == 0);
    expect("a number of more than 32 bits is unknown", strcmp(recon_strerror(0x100000001u), "unknown refusal") == 0);
    expect("the largest number is unknown", strcmp(recon_strerror(UINT64_MAX), "unknown refusal") == 0);
}

/* The answer of three items, with a byte limit or, where that is 0, without one. */
static recon_answer_t answered(size_t bytes, const uint8_t *query, size_t length, uint8_t *out, size_t room) {
    if (bytes == 0)
        return recon_answer(times, 3, ids, 96, 2, 2, query, length, out, room);
    return recon_answer_within(times, 3, ids, 96, 2, 2, bytes, query, length, out, room);
}

static int is_refusal(recon_answer_t answer, uint64_t number) { return answer.refusal == number && answer.length == 0; }

/* E12, E13: the answer to each first byte, without room for it and with; what follows 62 is not read. */
static void versions_within(size_t bytes) {
    uint8_t query[2] = {0, 0x80}, out[2];
    const uint8_t version[1] = {0x61};
    for (unsigned first = 0; first < 256; first++) {
        const bool other = first >= 0x60 && first <= 0x6F && first != 0x61;
        const uint64_t number = first == 0x61 ? RECON_BAD_VARINT : RECON_WRONG_VERSION;
        query[0] = (uint8_t)first;
        memset(out, OLD, sizeof out);
        expect("a byte limit before a version", is_refusal(answered(4095, query, 2, out, 1), RECON_BYTE_LIMIT) && begins(out, 2, nothing, 0));
        recon_answer_t answer = answered(bytes, query, 2, out, 0);
        expect("a version without room", is_refusal(answer, other ? RECON_NO_ROOM : number) && begins(out, 2, nothing, 0));
        answer = answered(bytes, query, 2, out, 1);
        expect("a version with room", answer.refusal == (other ? RECON_OK : number) && answer.length == other && begins(out, 2, version, other));
    }
    memset(out, OLD, sizeof out);
    expect("an empty query", is_refusal(answered(bytes, query, 0, out, 1), RECON_WRONG_VERSION) && begins(out, 2, nothing, 0));
    expect("a byte limit before it", is_refusal(answered(4095, query, 0, out, 1), RECON_BYTE_LIMIT) && begins(out, 2, nothing, 0));
}

static void versions(void) {
    versions_within(0);
    versions_within(4096);
}

/* The three calls of a session with a byte limit. The cut lists up to 4,096 items. A take begins a session that reports nothing. */
enum { OPEN, ANSWER, TAKE, CALLS, LISTED = RECON_MAX_LIMIT };

/* One of them, its table, and the query or reply that it is handed. */
typedef struct {
    int call;
    const uint64_t *times;
    const uint8_t *ids;
    size_t n;
    const uint8_t *message;
    size_t length;
} asked;

static recon_answer_t within(asked a, size_t bytes, uint8_t *out, size_t room) {
    static uint8_t marks[512], needed[1];
    const recon_session session = begun(a.ids, a.n);
    recon_session_answer sent;
    memset(marks, 0, sizeof marks);
    if (a.call == ANSWER)
        return recon_answer_within(a.times, a.n, a.ids, 32 * a.n, 2, LISTED, bytes, a.message, a.length, out, room);
    if (a.call == OPEN)
        sent = recon_open_within(a.times, a.n, a.ids, 32 * a.n, 2, LISTED, bytes, marks, a.n, needed, 0, out, room);
    else
        sent = recon_take_within(a.times, a.n, a.ids, 32 * a.n, 2, LISTED, bytes, a.message, a.length, session, marks, a.n, needed, 0, out, room);
    expect("a session that reports nothing", same_session(sent.session, a.call == OPEN && sent.refusal != RECON_OK ? no_session : session));
    return (recon_answer_t){sent.refusal, sent.length};
}

/* The call writes just this message, in as many bytes of room and in more. In one byte less it is refused by 12 and not cut shorter. */
static void writes(const char *what, asked a, size_t bytes, const uint8_t *message, size_t length) {
    static uint8_t out[10000];
    const size_t rooms[2] = {length, sizeof out};
    memset(out, OLD, sizeof out);
    expect(what, is_refusal(within(a, bytes, out, length - 1), RECON_NO_ROOM) && begins(out, sizeof out, nothing, 0));
    for (size_t r = 0; r < 2; r++) {
        memset(out, OLD, sizeof out);
        recon_answer_t answer = within(a, bytes, out, rooms[r]);
        expect(what, answer.refusal == RECON_OK && answer.length == length && begins(out, sizeof out, message, length));
    }
}

/* 128 items of one time. All ids take 4,102 bytes; within a limit below that there are 127 of them, and the fingerprint of the last. */
static void cut_list(void) {
    static const uint8_t last[19] = {0, 0, 1, 0x1c, 0x73, 0x4a, 0x0c, 0xf1, 0x88, 0x26, 0xcc, 0x4f, 0x0b, 0xa6, 0x47, 0x99, 0x5d, 0xa3, 0xd5};
    static const size_t too_low[] = {0, 1, 4095};
    static uint64_t t[128];
    static uint8_t i[32 * 128], whole[4102] = {0x61, 0, 0, 2, 0x81, 0}, cut[4090] = {0x61, 6, 2, 1, 0x7f, 2, 0x7f};
    const uint8_t differs[20] = {0x61, 0, 0, 1};
    uint8_t out[8];
    for (size_t k = 0; k < 128; k++) {
        t[k] = 5;
        i[32 * k] = 1;
        i[32 * k + 1] = (uint8_t)k;
    }
    memcpy(whole + 6, i, sizeof i);
    memcpy(cut + 7, i, 32 * 127);
    memcpy(cut + sizeof cut - 19, last, 19);
    for (int call = 0; call < CALLS; call++) {
        const asked a = {call, t, i, 128, differs, sizeof differs};
        writes("the least limit", a, 4096, cut, sizeof cut);
        writes("a limit of one byte less than the message", a, 4101, cut, sizeof cut);
        writes("a limit of as many bytes as the message", a, 4102, whole, sizeof whole);
        writes("a limit of one byte more", a, 4103, whole, sizeof whole);
        writes("the largest limit", a, SIZE_MAX, whole, sizeof whole);
        memset(out, OLD, sizeof out);
        for (size_t k = 0; k < sizeof too_low / sizeof too_low[0]; k++)
            expect("a limit that is too low", is_refusal(within(a, too_low[k], out, sizeof out), RECON_BYTE_LIMIT) && begins(out, 8, nothing, 0));
    }
}

static size_t put_varint(uint8_t *m, size_t at, uint64_t value) {
    unsigned shift = 0;
    while (value >> shift >= 128)
        shift += 7;
    for (; shift > 0; shift -= 7)
        m[at++] = (uint8_t)(128 | (value >> shift & 127));
    m[at++] = value & 127;
    return at;
}

/* Puts the last range of a message that was cut short: the fingerprint of n ids, up to infinity. Answers where it ends, as the others below. */
static size_t put_last(uint8_t *m, size_t at, const uint8_t *i, size_t n) {
    const recon_label label = summed(i, n);
    uint8_t hashed[42], digest[32], head[3] = {0, 0, 1};
    for (size_t j = 0; j < 4; j++)
        put_word(hashed + 8 * j, label.sum[j]);
    recon_sha256(hashed, put_varint(hashed, 32, n), digest);
    memcpy(m + at, head, 3);
    memcpy(m + at + 3, digest, 16);
    return at + 19;
}

/* Puts the same range so many times. */
static size_t repeat(uint8_t *m, size_t at, const uint8_t *range, size_t bytes, size_t count) {
    for (; count > 0; count--, at += bytes)
        memcpy(m + at, range, bytes);
    return at;
}

/* Messages of many ranges, each of which ends at the next time. The table is empty, so that a fingerprint which differs gives a list of no ids. */
static const uint8_t differing[19] = {2, 0, 1}, skipped[3] = {2, 0, 0}, empty_list[4] = {2, 0, 2, 0};

/* So many of them, then skips, then more of them; the limit; how many are kept before the skips, whether the skips are (as one range), and how many
   behind them; and the bytes. */
typedef struct {
    size_t lists, skips, more, bytes, kept, skip, kept_more, length;
} run_row;
static const run_row run_rows[] = {
    {1023, 0, 0, 4096, 1023, 0, 0, 4093}, /* all fits */
    {1024, 0, 0, 4097, 1024, 0, 0, 4097},
    {1024, 0, 0, 4096, 1019, 0, 0, 4096}, /* the last fingerprint takes the bytes of five ranges */
    {2000, 0, 0, 4099, 1019, 0, 0, 4096},
    {2000, 0, 0, 4100, 1020, 0, 0, 4100},
    {1018, 1, 99, 4096, 1018, 1, 0, 4095}, /* a skip at the end of the run */
    {1018, 50, 99, 4096, 1018, 1, 0, 4095},
    {1017, 50, 99, 4096, 1017, 1, 1, 4095},
    {1019, 1, 99, 4096, 1019, 0, 0, 4096}, /* no room for the skip */
    {1019, 1, 99, 4098, 1019, 0, 0, 4096},
    {1019, 1, 99, 4099, 1019, 1, 0, 4099},
    {1023, 50, 0, 4096, 1023, 0, 0, 4093}, /* a skip at the end of the message is not written */
    {1100, 50, 0, 4096, 1019, 0, 0, 4096},
};

static void cut_runs(void) {
    static uint8_t query[40000], expected[10000];
    query[0] = expected[0] = 0x61;
    for (size_t r = 0; r < sizeof run_rows / sizeof run_rows[0]; r++) {
        const run_row row = run_rows[r];
        const uint8_t skip[3] = {(uint8_t)(row.skips + 1), 0, 0};
        size_t length = repeat(query, 1, differing, 19, row.lists);
        length = repeat(query, length, skipped, 3, row.skips);
        length = repeat(query, length, differing, 19, row.more);
        size_t end = repeat(expected, 1, empty_list, 4, row.kept);
        end = repeat(expected, end, skip, 3, row.skip);
        end = repeat(expected, end, empty_list, 4, row.kept_more);
        if (row.kept < row.lists || row.kept_more < row.more)
            end = put_last(expected, end, ids, 0);
        expect("the bytes of a run of ranges", end == row.length);
        writes("an answer of many ranges", (asked){ANSWER, times, ids, 0, query, length}, row.bytes, expected, end);
        writes("a query of many ranges", (asked){TAKE, times, ids, 0, query, length}, row.bytes, expected, end);
    }
}

/* Two neighbouring skips are one range, which does not fit; the first of them alone would. */
static void skips_as_one(void) {
    static uint8_t query[40000], expected[10000];
    uint8_t to_prefix[35] = {1, 32, [33] = 1};
    query[0] = expected[0] = 0x61;
    size_t length = repeat(query, 1, differing, 19, 1018);
    length = repeat(query, length, skipped, 3, 1);
    length = repeat(query, length, to_prefix, 35, 1);
    length = repeat(query, length, differing, 19, 9);
    size_t end = put_last(expected, repeat(expected, 1, empty_list, 4, 1018), ids, 0);
    writes("an answer with two skips", (asked){ANSWER, times, ids, 0, query, length}, 4096, expected, end);
    writes("a query with two skips", (asked){TAKE, times, ids, 0, query, length}, 4096, expected, end);
}

/* 300 items of times from 1,000 on, asked for in three ranges by fingerprints that differ. */
enum { ITEMS = 300, START = 1000 };
static uint64_t list_times[ITEMS];
static uint8_t list_ids[32 * ITEMS];

/* Puts the upper bound of the range that has the items from one place to below another. Behind the last item it is infinity. */
static size_t put_upper(uint8_t *m, size_t at, size_t from, size_t to) {
    at = put_varint(m, at, to == ITEMS ? 0 : to - from + 1 + (from == 0 ? START : 0));
    m[at++] = 0;
    return at;
}

static size_t put_list(uint8_t *m, size_t at, size_t from, size_t to) {
    at = put_upper(m, at, from, to);
    m[at++] = 2;
    at = put_varint(m, at, to - from);
    memcpy(m + at, list_ids + 32 * from, 32 * (to - from));
    return at + 32 * (to - from);
}

/* The items of the first two ranges; the limit; the ranges that are kept whole, and the ids of the next one that are; the bytes. */
typedef struct {
    size_t first, second, bytes, whole, more, length;
} list_row;
static const list_row list_rows[] = {
    {100, 100, 4096, 1, 27, 4093}, {100, 100, 4124, 1, 27, 4093}, {100, 100, 4125, 1, 28, 4125},
    {126, 100, 4096, 1, 1, 4093},  {127, 100, 4096, 1, 0, 4089},  {127, 100, 4124, 1, 0, 4089}, /* not one fits */
    {127, 100, 4125, 1, 1, 4125},  {127, 1, 4124, 1, 0, 4089}, /* a single one that does not fit */
    {127, 1, 4125, 2, 0, 4125},    {126, 1, 4096, 2, 0, 4093},
    {200, 50, 4096, 0, 127, 4089}, {1, 250, 4158, 1, 127, 4126},  {1, 250, 4159, 1, 128, 4159}, /* the count grows by a byte */
    {100, 100, 9613, 2, 99, 9601}, {100, 100, 9614, 3, 0, 9614}, /* the last range, and all */
};

static void cut_lists(void) {
    static uint8_t query[128], expected[10000];
    for (size_t k = 0; k < ITEMS; k++) {
        list_times[k] = START + k;
        list_ids[32 * k] = (uint8_t)k;
        list_ids[32 * k + 31] = (uint8_t)(k + 200);
    }
    query[0] = expected[0] = 0x61;
    for (size_t r = 0; r < sizeof list_rows / sizeof list_rows[0]; r++) {
        const list_row row = list_rows[r];
        const size_t bounds[4] = {0, row.first, row.first + row.second, ITEMS}, next = bounds[row.whole], kept = next + row.more;
        size_t length = 1, end = 1;
        for (size_t k = 0; k < 3; k++) {
            length = put_upper(query, length, bounds[k], bounds[k + 1]);
            length = repeat(query, length, differing + 2, 17, 1);
        }
        for (size_t k = 0; k < row.whole; k++)
            end = put_list(expected, end, bounds[k], bounds[k + 1]);
        if (row.more > 0)
            end = put_list(expected, end, next, kept);
        if (kept < ITEMS)
            end = put_last(expected, end, list_ids + 32 * kept, ITEMS - kept);
        expect("the bytes of lists", end == row.length);
        writes("an answer of lists", (asked){ANSWER, list_times, list_ids, ITEMS, query, length}, row.bytes, expected, end);
        writes("a query of lists", (asked){TAKE, list_times, list_ids, ITEMS, query, length}, row.bytes, expected, end);
    }
}

/* All that a call with a byte limit is handed. */
typedef struct {
    uint64_t times[3];
    uint8_t ids[96], message[56], marks[3], needed[32], out[105];
    size_t ids_len, parts, message_len, marks_len, needed_len, out_len;
    recon_session session;
} given;

/* The bytes that each call writes: all ids; those of two items and the other one's; a skip and the other one's. */
static const size_t lengths[CALLS] = {101, 105, 40};

/* What no call refuses, or, with a fault, what is refused by the fault's number. The message lists an id that is lacking up to time 6, and has a
   fingerprint that differs behind it. */
static void prepare(int call, given *g, uint64_t fault) {
    const uint8_t message[56] = {0x61, 7, 0, 2, 1, 9, [39] = 1};
    memset(g, 0, sizeof *g);
    memcpy(g->times, times, sizeof times);
    memcpy(g->ids, ids, sizeof ids);
    memcpy(g->message, message, sizeof message);
    memset(g->needed, OLD, sizeof g->needed);
    memset(g->out, OLD, sizeof g->out);
    g->marks[0] = 1;
    g->session.marked = 1;
    g->session.label = summed(ids, 3);
    g->session.label.count += fault == 18;
    g->ids_len = fault == 1 ? 95 : 96;
    g->times[1] = fault == 2 ? UINT64_MAX : 5;
    g->parts = fault == 3 ? 1 : 2;
    g->marks_len = fault == 4 ? 2 : 3;
    g->session.done = fault == 5;
    g->message[0] = fault == 6 ? 0x70 : 0x61;
    g->message_len = fault == 7 ? 55 : 56;
    g->message[1] = fault == 8 ? 0x80 : 7;
    g->message[2] = fault == 9 ? 33 : 0;
    g->message[3] = fault == 10 ? 3 : 2;
    g->needed_len = fault == 11 ? 0 : 32;
    g->out_len = lengths[call] - (fault == 12);
}

static recon_session_answer given_to(int call, given *g, size_t bytes) {
    if (call == OPEN)
        return recon_open_within(g->times, 3, g->ids, g->ids_len, g->parts, 64, bytes, g->marks, g->marks_len, g->needed, g->needed_len, g->out,
                                 g->out_len);
    if (call == TAKE)
        return recon_take_within(g->times, 3, g->ids, g->ids_len, g->parts, 64, bytes, g->message, g->message_len, g->session, g->marks,
                                 g->marks_len, g->needed, g->needed_len, g->out, g->out_len);
    recon_answer_t answer =
        recon_answer_within(g->times, 3, g->ids, g->ids_len, g->parts, 64, bytes, g->message, g->message_len, g->out, g->out_len);
    return (recon_session_answer){answer.refusal, answer.length, g->session};
}

/* A call with a fault, or 0 for none, and a byte limit. 14 comes right after 3, and a refusal changes nothing. */
static void refused_within(int call, uint64_t fault, size_t bytes) {
    static given g, before;
    const uint64_t number = bytes < 4096 && (fault == 0 || fault > 3) ? RECON_BYTE_LIMIT : fault;
    prepare(call, &g, fault);
    memcpy(&before, &g, sizeof g);
    recon_session_answer a = given_to(call, &g, bytes);
    expect("a byte limit and another fault", a.refusal == number && a.length == (number == 0 ? lengths[call] : 0));
    expect("a refusal changes nothing", (memcmp(&g, &before, sizeof g) == 0) == (number != 0));
    if (call == OPEN)
        expect("an opened session", same_session(a.session, number == 0 ? begun(ids, 3) : no_session));
    else if (call == TAKE && number == 0)
        expect("a session that went on", is_session(a.session, 2, 1, false, summed(ids, 3)));
    else
        expect("a session stays", same_session(a.session, g.session) && g.session.done == (fault == 5));
}

static void limit_refusals(void) {
    static const uint64_t faults[CALLS][14] = {{1, 2, 3, 4, 12}, {1, 2, 3, 6, 7, 8, 9, 10, 12}, {1, 2, 3, 4, 18, 5, 6, 7, 8, 9, 10, 11, 12}};
    static const size_t limits[] = {0, 1, 4095, 4096, 4097, SIZE_MAX};
    for (int call = 0; call < CALLS; call++)
        for (size_t k = 0; k < sizeof limits / sizeof limits[0]; k++) {
            refused_within(call, 0, limits[k]);
            for (size_t f = 0; faults[call][f] != 0; f++)
                refused_within(call, faults[call][f], limits[k]);
        }
}

/* E11 with a byte limit: the session is done, without room for a message. */
static void done_within(void) {
    const uint8_t reply[5] = {0x61, 0, 0, 2, 0}, one[1] = {1};
    uint8_t marks[2] = {0, OLD}, needed[32], none[1] = {OLD};
    memset(needed, OLD, sizeof needed);
    recon_session_answer taken = recon_take_within(times, 1, ids, 32, 2, 2, 4096, reply, 5, begun(ids, 1), marks, 1, needed, 32, none, 0);
    expect("E11 is done within a limit", taken.refusal == RECON_OK && taken.length == 0 && is_session(taken.session, 1, 0, true, summed(ids, 1)));
    expect("E11 marks its item", begins(marks, 2, one, 1) && begins(needed, 32, nothing, 0) && none[0] == OLD);
}

/* Two tables with most records in common: ours lacks each seventh, theirs each fifth. Their ids rise, too. */
enum { RECORDS = 5000, ROOM = 400000 };

typedef struct {
    uint64_t times[RECORDS];
    uint8_t ids[32 * RECORDS];
    size_t n;
} table;
static table ours, theirs;
static uint8_t our_marks[RECORDS], our_needed[32 * RECORDS], sent_query[ROOM], sent_reply[ROOM];

static bool we_have(size_t k) { return k % 7 != 3; }

static bool they_have(size_t k) { return k % 5 != 1; }

static void id_of(size_t k, uint8_t id[32]) {
    const uint8_t number[4] = {0, 0, (uint8_t)(k >> 8), (uint8_t)k};
    recon_sha256(number, 4, id);
    memcpy(id, number, 4);
}

static void fill(table *t, bool has(size_t), void id(size_t, uint8_t[32])) {
    t->n = 0;
    for (size_t k = 0; k < RECORDS; k++)
        if (has(k)) {
            t->times[t->n] = k / 3;
            id(k, t->ids + 32 * t->n++);
        }
}

/* What the session reports is true and, if it is done, all. */
static int reported_rightly(recon_session s) {
    size_t item = 0, marked = 0, needed = 0;
    uint8_t id[32];
    for (size_t k = 0; k < RECORDS; k++) {
        id_of(k, id);
        if (we_have(k)) {
            const uint8_t mark = our_marks[item++];
            if (mark > 1 || (they_have(k) ? mark == 1 : s.done && mark == 0))
                return 0;
            marked += mark;
        } else if (they_have(k)) {
            const bool listed = needed < s.needed && memcmp(our_needed + 32 * needed, id, 32) == 0;
            if (s.done && !listed)
                return 0;
            needed += listed;
        }
    }
    return item == ours.n && marked == s.marked && needed == s.needed;
}

/* The calls of the two ends, with a byte limit or, where that is 0, without one. A message has as many bytes of room as its limit. */
static size_t room_for(size_t bytes) { return bytes < ROOM ? bytes : ROOM; }

static recon_session_answer open_ours(size_t bytes) {
    if (bytes == 0)
        return recon_open(ours.times, ours.n, ours.ids, 32 * ours.n, 16, 64, our_marks, ours.n, our_needed, sizeof our_needed, sent_query, ROOM);
    return recon_open_within(ours.times, ours.n, ours.ids, 32 * ours.n, 16, 64, bytes, our_marks, ours.n, our_needed, sizeof our_needed,
                             sent_query, room_for(bytes));
}

static recon_answer_t answer_theirs(size_t bytes, size_t length) {
    if (bytes == 0)
        return recon_answer(theirs.times, theirs.n, theirs.ids, 32 * theirs.n, 16, 64, sent_query, length, sent_reply, ROOM);
    return recon_answer_within(theirs.times, theirs.n, theirs.ids, 32 * theirs.n, 16, 64, bytes, sent_query, length, sent_reply,
                               room_for(bytes));
}

static recon_session_answer take_ours(size_t bytes, size_t length, recon_session s) {
    if (bytes == 0)
        return recon_take(ours.times, ours.n, ours.ids, 32 * ours.n, 16, 64, sent_reply, length, s, our_marks, ours.n, our_needed,
                          sizeof our_needed, sent_query, ROOM);
    return recon_take_within(ours.times, ours.n, ours.ids, 32 * ours.n, 16, 64, bytes, sent_reply, length, s, our_marks, ours.n, our_needed,
                             sizeof our_needed, sent_query, room_for(bytes));
}

static recon_unlabelled_session unlabelled(recon_session s) { return (recon_unlabelled_session){s.marked, s.needed, s.done}; }

/* The session with the label of a table of ours, whose marks and needed list are those of the session. */
static recon_session_answer convert_ours(const table *t, recon_session s) {
    return recon_session_convert(t->times, t->n, t->ids, 32 * t->n, unlabelled(s), our_marks, t->n, our_needed, sizeof our_needed);
}

static int is_converted(recon_session_answer a, recon_session s) { return a.refusal == RECON_OK && a.length == 0 && same_session(a.session, s); }

/* The limits of each end, for three of its calls in turn, 0 for none. */
typedef struct {
    size_t ours[3], theirs[3];
} byte_limits;

/* The longest messages of a session, and how many takes it had. */
typedef struct {
    size_t query, reply, takes;
} course;

static size_t larger(size_t a, size_t b) { return a > b ? a : b; }

static course run_session(byte_limits l) {
    course c = {0, 0, 0};
    recon_session_answer sent = open_ours(l.ours[0]);
    expect("a session is opened", sent.refusal == RECON_OK);
    while (!sent.session.done) {
        expect("a conversion gives an open session back", is_converted(convert_ours(&ours, sent.session), sent.session));
        const size_t our_bytes = l.ours[(c.takes + 1) % 3], their_bytes = l.theirs[c.takes % 3];
        c.query = larger(c.query, sent.length);
        const recon_answer_t reply = answer_theirs(their_bytes, sent.length);
        expect("a query is answered within the limit", reply.refusal == RECON_OK && (their_bytes == 0 || reply.length <= their_bytes));
        c.reply = larger(c.reply, reply.length);
        sent = take_ours(our_bytes, reply.length, sent.session);
        expect("a reply is taken within the limit", sent.refusal == RECON_OK && (our_bytes == 0 || sent.length <= our_bytes));
        expect("reports are right", reported_rightly(sent.session));
        expect("the session ends", ++c.takes < RECORDS);
    }
    expect("a query is written until the session is done", sent.length == 0);
    expect("a conversion gives a session back that is done", is_converted(convert_ours(&ours, sent.session), sent.session));
    return c;
}

/* Whole sessions. 64 * 16^2 is at least our items, so that without limits three takes are enough. */
static void sessions_within(void) {
    fill(&ours, we_have, id_of);
    fill(&theirs, they_have, id_of);
    const course plain = run_session((byte_limits){{0, 0, 0}, {0, 0, 0}});
    expect("without limits", plain.takes <= 3 && plain.query > 4096 && plain.reply > 4096);
    const course wide = run_session((byte_limits){{plain.query, ROOM, SIZE_MAX}, {plain.reply, ROOM, SIZE_MAX}});
    expect("limits that are not met", wide.takes == plain.takes && wide.query == plain.query && wide.reply == plain.reply);
    const course both = run_session((byte_limits){{4096, 4096, 4096}, {4096, 4096, 4096}});
    expect("limits at both ends", both.takes > 3);
    const course opener = run_session((byte_limits){{4096, 4096, 4096}, {0, 0, 0}});
    expect("a limit of the opener", opener.takes > 3 && opener.query <= 4096 && opener.reply > 4096);
    const course responder = run_session((byte_limits){{0, 0, 0}, {4096, 4096, 4096}});
    expect("a limit of the responder", responder.takes > 3 && responder.query > 4096 && responder.reply <= 4096);
    const course changing = run_session((byte_limits){{4096, 0, 6000}, {0, 5000, 4096}});
    expect("limits that change", changing.takes > 3);
}

/* All that a call for folding in is handed: the table and its item count, the session with the needed list, and the batch. */
enum { FOLD_ROOM = 16 };

typedef struct {
    uint64_t times[FOLD_ROOM], batch_times[FOLD_ROOM];
    uint8_t ids[32 * FOLD_ROOM], needed[32 * FOLD_ROOM], batch_ids[32 * FOLD_ROOM];
    size_t times_len, ids_len, items, needed_len, batch_times_len, batch_ids_len;
    recon_session session;
} fold;

static recon_inquiry inquire(const fold *f) {
    return recon_fold_inquire(f->times, f->times_len, f->ids, f->ids_len, f->items, f->session, f->needed, f->needed_len, f->batch_times,
                              f->batch_times_len, f->batch_ids, f->batch_ids_len);
}

static recon_commit commit(fold *f) {
    return recon_fold_commit(f->times, f->times_len, f->ids, f->ids_len, f->items, f->session, f->needed, f->needed_len, f->batch_times,
                             f->batch_times_len, f->batch_ids, f->batch_ids_len);
}

static int is_inquiry(recon_inquiry a, uint64_t refusal, size_t entering, size_t staying) {
    return a.refusal == refusal && a.entering == entering && a.staying == staying;
}

static int is_commit(recon_commit a, uint64_t refusal, size_t items, recon_session s) {
    return a.refusal == refusal && a.items == items && same_session(a.session, s);
}

/* The inquiry says yes, the commit does what it said, and leaves every byte as in `after`. */
static void folds(const char *what, const fold *before, const fold *after) {
    static fold f;
    memcpy(&f, before, sizeof f);
    expect(what, is_inquiry(inquire(&f), RECON_OK, after->items - before->items, after->session.needed));
    expect("an inquiry changes nothing", memcmp(&f, before, sizeof f) == 0);
    expect(what, is_commit(commit(&f), RECON_OK, after->items, after->session));
    f.items = after->items;
    f.session.needed = after->session.needed;
    expect("table and needed list after a commit, and the bytes behind them", memcmp(&f, after, sizeof f) == 0);
}

/* Both are refused by this number, and change nothing. */
static void refused_fold(const char *what, const fold *before, uint64_t number) {
    static fold f;
    memcpy(&f, before, sizeof f);
    expect(what, is_inquiry(inquire(&f), number, 0, 0));
    expect(what, is_commit(commit(&f), number, before->items, before->session));
    expect("a refused inquiry or commit changes nothing", memcmp(&f, before, sizeof f) == 0);
}

/* An item whose id has one byte and then zeros. */
typedef struct {
    uint64_t time;
    uint8_t first;
} short_item;

static void put_item(uint64_t *t, uint8_t *i, size_t at, short_item item) {
    t[at] = item.time;
    memset(i + 32 * at, 0, 32);
    i[32 * at] = item.first;
}

/* No label is compared, and a commit keeps it. */
static const recon_label any_label = {{UINT64_MAX, 1, 2, 3}, 4};

/* What E21 to E23 have in common: a table of two items in buffers for four, three needed ids, and a batch of one or two. */
static void put_fold(fold *f, const short_item *batch, size_t n) {
    const short_item items[2] = {{5, 1}, {7, 3}};
    memset(f, OLD, sizeof *f);
    for (size_t k = 0; k < 2; k++)
        put_item(f->times, f->ids, k, items[k]);
    for (size_t k = 0; k < n; k++)
        put_item(f->batch_times, f->batch_ids, k, batch[k]);
    memset(f->needed, 0, 96);
    for (size_t k = 0; k < 3; k++)
        f->needed[32 * k] = (uint8_t)(k + 2);
    f->times_len = 4;
    f->ids_len = 128;
    f->items = 2;
    f->needed_len = 96;
    f->batch_times_len = n;
    f->batch_ids_len = 32 * n;
    memset(&f->session, 0, sizeof f->session);
    f->session.marked = 1;
    f->session.needed = 3;
    f->session.done = true;
    f->session.label = any_label;
}

/* The same afterwards: its items, and its needed ids by their first bytes. What stands behind them is what stood there before. */
static void put_folded(fold *after, const fold *before, const short_item *items, size_t n, const uint8_t *needed, size_t count) {
    memcpy(after, before, sizeof *after);
    for (size_t k = 0; k < n; k++)
        put_item(after->times, after->ids, k, items[k]);
    for (size_t k = 0; k < count; k++)
        after->needed[32 * k] = needed[k];
    after->items = n;
    after->session.needed = count;
}

/* E21 and E22, in buffers as long as the merge, longer, and not of the same length; and a batch of no items. */
static void known_folds(void) {
    static const short_item two[2] = {{5, 2}, {7, 4}}, twice[2] = {{6, 2}, {8, 2}}, other_time[1] = {{9, 3}};
    static const short_item with_two[4] = {{5, 1}, {5, 2}, {7, 3}, {7, 4}}, with_twice[4] = {{5, 1}, {6, 2}, {7, 3}, {8, 2}};
    static const short_item with_other[3] = {{5, 1}, {7, 3}, {9, 3}};
    static const uint8_t third[1] = {3}, last_two[2] = {3, 4}, outer_two[2] = {2, 4};
    static const size_t rooms[][2] = {{4, 128}, {4, 159}, {5, 128}, {16, 512}, {4, 512}, {16, 130}};
    static fold f, after;
    for (size_t r = 0; r < sizeof rooms / sizeof rooms[0]; r++) {
        put_fold(&f, two, 2);
        f.times_len = rooms[r][0];
        f.ids_len = rooms[r][1];
        put_folded(&after, &f, with_two, 4, third, 1);
        folds("E21", &f, &after);
    }
    put_fold(&f, twice, 2);
    put_folded(&after, &f, with_twice, 4, last_two, 2);
    folds("E22: an id under two times", &f, &after);
    put_fold(&f, other_time, 1);
    put_folded(&after, &f, with_other, 3, outer_two, 2);
    folds("E22: an id that the table has under another time", &f, &after);
    put_fold(&f, two, 0);
    f.times_len = 2;
    f.ids_len = 64;
    folds("a batch of no items, and full buffers", &f, &f);
    f.times_len = f.ids_len = f.items = f.needed_len = f.session.needed = 0;
    folds("a table of no items, and nothing is needed", &f, &f);
    put_fold(&f, two, 2);
    f.items = 0;
    f.times_len = 2;
    f.ids_len = 64;
    put_folded(&after, &f, two, 2, third, 1);
    folds("a table of no items", &f, &after);
}

/* E23, and the buffers that are just too short. */
static void known_refusals(void) {
    static const short_item two[2] = {{5, 2}, {7, 4}}, not_needed[1] = {{6, 5}}, in_table[1] = {{7, 3}};
    static fold f;
    put_fold(&f, two, 2);
    f.session.done = false;
    refused_fold("E23: a session that is not done", &f, RECON_SESSION_OPEN);
    put_fold(&f, not_needed, 1);
    refused_fold("E23: an id that is not needed", &f, RECON_NOT_DUE);
    put_fold(&f, in_table, 1);
    refused_fold("E23: an item that is in the table", &f, RECON_NOT_DUE);
    put_fold(&f, two, 2);
    f.times_len = 3;
    f.ids_len = 96;
    refused_fold("E23: buffers for three items", &f, RECON_TABLE_FULL);
    f.times_len = 4;
    f.ids_len = 127;
    refused_fold("one byte too few for the ids", &f, RECON_TABLE_FULL);
    f.times_len = 3;
    f.ids_len = 512;
    refused_fold("one element too few for the times", &f, RECON_TABLE_FULL);
    put_fold(&f, two, 2);
    f.needed_len = 95;
    refused_fold("E23: a needed buffer of 95 bytes", &f, RECON_WRONG_STATE);
    put_fold(&f, two, 2);
    f.session.needed = 2;
    refused_fold("an id that stands behind the needed list", &f, RECON_NOT_DUE);
    f.session.needed = 0;
    refused_fold("no needed ids", &f, RECON_NOT_DUE);
}

/* What can be wrong, and its number. */
enum {
    SHORT_TIMES, SHORT_IDS, MANY_ITEMS, ITEMS_WRAP, SHORT_BATCH, LONG_BATCH, /* 1 */
    EQUAL_ITEMS, TABLE_FALLS, TABLE_INFINITE, EQUAL_BATCH, BATCH_FALLS, BATCH_INFINITE, /* 2 */
    PARTIAL_ID, MANY_NEEDED, NEEDED_WRAP, EQUAL_NEEDED, NEEDED_FALLS, /* 4 */
    NOT_DONE, NOT_NEEDED, IN_TABLE, FULL_TIMES, FULL_IDS, FOLD_FAULTS
};
static const uint64_t fold_numbers[FOLD_FAULTS] = {1, 1, 1, 1, 1, 1, 2, 2, 2, 2, 2, 2, 4, 4, 4, 4, 4, 15, 16, 16, 17, 17};

/* E21 with a set of faults. Where two of them touch the same place, the one of the lower number stands. */
static void put_faults(fold *f, unsigned faults) {
#define HAS(fault) (faults >> (fault) & 1)
    const short_item batch[2] = {{5, HAS(NOT_NEEDED) ? 9 : 2}, {7, HAS(IN_TABLE) ? 3 : 4}};
    put_fold(f, batch, 2);
    f->times_len = HAS(SHORT_TIMES) ? 1 : HAS(FULL_TIMES) ? 3 : 4;
    f->ids_len = HAS(SHORT_IDS) ? 63 : HAS(FULL_IDS) ? 127 : 128;
    f->items = HAS(MANY_ITEMS) ? (size_t)RECON_MAX_ITEMS + 1 : HAS(ITEMS_WRAP) ? SIZE_MAX / 32 + 3 : 2;
    f->batch_ids_len = HAS(SHORT_BATCH) ? 63 : HAS(LONG_BATCH) ? 65 : 64;
    if (HAS(EQUAL_ITEMS))
        put_item(f->times, f->ids, 1, (short_item){5, 1});
    if (HAS(TABLE_FALLS))
        put_item(f->times, f->ids, 1, (short_item){4, 9});
    if (HAS(TABLE_INFINITE))
        f->times[1] = UINT64_MAX;
    if (HAS(EQUAL_BATCH))
        put_item(f->batch_times, f->batch_ids, 1, batch[0]);
    if (HAS(BATCH_FALLS))
        put_item(f->batch_times, f->batch_ids, 1, (short_item){5, 0});
    if (HAS(BATCH_INFINITE))
        f->batch_times[1] = UINT64_MAX;
    f->needed_len = HAS(PARTIAL_ID) ? 97 : 96;
    f->session.needed = HAS(MANY_NEEDED) ? 4 : HAS(NEEDED_WRAP) ? SIZE_MAX / 32 + 3 : 3;
    if (HAS(EQUAL_NEEDED))
        f->needed[32] = 2;
    if (HAS(NEEDED_FALLS))
        f->needed[64] = 1;
    f->session.done = !HAS(NOT_DONE);
#undef HAS
}

/* Every fault by itself and every two together: the lower number counts. */
static void fold_refusals(void) {
    static fold f;
    put_faults(&f, 0);
    expect("no fault", inquire(&f).refusal == RECON_OK);
    for (unsigned a = 0; a < FOLD_FAULTS; a++)
        for (unsigned b = a; b < FOLD_FAULTS; b++) {
            put_faults(&f, 1u << a | 1u << b);
            refused_fold("one fault or two", &f, fold_numbers[a]);
        }
}

/* Numbers below n, the same in each run. */
static size_t below(size_t n) {
    static uint64_t state = 1;
    state = state * 6364136223846793005u + 1442695040888963407u;
    return (size_t)(state >> 33) % n;
}

/* Where an item stands in a table, or would stand. */
static size_t item_place(const uint64_t *t, const uint8_t *i, size_t n, uint64_t time, const uint8_t *id) {
    size_t at = 0;
    while (at < n && (t[at] < time || (t[at] == time && memcmp(i + 32 * at, id, 32) < 0)))
        at++;
    return at;
}

static bool has_item(const uint64_t *t, const uint8_t *i, size_t n, uint64_t time, const uint8_t *id) {
    const size_t at = item_place(t, i, n, time, id);
    return at < n && t[at] == time && memcmp(i + 32 * at, id, 32) == 0;
}

static void insert_item(uint64_t *t, uint8_t *i, size_t *n, uint64_t time, const uint8_t *id) {
    const size_t at = item_place(t, i, *n, time, id);
    memmove(t + at + 1, t + at, sizeof *t * (*n - at));
    memmove(i + 32 * (at + 1), i + 32 * at, 32 * (*n - at));
    t[at] = time;
    memcpy(i + 32 * at, id, 32);
    ++*n;
}

static bool has_id(const uint8_t *list, size_t n, const uint8_t *id) {
    for (size_t k = 0; k < n; k++)
        if (memcmp(list + 32 * k, id, 32) == 0)
            return true;
    return false;
}

/* One of eight ids, which differ in the first byte or in the last. */
static void some_id(uint8_t id[32], size_t which) {
    memset(id, 7, 32);
    id[0] = (uint8_t)(which % 2);
    id[31] = (uint8_t)(which / 2);
}

/* Up to so many items; where a list has ids, most of them have one of these. Answers how many they are. */
static size_t some_items(uint64_t *t, uint8_t *i, size_t most, const uint8_t *list, size_t listed) {
    size_t n = 0;
    for (size_t k = below(most + 1); k > 0; k--) {
        const uint64_t time = below(4);
        uint8_t id[32];
        some_id(id, below(8));
        if (listed > 0 && below(16) > 0)
            memcpy(id, list + 32 * below(listed), 32);
        if (!has_item(t, i, n, time, id))
            insert_item(t, i, &n, time, id);
    }
    return n;
}

static void some_fold(fold *f) {
    memset(f, OLD, sizeof *f);
    memset(&f->session, 0, sizeof f->session);
    f->session.marked = below(9);
    f->session.done = true;
    f->session.label = any_label;
    for (size_t which = 0; which < 8; which++)
        if (below(4) > 0) /* in the order of ids, in which first bytes count first */
            some_id(f->needed + 32 * f->session.needed++, which / 4 + which % 4 * 2);
    f->needed_len = 32 * (f->session.needed + below(4));
    f->items = some_items(f->times, f->ids, 6, f->needed, 0);
    f->batch_times_len = some_items(f->batch_times, f->batch_ids, 4, f->needed, f->session.needed);
    f->batch_ids_len = 32 * f->batch_times_len;
    f->times_len = f->items + f->batch_times_len + below(4);
    f->ids_len = 32 * (f->items + f->batch_times_len) + below(96);
    if (below(8) == 0)
        f->times_len = f->items + below(f->batch_times_len + 1);
    if (below(8) == 0)
        f->ids_len = 32 * f->items + below(32 * f->batch_times_len + 1);
}

/* What the specification says, item by item: 16, 17, or 0 and all that was lent as it is afterwards. */
static uint64_t folded(const fold *f, fold *after) {
    memcpy(after, f, sizeof *after);
    for (size_t k = 0; k < f->batch_times_len; k++) {
        const uint64_t time = f->batch_times[k];
        const uint8_t *id = f->batch_ids + 32 * k;
        if (!has_id(f->needed, f->session.needed, id) || has_item(f->times, f->ids, f->items, time, id))
            return RECON_NOT_DUE;
    }
    if (f->times_len < f->items + f->batch_times_len || f->ids_len < 32 * (f->items + f->batch_times_len))
        return RECON_TABLE_FULL;
    for (size_t k = 0; k < f->batch_times_len; k++)
        insert_item(after->times, after->ids, &after->items, f->batch_times[k], f->batch_ids + 32 * k);
    after->session.needed = 0;
    for (size_t k = 0; k < f->session.needed; k++)
        if (!has_id(f->batch_ids, f->batch_times_len, f->needed + 32 * k))
            memcpy(after->needed + 32 * after->session.needed++, f->needed + 32 * k, 32);
    return RECON_OK;
}

static void many_folds(void) {
    static fold f, after;
    size_t met[RECON_TABLE_FULL + 1] = {0}, twice = 0;
    for (size_t k = 0; k < 20000; k++) {
        some_fold(&f);
        const uint64_t number = folded(&f, &after);
        met[number]++;
        if (number == RECON_OK)
            folds("a fold", &f, &after);
        else
            refused_fold("a refused fold", &f, number);
        twice += number == RECON_OK && after.items - f.items > f.session.needed - after.session.needed;
    }
    expect("each kind of fold was met", met[RECON_OK] > 1000 && met[RECON_NOT_DUE] > 1000 && met[RECON_TABLE_FULL] > 1000 && twice > 1000);
}

/* Ids that rise with the records of one time, and not with the times. */
static void digest_of(size_t k, uint8_t id[32]) {
    const uint8_t time[2] = {(uint8_t)(k / 3 >> 8), (uint8_t)(k / 3)}, number[3] = {0, (uint8_t)(k >> 8), (uint8_t)k};
    uint8_t of_time[32];
    recon_sha256(time, 2, of_time);
    recon_sha256(number, 3, id);
    id[0] = (uint8_t)((of_time[0] & 0xfc) | k % 3);
}

static bool either_has(size_t k) { return we_have(k) || they_have(k); }

static bool only_they_have(size_t k) { return they_have(k) && !we_have(k); }

/* A session to its end. */
static recon_session finished(size_t bytes) {
    recon_session_answer sent = open_ours(bytes);
    while (sent.refusal == RECON_OK && !sent.session.done)
        sent = take_ours(bytes, answer_theirs(bytes, sent.length).length, sent.session);
    expect("a session is done", sent.refusal == RECON_OK);
    return sent.session;
}

static recon_inquiry inquire_ours(recon_session s, const table *batch) {
    return recon_fold_inquire(ours.times, RECORDS, ours.ids, sizeof ours.ids, ours.n, s, our_needed, sizeof our_needed, batch->times, batch->n,
                              batch->ids, 32 * batch->n);
}

static recon_commit commit_ours(recon_session s, const table *batch, size_t room) {
    return recon_fold_commit(ours.times, room, ours.ids, 32 * room, ours.n, s, our_needed, sizeof our_needed, batch->times, batch->n, batch->ids,
                             32 * batch->n);
}

/* Takes a batch in: without room, with it, and once more. */
static recon_session take_in(recon_session s, const table *batch) {
    static table before;
    memcpy(&before, &ours, sizeof ours);
    const recon_inquiry said = inquire_ours(s, batch);
    expect("what would enter, and what would stay", is_inquiry(said, RECON_OK, batch->n, s.needed - batch->n));
    expect("no room for the last item", is_commit(commit_ours(s, batch, ours.n + batch->n - 1), RECON_TABLE_FULL, ours.n, s));
    expect("a refused commit changes nothing", memcmp(&before, &ours, sizeof ours) == 0);
    const recon_commit done = commit_ours(s, batch, RECORDS);
    expect("the commit does what was said", is_commit(done, RECON_OK, ours.n + batch->n, (recon_session){s.marked, said.staying, true, s.label}));
    ours.n = done.items;
    expect("the same batch again", is_inquiry(inquire_ours(done.session, batch), RECON_NOT_DUE, 0, 0));
    expect("it is not needed any more", is_commit(commit_ours(done.session, batch, RECORDS), RECON_NOT_DUE, ours.n, done.session));
    return done.session;
}

/* After a commit: the session keeps the label of the table at its opening, which gives it back. The table as it is now does not fit the marks, and
   if they had its length, it would be another. */
static void after_commit(const table *opened, recon_session s) {
    const uint8_t says_nothing[1] = {0x61};
    static uint8_t no_marks[RECORDS];
    expect("a conversion gives a session back after a commit", is_converted(convert_ours(opened, s), s));
    recon_session_answer marked = recon_session_convert(ours.times, ours.n, ours.ids, 32 * ours.n, unlabelled(s), our_marks, opened->n,
                                                        our_needed, sizeof our_needed);
    expect("the marks do not fit the table after a commit", marked.refusal == RECON_WRONG_STATE && same_session(marked.session, no_session));
    s.marked = 0;
    recon_session_answer taken = recon_take(ours.times, ours.n, ours.ids, 32 * ours.n, 16, 64, says_nothing, 1, s, no_marks, ours.n, our_needed,
                                            sizeof our_needed, sent_query, ROOM);
    expect("the table after a commit is another", taken.refusal == RECON_OTHER_TABLE && same_session(taken.session, s));
}

/* A session, then what only they have in so many batches, each of items from the whole table: then ours is the union, and both agree on it. */
static void union_by(size_t batches, size_t bytes) {
    static table both, batch, lacking, opened;
    memset(&ours, OLD, sizeof ours);
    memset(&both, OLD, sizeof both);
    fill(&ours, we_have, digest_of);
    fill(&theirs, they_have, digest_of);
    fill(&both, either_has, digest_of);
    fill(&lacking, only_they_have, digest_of);
    recon_session s = finished(bytes);
    const size_t marked = s.marked;
    const recon_label label = s.label;
    opened = ours;
    expect("all of it is needed", s.needed == lacking.n && lacking.n > 0);
    for (size_t b = 0; b < batches; b++) {
        batch.n = 0;
        for (size_t k = b; k < lacking.n; k += batches) {
            batch.times[batch.n] = lacking.times[k];
            memcpy(batch.ids + 32 * batch.n++, lacking.ids + 32 * k, 32);
        }
        s = take_in(s, &batch);
        after_commit(&opened, s);
    }
    expect("nothing is needed any more", is_session(s, marked, 0, true, label));
    expect("the table is the union, and what is behind it stays", memcmp(&ours, &both, sizeof ours) == 0);
    expect("another session finds nothing that is lacking", is_session(finished(bytes), marked, 0, true, summed(both.ids, both.n)));
}

static void unions(void) {
    union_by(1, 0);
    union_by(7, 0);
    union_by(3, 4096);
}

/* As many items as a table can have, at the times 0, 1, .. and with ids of zeros; t and i have room for one more. */
static void largest_folds(uint64_t *t, uint8_t *i) {
    const size_t most = RECON_MAX_ITEMS, id_bytes = most * RECON_ID_BYTES, room = most + 1, room_bytes = id_bytes + RECON_ID_BYTES;
    const recon_session session = {0, 1, true, any_label}, none_needed = {0, 0, true, any_label};
    uint64_t *times_then = malloc(room * sizeof *t);
    uint8_t *ids_then = malloc(room_bytes), needed[32] = {0};
    const uint64_t before[1] = {0}, behind[1] = {most};
    if (times_then == NULL || ids_then == NULL)
        exit(2);
#define INQUIRE(items, bt, n) recon_fold_inquire(t, room, i, room_bytes, items, session, needed, 32, bt, n, i, 32 * (n))
    expect("a batch of the most items", is_inquiry(INQUIRE(0, t, most), RECON_OK, most, 0));
    expect("a batch of one more", is_inquiry(INQUIRE(0, t, most + 1), RECON_TABLE_SIZE, 0, 0));
    expect("the item that makes the most", is_inquiry(INQUIRE(most - 1, behind, 1), RECON_OK, 1, 0));
    expect("an item more than the most", is_inquiry(INQUIRE(most, behind, 1), RECON_TABLE_FULL, 0, 0));
    expect("no more items", is_inquiry(INQUIRE(most, behind, 0), RECON_OK, 0, 1));
    expect("a table of more than the most", is_inquiry(INQUIRE(most + 1, behind, 0), RECON_TABLE_SIZE, 0, 0));
    expect("the most items into a table of one", is_inquiry(INQUIRE(1, t + 1, most), RECON_TABLE_FULL, 0, 0));
#undef INQUIRE
    /* All but the first item; it goes before all others. */
    memcpy(times_then, t + 1, most * sizeof *t);
    memset(ids_then, 0, room_bytes);
    recon_commit done =
        recon_fold_commit(times_then, room, ids_then, room_bytes, most - 1, session, needed, 32, before, 1, i, RECON_ID_BYTES);
    expect("an item before all others", is_commit(done, RECON_OK, most, none_needed));
    expect("all items are moved by one", memcmp(times_then, t, most * sizeof *t) == 0 && memcmp(ids_then, i, room_bytes) == 0);
    done = recon_fold_commit(times_then, most, ids_then, id_bytes, 0, session, needed, 32, t, most, i, id_bytes);
    expect("an id under as many times", is_commit(done, RECON_OK, most, none_needed) && memcmp(times_then, t, most * sizeof *t) == 0);
    free(times_then);
    free(ids_then);
}

/* A needed list of more ids than a table can have items. Thousands of them share their first eight bytes; a later id has an earlier time. */
enum { LONG_LIST = 2 * RECON_MAX_ITEMS + 3, LATEST = 1 << 30 };

static void put_number(uint8_t *id, size_t k) {
    memset(id, 0, 32);
    for (size_t j = 0; j < 4; j++)
        id[9 - j] = (uint8_t)(k >> 8 * j);
}

typedef struct {
    uint64_t *times, *batch_times;
    uint8_t *ids, *batch_ids, *needed, *expected;
    size_t items, batch;
    recon_session session;
} long_fold;

/* Takes in the ids of the needed list at which `leaves` holds, counted from its start. */
static void take_from(long_fold *f, bool leaves(size_t)) {
    size_t kept = 0, end = 32 * f->session.needed;
    f->batch = 0;
    memcpy(f->expected, f->needed, end);
    for (size_t k = f->session.needed; k-- > 0;)
        if (leaves(k)) {
            const uint8_t *id = f->needed + 32 * k;
            f->batch_times[f->batch] = LATEST - ((size_t)id[6] << 24 | (size_t)id[7] << 16 | (size_t)id[8] << 8 | id[9]);
            memcpy(f->batch_ids + 32 * f->batch++, id, 32);
        }
    for (size_t k = 0; k < f->session.needed; k++)
        if (!leaves(k))
            memcpy(f->expected + 32 * kept++, f->needed + 32 * k, 32);
    const size_t room = f->items + f->batch;
    const recon_inquiry said = recon_fold_inquire(f->times, room, f->ids, 32 * room, f->items, f->session, f->needed, end, f->batch_times,
                                                   f->batch, f->batch_ids, 32 * f->batch);
    expect("what would leave a long list", is_inquiry(said, RECON_OK, f->batch, kept));
    const recon_commit done = recon_fold_commit(f->times, room, f->ids, 32 * room, f->items, f->session, f->needed, end, f->batch_times, f->batch,
                                                f->batch_ids, 32 * f->batch);
    expect("what leaves a long list", is_commit(done, RECON_OK, room, (recon_session){4, kept, true, any_label}));
    expect("the others stay, and what is behind them", memcmp(f->needed, f->expected, end) == 0);
    f->items = done.items;
    f->session = done.session;
}

static bool at_ends(size_t k) { return k == 0 || k % RECON_MAX_ITEMS < 2 || k % RECON_MAX_ITEMS == RECON_MAX_ITEMS - 1 || k == LONG_LIST - 1; }

static bool each_third(size_t k) { return k % 3 == 1; }

static bool first_few(size_t k) { return k < 5; }

static void long_lists(void) {
    long_fold f = {malloc(8 * RECON_MAX_ITEMS), malloc(8 * RECON_MAX_ITEMS), malloc(32 * RECON_MAX_ITEMS), malloc(32 * RECON_MAX_ITEMS),
                   malloc((size_t)32 * LONG_LIST), malloc((size_t)32 * LONG_LIST), 0, 0, {4, LONG_LIST, true, any_label}};
    if (f.times == NULL || f.batch_times == NULL || f.ids == NULL || f.batch_ids == NULL || f.needed == NULL || f.expected == NULL)
        exit(2);
    for (size_t k = 0; k < LONG_LIST; k++)
        put_number(f.needed + 32 * k, 7 * k);
    take_from(&f, at_ends);
    take_from(&f, each_third);
    take_from(&f, first_few);
    size_t falling = 0;
    while (falling + 1 < f.items && f.times[falling] < f.times[falling + 1] && memcmp(f.ids + 32 * falling, f.ids + 32 * (falling + 1), 32) > 0)
        falling++;
    expect("a table of later ids at earlier times", falling + 1 == f.items && f.items + f.session.needed == LONG_LIST);
    free(f.times), free(f.batch_times), free(f.ids), free(f.batch_ids), free(f.needed), free(f.expected);
}

/* The same items: converted, and taken with the table and with another last id. */
static void largest_conversion(const uint64_t *t, uint8_t *i) {
    const size_t most = RECON_MAX_ITEMS;
    const uint8_t reply[1] = {0x61};
    uint8_t *marks = calloc(most + 1, 1), none[1] = {OLD};
    if (marks == NULL)
        exit(2);
#define CONVERT(n) recon_session_convert(t, n, i, 32 * (n), (recon_unlabelled_session){0, 0, false}, marks, n, nothing, 0)
#define TAKE_WITH(s) recon_take(t, most, i, 32 * most, 2, 2, reply, 1, s, marks, most, none, 0, none, 0).refusal
    const recon_session_answer one_more = CONVERT(most + 1), converted = CONVERT(most);
    expect("one item more", one_more.refusal == RECON_TABLE_SIZE && same_session(one_more.session, no_session));
    expect("the most items are converted", is_converted(converted, (recon_session){0, 0, false, {{0, 0, 0, 0}, most}}));
    expect("the most items are taken", TAKE_WITH(converted.session) == RECON_OK);
    i[32 * most - 1] = 1;
    expect("another last id", TAKE_WITH(converted.session) == RECON_OTHER_TABLE);
    expect("its label", is_converted(CONVERT(most), (recon_session){0, 0, false, {{0, 0, 0, (uint64_t)1 << 56}, most}}));
    i[32 * most - 1] = 0;
#undef CONVERT
#undef TAKE_WITH
    free(marks);
}

/* The refusal of an answer about a table of n items, with so many bytes of ids, or by this cut, or by this byte limit. */
static uint64_t by_size(const uint64_t *t, size_t n, const uint8_t *i, size_t id_bytes) {
    uint8_t out[16];
    return recon_fingerprint(t, n, i, id_bytes, true, 0, nothing, 0, true, 0, nothing, 0, out);
}

static uint64_t by_cut(size_t parts, size_t limit) {
    const uint8_t query[1] = {0x61};
    uint8_t out[16];
    return recon_answer(times, 3, ids, 96, parts, limit, query, 1, out, 16).refusal;
}

static uint64_t by_bytes(size_t bytes) {
    const uint8_t query[1] = {0x61};
    uint8_t out[16];
    return answered(bytes, query, 1, out, 16).refusal;
}

/* The constants are the limits that the library has. */
static void limits(void) {
    const size_t most = RECON_MAX_ITEMS;
    uint64_t *t = malloc((most + 1) * sizeof *t);
    uint8_t *i = calloc(most + 1, RECON_ID_BYTES), digest[RECON_DIGEST_BYTES + 1], fingerprint[RECON_FINGERPRINT_BYTES + 1];
    if (t == NULL || i == NULL)
        exit(2);
    for (size_t k = 0; k <= most; k++)
        t[k] = k;
    expect("the most items", by_size(t, most, i, most * RECON_ID_BYTES) == RECON_OK);
    expect("one item more", by_size(t, most + 1, i, (most + 1) * RECON_ID_BYTES) == RECON_TABLE_SIZE);
    expect("the bytes of an id", by_size(t, 1, i, RECON_ID_BYTES) == RECON_OK && by_size(t, 1, i, RECON_ID_BYTES + 1) == RECON_TABLE_SIZE);
    largest_conversion(t, i);
    largest_tree(t, i);
    largest_folds(t, i);
    free(t);
    free(i);
    expect("the fewest parts", by_cut(RECON_MIN_PARTS, RECON_MIN_PARTS) == RECON_OK && by_cut(RECON_MIN_PARTS - 1, 64) == RECON_CUT_LIMITS);
    expect("the most parts", by_cut(RECON_MAX_PARTS, RECON_MAX_PARTS) == RECON_OK && by_cut(RECON_MAX_PARTS + 1, 65) == RECON_CUT_LIMITS);
    expect("the largest list limit", by_cut(2, RECON_MAX_LIMIT) == RECON_OK && by_cut(2, RECON_MAX_LIMIT + 1) == RECON_CUT_LIMITS);
    expect("the least byte limit", by_bytes(RECON_MIN_BYTE_LIMIT) == RECON_OK && by_bytes(RECON_MIN_BYTE_LIMIT - 1) == RECON_BYTE_LIMIT);
    expect("the default cut", by_cut(RECON_DEFAULT_PARTS, RECON_DEFAULT_LIMIT) == RECON_OK);
    memset(digest, OLD, sizeof digest);
    memset(fingerprint, OLD, sizeof fingerprint);
    recon_sha256(nothing, 0, digest);
    expect("the bytes of a digest", digest[RECON_DIGEST_BYTES] == OLD && digest[RECON_DIGEST_BYTES - 1] == 0x55);
    expect("a fingerprint of no items", recon_fingerprint(times, 3, ids, 96, true, 0, nothing, 0, true, 0, nothing, 0, fingerprint) == RECON_OK);
    expect("the bytes of a fingerprint", fingerprint[RECON_FINGERPRINT_BYTES] == OLD && fingerprint[RECON_FINGERPRINT_BYTES - 1] == 0xbc);
}

/* Opens with just so many bytes, and with one less: whether the first is enough and the second is not. */
static int opens_with(const uint64_t *t, const uint8_t *i, size_t n, size_t parts, size_t limit, size_t bytes) {
    static uint8_t marks[RECON_MAX_LIMIT], out[RECON_MAX_OPENING_BYTES];
    recon_session_answer short_of = recon_open(t, n, i, n * RECON_ID_BYTES, parts, limit, marks, n, nothing, 0, out, bytes - 1);
    recon_session_answer opened = recon_open(t, n, i, n * RECON_ID_BYTES, parts, limit, marks, n, nothing, 0, out, bytes);
    return short_of.refusal == RECON_NO_ROOM && opened.refusal == RECON_OK && opened.length == bytes;
}

/* A table of two items for each part, all of whose bounds have 32 bytes of prefix, and as many of the time as all together can have. Of two
   differences below 2^64 - 1 both can take 10 bytes, of more only one, and the others 9. */
static size_t longest_bounds(uint64_t *t, uint8_t *i, size_t parts) {
    memset(i, 0, 2 * parts * RECON_ID_BYTES);
    for (size_t k = 0; k < 2 * parts; k++) {
        uint64_t bound = (k + 1) / 2;
        t[k] = bound == 0 ? 0 : INT64_MAX + (bound - 1) * (parts == 3 ? INT64_MAX : (uint64_t)1 << 56);
        if (parts == 3 && k == 5)
            t[k] = t[4];
        i[k * RECON_ID_BYTES + 31] = (uint8_t)k;
    }
    return parts < 4 ? 60 * parts - 40 : 80 + 59 * (parts - 2);
}

/* What an opening can need at most. */
static void openings(void) {
    static uint64_t t[RECON_MAX_LIMIT];
    static uint8_t i[RECON_MAX_LIMIT * RECON_ID_BYTES];
    size_t most = 0;
    for (size_t parts = RECON_MIN_PARTS; parts <= RECON_MAX_PARTS; parts++) {
        size_t bytes = longest_bounds(t, i, parts);
        expect("the longest bounds", opens_with(t, i, 2 * parts, parts, parts, bytes) && bytes <= RECON_OPENING_BYTES(parts, parts));
        for (size_t limit = parts; limit <= RECON_MAX_LIMIT; limit++)
            if (RECON_OPENING_BYTES(parts, limit) > most)
                most = RECON_OPENING_BYTES(parts, limit);
    }
    for (size_t k = 0; k < RECON_MAX_LIMIT; k++)
        t[k] = k;
    expect("the longest list of 128 ids", opens_with(t, i, 128, 2, 128, RECON_OPENING_BYTES(2, 128)));
    expect("the longest list", opens_with(t, i, RECON_MAX_LIMIT, 2, RECON_MAX_LIMIT, RECON_MAX_OPENING_BYTES));
    expect("no cut needs more", most == RECON_MAX_OPENING_BYTES);
}

int main(void) {
    empty_tables();
    two_ranges();
    former_rule();
    reports();
    layouts();
    other_tables();
    conversions();
    versions();
    cut_list();
    cut_runs();
    skips_as_one();
    cut_lists();
    limit_refusals();
    done_within();
    sessions_within();
    known_folds();
    known_refusals();
    fold_refusals();
    many_folds();
    unions();
    long_lists();
    fingerprints();
    tree_bytes();
    tree_lengths();
    runs();
    run_lengths();
    appends();
    refused_appends();
    foreign_trees();
    refusal_texts();
    limits();
    openings();
    printf("calls: %lu facts as expected\n", looked_at);
    return 0;
}
