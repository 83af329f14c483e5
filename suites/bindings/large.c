/* large GRAPH [QUESTIONS ANSWERS]: makes calls on a graph of many commits, and prints what they tell in a struct. QUESTIONS
 * are numbers of 32 bits: how many pairs, the pairs, a commit, how many others, and the others, by their positions. Then what is
 * told of all commits and of these is written to ANSWERS, one call's after another's. Status 9: two calls disagree. */
#include "commitgraph.h"
#include "commits.h"
#include "lines.h"
#include <stdlib.h>
#include <string.h>
#include <time.h>

enum { KINDS = 4, LEN = 20, STEP = 100 };

static void *room(size_t count, size_t size) {
    void *made = calloc(count + 1, size);
    if (!made) exit(8);
    return made;
}

static uint8_t *read_all(const char *path, size_t *len) {
    FILE *file = fopen(path, "rb");
    if (!file) exit(2);
    fseek(file, 0, SEEK_END);
    *len = (size_t)ftell(file);
    rewind(file);
    uint8_t *bytes = room(*len, 1);
    if (fread(bytes, 1, *len, file) != *len) exit(2);
    fclose(file);
    return bytes;
}

static void put(FILE *file, const void *items, size_t count, size_t size) {
    if (fwrite(items, size, count, file) != count) exit(2);
}

static void agree(bool good) { if (!good) exit(9); }

/* Of a number that is not known nothing is advised. */
static void advise_of_known_numbers(void) {
    for (uint32_t code = 0; code < 1000; code++)
        agree(strcmp(cg_strerror(code), cg_strerror(UINT32_MAX)) != 0 || *cg_advice(code) == 0);
}

static void print_verdict(cg_verdict v, const cg_count *counts) {
    PRINT("verdict", v.code, v.num_commits, v.longest, N(v.has_longest), v.position, v.other, v.called, v.layer, v.index,
          v.kinds);
    for (uint64_t i = 0; i < v.kinds && i < KINDS; i++) PRINT("count", counts[i].parents, counts[i].commits);
}

static void print_check(cg_graph graph, bool distinct) {
    cg_verdict verdict;
    cg_count counts[KINDS];
    agree(cg_verify(graph, distinct, &verdict, counts, KINDS) == verdict.code);
    print_verdict(verdict, counts);
}

/* What each record says, and the ids. */
static void tell_commits(cg_graph graph, FILE *file, uint32_t count) {
    cg_commit *commits = room(count, sizeof *commits), one;
    uint64_t *times = room(count, sizeof *times);
    uint32_t *numbers = room(count, sizeof *numbers);
    uint8_t *ids = room(count, LEN), *trees = room(count, LEN);
    agree(cg_commits(graph, 0, commits, count) == count && cg_id_len(graph) == LEN);
    for (uint32_t pos = 0; pos < count; pos++) {
        times[pos] = commits[pos].time;
        numbers[pos] = commits[pos].generation;
        agree(cg_commit_at(graph, pos, &one) && one.time == times[pos] && one.generation == numbers[pos]);
        agree(cg_generation_at(graph, pos) == numbers[pos]);
        agree(cg_id_at(graph, pos, ids + (size_t)pos * LEN, LEN) == LEN);
        agree(cg_tree_at(graph, pos, trees + (size_t)pos * LEN, LEN) == LEN);
        cg_lent lent = CG_NOT_LENT;
        agree(cg_lend_id(graph, pos, &lent) && lent.len == LEN && !memcmp(lent.bytes, ids + (size_t)pos * LEN, LEN));
        agree(cg_lend_tree(graph, pos, &lent) && lent.len == LEN && !memcmp(lent.bytes, trees + (size_t)pos * LEN, LEN));
        agree(cg_lookup(graph, ids + (size_t)pos * LEN, LEN) == pos);
    }
    put(file, times, count, sizeof *times);
    put(file, numbers, count, sizeof *numbers);
    put(file, ids, count, LEN);
    put(file, trees, count, LEN);
}

/* How many parents each commit has, and all parents. */
static void tell_parents(cg_graph graph, FILE *file, uint32_t count) {
    cg_parent_count *answers = room(count, sizeof *answers), one;
    uint32_t *out = room(2 * (size_t)count, sizeof *out), two[2];
    uint64_t *counts = room(count, sizeof *counts), length = 0;
    cg_block block = cg_parents_from(graph, 0, answers, count, out, 2 * (size_t)count);
    PRINT("block", block.commits, block.length);
    for (uint32_t pos = 0; pos < block.commits; pos++) {
        one = cg_parents(graph, pos, two, 2);
        counts[pos] = one.count;
        agree(!one.code && !answers[pos].code && one.count == answers[pos].count && one.count <= 2);
        agree(!memcmp(two, out + length, one.count * sizeof *two));
        two[0] = 0;
        agree(cg_matches(graph, pos, (const uint8_t *)"", 0).code == CG_OBJECT_OTHER_CONTENTS);
        cg_parent_count first = cg_first_parents(graph, pos, two, 1);
        agree(first.count == (one.count > 0) && first.code == (one.count > 1 ? CG_MORE_PARENTS : CG_OK));
        agree(!memcmp(two, out + length, first.count * sizeof *two));
        agree(cg_first_parent(graph, pos).position == (one.count ? two[0] : CG_NOWHERE));
        length += one.count;
    }
    put(file, counts, block.commits, sizeof *counts);
    put(file, out, length, sizeof *out);
}

/* The dates, and what the filters say of a path, up to a position that is none. */
static void tell_chunks(cg_graph graph, FILE *file, uint32_t count) {
    uint64_t *out = room(count, sizeof *out);
    uint32_t *positions = room(count, sizeof *positions);
    uint8_t *answers = room(count, 1);
    cg_dates dates = cg_corrected_dates(graph, out, count);
    PRINT("dates", dates.code, dates.position, dates.layer, dates.expected, dates.length);
    for (uint32_t pos = 0; pos <= count; pos++) positions[pos] = pos;
    cg_probed probed = cg_probe_path(graph, (const uint8_t *)"a", 1, positions, N(count) + 1, answers, N(count) + 1);
    PRINT("probed", probed.code, probed.position, probed.number, probed.layer, probed.answered);
    if (!file) return;
    put(file, out, dates.length, sizeof *out);
    put(file, answers, probed.answered, 1);
}

/* Pairs, all of them and with a last one that is none; and each alone. */
static void tell_pairs(cg_graph graph, FILE *file, cg_pair *pairs, uint32_t count) {
    uint8_t *out = room(count, 1);
    cg_answered all = cg_are_ancestors(graph, pairs, count, out, count);
    PRINT("answered", all.code, all.answered);
    put(file, out, all.answered, 1);
    for (uint32_t i = 0; i < count; i++) {
        cg_leads leads = cg_is_ancestor(graph, pairs[i].ancestor, pairs[i].descendant);
        agree(!leads.code && leads.found == out[i]);
    }
    pairs[count - 1].ancestor = cg_num_commits(graph);
    all = cg_are_ancestors(graph, pairs, count, out, count);
    PRINT("answered", all.code, all.answered);
}

/* The walk of a pair. */
static void tell_walk(cg_graph graph, FILE *file, cg_pair pair) {
    uint32_t count = cg_num_commits(graph), *out = room(count, sizeof *out);
    cg_reached reached = cg_ancestor_walk(graph, pair.descendant, pair.ancestor, out, count);
    PRINT("reached", reached.code, reached.length);
    put(file, out, reached.length, sizeof *out);
}

/* Merge bases with others, with a last one that is none, and with no others. */
static void tell_bases(cg_graph graph, FILE *file, uint32_t first, uint32_t *others, uint32_t count) {
    uint32_t out[KINDS];
    for (int turn = 0; turn < 3; turn++) {
        if (turn == 1) others[count - 1] = cg_num_commits(graph);
        cg_bases bases = cg_merge_bases(graph, first, others, turn == 2 ? 0 : count, out, KINDS);
        PRINT("bases", bases.code, bases.ahead, bases.behind, bases.length);
        put(file, out, bases.length <= KINDS ? bases.length : KINDS, sizeof *out);
    }
}

/* A walk from a commit that takes many visits, and a comparison: within as many they answer the same, within half of them and after a
 * flag was raised they stop. So does a check of as many commits. */
static void stop(const cg_file *file, cg_graph graph, cg_pair pair) {
    uint32_t count = cg_num_commits(graph), *out = room(count, sizeof *out);
    cg_flag flag = CG_NO_FLAG;
    agree(!cg_flag_new(&flag));
    cg_reached whole = cg_ancestor_walk(graph, pair.descendant, pair.ancestor, out, count);
    cg_bases all = cg_merge_bases_within(graph, pair.descendant, &pair.ancestor, 1, (cg_limit){ UINT64_MAX, CG_NO_FLAG }, out, count);
    agree(whole.visits > KINDS && all.visits > KINDS);
    for (int turn = 0; turn < 3; turn++) {
        cg_limit limit = { turn == 1 ? KINDS / 2 : turn ? UINT64_MAX : count, flag };
        cg_limit walks = { turn ? limit.visits : whole.visits, flag }, compares = { turn ? limit.visits : all.visits, flag };
        if (turn == 2) agree(cg_flag_raise(flag));
        cg_reached reached = cg_ancestor_walk_within(graph, pair.descendant, pair.ancestor, walks, out, count);
        cg_bases bases = cg_merge_bases_within(graph, pair.descendant, &pair.ancestor, 1, compares, out, count);
        cg_leads leads = cg_is_ancestor_within(graph, pair.ancestor, pair.descendant, limit);
        agree(reached.code == (turn ? CG_STOPPED : CG_OK) && reached.visits == (turn ? 0 : whole.visits));
        agree(bases.code == (turn ? CG_STOPPED : CG_OK) && bases.visits == (turn ? 0 : all.visits));
        agree(leads.code == (turn ? CG_STOPPED : CG_OK) && leads.found == (!turn && whole.length));
        cg_graph opened = CG_CLOSED, checked = CG_CLOSED;
        cg_verdict verdict;
        agree(!cg_open_lent(file, 1, &opened).code);
        uint32_t code = cg_check_within(&opened, true, limit, &verdict, NULL, 0, &checked);
        agree(code == (turn ? CG_STOPPED : CG_OK) && verdict.position == (turn == 1 ? KINDS / 2 : 0));
        agree(!opened.opened && cg_close(&checked) == !code);
    }
    agree(cg_flag_free(&flag));
}

/* A chain in which the file stands as many times as its commits would fit a graph at all: each layer has the first id. */
static void repeat(const cg_file *file, cg_graph graph) {
    uint32_t count = cg_num_commits(graph), layers = 1800000000 / count;
    uint64_t *places = room(layers, sizeof *places);
    memset(places, 0, layers * sizeof *places);
    cg_graph opened = CG_CLOSED;
    agree(!cg_open_chain(file, 1, places, layers, &opened).code && cg_num_commits(opened) == layers * count);
    cg_lent first = CG_NOT_LENT, last = CG_NOT_LENT;
    agree(cg_lend_id(opened, 0, &first) && cg_lend_id(opened, (layers - 1) * count, &last) && first.bytes == last.bytes);
    agree(cg_close(&opened));
}

/* A text of many lines, each of one letter. */
static void read_lines(uint32_t count) {
    size_t len = 2 * (size_t)count, start = 0;
    uint8_t *text = room(len, 1);
    for (size_t i = 0; i < len; i++) text[i] = i % 2 ? '\n' : 'a';
    for (cg_line line; start < len; start = line.next) {
        line = cg_chain_line(text, len, start);
        agree(line.found && line.end == start + 1 && line.next == start + 2);
    }
    agree(!cg_chain_line(text, len, start).found);
}

/* Ids and positions of all commits in one call, and merge bases of as many pairs. */
static void ask_many(cg_graph checked, uint32_t count) {
    uint32_t *positions = room(count, sizeof *positions), *found = room(count, sizeof *found);
    uint8_t *ids = room(count, LEN);
    cg_two *pairs = room(count, sizeof *pairs);
    cg_bases *answers = room(count, sizeof *answers), one;
    for (uint32_t i = 0; i < count; i++) positions[i] = (uint32_t)(N(i) * 48271 % count);
    cg_answered all = cg_ids_at(checked, positions, count, ids, (size_t)count * LEN);
    agree(!all.code && all.answered == count && cg_lookup_all(checked, ids, (size_t)count * LEN, LEN, found, count) == count);
    agree(!memcmp(positions, found, count * sizeof *found));
    /* The merge base of a commit with itself is itself. */
    for (uint32_t i = 0; i < count; i++) pairs[i] = (cg_two){ positions[i], positions[i] };
    clock_t started = clock();
    cg_compared told = cg_merge_bases_of(checked, pairs, count, answers, count, found, count);
    double together = (double)(clock() - started);
    agree(!told.code && told.answered == count && told.length == count && !memcmp(positions, found, count * sizeof *found));
    started = clock();
    for (uint32_t i = 0; i < count; i += STEP) {
        one = cg_merge_bases(checked, positions[i], &positions[i], 1, found, 1);
        agree(!answers[i].code && answers[i].length == 1 && answers[i].visits == one.visits && !answers[i].ahead && !answers[i].behind);
    }
    /* The memory of the search is filled once, and not for each pair. */
    agree(4 * together < STEP * (double)(clock() - started));
}

/* All commits, written to one file and read from it: each has its place, and says what it said. */
static void write_again(cg_graph graph, uint32_t count) {
    uint8_t *ids, id[LEN], other[LEN];
    cg_new_commit *commits = commits_of(graph, 0, count, &ids);
    cg_bytes bytes = CG_NO_BYTES;
    agree(commits && !cg_write(CG_CLOSED, commits, count, &bytes).code);
    size_t len = (size_t)cg_bytes_copy(bytes, 0, NULL, 0);
    cg_file file = { room(len, 1), len, NULL, 0 };
    cg_lent lent = CG_NOT_LENT;
    agree(cg_bytes_copy(bytes, 0, (uint8_t *)(uintptr_t)file.bytes, len) == len && cg_lend_bytes(bytes, &lent));
    agree(lent.len == len && !memcmp(lent.bytes, file.bytes, len) && cg_bytes_free(&bytes));
    cg_graph again = CG_CLOSED;
    cg_verdict verdict;
    agree(!cg_open_checked(&file, 1, true, &verdict, NULL, 0, &again).code && verdict.num_commits == count);
    uint64_t *dates = room(count, sizeof *dates), *wanted = room(count, sizeof *wanted);
    agree(!cg_corrected_dates(again, dates, count).code && !cg_corrected_dates(graph, wanted, count).code);
    agree(!memcmp(dates, wanted, count * sizeof *dates));
    for (uint32_t pos = 0; pos < count; pos++) {
        uint32_t parents[2] = { 0, 0 }, others[2] = { 0, 0 };
        cg_commit commit, read;
        agree(cg_id_at(graph, pos, id, LEN) && cg_id_at(again, pos, other, LEN) && !memcmp(id, other, LEN));
        agree(cg_tree_at(graph, pos, id, LEN) && cg_tree_at(again, pos, other, LEN) && !memcmp(id, other, LEN));
        agree(cg_commit_at(graph, pos, &commit) && cg_commit_at(again, pos, &read) && commit.time == read.time);
        agree(commit.generation == read.generation && cg_parents(graph, pos, parents, 2).count == cg_parents(again, pos, others, 2).count);
        agree(!memcmp(parents, others, sizeof parents));
    }
    cg_close(&again);
}

static void tell(const cg_file *layer, cg_graph graph, cg_graph checked, const char *questions, const char *answers) {
    size_t len;
    uint32_t *asked = (uint32_t *)(void *)read_all(questions, &len), count = cg_num_commits(graph), pairs = asked[0];
    cg_pair *first_pair = (cg_pair *)(void *)(asked + 1);
    FILE *file = fopen(answers, "wb");
    if (!file) exit(2);
    read_lines(count);
    tell_commits(graph, file, count);
    tell_parents(graph, file, count);
    tell_chunks(graph, file, count);
    tell_walk(checked, file, *first_pair);
    stop(layer, checked, *first_pair);
    repeat(layer, checked);
    tell_pairs(checked, file, first_pair, pairs);
    asked += 1 + 2 * (size_t)pairs;
    tell_bases(checked, file, asked[0], asked + 2, asked[1]);
    ask_many(checked, count);
    write_again(graph, count);
    if (fclose(file)) exit(2);
}

/* The same graph, of one layer, which is opened and then checked. */
static void opened_and_checked(const cg_file *file, cg_graph graph) {
    cg_graph opened = CG_CLOSED, checked = CG_CLOSED;
    cg_layer_info layer;
    cg_verdict found, verdict;
    cg_layer_verdict alone;
    cg_count counts[KINDS];
    uint8_t id[LEN];
    cg_known known = { "a", 1, file->bytes, file->len, CG_READ };
    agree(!cg_open_known("a", 1, CG_FILE, &known, 1, (char *)id, LEN, &opened).code && cg_num_layers(opened) == 1);
    agree(cg_layer(opened, 0, &layer) && !layer.first && layer.num_commits == cg_num_commits(graph) && layer.hash == 1);
    agree(cg_layer_checksum(opened, 0, id, LEN) == LEN && !layer.bases && !cg_base_id_at(opened, 0, 0, id, LEN));
    uint32_t code = cg_verify(graph, true, &found, counts, KINDS);
    agree(cg_check(&opened, true, &verdict, counts, KINDS, &checked) == code && verdict.longest == found.longest && !cg_close(&opened));
    agree(cg_num_commits(checked) == (code ? 0 : layer.num_commits));
    agree(cg_verify_layer(graph, 0, &alone) == alone.code && cg_verify_layer(graph, 1, &alone) == CG_NO_SUCH_LAYER);
    if (!code) agree(!cg_verify_layer(graph, 0, &alone) && alone.num_commits == layer.num_commits);
    if (!code) agree(alone.min_generation == 1 && alone.max_generation == found.longest + 1 && alone.max_parents);
    cg_close(&checked);
}

int main(int argc, char **argv) {
    size_t len;
    if (argc != 2 && argc != 4) return 2;
    cg_file file = { read_all(argv[1], &len), 0, (const uint8_t *)"", 0 };
    file.len = len;
    cg_graph graph = CG_CLOSED, checked = CG_CLOSED;
    agree(cg_version() == CG_VERSION);
    advise_of_known_numbers();
    cg_verdict verdict = { .code = 0 };
    cg_count counts[KINDS];
    cg_error error = cg_open(&file, 1, &graph);
    PRINT("error", error.code, error.layer, N(graph.opened));
    cg_error told = cg_open_checked(&file, 1, true, &verdict, counts, KINDS, &checked);
    PRINT("checked", told.code, told.layer, N(checked.opened));
    if (error.code) return 0;
    opened_and_checked(&file, graph);
    print_verdict(verdict, counts);
    print_check(graph, false);
    print_check(graph, true);
    if (argc == 2) tell_chunks(graph, NULL, cg_num_commits(graph));
    if (argc == 4) tell(&file, graph, checked, argv[2], argv[3]);
    cg_close(&graph);
    cg_close(&checked);
    return 0;
}
