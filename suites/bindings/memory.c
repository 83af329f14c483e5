/* memory ID ID FILE..: over the layers of these files, makes each call that allocates again and again, and refuses one later
 * allocation of it each time. It has to answer the code for memory, to leave no block and to write nothing, but the
 * verdict's code. It is linked with --wrap for malloc, realloc and free. With `check` in place of the first id it does
 * so with the check of distinct ids alone. */
#include "commitgraph.h"
#include "commits.h"
#include <stdio.h>
#include <stdlib.h>
#include <string.h>

void *__real_malloc(size_t size);
void *__real_realloc(void *block, size_t size);
void __real_free(void *block);

enum { NONE = -1 };
static long left = NONE, blocks;
static bool refused;

/* What is done once, while a call asks for memory. */
static void (*meanwhile)(void);

static bool may_allocate(void) {
    void (*act)(void) = meanwhile;
    meanwhile = NULL;
    if (act) act();
    if (left == 0) {
        left = NONE;
        refused = true;
        return false;
    }
    if (left > 0) left--;
    return true;
}

void *__wrap_malloc(size_t size) {
    void *block = may_allocate() ? __real_malloc(size) : NULL;
    blocks += block != NULL;
    return block;
}

void *__wrap_realloc(void *old, size_t size) {
    void *block = may_allocate() ? __real_realloc(old, size) : NULL;
    blocks += block != NULL && old == NULL;
    return block;
}

void __wrap_free(void *block) {
    blocks -= block != NULL;
    __real_free(block);
}

typedef enum { DONE, NO_MEMORY, WRONG } outcome;
enum { LAYERS = 8, BYTES = 1 << 16, ROOM = 1024, OTHER = 1 };
static cg_file files[LAYERS];
static size_t layers;
static cg_graph graph;
static uint32_t from, to, out[ROOM];
static cg_verdict verdict;
static cg_count counts[8];

static outcome outcome_of(uint32_t code) {
    return code == CG_OK ? DONE : code == CG_OUT_OF_MEMORY ? NO_MEMORY : WRONG;
}

/* An error of opening, and what stands in the room of the graph after it. */
static outcome opening(cg_error error, cg_graph opened) {
    if (error.code == CG_OK) { cg_close(&opened); return DONE; }
    return error.code == CG_OUT_OF_MEMORY && opened.address == (void *)files && !opened.opened ? NO_MEMORY : WRONG;
}

/* Whether no byte of some was written. */
static bool unwritten(const void *bytes, size_t len) {
    for (size_t i = 0; i < len; i++)
        if (((const uint8_t *)bytes)[i] != OTHER) return false;
    return true;
}

static outcome open_graph(void) {
    cg_graph opened = { files, false };
    cg_error error = cg_open(files, layers, &opened);
    return opening(error, opened);
}

static outcome open_lent(void) {
    cg_graph opened = { files, false };
    cg_error error = cg_open_lent(files, layers, &opened);
    return opening(error, opened);
}

/* A chain in which each file stands twice. */
static outcome open_chain(void) {
    cg_graph opened = { files, false };
    uint64_t places[2 * LAYERS];
    for (size_t i = 0; i < 2 * layers; i++) places[i] = i % layers;
    cg_error error = cg_open_chain(files, layers, places, 2 * layers, &opened);
    return opening(error, opened);
}

/* Bytes that do not begin as a layer does: they are not copied. */
static outcome open_wrong(void) {
    static uint8_t wrong[BYTES];
    memcpy(wrong + 1, files[0].bytes, files[0].len);
    cg_file one = { wrong, files[0].len + 1, files[0].path, files[0].path_len };
    cg_graph opened = { files, false };
    bool refuses = cg_open(&one, 1, &opened).code == CG_FILE_SIGNATURE && opened.address == (void *)files;
    return refuses ? DONE : NO_MEMORY;
}

/* The lowest layer alone, by its path. */
static outcome open_known(void) {
    cg_graph opened = { files, false };
    const char *path = (const char *)files[0].path;
    cg_known known = { path, files[0].path_len, files[0].bytes, files[0].len, CG_READ };
    cg_path_error told = cg_open_known(path, known.path_len, CG_FILE, &known, 1, (char *)out, sizeof out, &opened);
    return opening((cg_error){ told.code, told.layer }, opened);
}

/* The check of a graph that is opened before, without refusals; with a limit that it does not come to, or without one. */
static outcome checking(bool limited) {
    cg_graph opened = CG_CLOSED, checked = { files, false };
    long later = left;
    left = NONE;
    if (cg_open(files, layers, &opened).code) return WRONG;
    left = later;
    memset(counts, OTHER, sizeof counts);
    cg_limit limit = { cg_num_commits(opened), CG_NO_FLAG };
    uint32_t code = limited ? cg_check_within(&opened, true, limit, &verdict, counts, 8, &checked)
                            : cg_check(&opened, true, &verdict, counts, 8, &checked);
    if (cg_close(&opened) || verdict.code != code || (code && (verdict.called || !unwritten(counts, sizeof counts)))) return WRONG;
    return opening((cg_error){ code, 0 }, checked);
}

static outcome check_graph(void) { return checking(false); }
static outcome check_within(void) { return checking(true); }

static outcome open_checked(void) {
    cg_graph opened = { files, false };
    memset(&verdict, OTHER, sizeof verdict);
    memset(counts, OTHER, sizeof counts);
    cg_error error = cg_open_checked(files, layers, true, &verdict, counts, 8, &opened);
    if (verdict.code != error.code || (error.code != CG_OK) != unwritten(counts, sizeof counts)) return WRONG;
    return opening(error, opened);
}

static outcome verify(void) {
    memset(counts, OTHER, sizeof counts);
    outcome found = outcome_of(cg_verify(graph, true, &verdict, counts, 8));
    return found == NO_MEMORY && !unwritten(counts, sizeof counts) ? WRONG : found;
}

/* The check of the highest layer: where memory ran out nothing is told but that. */
static outcome verify_layer(void) {
    cg_layer_verdict told;
    memset(&told, OTHER, sizeof told);
    outcome found = outcome_of(cg_verify_layer(graph, cg_num_layers(graph) - 1, &told));
    bool silent = !told.num_commits && !told.min_generation && !told.max_generation && !told.max_parents;
    return found == NO_MEMORY && (!silent || told.position || told.byte) ? WRONG : found;
}

/* A query of a graph that is opened for it, without refusals, since a graph keeps the memory of its queries. Where memory ran out, the
 * same graph answers the next time. */
static outcome on_a_new_graph(outcome (*query)(void)) {
    cg_graph other = graph;
    long later = left;
    left = NONE;
    graph = CG_CLOSED;
    if (cg_open_checked(files, layers, false, &verdict, counts, 8, &graph).code) return WRONG;
    left = later;
    outcome found = query();
    left = NONE;
    if (found == NO_MEMORY && query() != DONE) found = WRONG;
    cg_close(&graph);
    graph = other;
    return found;
}

static outcome look_for_walk(void) {
    memset(out, OTHER, sizeof out);
    outcome found = outcome_of(cg_ancestor_walk(graph, from, to, out, ROOM).code);
    return found == NO_MEMORY && !unwritten(out, sizeof out) ? WRONG : found;
}

static outcome look_for_ancestor(void) {
    cg_leads leads = cg_is_ancestor(graph, to, from);
    return leads.code == CG_OK && !leads.found ? WRONG : outcome_of(leads.code);
}

static outcome walk(void) { return on_a_new_graph(look_for_walk); }
static outcome ancestor(void) { return on_a_new_graph(look_for_ancestor); }

/* A query made a second time: the graph has its memory. */
static outcome look_again(void) {
    long later = left;
    left = NONE;
    if (look_for_ancestor() != DONE) return WRONG;
    left = later;
    return look_for_ancestor();
}

static outcome ancestor_again(void) { return on_a_new_graph(look_again); }

/* A query that is made while another one is under way and asks for memory, as another thread makes it: it finds the memory of the
 * graph in use. */
static outcome within_walk;

static void look_meanwhile(void) { within_walk = look_for_ancestor(); }

static outcome look_for_both(void) {
    within_walk = WRONG;
    meanwhile = look_meanwhile;
    outcome found = look_for_walk();
    meanwhile = NULL;
    if (found == WRONG || within_walk == WRONG) return WRONG;
    return found == NO_MEMORY ? found : within_walk;
}

static outcome ancestor_meanwhile(void) { return on_a_new_graph(look_for_both); }

/* The searches within a limit that they do not come to. */
static outcome within(cg_limit limit) {
    uint32_t others[2] = { to, from };
    memset(out, OTHER, sizeof out);
    cg_reached walked = cg_ancestor_walk_within(graph, from, to, limit, out, ROOM);
    if (walked.code != CG_OK) return unwritten(out, sizeof out) ? outcome_of(walked.code) : WRONG;
    cg_leads leads = cg_is_ancestor_within(graph, to, from, limit);
    if (leads.code != CG_OK) return outcome_of(leads.code);
    memset(out, OTHER, sizeof out);
    cg_bases found = cg_merge_bases_within(graph, from, others, 2, limit, out, ROOM);
    return found.code == CG_OK || unwritten(out, sizeof out) ? outcome_of(found.code) : WRONG;
}

static outcome without_flag(void) { return within((cg_limit){ UINT64_MAX, CG_NO_FLAG }); }

/* A flag, and the searches with it. */
static outcome with_flag(void) {
    cg_flag flag = { files, false };
    uint32_t code = cg_flag_new(&flag);
    if (code != CG_OK) return flag.address == (void *)files && !flag.kept ? outcome_of(code) : WRONG;
    outcome found = within((cg_limit){ UINT64_MAX, flag });
    bool raised = cg_flag_raise(flag);
    return cg_flag_free(&flag) && raised ? found : WRONG;
}

static outcome ancestors(void) {
    cg_pair pairs[] = { { from, to }, { to, from }, { from, from } };
    uint8_t bits[3];
    memset(bits, OTHER + 1, sizeof bits);
    cg_answered many = cg_are_ancestors(graph, pairs, 3, bits, 3);
    for (uint64_t i = 0; i < 3; i++)
        if ((i < many.answered) != (bits[i] < OTHER + 1)) return WRONG;
    return outcome_of(many.code);
}

/* The same pair so many times in one call: after the first time the search has its memory. */
static outcome same_pair(uint64_t times) {
    cg_pair pairs[] = { { to, from }, { to, from }, { to, from } };
    uint8_t bits[3];
    return outcome_of(cg_are_ancestors(graph, pairs, times, bits, times).code);
}

static outcome one_pair(void) { return same_pair(1); }
static outcome three_pairs(void) { return same_pair(3); }

static outcome dates(void) {
    static uint64_t found[ROOM];
    memset(found, OTHER, sizeof found);
    cg_dates told = cg_corrected_dates(graph, found, ROOM);
    outcome seen = outcome_of(told.code);
    return seen == NO_MEMORY && (told.length || !unwritten(found, sizeof found)) ? WRONG : seen;
}

static outcome probe(void) {
    uint8_t bits[1] = { OTHER + 2 };
    cg_probed told = cg_probe_path(graph, (const uint8_t *)"a", 1, &from, 1, bits, 1);
    outcome seen = outcome_of(told.code);
    return told.answered != (seen == DONE) || (bits[0] == OTHER + 1) != (seen == DONE) ? WRONG : seen;
}

static outcome look_for_bases(void) {
    uint32_t others[2] = { to, from };
    memset(out, OTHER, sizeof out);
    outcome found = outcome_of(cg_merge_bases(graph, from, others, 2, out, ROOM).code);
    return found == NO_MEMORY && !unwritten(out, sizeof out) ? WRONG : found;
}

static outcome bases(void) { return on_a_new_graph(look_for_bases); }

/* Merge bases a second time: the graph has its dates. */
static outcome look_for_bases_again(void) {
    long later = left;
    left = NONE;
    if (look_for_bases() != DONE) return WRONG;
    left = later;
    return look_for_bases();
}

static outcome bases_again(void) { return on_a_new_graph(look_for_bases_again); }

static outcome look_for_bases_of(void) {
    cg_two pairs[] = { { from, to }, { to, from }, { from, from } };
    cg_bases answers[3];
    memset(out, OTHER, sizeof out);
    for (int i = 0; i < 3; i++) answers[i].code = OTHER;
    cg_compared told = cg_merge_bases_of(graph, pairs, 3, answers, 3, out, ROOM);
    uint64_t length = 0;
    for (uint64_t i = 0; i < 3; i++) {
        if ((i < told.answered) != (answers[i].code == CG_OK)) return WRONG;
        length += i < told.answered ? answers[i].length : 0;
    }
    return length != told.length || !unwritten(out + length, (ROOM - length) * sizeof *out) ? WRONG : outcome_of(told.code);
}

static outcome bases_of(void) { return on_a_new_graph(look_for_bases_of); }

/* A layer with some commits: a new one on top of the graph, or those of the graph in one file. */
static outcome writing(cg_graph below, const cg_new_commit *commits, size_t count) {
    cg_bytes bytes = { files, false };
    cg_write_error told = cg_write(below, commits, count, &bytes);
    if (told.code == CG_OK) {
        cg_lent lent = CG_NOT_LENT;
        bool good = bytes.kept && cg_bytes_copy(bytes, 0, (uint8_t *)out, sizeof out) > 1100 && !memcmp(out, "CGPH", 4);
        good = good && cg_lend_bytes(bytes, &lent) && lent.len > 1100 && !memcmp(lent.bytes, "CGPH", 4);
        return cg_bytes_free(&bytes) && good ? DONE : WRONG;
    }
    bool silent = !told.position && !told.commit && !told.other && !told.layer && !told.expected;
    return silent && bytes.address == (void *)files && !bytes.kept ? outcome_of(told.code) : WRONG;
}

static cg_new_commit *all_commits;

static outcome write_on(void) {
    static const uint8_t id[32] = { 0xee }, tree[32] = { 1 };
    cg_new_commit one = all_commits[0];
    one.id = id;
    one.tree = tree;
    return writing(graph, &one, 1);
}

/* Commits of which one is refused: that is told before any memory is asked for. */
static outcome write_null(void) {
    static const uint8_t null[32];
    cg_new_commit two[2] = { all_commits[0], all_commits[0] };
    two[1].id = null;
    cg_bytes bytes = { files, false };
    cg_write_error told = cg_write(CG_CLOSED, two, 2, &bytes);
    if (bytes.address != (void *)files || bytes.kept || told.commit != (told.code == CG_WRITE_NULL_ID)) return WRONG;
    return told.code == CG_WRITE_NULL_ID ? DONE : told.code == CG_OUT_OF_MEMORY ? NO_MEMORY : WRONG;
}

static outcome write_all(void) { return writing(CG_CLOSED, all_commits, cg_num_commits(graph)); }

/* The calls that only read, and commits without ids: they ask for no memory. */
static outcome reading(void) {
    uint8_t id[32];
    cg_commit commit;
    cg_parent_count answers[4];
    cg_layer_info layer;
    cg_lent lent = CG_NOT_LENT;
    size_t len = cg_id_at(graph, from, id, cg_id_len(graph));
    uint64_t last = cg_num_layers(graph) - 1;
    if (!cg_layer(graph, last, &layer) || cg_layer_checksum(graph, last, id, len) != len) return WRONG;
    if (cg_base_id_at(graph, last, 0, id, len) != (last ? len : 0) || cg_id_at(graph, from, id, len) != len) return WRONG;
    cg_answered many = cg_ids_at(graph, &from, 1, id, len);
    if (many.code || cg_lookup_all(graph, id, len, len, out, 1) != 1 || out[0] != from) return WRONG;
    cg_new_commit one = { id, len, id, len - 1, id, 0, 0 };
    cg_bytes bytes = CG_NO_BYTES;
    if (cg_write(graph, &one, 1, &bytes).code != CG_WRITE_NO_IDS || bytes.kept) return WRONG;
    bool good = cg_lookup(graph, id, len) == from && cg_tree_at(graph, from, id, len) == len && cg_commit_at(graph, from, &commit)
        && cg_generation_at(graph, from) == commit.generation
        && cg_commits(graph, from, &commit, 1) == cg_num_commits(graph) - from && cg_parents(graph, from, out, 4).code == CG_OK
        && cg_first_parents(graph, from, out, 4).code == CG_OK && cg_first_parent(graph, from).code == CG_OK && cg_matches(graph, from, id, len).code == CG_OBJECT_OTHER_CONTENTS
        && cg_parents_from(graph, 0, answers, 4, out, 8).commits > 0 && cg_chain_line(id, len, 0).found
        && cg_lend_id(graph, from, &lent) && cg_lend_tree(graph, from, &lent) && lent.len == len && cg_version() == CG_VERSION;
    return good && !refused ? DONE : WRONG;
}

static long refusals(const char *name, outcome (*call)(void)) {
    for (long n = 0;; n++) {
        long before = blocks;
        refused = false;
        left = n;
        outcome found = call();
        left = NONE;
        if (found == WRONG || blocks != before || refused != (found == NO_MEMORY)) {
            printf("%s, allocation %ld: outcome %d, %ld blocks more\n", name, n, (int)found, blocks - before);
            exit(1);
        }
        if (!refused) return n;
    }
}

static uint32_t position_of(const char *hex) {
    uint8_t id[32];
    size_t len = strlen(hex) / 2;
    for (size_t i = 0; i < len && i < 32; i++) sscanf(hex + 2 * i, "%2hhx", &id[i]);
    return cg_lookup(graph, id, len);
}

int main(int argc, char **argv) {
    static uint8_t bytes[LAYERS][BYTES];
    for (; argc > 3 && layers < (size_t)argc - 3 && layers < LAYERS; layers++) {
        const char *path = argv[layers + 3];
        FILE *input = fopen(path, "rb");
        if (!input) return 2;
        files[layers] = (cg_file){ bytes[layers], fread(bytes[layers], 1, BYTES, input), (const uint8_t *)path, strlen(path) };
        fclose(input);
    }
    if (cg_open_checked(files, layers, false, &verdict, counts, 8, &graph).code) return 3;
    if (!strcmp(argv[1], "check")) {
        printf("verify %ld\n", refusals("verify", verify));
        cg_close(&graph);
        return blocks;
    }
    from = position_of(argv[1]);
    to = position_of(argv[2]);
    printf("open %ld\n", refusals("open", open_graph));
    printf("open_lent %ld\n", refusals("open_lent", open_lent));
    printf("open_chain %ld\n", refusals("open_chain", open_chain));
    printf("open_wrong %ld\n", refusals("open_wrong", open_wrong));
    printf("open_checked %ld\n", refusals("open_checked", open_checked));
    printf("open_known %ld\n", refusals("open_known", open_known));
    printf("check %ld\n", refusals("check", check_graph));
    printf("check_within %ld\n", refusals("check_within", check_within));
    printf("verify %ld\n", refusals("verify", verify));
    printf("verify_layer %ld\n", refusals("verify_layer", verify_layer));
    printf("walk %ld\n", refusals("walk", walk));
    printf("ancestor %ld\n", refusals("ancestor", ancestor));
    printf("ancestor_again %ld\n", refusals("ancestor_again", ancestor_again));
    printf("ancestor_meanwhile %ld\n", refusals("ancestor_meanwhile", ancestor_meanwhile));
    printf("ancestors %ld\n", refusals("ancestors", ancestors));
    printf("one_pair %ld\n", refusals("one_pair", one_pair));
    printf("three_pairs %ld\n", refusals("three_pairs", three_pairs));
    printf("without_flag %ld\n", refusals("without_flag", without_flag));
    printf("with_flag %ld\n", refusals("with_flag", with_flag));
    printf("dates %ld\n", refusals("dates", dates));
    printf("probe %ld\n", refusals("probe", probe));
    printf("bases %ld\n", refusals("bases", bases));
    printf("bases_again %ld\n", refusals("bases_again", bases_again));
    printf("bases_of %ld\n", refusals("bases_of", bases_of));
    uint8_t *ids;
    all_commits = commits_of(graph, 0, cg_num_commits(graph), &ids);
    printf("write_on %ld\n", refusals("write_on", write_on));
    printf("write_null %ld\n", refusals("write_null", write_null));
    printf("write_all %ld\n", refusals("write_all", write_all));
    free(all_commits);
    free(ids);
    printf("reading %ld\n", refusals("reading", reading));
    cg_close(&graph);
    return blocks;
}
