/* ask PATH list | verify | distinct | lines | dates | probe NAME | find ID | ancestor ID ID | parents ID | bases ID ID..: answers
 * through the library, for suites/bindings, those of graphs and `find` and `ancestor` in the lines of `graphtool`, and `dates` and
 * what refuses a `probe` in lines of `historytool check`. The path is that of a file or of a chain. */
#include "commitgraph.h"
#include "commits.h"
#include <inttypes.h>
#include <stdio.h>
#include <stdlib.h>
#include <string.h>
#include <sys/stat.h>

static uint8_t *read_all(const char *path, size_t *len) {
    FILE *file = fopen(path, "rb");
    if (!file) return NULL;
    fseek(file, 0, SEEK_END);
    *len = (size_t)ftell(file);
    rewind(file);
    uint8_t *bytes = malloc(*len + 1);
    if (bytes && fread(bytes, 1, *len, file) != *len) { free(bytes); bytes = NULL; }
    fclose(file);
    return bytes;
}

static size_t bytes_of(const char *hex, uint8_t id[32]) {
    size_t len = strlen(hex) / 2;
    for (size_t i = 0; i < len && i < 32; i++)
        if (sscanf(hex + 2 * i, "%2" SCNx8, &id[i]) != 1) return 0;
    return len <= 32 ? len : 0;
}

enum { ROOM = 64, PLACES = 3, FEW = 4 };
#define NULL_BYTES ((const uint8_t *)"")

/* The line of a graph that was not opened. */
static int not_opened(cg_error error, bool one_file) {
    bool chunks = error.code >= CG_CHUNK_NONE && error.code <= CG_CHUNK_NO_END;
    if (error.code > 200 && error.code < 300) { printf("refused open 6 graph %" PRIu32 "\n", error.code - 200); return 1; }
    if (error.code < 100 || error.code > 199) return 9;
    if (one_file) printf("refused file ");
    else printf("refused open 5 layer %" PRIu64 " file ", error.layer);
    if (chunks) printf("5 chunk %" PRIu32 "\n", error.code - 150);
    else printf("%" PRIu32 "\n", error.code - 100);
    return 1;
}

/* The line of a graph that is not right. */
static int not_right(cg_verdict v) {
    uint32_t kind = v.code > 340 ? (v.code - 300) / 10 : v.code - 300, fault = v.code > 340 ? v.code % 10 : 0;
    printf("refused verify %" PRIu32, kind);
    if (kind >= 2 && kind <= 4) printf(" layer %" PRIu64, v.layer);
    if (kind == 3) printf(" index %" PRIu64, v.index);
    if (kind >= 5) printf(" position %" PRIu32, v.position);
    if (kind == 4 || kind == 5) printf(" fault %" PRIu32, fault);
    if (v.code == CG_CHECK_FAN) printf(" byte %" PRIu32, v.other);
    if (kind == 6) printf(" error %" PRIu32, fault);
    if (v.code == CG_CHECK_PARENT_OUT_OF_RANGE) printf(" parent %" PRIu32, v.other);
    if (v.code == CG_CHECK_GENERATION) printf(" expected %" PRIu32, v.other);
    if (v.code == CG_CHECK_DUPLICATE_ID) printf(" earlier %" PRIu32, v.other);
    putchar('\n');
    return 1;
}

/* Whether the check of each layer alone agrees with that of the graph, which comes to a fault of a layer or of its commits first. */
static bool layers_agree(cg_graph graph, cg_verdict v) {
    cg_layer_info layer;
    cg_layer_verdict alone;
    uint64_t number = 0;
    uint32_t commits = 0;
    for (; cg_layer(graph, number, &layer); number++, commits += layer.num_commits) {
        if (cg_verify_layer(graph, number, &alone) != alone.code) return false;
        bool here = v.code <= CG_CHECK_FAN ? v.layer == number : v.position >= commits && v.position - commits < layer.num_commits;
        if (v.code == CG_OK && (alone.code || alone.num_commits != layer.num_commits || alone.position || alone.byte)) return false;
        if (v.code == CG_OK && (alone.min_generation > alone.max_generation || alone.max_generation > v.longest + 1)) return false;
        if (v.code < CG_CHECK_CHECKSUM || !here) continue;
        if (alone.code != v.code || alone.num_commits || alone.min_generation || alone.max_generation || alone.max_parents) return false;
        if (alone.position != (v.position ? v.position - commits : 0) || alone.byte != v.other) return false;
    }
    return cg_verify_layer(graph, number, &alone) == CG_NO_SUCH_LAYER && alone.code == CG_NO_SUCH_LAYER && !alone.num_commits;
}

static bool writes_again(cg_graph graph, bool ends);

static int check(cg_graph graph, bool distinct) {
    cg_verdict v;
    cg_count counts[ROOM];
    uint32_t code = cg_verify(graph, distinct, &v, counts, ROOM);
    if (!distinct && (v.has_longest || v.code) && !layers_agree(graph, v)) return 9;
    if (code) return not_right(v);
    if (!writes_again(graph, v.has_longest)) return 9;
    printf("ok commits %" PRIu32 " longest ", v.num_commits);
    if (v.has_longest) printf("%" PRIu32 "\n", v.longest);
    else puts("none");
    for (uint64_t i = 0; i < v.kinds && i < ROOM; i++)
        printf("parents %" PRIu32 " commits %" PRIu32 "\n", counts[i].parents, counts[i].commits);
    return 0;
}

static int find(cg_graph graph, const char *hex) {
    uint8_t id[32];
    cg_commit commit;
    uint32_t pos = cg_lookup(graph, id, bytes_of(hex, id));
    if (!cg_commit_at(graph, pos, &commit)) { puts("none"); return cg_generation_at(graph, pos) ? 9 : 1; }
    if (cg_generation_at(graph, pos) != commit.generation) return 9;
    printf("position %" PRIu32 " generation %" PRIu32 " time %" PRIu64 "\n", pos, commit.generation, commit.time);
    return 0;
}

static void print_hex(const uint8_t *id, size_t len) {
    for (size_t j = 0; j < len; j++) printf("%02" PRIx8, id[j]);
}

static void print_ids(cg_graph graph, const uint32_t *positions, uint64_t count) {
    uint8_t id[32];
    for (uint64_t i = 0; i < count && i < ROOM; i++) {
        size_t len = cg_id_at(graph, positions[i], id, cg_id_len(graph));
        print_hex(id, len);
        putchar('\n');
    }
}

/* Whether a call lends the id that was written, and none past the last position. */
static bool is_lent(bool (*lend)(cg_graph, uint32_t, cg_lent *), cg_graph graph, uint32_t pos, const uint8_t *id) {
    cg_lent lent = CG_NOT_LENT, none = CG_NOT_LENT;
    if (lend(graph, cg_num_commits(graph), &none) || lend(graph, CG_NOWHERE, &none) || none.len) return false;
    return lend(graph, pos, &lent) && lent.len == cg_id_len(graph) && !memcmp(lent.bytes, id, lent.len);
}

/* The line of a commit, as `graphtool list` has it. */
static void print_line(cg_graph graph, uint32_t pos, cg_commit commit, cg_parent_count answer, const uint32_t *parents) {
    uint8_t id[32];
    printf("%" PRIu32 " ", pos);
    print_hex(id, cg_id_at(graph, pos, id, cg_id_len(graph)));
    putchar(' ');
    if (!is_lent(cg_lend_id, graph, pos, id)) printf("lent ");
    print_hex(id, cg_tree_at(graph, pos, id, cg_id_len(graph)));
    if (!is_lent(cg_lend_tree, graph, pos, id)) printf("lent ");
    printf(" %" PRIu32 " %" PRIu64 " ", commit.generation, commit.time);
    for (uint64_t i = 0; i < answer.count; i++) printf(i ? ",%" PRIu32 : "%" PRIu32, parents[i]);
    if (answer.code) printf(answer.count ? ",!%" PRIu32 : "!%" PRIu32, answer.code - 360);
    puts(answer.count || answer.code ? "" : "-");
}

/* A block of the parents from a position on, in little room, or in much where the first commit alone does not fit. */
static cg_block block_from(cg_graph graph, uint32_t first, cg_parent_count *answers, uint32_t *out) {
    cg_block block;
    out[FEW] = answers[PLACES].code = 7;
    block = cg_parents_from(graph, first, answers, PLACES, out, FEW);
    if (out[FEW] != 7 || answers[PLACES].code != 7) exit(9);
    if (block.length > FEW && block.commits > 1) block.commits--;
    else if (block.length > FEW) block = cg_parents_from(graph, first, answers, 1, out, ROOM);
    if (block.length > ROOM) exit(9);
    return block;
}

/* Whether the call for the first parents of a commit answers the same in each room up to one too many. */
static bool answers_first(cg_graph graph, uint32_t pos, cg_parent_count all, const uint32_t *parents) {
    uint32_t out[ROOM + 2];
    cg_parent alone = cg_first_parent(graph, pos);
    if (alone.position != (all.count ? parents[0] : CG_NOWHERE) || alone.code != (all.count ? CG_OK : all.code)) return false;
    for (uint64_t room = 0; room <= all.count + 1; room++) {
        out[room] = 7;
        cg_parent_count first = cg_first_parents(graph, pos, out, room);
        uint64_t wanted = room < all.count ? room : all.count;
        if (first.count != wanted || first.code != (room < all.count ? CG_MORE_PARENTS : all.code)) return false;
        if (out[room] != 7 || memcmp(out, parents, wanted * sizeof *out)) return false;
    }
    return true;
}

/* The layer and the base ids of a graph of one file, as `graphtool list` has them. */
static bool print_layer(cg_graph graph) {
    uint8_t id[32];
    cg_layer_info layer;
    if (!cg_layer(graph, 0, &layer) || layer.first || layer.num_commits != cg_num_commits(graph)) return false;
    if (cg_id_len(graph) != (layer.hash == 1 ? 20 : 32)) return false;
    printf("layer %s bases %" PRIu32 " commits %" PRIu32 "\n", layer.hash == 1 ? "sha1" : "sha256", layer.bases, layer.num_commits);
    for (uint32_t i = 0; i < layer.bases; i++) {
        printf("base ");
        print_hex(id, cg_base_id_at(graph, 0, i, id, cg_id_len(graph)));
        putchar('\n');
    }
    return !cg_base_id_at(graph, 0, layer.bases, id, cg_id_len(graph)) && !cg_base_id_at(graph, 1, 0, id, cg_id_len(graph));
}

/* Whether the calls for many ids and for many positions answer what those for one do: in a room that ends too early, up to a
 * position that is none, and in all. */
static bool answers_ids(cg_graph graph) {
    uint32_t count = cg_num_commits(graph);
    size_t len = cg_id_len(graph);
    uint32_t *positions = malloc((count + 2) * sizeof *positions), *found = malloc((count + 2) * sizeof *found);
    uint8_t *ids = malloc((count + 2) * len), one[32];
    if (!positions || !found || !ids) exit(9);
    for (uint32_t i = 0; i <= count; i++) positions[i] = count - 1 - i;
    memset(ids, 7, (count + 2) * len);
    cg_answered few = cg_ids_at(graph, positions, count + 1, ids, count / 2 * len + len - 1);
    bool good = !few.code && few.answered == count / 2 && ids[count / 2 * len] == 7;
    cg_answered all = cg_ids_at(graph, positions, count + 1, ids, (count + 1) * len);
    good = good && all.code == CG_NO_SUCH_POSITION && all.answered == count && ids[count * len] == 7;
    found[count] = found[count / 2] = 7;
    good = good && cg_lookup_all(graph, ids, (count + 1) * len + len - 1, len, found, count / 2) == count + 1 && found[count / 2] == 7;
    good = good && cg_lookup_all(graph, ids, count * len, len, found, count + 1) == count && found[count] == 7;
    for (uint32_t i = 0; good && i < count; i++) {
        good = cg_id_at(graph, positions[i], one, len) == len && !memcmp(one, ids + i * len, len);
        good = good && found[i] == cg_lookup(graph, one, len);
    }
    good = good && !cg_lookup_all(graph, ids, count * len, 21, found, count) && !cg_lookup_all(graph, ids, count * len, 0, found, count);
    memset(one, 7, sizeof one);
    good = good && cg_lookup_all(graph, one, len, len, found, 1) == 1 && found[0] == cg_lookup(graph, one, len);
    free(positions);
    free(found);
    free(ids);
    return good;
}

/* All commits, from blocks, each compared with what the calls for one commit say. */
static int list(cg_graph graph) {
    if (!answers_ids(graph)) return 9;
    if (cg_num_layers(graph) == 1 && !print_layer(graph)) return 9;
    uint32_t count = cg_num_commits(graph), out[ROOM + 1], one[ROOM];
    cg_parent_count answers[PLACES + 1];
    cg_commit commits[PLACES + 1];
    for (uint32_t first = 0; first < count;) {
        cg_block block = block_from(graph, first, answers, out);
        const uint32_t *parents = out;
        commits[block.commits].time = 7;
        if (cg_commits(graph, first, commits, block.commits) != count - first || commits[block.commits].time != 7) return 9;
        for (uint32_t i = 0; i < block.commits; i++) {
            cg_parent_count answer = cg_parents(graph, first + i, one, ROOM);
            if (answer.code != answers[i].code || answer.count != answers[i].count) return 9;
            if (memcmp(one, parents, answer.count * sizeof *one) || !answers_first(graph, first + i, answer, one)) return 9;
            print_line(graph, first + i, commits[i], answer, parents);
            parents += answer.count;
        }
        first += block.commits;
    }
    if (cg_first_parents(graph, count, out, 1).code != CG_NO_SUCH_POSITION) return 9;
    if (cg_first_parent(graph, count).code != CG_NO_SUCH_POSITION) return 9;
    if (cg_matches(graph, count, NULL_BYTES, 0).code != CG_NO_SUCH_POSITION) return 9;
    return cg_commits(graph, count, commits, 1) || cg_parents_from(graph, count, answers, 1, out, ROOM).commits ? 9 : 0;
}

static uint32_t position_of(cg_graph graph, const char *hex) {
    uint8_t id[32];
    return cg_lookup(graph, id, bytes_of(hex, id));
}

/* The parents of a commit, and whether it leads to each; the room is given in parts, so that what does not fit is seen. */
static int parents(cg_graph graph, const char *hex) {
    uint32_t pos = position_of(graph, hex), out[ROOM], small[1] = { 7 };
    cg_parent_count all = cg_parents(graph, pos, out, ROOM), none = cg_parents(graph, pos, small, 0);
    if (all.code) { printf("refused parents %s\n", cg_strerror(all.code)); return 1; }
    if (none.code || none.count != all.count || small[0] != 7) return 9;
    if (cg_parents(graph, pos, small, 1).count != all.count || (all.count && small[0] != out[0])) return 9;
    print_ids(graph, out, all.count);
    for (uint64_t i = 0; i < all.count && i < ROOM; i++) {
        cg_leads down = cg_is_ancestor(graph, out[i], pos), up = cg_is_ancestor(graph, pos, out[i]);
        if (down.code || !down.found || up.code || up.found) return 9;
    }
    return 0;
}

/* Whether the call for many pairs answers these, in a room that ends too early, up to a pair that is none, and in all. */
static bool answers_pairs(cg_graph graph, uint32_t from, uint32_t to, bool leads) {
    cg_pair pairs[] = { { to, from }, { from, to }, { from, from }, { to, cg_num_commits(graph) }, { to, from } };
    uint8_t out[5] = { 7, 7, 7, 7, 7 };
    uint8_t wanted[5] = { leads, cg_is_ancestor(graph, from, to).found, 1, 7, 7 };
    cg_answered few = cg_are_ancestors(graph, pairs, 5, out, 1);
    if (few.code || few.answered != 1 || out[0] != leads || out[1] != 7) return false;
    cg_answered some = cg_are_ancestors(graph, pairs, 5, out, 5), none = cg_are_ancestors(graph, pairs, 0, out, 5);
    return some.code == CG_NO_SUCH_POSITION && some.answered == 3 && !memcmp(out, wanted, 5) && !none.code && !none.answered;
}

static bool is_stopped(cg_reached told, const uint32_t *out) {
    return told.code == CG_STOPPED && !told.visits && !told.length && out[0] == 7;
}

/* Whether the searches with a limit answer what those without do, where it allows the visits that these make, and else stop. Where both
 * are one commit, or their numbers allow no walk, nothing is read, and a flag is not looked at. */
static bool stops_walk(cg_graph graph, uint32_t from, uint32_t to, cg_reached whole, const uint32_t *walk) {
    uint32_t out[ROOM], last = whole.visits - (whole.visits > 0);
    bool reads = from != to && whole.visits;
    cg_flag flag = CG_NO_FLAG;
    if (cg_flag_new(&flag)) return false;
    cg_limit limits[] = { { whole.visits, CG_NO_FLAG }, { UINT64_MAX, CG_NO_FLAG }, { whole.visits, flag } };
    cg_limit none = { 0, CG_NO_FLAG }, few = { last, CG_NO_FLAG };
    for (int i = 0; i < 3; i++) {
        cg_reached told = cg_ancestor_walk_within(graph, from, to, limits[i], out, ROOM);
        if (told.code || told.visits != whole.visits || told.length != whole.length) return false;
        if (memcmp(out, walk, told.length * sizeof *out)) return false;
        limits[i].visits = UINT64_MAX;
        cg_leads leads = cg_is_ancestor_within(graph, to, from, limits[i]);
        if (leads.code || leads.found != (whole.length > 0)) return false;
    }
    out[0] = 7;
    if (whole.visits && !is_stopped(cg_ancestor_walk_within(graph, from, to, few, out, ROOM), out)) return false;
    cg_leads leads = cg_is_ancestor_within(graph, to, from, none);
    if (leads.code != (reads ? CG_STOPPED : CG_OK) || leads.found != (!reads && whole.length)) return false;
    if (!cg_flag_raise(flag)) return false;
    leads = cg_is_ancestor_within(graph, to, from, limits[2]);
    if (leads.code != (reads ? CG_STOPPED : CG_OK) || leads.found != (!reads && whole.length)) return false;
    if (reads && !is_stopped(cg_ancestor_walk_within(graph, from, to, limits[2], out, ROOM), out)) return false;
    uint32_t past = cg_num_commits(graph);
    bool good = cg_ancestor_walk_within(graph, past, to, limits[2], out, ROOM).code == CG_NO_SUCH_POSITION;
    good = good && cg_is_ancestor_within(graph, to, past, none).code == CG_NO_SUCH_POSITION;
    return cg_flag_free(&flag) && good;
}

/* Whether the search for merge bases with a limit answers what the one without does, or stops, in the same way. It goes by generation
 * numbers, so its visits are its own. */
static bool stops_bases(cg_graph graph, uint32_t first, const uint32_t *others, size_t count, cg_bases whole, const uint32_t *bases) {
    uint32_t out[ROOM];
    cg_flag flag = CG_NO_FLAG;
    if (cg_flag_new(&flag)) return false;
    cg_limit none = { UINT64_MAX, CG_NO_FLAG };
    whole.visits = cg_merge_bases_within(graph, first, others, count, none, out, ROOM).visits;
    cg_limit enough = { whole.visits, CG_NO_FLAG }, flagged = { UINT64_MAX, flag }, few = { whole.visits - 1, CG_NO_FLAG };
    for (int i = 0; i < 3; i++) {
        cg_limit limit = i == 2 ? flagged : i == 1 ? none : enough;
        cg_bases told = cg_merge_bases_within(graph, first, others, count, limit, out, ROOM);
        if (memcmp(&told.ahead, &whole.ahead, sizeof told - offsetof(cg_bases, ahead)) || told.code) return false;
        if (memcmp(out, bases, told.length * sizeof *out)) return false;
    }
    out[0] = 7;
    if (!cg_flag_raise(flag)) return false;
    for (int i = 0; whole.visits && i < 2; i++) {
        cg_bases told = cg_merge_bases_within(graph, first, others, count, i ? flagged : few, out, ROOM);
        if (told.code != CG_STOPPED || told.visits || told.length || told.ahead || told.behind || out[0] != 7) return false;
    }
    bool good = cg_merge_bases_within(graph, cg_num_commits(graph), others, count, few, out, ROOM).code == CG_NO_SUCH_POSITION;
    return cg_flag_free(&flag) && good;
}

/* A shortest walk from a commit to another, and how many commits were visited. */
static int ancestor(cg_graph graph, char **hex) {
    uint32_t from = position_of(graph, hex[0]), to = position_of(graph, hex[1]), out[ROOM];
    if (from == CG_NOWHERE || to == CG_NOWHERE) { puts(from == CG_NOWHERE ? "unknown 1" : "unknown 2"); return 1; }
    cg_reached reached = cg_ancestor_walk(graph, from, to, out, ROOM);
    cg_leads leads = cg_is_ancestor(graph, to, from);
    if (reached.code || reached.length > ROOM || leads.code || leads.found != (reached.length > 0)) return 9;
    if (!answers_pairs(graph, from, to, leads.found) || !stops_walk(graph, from, to, reached, out)) return 9;
    if (reached.length) printf("walk");
    else printf("none");
    for (uint64_t i = 0; i < reached.length; i++) printf(" %" PRIu32, out[i]);
    printf("\nvisits %" PRIu32 "\n", reached.visits);
    return reached.length ? 0 : 1;
}

/* What is told of a layer that is refused, with nothing written. */
static bool refuses(cg_graph graph, const cg_new_commit *commits, size_t count, cg_write_error wanted) {
    cg_bytes bytes = { commits, false };
    cg_write_error told = cg_write(graph, commits, count, &bytes);
    return told.code == wanted.code && told.position == wanted.position && told.commit == wanted.commit && told.other == wanted.other
        && told.layer == wanted.layer && told.expected == wanted.expected && bytes.address == commits && !bytes.kept;
}

/* A copy of bytes that were made, which are freed: in a room that is too small and in one that is too large. */
static uint8_t *copied(cg_bytes bytes, size_t *len) {
    *len = (size_t)cg_bytes_copy(bytes, 0, NULL, 0);
    uint8_t *copy = malloc(*len + 1), few[8] = { 7, 7, 7, 7, 7, 7, 7, 7 };
    if (!copy || *len < 8) exit(9);
    copy[*len] = 7;
    if (cg_bytes_copy(bytes, 4, few, 4) != *len - 4 || few[4] != 7 || cg_bytes_copy(bytes, *len + 1, few + 4, 4) || few[4] != 7) exit(9);
    if (cg_bytes_copy(bytes, 0, copy, *len + 1) != *len || copy[*len] != 7 || memcmp(copy, "CGPH", 4) || memcmp(copy + 4, few, 4)) exit(9);
    cg_lent lent = CG_NOT_LENT;
    if (!cg_lend_bytes(bytes, &lent) || lent.len != *len || memcmp(lent.bytes, copy, *len)) exit(9);
    if (cg_bytes_copy(bytes, *len, few, 4) || !cg_bytes_free(&bytes) || bytes.address || bytes.kept || cg_bytes_free(&bytes)) exit(9);
    return copy;
}

/* Whether a layer with one new commit is written on top of a checked graph, and what is refused there. */
static bool writes_on(cg_graph graph) {
    static const uint8_t null[32] = { 0 };
    uint8_t id[32], other[32], first[32];
    size_t len = cg_id_len(graph), size;
    uint32_t count = cg_num_commits(graph), parent;
    memset(id, 0xee, 32);
    memset(other, 0xed, 32);
    cg_id_at(graph, 0, first, len);
    cg_new_commit one = { id, len, other, len, first, len, (1ull << 34) - 1 }, two[2] = { one, one }, bad[2] = { one, one };
    two[1].id = other;
    bad[1].id = two[1].id;
    bool good = refuses(graph, NULL, 0, (cg_write_error){ .code = CG_WRITE_NOTHING });
#define REFUSED(field, value, fault, ...) bad[1].field = value; \
    good = good && refuses(graph, bad, 2, (cg_write_error){ .code = fault, .commit = 1, __VA_ARGS__ }); bad[1] = two[1]
    REFUSED(id, null, CG_WRITE_NULL_ID, .other = 0);
    REFUSED(tree, null, CG_WRITE_NULL_TREE, .other = 0);
    REFUSED(time, 1ull << 34, CG_WRITE_TIME, .other = 0);
    REFUSED(id, id, CG_WRITE_TWICE, .other = 0);
    REFUSED(id, first, CG_WRITE_BELOW, .position = 0);
    REFUSED(parents, null, CG_WRITE_PARENT, .other = 0);
    REFUSED(parents, other, CG_WRITE_CYCLE, .other = 0);
    REFUSED(id_len, 21, CG_WRITE_NO_IDS, .other = 0);
    REFUSED(id_len, 0, CG_WRITE_NO_IDS, .other = 0);
    REFUSED(tree_len, 52 - len, CG_WRITE_NO_IDS, .other = 0);
    REFUSED(parents_len, len - 1, CG_WRITE_NO_IDS, .other = 0);
    bad[1] = (cg_new_commit){ id, 52 - len, other, 52 - len, first, 0, 0 };
    good = good && refuses(graph, bad, 2, (cg_write_error){ .code = CG_WRITE_KIND, .commit = 1 });
    uint64_t layers = cg_num_layers(graph);
    cg_bytes bytes = CG_NO_BYTES;
    cg_write_error told = cg_write(graph, two, 2, &bytes);
    if (layers == 256) return good && told.code == CG_WRITE_TOO_MANY_LAYERS;
    if (told.code >= CG_DATES_DATA_SIZE && told.code <= CG_DATES_WRONG) return good && cg_corrected_dates(graph, NULL, 0).code == told.code;
    if (told.code || !bytes.kept) return false;
    uint8_t *file = copied(bytes, &size);
    cg_file alone = { file, size, NULL, 0 };
    cg_graph top = CG_CLOSED;
    cg_commit commit, below;
    cg_layer_info layer;
    cg_layer_verdict verdict;
    good = good && !cg_open(&alone, 1, &top).code && cg_num_commits(top) == 2 && cg_layer(top, 0, &layer) && layer.bases == layers;
    good = good && cg_lookup(top, id, len) == 1 && cg_lookup(top, other, len) == 0 && cg_commit_at(top, 1, &commit);
    good = good && cg_commit_at(graph, 0, &below) && commit.time == one.time && commit.generation == below.generation + 1;
    good = good && cg_parents(top, 1, &parent, 1).count == 1 && parent == 0 && count && !cg_verify_layer(top, 0, &verdict);
    for (uint64_t i = 0; good && i < layers; i++) {
        good = cg_layer_checksum(graph, i, first, len) == len && cg_base_id_at(top, 0, i, other, len) == len && !memcmp(first, other, len);
    }
    free(file);
    return cg_close(&top) && good;
}

/* Whether the commits of a right graph, written to one file, are read from it again as they were. Where no longest walk is known
 * of these small graphs, commits at the greatest generation number are their own ancestors, and are refused. */
static bool writes_again(cg_graph graph, bool ends) {
    uint8_t *ids, id[32], tree[2][32];
    uint32_t count = cg_num_commits(graph), out[ROOM], again[ROOM];
    size_t len = cg_id_len(graph), size;
    cg_new_commit *commits = commits_of(graph, 0, count, &ids);
    cg_bytes bytes = CG_NO_BYTES;
    cg_write_error told = cg_write(CG_CLOSED, commits, count, &bytes);
    free(commits);
    free(ids);
    if (!ends && told.code == CG_WRITE_CYCLE) return told.commit < count && !bytes.kept;
    if (told.code == CG_WRITE_TWICE) return cg_verify(graph, true, &(cg_verdict){ 0 }, NULL, 0) == CG_CHECK_DUPLICATE_ID && !bytes.kept;
    if (told.code) return told.code == CG_WRITE_NOTHING && !count && !bytes.kept;
    uint8_t *file = copied(bytes, &size);
    cg_file alone = { file, size, NULL, 0 };
    cg_graph read = CG_CLOSED;
    cg_verdict verdict;
    cg_error error = cg_open_checked(&alone, 1, true, &verdict, NULL, 0, &read);
    bool good = !error.code && verdict.num_commits == count && cg_corrected_dates(read, NULL, 0).code == CG_OK;
    for (uint32_t pos = 0; good && pos < count; pos++) {
        cg_commit commit, other;
        cg_id_at(graph, pos, id, len);
        uint32_t place = cg_lookup(read, id, len);
        good = cg_commit_at(read, place, &other) && cg_commit_at(graph, pos, &commit) && other.time == commit.time
            && other.generation == commit.generation && cg_tree_at(graph, pos, tree[0], len) == len
            && cg_tree_at(read, place, tree[1], len) == len && !memcmp(tree[0], tree[1], len);
        uint64_t parents = cg_parents(graph, pos, out, ROOM).count;
        good = good && cg_parents(read, place, again, ROOM).count == parents;
        for (uint64_t i = 0; good && i < parents && i < ROOM; i++) {
            cg_id_at(graph, out[i], tree[0], len);
            cg_id_at(read, again[i], tree[1], len);
            good = !memcmp(tree[0], tree[1], len);
        }
    }
    free(file);
    return cg_close(&read) && good;
}

/* Whether the call for many pairs answers what the one for a commit and another does: in a room that ends too early, up to a pair that
 * is none, and in all. */
static bool answers_two(cg_graph graph, uint32_t first, const uint32_t *others, uint32_t count) {
    cg_two pairs[ROOM + 1];
    cg_bases answers[ROOM + 1], one;
    uint32_t out[ROOM * FEW + 1], alone[ROOM];
    uint64_t length = 0;
    for (uint32_t i = 0; i < count; i++) pairs[i] = (cg_two){ first, others[i] };
    pairs[count] = (cg_two){ cg_num_commits(graph), first };
    answers[count].code = out[ROOM * FEW] = 7;
    cg_compared all = cg_merge_bases_of(graph, pairs, count + 1, answers, count + 1, out, ROOM * FEW);
    if (all.code != CG_NO_SUCH_POSITION || all.answered != count || answers[count].code != 7 || out[ROOM * FEW] != 7) return false;
    for (uint32_t i = 0; i < count; i++) {
        one = cg_merge_bases(graph, first, &others[i], 1, alone, ROOM);
        if (answers[i].code || one.ahead != answers[i].ahead || one.behind != answers[i].behind || one.length != answers[i].length) return false;
        if (one.visits != answers[i].visits || memcmp(alone, out + length, one.length * sizeof *out)) return false;
        length += one.length;
    }
    alone[0] = 7;
    cg_compared few = cg_merge_bases_of(graph, pairs, count, answers, count, alone, 0);
    return length == all.length && !few.code && few.answered == count && few.length == length && alone[0] == 7;
}

/* The merge bases of a commit and some others, and how far they have come apart. */
static int bases(cg_graph graph, int count, char **hex) {
    uint32_t others[ROOM], out[ROOM];
    for (int i = 1; i < count && i <= ROOM; i++) others[i - 1] = position_of(graph, hex[i]);
    cg_bases found = cg_merge_bases(graph, position_of(graph, hex[0]), others, (size_t)count - 1, out, ROOM);
    if (found.code) { printf("refused bases %s\n", cg_strerror(found.code)); return 1; }
    if (!answers_two(graph, position_of(graph, hex[0]), others, (uint32_t)count - 1) || !writes_on(graph)) return 9;
    if (!stops_bases(graph, position_of(graph, hex[0]), others, (size_t)count - 1, found, out)) return 9;
    print_ids(graph, out, found.length);
    printf("ahead %" PRIu32 " behind %" PRIu32 "\n", found.ahead, found.behind);
    return 0;
}

/* All dates, which are asked for in no room, in too little and in more than enough; or why there are none. */
static int dates(cg_graph graph) {
    uint64_t count = cg_num_commits(graph), *out = calloc(count + 1, sizeof *out);
    cg_dates told = cg_corrected_dates(graph, out, 0), few, all;
    if (!out) return 9;
    out[count] = 7;
    few = cg_corrected_dates(graph, out, count / 2);
    for (uint64_t i = count / 2; i < count; i++)
        if (out[i]) return 9;
    all = cg_corrected_dates(graph, out, count);
    if (memcmp(&told, &few, sizeof told) || memcmp(&told, &all, sizeof told) || out[count] != 7) return 9;
    if (told.code == CG_OK) printf("dates commits %" PRIu64 "\n", told.length);
    else if (told.code == CG_NO_DATES) puts("dates none");
    else if (told.code < CG_DATES_OVERFLOW_INDEX) printf("refused dates %" PRIu32 " layer %" PRIu64, told.code - 400, told.layer);
    else printf("refused dates %" PRIu32 " position %" PRIu32, told.code - 400, told.position);
    if (told.code == CG_DATES_WRONG) printf(" expected %" PRIu64, told.expected);
    if (told.code > 400) putchar('\n');
    for (uint64_t i = 0; i < told.length; i++) printf("%" PRIu64 "\n", out[i]);
    free(out);
    return told.code == CG_OK || told.code == CG_NO_DATES ? 0 : 1;
}

/* What the filters of all commits say of a path, in a room that ends too early, and up to a position that is none. */
static int probe(cg_graph graph, const char *name) {
    uint32_t count = cg_num_commits(graph), *all = malloc((count + 1) * sizeof *all);
    uint8_t *few = calloc(count + 1, 1), *out = calloc(count + 1, 1);
    if (!all || !few || !out) return 9;
    for (uint32_t i = 0; i <= count; i++) all[i] = i;
    few[count / 2] = out[count] = 7;
    cg_probed half = cg_probe_path(graph, (const uint8_t *)name, strlen(name), all, count + 1, few, count / 2);
    cg_probed told = cg_probe_path(graph, (const uint8_t *)name, strlen(name), all, count + 1, out, count + 1);
    bool refused = told.code != CG_NO_SUCH_POSITION, falls = told.code == CG_FILTERS_FALLS || told.code == CG_FILTERS_PAST_END;
    if (few[count / 2] != 7 || out[count] != 7 || half.code != (refused ? told.code : CG_OK)) return 9;
    if (half.answered != (refused ? 0 : count / 2) || told.answered != (refused ? 0 : count)) return 9;
    if (memcmp(few, out, count / 2) || (told.code == CG_FILTERS_HASHES && told.number - 1 < 65535)) return 9;
    if (refused && falls) printf("refused filters %" PRIu32 " position %" PRIu32, told.code - 500, told.position);
    else if (refused) printf("refused filters %" PRIu32 " layer %" PRIu64, told.code - 500, told.layer);
    if (told.code == CG_FILTERS_VERSION) printf(" version %" PRIu32, told.number);
    if (refused) putchar('\n');
    for (uint64_t i = 0; i < told.answered; i++) printf("%d\n", out[i]);
    free(all);
    free(few);
    free(out);
    return refused;
}

/* Whether CG_CLOSED was left where a graph was taken, so that to close it once more does nothing. */
static bool is_closed(cg_graph *graph) {
    return !graph->address && !graph->opened && !cg_close(graph) && !graph->address && !graph->opened;
}

/* Whether none is left where a flag is freed; and where there was no graph, no flag and no bytes, whatever their address. */
static bool is_left_as_none(void) {
    cg_graph graph = { "", false };
    cg_bytes bytes = { "", false };
    cg_flag none = { "", false }, flag = CG_NO_FLAG;
    if (cg_flag_new(&flag) || !cg_flag_free(&flag) || flag.address || flag.kept || cg_flag_free(&flag)) return false;
    if (cg_flag_free(&none) || none.address || none.kept || cg_bytes_free(&bytes) || bytes.address || bytes.kept) return false;
    return !cg_close(&graph) && is_closed(&graph);
}

/* What each call answers of no graph, and that none but cg_verify writes anything. */
static bool closed_answers(void) {
    uint32_t out[1] = { 7 };
    uint8_t id[32] = { 7 };
    cg_commit commit = { .time = 7 };
    cg_parent_count answer = { .code = 7 };
    cg_count count = { .parents = 7 };
    cg_verdict verdict = { .called = 7 };
    cg_pair pair = { 0, 0 };
    uint64_t date = 7;
    cg_layer_info layer = { .first = 7 };
    cg_layer_verdict alone = { .byte = 7 };
    cg_graph none = CG_CLOSED, closed = CG_CLOSED;
    cg_bases bases = { .code = 7 };
    cg_two two = { 0, 0 };
    cg_lent lent = CG_NOT_LENT;
    cg_limit limit = { 0, CG_NO_FLAG };
    if (cg_lookup_all(CG_CLOSED, id, 20, 20, out, 1) || cg_ids_at(CG_CLOSED, out, 1, id, 20).code != CG_CLOSED_GRAPH) return false;
    if (cg_merge_bases_of(CG_CLOSED, &two, 1, &bases, 1, out, 1).code != CG_CLOSED_GRAPH || bases.code != 7) return false;
    if (!refuses(CG_CLOSED, NULL, 0, (cg_write_error){ .code = CG_WRITE_NOTHING })) return false;
    if (cg_bytes_copy(CG_NO_BYTES, 0, id, 20) || cg_lend_bytes(CG_NO_BYTES, &lent) || lent.len || !is_left_as_none()) return false;
    if (cg_verify_layer(CG_CLOSED, 0, &alone) != CG_CLOSED_GRAPH || alone.code != CG_CLOSED_GRAPH || alone.byte) return false;
    if (cg_num_layers(CG_CLOSED) || cg_layer(CG_CLOSED, 0, &layer) || layer.first != 7) return false;
    if (cg_layer_checksum(CG_CLOSED, 0, id, 20) || cg_base_id_at(CG_CLOSED, 0, 0, id, 20)) return false;
    if (cg_check(&closed, true, &verdict, &count, 1, &none) != CG_CLOSED_GRAPH || verdict.code != CG_CLOSED_GRAPH) return false;
    if (cg_check_within(&closed, true, limit, &verdict, &count, 1, &none) != CG_CLOSED_GRAPH || verdict.code != CG_CLOSED_GRAPH) return false;
    if (cg_flag_raise(CG_NO_FLAG) || !is_closed(&closed)) return false;
    if (cg_ancestor_walk_within(CG_CLOSED, 0, 0, limit, out, 1).code != CG_CLOSED_GRAPH) return false;
    if (cg_is_ancestor_within(CG_CLOSED, 0, 0, limit).code != CG_CLOSED_GRAPH) return false;
    if (cg_merge_bases_within(CG_CLOSED, 0, out, 1, limit, out, 1).code != CG_CLOSED_GRAPH) return false;
    if (none.opened || verdict.called) return false;
    verdict.called = 7;
    bool good = cg_num_commits(CG_CLOSED) == 0 && cg_id_len(CG_CLOSED) == 0 && cg_lookup(CG_CLOSED, id, 20) == CG_NOWHERE
        && cg_id_at(CG_CLOSED, 0, id, 20) == 0 && cg_tree_at(CG_CLOSED, 0, id, 20) == 0
        && !cg_commit_at(CG_CLOSED, 0, &commit) && cg_generation_at(CG_CLOSED, 0) == 0
        && !cg_lend_id(CG_CLOSED, 0, &lent) && !cg_lend_tree(CG_CLOSED, 0, &lent) && lent.len == 0
        && cg_commits(CG_CLOSED, 0, &commit, 1) == 0 && cg_parents(CG_CLOSED, 0, out, 1).code == CG_CLOSED_GRAPH
        && cg_first_parents(CG_CLOSED, 0, out, 1).code == CG_CLOSED_GRAPH && cg_first_parent(CG_CLOSED, 0).code == CG_CLOSED_GRAPH
        && cg_matches(CG_CLOSED, 0, id, 1).code == CG_CLOSED_GRAPH
        && cg_parents_from(CG_CLOSED, 0, &answer, 1, out, 1).commits == 0
        && cg_verify(CG_CLOSED, true, &verdict, &count, 1) == CG_CLOSED_GRAPH && verdict.code == CG_CLOSED_GRAPH && verdict.called == 0
        && cg_ancestor_walk(CG_CLOSED, 0, 0, out, 1).code == CG_CLOSED_GRAPH && cg_is_ancestor(CG_CLOSED, 0, 0).code == CG_CLOSED_GRAPH
        && cg_merge_bases(CG_CLOSED, 0, out, 1, out, 0).code == CG_CLOSED_GRAPH
        && cg_are_ancestors(CG_CLOSED, &pair, 1, id, 1).code == CG_CLOSED_GRAPH
        && cg_corrected_dates(CG_CLOSED, &date, 1).code == CG_CLOSED_GRAPH && cg_version() == CG_VERSION
        && cg_probe_path(CG_CLOSED, (const uint8_t *)"a", 1, out, 1, id, 1).code == CG_CLOSED_GRAPH;
    return good && date == 7 && out[0] == 7 && id[0] == 7 && commit.time == 7 && answer.code == 7 && count.parents == 7;
}

#define SAME(two, one, other) ((two)[0].one == (two)[1].one && (two)[0].other == (two)[1].other)

/* Whether each call answers the same where NULL stands beside a length of 0 as where another pointer does. */
static bool null_answers(cg_graph graph) {
    uint8_t bytes[1] = { 7 };
    uint32_t numbers[1] = { 7 };
    uint64_t dates[1] = { 7 };
    cg_pair pairs[1] = { { 7, 7 } };
    cg_parent_count answers[1] = { { .code = 7 } };
    cg_count counts[1] = { { .parents = 7 } };
    cg_verdict verdicts[2];
    memset(verdicts, 7, sizeof verdicts);
    cg_graph opened = CG_CLOSED;
    cg_parent_count parents[] = { cg_parents(graph, 0, NULL, 0), cg_parents(graph, 0, numbers, 0) };
    cg_parent_count first[] = { cg_first_parents(graph, 0, NULL, 0), cg_first_parents(graph, 0, numbers, 0) };
    cg_block blocks[] = { cg_parents_from(graph, 0, NULL, 0, NULL, 0), cg_parents_from(graph, 0, answers, 0, numbers, 0) };
    cg_reached walks[] = { cg_ancestor_walk(graph, 0, 0, NULL, 0), cg_ancestor_walk(graph, 0, 0, numbers, 0) };
    cg_answered many[] = { cg_are_ancestors(graph, NULL, 0, NULL, 0), cg_are_ancestors(graph, pairs, 0, bytes, 0) };
    cg_bases bases[] = { cg_merge_bases(graph, 0, NULL, 0, NULL, 0), cg_merge_bases(graph, 0, numbers, 0, numbers, 0) };
    cg_dates told[] = { cg_corrected_dates(graph, NULL, 0), cg_corrected_dates(graph, dates, 0) };
    cg_probed probed[] = { cg_probe_path(graph, NULL, 0, NULL, 0, NULL, 0), cg_probe_path(graph, bytes, 0, numbers, 0, bytes, 0) };
    cg_matched matched[] = { cg_matches(graph, 0, NULL, 0), cg_matches(graph, 0, bytes, 0) };
    cg_file files[] = { { NULL, 0, NULL, 0 }, { bytes, 0, bytes, 0 } };
    cg_error errors[] = { cg_open(&files[0], 1, &opened), cg_open(&files[1], 1, &opened) };
    cg_error none[] = { cg_open(NULL, 0, &opened), cg_open(files, 0, &opened) };
    cg_verify(graph, false, &verdicts[0], NULL, 0);
    cg_verify(graph, false, &verdicts[1], counts, 0);
    cg_two two[1] = { { 7, 7 } };
    cg_answered ids[] = { cg_ids_at(graph, NULL, 0, NULL, 0), cg_ids_at(graph, numbers, 0, bytes, 0) };
    cg_bases base[1] = { { .code = 7 } };
    cg_compared compared[] = { cg_merge_bases_of(graph, NULL, 0, NULL, 0, NULL, 0), cg_merge_bases_of(graph, two, 0, base, 0, numbers, 0) };
    if (!SAME(ids, code, answered) || !SAME(compared, code, answered) || cg_lookup_all(graph, NULL, 0, 20, NULL, 0) || base[0].code != 7) return false;
    return SAME(parents, code, count) && SAME(first, code, count) && SAME(blocks, commits, length) && SAME(walks, code, length)
        && SAME(many, code, answered) && SAME(bases, ahead, length) && SAME(told, code, length) && SAME(probed, code, answered)
        && SAME(matched, code, parent) && bases[0].code == bases[1].code && errors[0].code == CG_FILE_TOO_SHORT && errors[1].code == CG_FILE_TOO_SHORT
        && none[0].code == CG_GRAPH_NO_FILES && none[1].code == CG_GRAPH_NO_FILES && verdicts[0].code == verdicts[1].code
        && verdicts[0].kinds == verdicts[1].kinds && cg_commits(graph, 0, NULL, 0) == cg_num_commits(graph) && !cg_chain_line(NULL, 0, 0).found
        && cg_lookup(graph, NULL, 0) == CG_NOWHERE && !cg_id_at(graph, 0, NULL, 0) && !cg_tree_at(graph, 0, NULL, 0)
        && !cg_layer_checksum(graph, 0, NULL, 0) && !cg_base_id_at(graph, 0, 0, NULL, 0) && !opened.opened
        && bytes[0] == 7 && numbers[0] == 7 && dates[0] == 7 && answers[0].code == 7 && counts[0].parents == 7;
}

/* What the queries answer of a graph that was not checked. */
static bool unchecked_answers(cg_graph graph) {
    uint32_t out[1] = { 7 };
    uint8_t bit = 7;
    cg_pair pair = { 0, 0 };
    cg_two two = { 0, 0 };
    cg_bases bases = { .code = 7 };
    if (cg_merge_bases_of(graph, &two, 1, &bases, 1, out, 1).code != CG_NOT_CHECKED || bases.code != 7) return false;
    if (!refuses(graph, NULL, 0, (cg_write_error){ .code = CG_NOT_CHECKED })) return false;
    return cg_ancestor_walk(graph, 0, 0, out, 1).code == CG_NOT_CHECKED && cg_is_ancestor(graph, 0, 0).code == CG_NOT_CHECKED
        && cg_are_ancestors(graph, &pair, 1, &bit, 1).code == CG_NOT_CHECKED && bit == 7
        && cg_merge_bases(graph, 0, out, 0, out, 1).code == CG_NOT_CHECKED && out[0] == 7;
}

enum { LAYERS = 32, PATH = 4096 };
static char paths[LAYERS][PATH];

static bool add(cg_file *files, size_t *count, const char *path) {
    cg_file *file = &files[*count];
    file->bytes = read_all(path, &file->len);
    file->path = (const uint8_t *)path;
    file->path_len = strlen(path);
    *count += file->bytes != NULL;
    return file->bytes != NULL;
}

/* The files of the layers that the lines of a chain name, in its folder. */
static bool add_layers(cg_file *files, size_t *count, const char *chain, int folder) {
    size_t len;
    uint8_t *text = read_all(chain, &len);
    bool good = text != NULL;
    for (size_t start = 0; good;) {
        cg_line line = cg_chain_line(text, len, start);
        if (!line.found) break;
        int size = (int)(line.end - start);
        good = *count < LAYERS
            && snprintf(paths[*count], PATH, "%.*s/graph-%.*s.graph", folder, chain, size, (char *)text + start) < PATH
            && add(files, count, paths[*count]);
        start = line.next;
    }
    free(text);
    return good;
}

/* Whether two open graphs have the same layers. */
static bool same_layers(cg_graph one, cg_graph other) {
    uint8_t id[2][32] = { { 0 }, { 0 } };
    cg_layer_info layer[2];
    uint64_t count = cg_num_layers(one), commits = 0;
    for (uint64_t number = 0; number < count; number++) {
        if (!cg_layer(one, number, &layer[0]) || !cg_layer(other, number, &layer[1])) return false;
        if (memcmp(&layer[0], &layer[1], sizeof layer[0]) || layer[0].first != commits) return false;
        commits += layer[0].num_commits;
        size_t len = cg_layer_checksum(one, number, id[0], cg_id_len(one));
        if (len != cg_id_len(one) || cg_layer_checksum(other, number, id[1], len) != len || memcmp(id[0], id[1], len)) return false;
        if (cg_layer_checksum(one, number, id[0], len + 1)) return false;
    }
    return cg_num_layers(other) == count && cg_num_commits(other) == commits && !cg_layer(one, count, &layer[0])
        && !cg_layer_checksum(one, count, id[0], 20);
}

/* Whether the check with a limit tells the verdict where it allows the commits before the fault, or all, and one visit fewer stops it. */
static bool stops_check(const cg_file *files, size_t files_count, cg_verdict found) {
    cg_verdict verdict = { .code = 7 };
    cg_count count = { .parents = 7 };
    cg_graph opened = CG_CLOSED, checked = CG_CLOSED;
    cg_limit limit = { found.called, CG_NO_FLAG };
    if (cg_open(files, files_count, &opened).code) return false;
    if (cg_check_within(&opened, false, limit, &verdict, &count, 1, &checked) != found.code || verdict.code != found.code) return false;
    if (verdict.position != found.position || verdict.other != found.other || verdict.longest != found.longest) return false;
    if (!is_closed(&opened) || cg_close(&checked) != !found.code || (found.code && count.parents != 7)) return false;
    cg_flag flag = CG_NO_FLAG;
    if (cg_flag_new(&flag) || !cg_flag_raise(flag) || !cg_flag_raise(flag)) return false;
    for (int turn = 0; found.called && turn < 2; turn++) {
        limit = turn ? (cg_limit){ UINT64_MAX, flag } : (cg_limit){ found.called - 1, CG_NO_FLAG };
        count.parents = 7;
        if (cg_open(files, files_count, &opened).code) return false;
        if (cg_check_within(&opened, false, limit, &verdict, &count, 1, &checked) != CG_STOPPED || verdict.code != CG_STOPPED) return false;
        if (!is_closed(&opened) || verdict.position != (turn ? 0 : found.called - 1) || verdict.called || checked.opened || count.parents != 7) return false;
    }
    return cg_flag_free(&flag);
}

/* Whether the check of an open graph hands it out checked where it is right, and tells what cg_verify tells. */
static bool same_checked(const cg_file *files, size_t files_count, cg_graph graph) {
    cg_graph opened = CG_CLOSED, checked = CG_CLOSED;
    cg_verdict found, verdict = { .code = 7 };
    cg_count counts[ROOM], count = { .parents = 7 };
    if (cg_open(files, files_count, &opened).code || !same_layers(opened, graph)) return false;
    uint32_t code = cg_verify(opened, false, &found, counts, ROOM);
    if (!stops_check(files, files_count, found)) return false;
    if (cg_check(&opened, false, &verdict, &count, 1, &checked) != code || verdict.code != code || !is_closed(&opened)) return false;
    bool good = checked.opened == !code && (code || same_layers(checked, graph)) && (code || !found.kinds || count.parents == counts[0].parents)
        && cg_is_ancestor(checked, 0, 0).code == (code ? CG_CLOSED_GRAPH : cg_num_commits(checked) ? CG_OK : CG_NO_SUCH_POSITION);
    if (code && count.parents != 7) return false;
    good = good && verdict.longest == found.longest && verdict.position == found.position && verdict.other == found.other
        && verdict.layer == found.layer && verdict.index == found.index && verdict.kinds == found.kinds && verdict.num_commits == found.num_commits;
    return cg_close(&checked) == !code && is_closed(&checked) && good && verdict.called == (code ? 0 : found.called);
}

/* Whether an id lies in the bytes of one of the files. */
static bool lies_in(cg_lent lent, const cg_file *files, size_t files_count) {
    for (size_t i = 0; i < files_count; i++)
        if (lent.bytes >= files[i].bytes && lent.bytes + lent.len <= files[i].bytes + files[i].len) return true;
    return false;
}

/* Whether bytes that are lent are opened as a copy of them is, are read where they are, also once the graph is checked, and are
 * refused as by cg_open. */
static bool same_lent(const cg_file *files, size_t files_count) {
    cg_graph copied = CG_CLOSED, opened = CG_CLOSED, checked = CG_CLOSED;
    cg_verdict found, verdict = { .code = 7 };
    cg_count counts[ROOM];
    cg_lent lent = CG_NOT_LENT;
    cg_error error = cg_open(files, files_count, &copied), told = cg_open_lent(files, files_count, &opened);
    if (told.code != error.code || told.layer != error.layer || opened.opened != copied.opened) return false;
    if (error.code) return cg_open_lent(NULL, 0, &opened).code == CG_GRAPH_NO_FILES && !cg_close(&opened);
    uint32_t code = cg_verify(copied, false, &found, counts, ROOM), last = cg_num_commits(copied) - 1;
    bool good = same_layers(opened, copied) && cg_lend_id(opened, last, &lent) == (last != UINT32_MAX);
    good = good && (!lent.len || lies_in(lent, files, files_count));
    good = good && cg_lookup(opened, lent.bytes, lent.len) == cg_lookup(copied, lent.bytes, lent.len);
    good = good && cg_check(&opened, false, &verdict, counts, ROOM, &checked) == code && verdict.position == found.position;
    good = good && is_closed(&opened) && (code || same_layers(checked, copied)) && cg_close(&checked) == !code;
    return cg_close(&copied) && good;
}

/* Whether a chain in which each file stands twice, all in order and then once more, is opened as by cg_open, and is refused as it is;
 * and a place that has no file, by its layer. */
static bool same_chain(const cg_file *files, size_t files_count) {
    cg_file repeated[2 * LAYERS];
    uint64_t places[2 * LAYERS] = { 0 };
    for (size_t i = 0; i < 2 * files_count; i++) {
        places[i] = i % files_count;
        repeated[i] = files[places[i]];
    }
    cg_graph copied = CG_CLOSED, opened = CG_CLOSED;
    cg_error error = cg_open(repeated, 2 * files_count, &copied);
    cg_error told = cg_open_chain(files, files_count, places, 2 * files_count, &opened);
    bool good = told.code == error.code && told.layer == error.layer && opened.opened == copied.opened && same_layers(opened, copied);
    cg_close(&copied);
    cg_close(&opened);
    if (!files_count) return good && told.code == CG_GRAPH_NO_FILES;
    places[files_count] = files_count;
    told = cg_open_chain(files, files_count, places, 2 * files_count, &opened);
    return good && told.code == CG_NO_SUCH_LAYER && told.layer == files_count && is_closed(&opened);
}

/* What stands at a path. */
static cg_known look(const char *path, size_t len) {
    cg_known known = { path, len, NULL_BYTES, 0, CG_NOTHING };
    struct stat status;
    if (stat(path, &status)) return known;
    uint8_t *bytes = S_ISDIR(status.st_mode) ? NULL : read_all(path, &known.len);
    known.kind = bytes ? CG_READ : S_ISDIR(status.st_mode) ? CG_FOLDER : CG_UNOPENED;
    if (bytes) known.bytes = bytes;
    return known;
}

/* Opens the graph at a path, by as many calls as there are paths that are wanted. */
static cg_path_error open_path(const char *path, size_t len, uint32_t what, char *file, cg_graph *out) {
    static char names[2 * LAYERS][PATH + 1];
    static cg_known known[2 * LAYERS];
    size_t count = 0;
    cg_path_error told = cg_open_known(path, len, what, known, count, file, PATH, out);
    for (; told.code == CG_PATH_WANTED && count < 2 * LAYERS; told = cg_open_known(path, len, what, known, count, file, PATH, out)) {
        if (told.layer || told.length > PATH) exit(9);
        memcpy(names[count], file, told.length);
        names[count][told.length] = 0;
        known[count] = look(names[count], told.length);
        count++;
    }
    for (size_t i = 0; i < count; i++)
        if (known[i].kind == CG_READ) free((void *)known[i].bytes);
    return told;
}

/* Whether the graph at a path is opened as the graph of its bytes was; or the same error is told. */
static bool same_at(const char *path, size_t len, uint32_t what, cg_error error, cg_graph graph) {
    static char file[PATH];
    cg_graph opened = CG_CLOSED;
    cg_path_error told = open_path(path, len, what, file, &opened);
    if (told.code) return told.code == error.code && told.layer == error.layer && told.length >= len && !memcmp(file, path, len) && !opened.opened;
    bool good = !error.code && !told.layer && !told.length && same_layers(opened, graph) && unchecked_answers(opened);
    return cg_close(&opened) && good;
}

/* What is told where nothing stands at a path, where a folder stands in the place of a file, and where a file was not read. */
static bool nothing_at(const char *path, size_t len) {
    static char file[PATH], none[PATH];
    cg_graph opened = CG_CLOSED;
    size_t longer = (size_t)snprintf(none, PATH, "%.*s/none", (int)len, path);
    cg_known unread = { none, longer, NULL_BYTES, 0, CG_UNREAD }, lacking = { none, longer, NULL_BYTES, 0, CG_NO_MEMORY };
    cg_path_error told = open_path(none, longer, CG_ANYTHING, file, &opened);
    if (told.code != CG_OPEN_NOTHING_FOUND || told.layer) return false;
    told = open_path(none, longer, CG_FILE, file, &opened);
    if (told.code != CG_OPEN_NOT_OPENED || told.length != longer || memcmp(file, none, longer)) return false;
    if (open_path("/", 1, CG_FILE, file, &opened).code != CG_OPEN_NOT_OPENED || file[0] != '/') return false;
    file[3] = 'z';
    told = cg_open_known(none, longer, CG_FILE, &unread, 1, file, 3, &opened);
    if (told.code != CG_OPEN_READ_FAILED || told.length != longer || memcmp(file, none, 3) || file[3] != 'z') return false;
    if (cg_open_known(none, longer, CG_ANYTHING, &lacking, 1, file, 3, &opened).code != CG_OUT_OF_MEMORY) return false;
    told = cg_open_known(none, longer, CG_ANYTHING, NULL, 0, NULL, 0, &opened);
    if (told.code != CG_PATH_WANTED || told.length != longer || told.layer) return false;
    return cg_open_known("\xff", 1, CG_ANYTHING, NULL, 0, NULL, 0, &opened).code == CG_PATH_NOT_UTF8 && !opened.opened;
}

/* The lines of a file, each after its length. */
static int lines(const char *path) {
    size_t len, start = 0;
    uint8_t *text = read_all(path, &len);
    cg_line line = cg_chain_line(text, len, 0);
    for (; line.found; line = cg_chain_line(text, len, start)) {
        printf("%zu %.*s\n", line.end - start, (int)(line.end - start), (char *)text + start);
        start = line.next;
    }
    free(text);
    return start == len && !line.end && !line.next ? 0 : 9;
}

/* Whether the words after the path are those of a command. */
static bool is_command(int count, char **words) {
    static const char *const alone[] = { "list", "verify", "distinct", "lines", "dates" };
    for (size_t i = 0; count == 1 && i < sizeof alone / sizeof *alone; i++)
        if (!strcmp(words[0], alone[i])) return true;
    return (count == 2 && (!strcmp(words[0], "find") || !strcmp(words[0], "parents") || !strcmp(words[0], "probe")))
        || (count == 3 && !strcmp(words[0], "ancestor")) || (count > 2 && !strcmp(words[0], "bases"));
}

/* The answer of an open graph. */
static int answer(cg_graph graph, int count, char **words) {
    if (!strcmp(words[0], "list")) return list(graph);
    if (!strcmp(words[0], "dates")) return dates(graph);
    if (!strcmp(words[0], "find")) return find(graph, words[1]);
    if (!strcmp(words[0], "probe")) return probe(graph, words[1]);
    if (!strcmp(words[0], "ancestor")) return ancestor(graph, words + 1);
    if (!strcmp(words[0], "parents")) return parents(graph, words[1]);
    if (!strcmp(words[0], "bases")) return bases(graph, count - 1, words + 1);
    return check(graph, !strcmp(words[0], "distinct"));
}

int main(int argc, char **argv) {
    cg_file files[LAYERS];
    cg_graph graph = CG_CLOSED;
    size_t count = 0;
    if (argc < 3 || !is_command(argc - 2, argv + 2)) return 2;
    if (!strcmp(argv[2], "lines")) return lines(argv[1]);
    const char *chain = strstr(argv[1], "/commit-graph-chain");
    if (chain ? !add_layers(files, &count, argv[1], (int)(chain - argv[1])) : !add(files, &count, argv[1])) return 2;
    cg_verdict verdict;
    cg_count counts[1];
    bool asks = strchr("ab", argv[2][0]) || !strcmp(argv[2], "parents");
    cg_error error = asks ? cg_open_checked(files, count, false, &verdict, counts, 1, &graph) : cg_open(files, count, &graph);
    if (!error.code && !same_checked(files, count, graph)) return 9;
    if (!same_lent(files, count) || !same_chain(files, count)) return 9;
    size_t path = chain ? (size_t)(chain - argv[1]) : strlen(argv[1]);
    for (uint32_t what = CG_ANYTHING, step = chain ? CG_CHAIN_FOLDER : CG_FILE; error.code < 300 && what <= step; what += step)
        if (!same_at(argv[1], path, what, error, graph)) return 9;
    if (!nothing_at(argv[1], path)) return 9;
    while (count) free((void *)files[--count].bytes);
    if (asks && verdict.code != error.code) return 9;
    if (error.code > 300 && error.code < 400) return not_right(verdict);
    if (error.code) return not_opened(error, !strcmp(argv[2], "list"));
    if (!null_answers(graph) || !null_answers(CG_CLOSED)) return 9;
    int status = asks || unchecked_answers(graph) ? answer(graph, argc - 2, argv + 2) : 9;
    return cg_close(&graph) && closed_answers() ? status : 9;
}
