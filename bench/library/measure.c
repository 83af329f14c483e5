/* measure PRESENT ABSENT POSITIONS ANY NEWEST LAYER CHAIN-LAYER..: times reads, checks and queries of commit-graphs through the
 * library for C. A line a figure: its name, its nanoseconds, how many numbers came out, and their sum; of queries, the numbers
 * that bench/ancestor prints. */
#include "../reading.h"
#include "commitgraph.h"
#include <inttypes.h>
#include <string.h>

enum { ID_LEN = 20, MOST_LAYERS = 256, ROOM = 64, PLACES = 4096, CALLS = 100000000 };

typedef struct { uint64_t count, sum; } seen;
typedef struct { bytes present, absent, positions, pairs[2]; } inputs;

static void add(seen *to, uint64_t number) {
    to->count++;
    to->sum += number;
}

static void report(const char *layers, const char *name, uint64_t start, seen found) {
    printf("%s-%s %" PRIu64 " %" PRIu64 " %" PRIu64 "\n", layers, name, now() - start, found.count, found.sum);
}

static void add_parents(seen *to, cg_graph graph, uint32_t pos) {
    uint32_t parents[ROOM];
    cg_parent_count told = cg_parents(graph, pos, parents, ROOM);
    for (uint64_t i = 0; i < told.count && i < ROOM; i++) add(to, parents[i]);
}

static seen lookups(cg_graph graph, bytes ids) {
    seen found = { 0, 0 };
    for (size_t at = 0; at + ID_LEN <= ids.len; at += ID_LEN) {
        uint32_t pos = cg_lookup(graph, ids.bytes + at, ID_LEN);
        if (pos != CG_NOWHERE) add(&found, pos);
    }
    return found;
}

static seen iterate(cg_graph graph) {
    seen found = { 0, 0 };
    for (uint32_t pos = 0, end = cg_num_commits(graph); pos < end; pos++) add_parents(&found, graph, pos);
    return found;
}

/* The first parent of each commit. */
static seen firsts(cg_graph graph) {
    seen found = { 0, 0 };
    for (uint32_t pos = 0, end = cg_num_commits(graph); pos < end; pos++) {
        uint32_t first = cg_first_parent(graph, pos).position;
        if (first != CG_NOWHERE) add(&found, first);
    }
    return found;
}

/* All parents in blocks. */
static seen blocks(cg_graph graph) {
    static cg_parent_count answers[PLACES];
    static uint32_t parents[2 * PLACES];
    seen found = { 0, 0 };
    for (uint32_t first = 0, end = cg_num_commits(graph); first < end;) {
        cg_block block = cg_parents_from(graph, first, answers, PLACES, parents, 2 * PLACES);
        bool fits = block.length <= 2 * PLACES;
        uint32_t whole = block.commits - !fits;
        const uint32_t *next = parents;
        for (uint32_t i = 0; i < whole; i++)
            for (uint64_t j = 0; j < answers[i].count; j++) add(&found, *next++);
        if (!whole) add_parents(&found, graph, first);
        first += whole ? whole : 1;
    }
    return found;
}

static seen records(cg_graph graph) {
    static cg_commit commits[PLACES];
    seen found = { 0, 0 };
    for (uint32_t first = 0, end = cg_num_commits(graph); first < end; first += PLACES) {
        uint32_t left = cg_commits(graph, first, commits, PLACES);
        for (uint32_t i = 0; i < left && i < PLACES; i++) {
            add(&found, commits[i].generation);
            add(&found, commits[i].time);
        }
    }
    return found;
}

static seen jumps(cg_graph graph, bytes positions) {
    seen found = { 0, 0 };
    for (size_t at = 0; at + 4 <= positions.len; at += 4) {
        const uint8_t *b = positions.bytes + at;
        uint32_t pos = (uint32_t)b[0] << 24 | (uint32_t)b[1] << 16 | (uint32_t)b[2] << 8 | b[3];
        cg_commit commit;
        if (!cg_commit_at(graph, pos, &commit)) continue;
        add(&found, commit.generation);
        add(&found, commit.time);
        add_parents(&found, graph, pos);
    }
    return found;
}

static seen integrity(cg_graph graph) {
    seen found = { 0, 0 };
    cg_verdict told;
    cg_count counts[ROOM];
    if (cg_verify(graph, false, &told, counts, ROOM)) return found;
    add(&found, told.num_commits);
    add(&found, told.has_longest ? (uint64_t)told.longest + 1 : 0);
    for (uint64_t i = 0; i < told.kinds && i < ROOM; i++) add(&found, (uint64_t)counts[i].parents * counts[i].commits);
    return found;
}

static uint32_t position(cg_graph graph, const uint8_t *id) {
    uint32_t pos = cg_lookup(graph, id, ID_LEN);
    if (pos == CG_NOWHERE) exit(1);
    return pos;
}

/* Walks between pairs of commits, from the first to the second; and whether there is one, by a call each, and for all in one call. */
static void queries(const char *layers, const char *kind, cg_graph graph, bytes ids) {
    static uint32_t walk[1 << 20];
    static cg_pair pairs[PLACES];
    static uint8_t found[PLACES];
    size_t count = 0;
    for (size_t at = 0; at + 2 * ID_LEN <= ids.len && count < PLACES; at += 2 * ID_LEN)
        pairs[count++] = (cg_pair){
            .descendant = position(graph, ids.bytes + at), .ancestor = position(graph, ids.bytes + at + ID_LEN)
        };
    uint64_t walks = 0, commits = 0, visits = 0, yes = 0, start = now();
    for (size_t i = 0; i < count; i++) {
        cg_reached reached = cg_ancestor_walk(graph, pairs[i].descendant, pairs[i].ancestor, walk, 1 << 20);
        visits += reached.visits;
        walks += reached.length > 0;
        commits += reached.length;
    }
    printf("%s-%s-walk %" PRIu64 " %" PRIu64 " %" PRIu64 " %" PRIu64 "\n", layers, kind, now() - start, walks, commits, visits);
    start = now();
    for (size_t i = 0; i < count; i++) yes += cg_is_ancestor(graph, pairs[i].ancestor, pairs[i].descendant).found;
    printf("%s-%s-yes %" PRIu64 " %" PRIu64 " 0\n", layers, kind, now() - start, yes);
    start = now();
    if (cg_are_ancestors(graph, pairs, count, found, count).answered != count) exit(1);
    yes = 0;
    for (size_t i = 0; i < count; i++) yes += found[i];
    printf("%s-%s-many %" PRIu64 " %" PRIu64 " 0\n", layers, kind, now() - start, yes);
}

static seen calls(cg_graph graph) {
    seen found = { 0, 0 };
    for (uint32_t i = 0; i < CALLS; i++) add(&found, cg_num_layers(graph));
    return found;
}

static void measure(const char *name, const inputs *in, char **paths, size_t count) {
    static cg_file files[MOST_LAYERS];
    if (count > MOST_LAYERS) exit(2);
    for (size_t i = 0; i < count; i++) {
        bytes read = read_all(paths[i]);
        files[i] = (cg_file){ read.bytes, read.len, (const uint8_t *)"-", 1 };
    }
    cg_graph graph = CG_CLOSED;
    uint64_t start = now();
    if (cg_open(files, count, &graph).code) exit(1);
    report(name, "open", start, (seen){ 1, cg_num_commits(graph) });
    start = now();
    report(name, "present", start, lookups(graph, in->present));
    start = now();
    report(name, "absent", start, lookups(graph, in->absent));
    start = now();
    report(name, "iterate", start, iterate(graph));
    start = now();
    report(name, "first", start, firsts(graph));
    start = now();
    report(name, "blocks", start, blocks(graph));
    start = now();
    report(name, "records", start, records(graph));
    start = now();
    report(name, "commit_at", start, jumps(graph, in->positions));
    start = now();
    report(name, "integrity", start, integrity(graph));
    start = now();
    report(name, "calls", start, calls(graph));
    cg_close(&graph);
    cg_verdict verdict;
    cg_count counts[1];
    start = now();
    if (cg_open_checked(files, count, false, &verdict, counts, 1, &graph).code) exit(1);
    report(name, "open_checked", start, (seen){ 1, cg_num_commits(graph) });
    queries(name, "any", graph, in->pairs[0]);
    queries(name, "newest", graph, in->pairs[1]);
    cg_close(&graph);
    start = now();
    if (cg_open_lent(files, count, &graph).code) exit(1);
    report(name, "open_lent", start, (seen){ 1, cg_num_commits(graph) });
    cg_close(&graph);
    for (size_t i = 0; i < count; i++) free((void *)files[i].bytes);
}

int main(int argc, char **argv) {
    if (argc < 8) return 2;
    inputs in = { read_all(argv[1]), read_all(argv[2]), read_all(argv[3]), { read_all(argv[4]), read_all(argv[5]) } };
    measure("layer", &in, argv + 6, 1);
    measure("chain", &in, argv + 7, (size_t)argc - 7);
    return 0;
}
