/* fields FILE..: what calls write into each field of each struct, on the layers of these files, which are opened without paths.
 * suites/bindings compares it with what Git says. The structs have other bytes in them before each call. */
#include "commitgraph.h"
#include "lines.h"
#include <string.h>

enum { LAYERS = 8, BYTES = 1 << 16, ROOM = 64, OTHER = 0xaa };

static void print_check(cg_graph graph) {
    cg_verdict v;
    cg_count counts[ROOM];
    memset(&v, OTHER, sizeof v);
    memset(counts, OTHER, sizeof counts);
    cg_verify(graph, false, &v, counts, ROOM);
    PRINT("verdict", v.code, v.num_commits, v.longest, N(v.has_longest), v.position, v.other, v.called, v.layer, v.index,
          v.kinds);
    for (uint64_t i = 0; i < v.kinds; i++) PRINT("count", counts[i].parents, counts[i].commits);
}

static void print_layers(cg_graph graph) {
    cg_layer_info layer;
    memset(&layer, OTHER, sizeof layer);
    for (uint64_t i = 0; cg_layer(graph, i, &layer); i++) {
        cg_layer_verdict v;
        memset(&v, OTHER, sizeof v);
        cg_verify_layer(graph, i, &v);
        PRINT("layer", layer.first, layer.num_commits, layer.bases, layer.hash);
        PRINT("alone", v.code, v.num_commits, v.min_generation, v.max_generation, v.max_parents, v.position, v.byte);
    }
}

/* What is answered of each commit, and of all. */
static void print_commits(cg_graph graph) {
    uint32_t out[ROOM], count = cg_num_commits(graph);
    cg_parent_count answers[ROOM];
    cg_commit commit;
    memset(answers, OTHER, sizeof answers);
    cg_block block = cg_parents_from(graph, 0, answers, ROOM, out, ROOM);
    PRINT("block", block.commits, block.length);
    for (uint32_t pos = 0; pos < count; pos++) {
        memset(&commit, OTHER, sizeof commit);
        cg_parent_count parents = cg_parents(graph, pos, out, ROOM);
        cg_commit_at(graph, pos, &commit);
        PRINT("commit", commit.time, commit.generation, parents.code, parents.count, answers[pos].code, answers[pos].count);
    }
}

/* The dates of all commits, or why there are none, and what the filter of a commit says of a path. */
static void print_chunks(cg_graph graph) {
    uint64_t out[ROOM];
    memset(out, OTHER, sizeof out);
    cg_dates dates = cg_corrected_dates(graph, out, ROOM);
    PRINT("dates", dates.code, dates.position, dates.layer, dates.expected, dates.length);
    for (uint64_t i = 0; i < dates.length; i++) PRINT("date", out[i]);
    uint32_t positions[] = { 0, CG_NOWHERE };
    uint8_t bits[2] = { OTHER, OTHER };
    cg_probed probed = cg_probe_path(graph, (const uint8_t *)"a", 1, positions, 2, bits, 2);
    PRINT("probed", probed.code, probed.position, probed.number, probed.layer, probed.answered, bits[0], bits[1]);
}

/* What is asked of a commit and another, in this order. */
static void print_queries(cg_graph graph, uint32_t first, uint32_t second) {
    uint32_t out[ROOM];
    cg_reached reached = cg_ancestor_walk(graph, first, second, out, ROOM);
    cg_leads leads = cg_is_ancestor(graph, second, first);
    cg_bases bases = cg_merge_bases(graph, first, &second, 1, out, ROOM);
    cg_pair pairs[] = { { second, first }, { first, second }, { CG_NOWHERE, first } };
    uint8_t bits[3] = { OTHER, OTHER, OTHER };
    cg_answered many = cg_are_ancestors(graph, pairs, 3, bits, 3);
    PRINT("asked", first, second);
    PRINT("reached", reached.code, reached.visits, reached.length);
    PRINT("leads", leads.code, N(leads.found));
    PRINT("answered", many.code, many.answered, bits[0], bits[1], bits[2]);
    PRINT("bases", bases.code, bases.ahead, bases.behind, bases.visits, bases.length);
    cg_two two[] = { { first, second }, { CG_NOWHERE, second } };
    cg_bases answers[2];
    memset(answers, OTHER, sizeof answers);
    cg_compared compared = cg_merge_bases_of(graph, two, 2, answers, 2, out, ROOM);
    PRINT("compared", compared.code, compared.answered, compared.length, answers[0].ahead, answers[0].behind, answers[1].code);
}

/* What is told where commits are written on top of a graph: one that it has, one that is handed in twice, and a new one. */
static void print_written(cg_graph graph) {
    uint8_t id[20], tree[20];
    uint32_t last = cg_num_commits(graph) - 1;
    memset(tree, 1, sizeof tree);
    cg_id_at(graph, last, id, sizeof id);
    cg_new_commit commits[] = { { tree, 20, tree, 20, id, 20, 5 }, { id, 20, tree, 20, NULL, 0, 5 }, { tree, 20, tree, 20, NULL, 0, 5 } };
    for (size_t count = 1; count <= 3; count++) {
        cg_bytes bytes = CG_NO_BYTES;
        cg_write_error told;
        memset(&told, OTHER, sizeof told);
        told = cg_write(graph, commits, count, &bytes);
        bool kept = bytes.kept, whole = cg_bytes_copy(bytes, 0, NULL, 0) > 1100, freed = cg_bytes_free(&bytes);
        PRINT("written", told.code, told.position, told.commit, told.other, told.layer, told.expected, N(kept), N(whole), N(freed));
    }
}

int main(int argc, char **argv) {
    static uint8_t bytes[LAYERS][BYTES];
    cg_file files[LAYERS];
    cg_graph graph = CG_CLOSED, checked = CG_CLOSED;
    cg_verdict verdict;
    cg_count counts[1];
    for (int i = 1; i < argc && i <= LAYERS; i++) {
        FILE *input = fopen(argv[i], "rb");
        if (!input) return 2;
        files[i - 1] = (cg_file){ bytes[i - 1], fread(bytes[i - 1], 1, BYTES, input), (const uint8_t *)"", 0 };
        fclose(input);
    }
    cg_error error = cg_open(files, (size_t)argc - 1, &graph);
    PRINT("error", error.code, error.layer, N(graph.opened), N(graph.address != NULL));
    print_check(graph);
    print_layers(graph);
    print_commits(graph);
    print_chunks(graph);
    error = cg_open_checked(files, (size_t)argc - 1, false, &verdict, counts, 1, &checked);
    PRINT("checked", error.code, error.layer, N(checked.opened), N(checked.address != NULL));
    uint32_t count = cg_num_commits(checked);
    for (uint32_t pos = 0; pos < count * count; pos++) print_queries(checked, pos / count, pos % count);
    if (!count) print_queries(graph, 0, 1);
    if (count) print_written(checked);
    char file[4] = { 'a', 'a', 'a', 'a' };
    cg_known known = { "no", 2, (const uint8_t *)"", 0, CG_NOTHING };
    cg_path_error missing = cg_open_known("no", 2, CG_FILE, &known, 1, file, 3, &graph);
    PRINT("missing", missing.code, missing.layer, missing.length, N(file[1]), N(file[2]));
    cg_line line = cg_chain_line((const uint8_t *)"abc\r\nd", 6, 0);
    PRINT("line", N(line.found), line.end, line.next);
    cg_close(&graph);
    cg_close(&checked);
    return 0;
}
