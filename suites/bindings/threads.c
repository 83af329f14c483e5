/* threads FILE: four threads read one graph at a time, and open one each, and each has to find what the first thread found
 * alone. */
#include "commitgraph.h"
#include <pthread.h>
#include <stdio.h>
#include <string.h>

enum { THREADS = 4, ROOM = 64, TURNS = 200 };
static cg_graph graph;
static cg_file file;
/* All threads raise it. */
static cg_flag flag;

/* How many commits graphs have that are opened and checked by this thread, and closed again. */
static uint32_t opened(void) {
    cg_graph own = CG_CLOSED, other = CG_CLOSED, checked = CG_CLOSED;
    cg_verdict verdict;
    cg_count counts[1];
    const char *path = (const char *)file.path;
    cg_known known = { path, file.path_len, file.bytes, file.len, CG_READ };
    cg_error error = cg_open_lent(&file, 1, &own);
    cg_graph twice = CG_CLOSED;
    cg_error again = cg_open_chain(&file, 1, (const uint64_t[]){ 0, 0 }, 2, &twice);
    char room[1];
    cg_path_error told = cg_open_known(path, file.path_len, CG_ANYTHING, &known, 1, room, 1, &other);
    uint32_t count = cg_num_commits(own) + cg_num_commits(twice) + cg_check(&other, true, &verdict, counts, 1, &checked) + cg_num_commits(checked);
    cg_close(&own);
    cg_close(&twice);
    cg_close(&checked);
    return count + error.code + again.code + told.code;
}

/* The sum of the bytes of a layer with one new commit on top of the graph. */
static uint64_t written(void) {
    uint8_t id[32] = { 0xee }, tree[32] = { 1 }, parent[32], part[ROOM];
    size_t len = cg_id_len(graph);
    uint64_t all = cg_id_at(graph, 0, parent, len), size = 0;
    cg_new_commit one = { id, len, tree, len, parent, len, 1000000000 };
    cg_bytes bytes = CG_NO_BYTES;
    all += cg_write(graph, &one, 1, &bytes).code;
    for (uint64_t left; (left = cg_bytes_copy(bytes, size, part, ROOM)) > 0;) {
        uint64_t count = left < ROOM ? left : ROOM;
        for (uint64_t i = 0; i < count; i++) all = all * 31 + part[i];
        size += count;
    }
    cg_lent lent = CG_NOT_LENT;
    if (cg_lend_bytes(bytes, &lent)) all = all * 31 + lent.len + lent.bytes[lent.len - 1];
    return all * 31 + size + cg_bytes_free(&bytes);
}

/* What calls answer with a flag that another thread may have raised before: a check stops, and searches that read nothing do not. */
static uint64_t stopped(void) {
    cg_limit limit = { UINT64_MAX, flag };
    cg_graph own = CG_CLOSED, checked = CG_CLOSED;
    cg_verdict verdict;
    cg_count counts[1];
    uint32_t out[ROOM], last = cg_num_commits(graph) - 1;
    cg_flag other = CG_NO_FLAG;
    uint64_t all = cg_flag_new(&other) + cg_flag_raise(flag) + cg_open(&file, 1, &own).code;
    all = all * 31 + cg_ancestor_walk_within(graph, last, last, limit, out, ROOM).code;
    all = all * 31 + cg_is_ancestor_within(graph, last, last, limit).found;
    all = all * 31 + cg_merge_bases_within(graph, 0, &last, 1, limit, out, ROOM).code;
    all = all * 31 + cg_check_within(&own, false, limit, &verdict, counts, 1, &checked);
    return all * 31 + cg_flag_free(&other);
}

/* What many queries answer, so that those of several threads are made at a time. */
static uint64_t asked(void) {
    uint64_t all = 0;
    uint32_t count = cg_num_commits(graph), out[ROOM];
    for (uint32_t turn = 0; turn < TURNS; turn++)
        for (uint32_t pos = 0; pos < count; pos++) {
            cg_reached reached = cg_ancestor_walk(graph, count - 1, pos, out, ROOM);
            all = all * 31 + reached.code + reached.length + reached.visits + cg_is_ancestor(graph, pos, count - 1).found;
            for (uint64_t i = 0; i < reached.length && i < ROOM; i++) all = all * 31 + out[i];
        }
    return all;
}

/* A number made from all that a graph answers. */
static uint64_t sum(void) {
    uint64_t all = 0;
    uint32_t count = cg_num_commits(graph), out[ROOM];
    cg_parent_count answers[ROOM];
    cg_commit commits[ROOM];
    cg_verdict verdict;
    cg_count counts[ROOM];
    uint64_t dates[ROOM];
    cg_layer_info layer = { 0, 0, 0, 0 };
    cg_layer_verdict alone = { 0, 0, 0, 0, 0, 0, 0 };
    uint8_t checksum[32];
    all += cg_num_layers(graph) + cg_layer(graph, 0, &layer) + layer.num_commits;
    all += cg_layer_checksum(graph, 0, checksum, cg_id_len(graph)) + checksum[0] + cg_base_id_at(graph, 0, 0, checksum, 20);
    all += cg_verify_layer(graph, 0, &alone) + alone.max_parents;
    for (uint32_t pos = 0; pos < count; pos++) {
        uint8_t id[32];
        size_t len = cg_id_at(graph, pos, id, cg_id_len(graph));
        cg_block block = cg_parents_from(graph, pos, answers, ROOM, out, ROOM);
        all = all * 31 + cg_lookup(graph, id, len) + cg_commits(graph, pos, commits, ROOM) + commits[0].generation;
        all = all * 31 + block.length + out[0] + cg_is_ancestor(graph, pos, count - 1).found;
        all = all * 31 + cg_ancestor_walk(graph, count - 1, pos, out, ROOM).length;
        all = all * 31 + cg_merge_bases(graph, pos, &pos, 1, out, ROOM).length;
        all = all * 31 + cg_parents(graph, pos, out, ROOM).count + cg_first_parents(graph, pos, out, 1).count + cg_first_parent(graph, pos).position + cg_matches(graph, pos, id, len).code + cg_commit_at(graph, pos, commits) + commits[0].time + cg_generation_at(graph, pos);
        all = all * 31 + cg_tree_at(graph, pos, id, len) + id[0] + cg_chain_line(id, len, 0).next;
        cg_lent lent = CG_NOT_LENT;
        if (cg_lend_id(graph, pos, &lent)) all = all * 31 + lent.bytes[len - 1];
        if (cg_lend_tree(graph, pos, &lent)) all = all * 31 + lent.bytes[len - 1];
        all = all * 31 + cg_ids_at(graph, &pos, 1, id, len).answered + cg_lookup_all(graph, id, len, len, out, 1) + out[0];
        cg_bases bases = { 0, 0, 0, 0, 0 };
        all = all * 31 + cg_merge_bases_of(graph, &(cg_two){ pos, count - 1 }, 1, &bases, 1, out, ROOM).length + bases.ahead;
        all = all * 31 + cg_are_ancestors(graph, &(cg_pair){ pos, count - 1 }, 1, id, 1).answered + id[0];
    }
    all = all * 31 + cg_corrected_dates(graph, dates, ROOM).length + dates[count - 1];
    all = all * 31 + cg_probe_path(graph, (const uint8_t *)"a", 1, out, 0, (uint8_t *)commits, 0).code;
    all = all * 31 + asked() + opened() + written() + stopped();
    return all * 31 + cg_version() + cg_verify(graph, true, &verdict, counts, ROOM) + verdict.longest + counts[0].commits;
}

static void *read_graph(void *result) {
    *(uint64_t *)result = sum();
    return NULL;
}

int main(int argc, char **argv) {
    static uint8_t bytes[1 << 20];
    pthread_t threads[THREADS];
    uint64_t sums[THREADS];
    cg_verdict verdict;
    cg_count counts[1];
    FILE *input = argc == 2 ? fopen(argv[1], "rb") : NULL;
    if (!input) return 2;
    file = (cg_file){ bytes, fread(bytes, 1, sizeof bytes, input), (const uint8_t *)argv[1], strlen(argv[1]) };
    fclose(input);
    if (cg_open_checked(&file, 1, false, &verdict, counts, 1, &graph).code) return 3;
    if (cg_flag_new(&flag)) return 5;
    uint64_t alone = sum();
    for (int i = 0; i < THREADS; i++)
        if (pthread_create(&threads[i], NULL, read_graph, &sums[i])) return 4;
    int wrong = 0;
    for (int i = 0; i < THREADS; i++) {
        pthread_join(threads[i], NULL);
        wrong += sums[i] != alone;
    }
    cg_close(&graph);
    return wrong + !cg_flag_free(&flag);
}
