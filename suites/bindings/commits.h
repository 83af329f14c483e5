/* The commits of an open graph as cg_write takes them. */
#ifndef COMMITS_H
#define COMMITS_H

#include "commitgraph.h"
#include <stdlib.h>

/* So many commits from a position on, and their ids, which are to be freed; or NULL where there is no memory. */
static cg_new_commit *commits_of(cg_graph graph, uint32_t first, uint32_t count, uint8_t **ids) {
    size_t len = cg_id_len(graph), parents = 0, most = 1;
    for (uint32_t i = 0; i < count; i++) {
        size_t own = cg_parents(graph, first + i, NULL, 0).count;
        parents += own;
        if (own > most) most = own;
    }
    cg_new_commit *commits = malloc((count + 1) * sizeof *commits);
    uint32_t *positions = malloc(most * sizeof *positions);
    uint8_t *next = *ids = malloc((2 * (size_t)count + parents) * len + 1);
    for (uint32_t i = 0; commits && positions && next && i < count; i++) {
        cg_commit commit = { 0, 0 };
        cg_commit_at(graph, first + i, &commit);
        size_t own = cg_parents(graph, first + i, positions, most).count;
        commits[i] = (cg_new_commit){ next, len, next + len, len, next + 2 * len, own * len, commit.time };
        cg_id_at(graph, first + i, next, len);
        cg_tree_at(graph, first + i, next + len, len);
        for (size_t j = 0; j < own; j++) cg_id_at(graph, positions[j], next + (2 + j) * len, len);
        next += (2 + own) * len;
    }
    bool good = positions && *ids;
    free(positions);
    return good ? commits : NULL;
}

#endif
