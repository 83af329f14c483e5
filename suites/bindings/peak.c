/* peak ID_LEN NEW [BELOW]: how many bytes cg_write has from malloc at a time, at most, besides those of the file, for a layer of NEW
 * commits in a line, on top of a layer of BELOW others or on none. It is linked with --wrap for malloc, realloc and free. Status 9: a
 * call answers another thing. */
#include "commitgraph.h"
#include <stdio.h>
#include <stdlib.h>
#include <string.h>

void *__real_malloc(size_t size);
void *__real_realloc(void *block, size_t size);
void __real_free(void *block);

/* What stands before each block: its size. A block is aligned to 16 bytes. */
typedef struct { size_t size, unused; } head;
static size_t held, most;

static void *counted(head *block, size_t before, size_t size) {
    if (!block) return NULL;
    block->size = size;
    held += size - before;
    if (held > most) most = held;
    return block + 1;
}

void *__wrap_malloc(size_t size) { return counted(__real_malloc(sizeof(head) + size), 0, size); }

void *__wrap_realloc(void *block, size_t size) {
    head *old = block ? (head *)block - 1 : NULL;
    size_t before = old ? old->size : 0;
    return counted(__real_realloc(old, sizeof(head) + size), before, size);
}

void __wrap_free(void *block) {
    if (!block) return;
    held -= ((head *)block - 1)->size;
    __real_free((head *)block - 1);
}

static void *room(size_t count, size_t size) {
    void *made = calloc(count + 1, size);
    if (!made) exit(8);
    return made;
}

static void agree(bool good) { if (!good) exit(9); }

/* So many commits, each the parent of the next. Their ids are in no order. */
static cg_new_commit *line_of(size_t count, size_t len) {
    uint8_t *ids = room(count, len);
    cg_new_commit *commits = room(count, sizeof *commits);
    for (size_t i = 0; i < count; i++) {
        uint64_t mixed = (i + 1) * 0x9e3779b97f4a7c15u;
        memcpy(ids + i * len, &mixed, sizeof mixed);
        const uint8_t *parent = ids + (i ? i - 1 : 0) * len;
        commits[i] = (cg_new_commit){ ids + i * len, len, ids + i * len, len, parent, i ? len : 0, 1000000000 + i };
    }
    return commits;
}

/* The graph of a file that is lent, which a check has found right. */
static cg_graph opened(cg_bytes bytes) {
    cg_lent lent = CG_NOT_LENT;
    cg_graph graph = CG_CLOSED;
    cg_verdict verdict;
    agree(cg_lend_bytes(bytes, &lent));
    cg_file file = { lent.bytes, lent.len, NULL, 0 };
    agree(cg_open_lent(&file, 1, &graph).code == CG_OK);
    cg_graph checked = CG_CLOSED;
    agree(cg_check(&graph, false, &verdict, NULL, 0, &checked) == CG_OK);
    return checked;
}

int main(int argc, char **argv) {
    if (argc < 3) return 2;
    size_t len = strtoul(argv[1], NULL, 10), count = strtoul(argv[2], NULL, 10), before = argc > 3 ? strtoul(argv[3], NULL, 10) : 0;
    cg_new_commit *commits = line_of(before + count, len);
    cg_bytes lower = CG_NO_BYTES, bytes = CG_NO_BYTES;
    cg_graph graph = CG_CLOSED;
    if (before) {
        agree(cg_write(CG_CLOSED, commits, before, &lower).code == CG_OK);
        graph = opened(lower);
    }
    size_t start = most = held;
    agree(cg_write(graph, commits + before, count, &bytes).code == CG_OK);
    printf("%zu\n", most - start - (size_t)cg_bytes_copy(bytes, 0, NULL, 0));
    agree(cg_bytes_free(&bytes) && cg_close(&graph) == (before > 0) && cg_bytes_free(&lower) == (before > 0) && !held);
    return 0;
}
