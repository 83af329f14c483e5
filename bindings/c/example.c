/* example PATH ID: maps the commit-graph file at the path, checks it, finds the commit of the id, and prints its record and the
 * ids of its parents. */
#include "commitgraph.h"
#include <errno.h>
#include <fcntl.h>
#include <inttypes.h>
#include <stdio.h>
#include <string.h>
#include <sys/mman.h>
#include <sys/stat.h>
#include <unistd.h>

/* Why a file was not read, and what to do. */
static void print_unread(const char *path, int why) {
    fprintf(stderr, "%s: %s\nwhat to do: %s\n", path, strerror(why),
            why == EISDIR ? "give the path of a file in it, `commit-graph`" : cg_advice(CG_OPEN_NOT_OPENED));
}

/* The bytes of a file, mapped, and its path; else `errno` says why there are none. The system maps no bytes, so that an empty file has
 * other ones. */
static bool map(const char *path, cg_file *file) {
    struct stat status;
    int fd = open(path, O_RDONLY);
    if (fd < 0) return false;
    void *at = MAP_FAILED;
    if (fstat(fd, &status) == 0) {
        if (S_ISDIR(status.st_mode)) errno = EISDIR;
        else at = status.st_size == 0 ? "" : mmap(NULL, (size_t)status.st_size, PROT_READ, MAP_PRIVATE, fd, 0);
    }
    close(fd);
    if (at == MAP_FAILED) return false;
    *file = (cg_file){ at, (size_t)status.st_size, (const uint8_t *)path, strlen(path) };
    return true;
}

/* The bytes that hexadecimal digits spell, at most 32, and how many they are. */
static size_t bytes_of(const char *hex, uint8_t id[32]) {
    size_t len = strlen(hex) / 2;
    for (size_t i = 0; i < len && i < 32; i++)
        if (sscanf(hex + 2 * i, "%2" SCNx8, &id[i]) != 1) return 0;
    return len <= 32 ? len : 0;
}

/* The ids of the parents of a commit, as many as there is room for. */
static void print_parents(cg_graph graph, uint32_t position) {
    uint8_t id[32];
    uint32_t parents[16];
    cg_parent_count found = cg_parents(graph, position, parents, 16);
    for (uint64_t i = 0; i < found.count && i < 16; i++) {
        size_t len = cg_id_at(graph, parents[i], id, cg_id_len(graph));
        printf("parent ");
        for (size_t j = 0; j < len; j++) printf("%02" PRIx8, id[j]);
        putchar('\n');
    }
}

static int print_commit(cg_graph graph, const char *hex) {
    uint8_t id[32];
    cg_commit commit;
    uint32_t position = cg_lookup(graph, id, bytes_of(hex, id));
    if (!cg_commit_at(graph, position, &commit)) {
        printf("no commit has the id '%s'; what to do: give a whole id, as `git rev-parse` prints it; "
               "if the commit is newer than the file, run `git commit-graph write --reachable`\n", hex);
        return 1;
    }
    printf("position %" PRIu32 " generation %" PRIu32 " time %" PRIu64 "\n", position, commit.generation, commit.time);
    print_parents(graph, position);
    return 0;
}

/* Whether the code is that of a fault of one commit, at the position of the verdict. */
static bool is_of_commit(uint32_t code) {
    return (code >= CG_CHECK_PARENT_OUT_OF_RANGE && code <= CG_CHECK_DUPLICATE_ID) ||
           (code >= CG_CHECK_NULL_ID && code <= CG_PARENT_EDGE_OVERFLOW);
}

/* Why the file is refused: what is wrong with it, with which commit, and what to do. The id of a commit is read from the graph of the
 * same bytes, which is opened without a check. */
static void print_refusal(const cg_file *file, const cg_verdict *verdict) {
    uint8_t id[32];
    cg_graph graph = CG_CLOSED;
    fprintf(stderr, "refused: %s: %s\n", (const char *)file->path, cg_strerror(verdict->code));
    if (is_of_commit(verdict->code) && cg_open(file, 1, &graph).code == CG_OK) {
        size_t len = cg_id_at(graph, verdict->position, id, cg_id_len(graph));
        fprintf(stderr, "the commit at position %" PRIu32 " is ", verdict->position);
        for (size_t i = 0; i < len; i++) fprintf(stderr, "%02" PRIx8, id[i]);
        fputc('\n', stderr);
        cg_close(&graph);
    }
    if (*cg_advice(verdict->code)) fprintf(stderr, "what to do: %s\n", cg_advice(verdict->code));
}

int main(int argc, char **argv) {
    cg_file file;
    cg_graph graph = CG_CLOSED;
    cg_verdict verdict;
    cg_count counts[64];
    if (argc != 3) {
        fputs("usage: example PATH ID, with the path of a commit-graph file\n", stderr);
        return 2;
    }
    if (!map(argv[1], &file)) {
        print_unread(argv[1], errno);
        return 2;
    }
    cg_error error = cg_open_checked(&file, 1, false, &verdict, counts, 64, &graph);
    if (error.code != CG_OK) print_refusal(&file, &verdict);
    if (file.len) munmap((void *)file.bytes, file.len);
    if (error.code != CG_OK) return 1;
    printf("%" PRIu32 " commits\n", cg_num_commits(graph));
    int status = print_commit(graph, argv[2]);
    cg_close(&graph);
    return status;
}
