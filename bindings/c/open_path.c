/* open_path PATH: opens the commit-graph at a path, of a file, of a folder with a chain or of an info folder, in most repositories
 * .git/objects/info; checks it, and prints how many commits and layers it has. */
#include "commitgraph_path.h"
#include <inttypes.h>

int main(int argc, char **argv) {
    char file[4096] = "";
    cg_graph opened = CG_CLOSED, graph = CG_CLOSED;
    cg_verdict verdict;
    if (argc != 2) {
        fputs("usage: open_path PATH\n", stderr);
        return 2;
    }
    uint32_t code = cg_open_path(argv[1], CG_ANYTHING, file, sizeof file, &opened).code;
    if (code == CG_OK) code = cg_check(&opened, false, &verdict, NULL, 0, &graph);
    if (code == CG_OK) {
        printf("%" PRIu32 " commits, layers: %" PRIu64 "\n", cg_num_commits(graph), cg_num_layers(graph));
    } else {
        fprintf(stderr, "%s: %s\n", *file ? file : argv[1], cg_strerror(code));
        if (*cg_advice(code)) fprintf(stderr, "what to do: %s\n", cg_advice(code));
    }
    cg_close(&graph);
    cg_close(&opened); /* The check has taken it, also where it is refused: there is nothing to close. */
    return code != CG_OK;
}
