/* matches LAYER STREAM: times cg_matches over the commits of a layer, in the order of their positions, with the bytes that
 * `git cat-file --batch` wrote for their ids. A line: `matches`, its nanoseconds, how many commits there are, and the sum of the
 * codes, which is 0 where all match. */
#include "../reading.h"
#include "commitgraph.h"
#include <inttypes.h>
#include <string.h>

int main(int argc, char **argv) {
    if (argc != 3) return 2;
    bytes layer = read_all(argv[1]), stream = read_all(argv[2]);
    cg_file file = { layer.bytes, layer.len, (const uint8_t *)"-", 1 };
    cg_graph graph = CG_CLOSED;
    if (cg_open(&file, 1, &graph).code) return 1;
    const char *next = (const char *)stream.bytes, *end = next + stream.len;
    uint32_t count = cg_num_commits(graph);
    uint64_t codes = 0, start = now();
    for (uint32_t pos = 0; pos < count; pos++) {
        const char *line = memchr(next, '\n', (size_t)(end - next));
        const char *size = line ? strstr(next, " commit ") : NULL;
        if (!size || size > line) return 1;
        size_t len = strtoull(size + 8, NULL, 10);
        if (len >= (size_t)(end - line - 1)) return 1;
        codes += cg_matches(graph, pos, (const uint8_t *)line + 1, len).code;
        next = line + 1 + len + 1;
    }
    printf("matches %" PRIu64 " %" PRIu32 " %" PRIu64 "\n", now() - start, count, codes);
    cg_close(&graph);
    free(layer.bytes);
    free(stream.bytes);
    return codes != 0;
}
