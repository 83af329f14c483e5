/* Reads, checks and writes the commit-graph files of Git.
 *
 * The calls below are the proved code of Nolavimure, compiled: they read no byte out of bounds, never abort and always
 * return, for all bytes of files and all numbers, if the caller keeps the rules here. Nothing checks that a caller does. Only
 * cg_strerror and cg_advice, which answer texts, are plain C.
 *
 * Rules for all calls
 * - A pointer is valid for the length beside it. Beside a length of 0 it may be NULL (this is tested; the proofs speak of pointers
 *   that are not null). No other pointer may be NULL. What a call writes overlaps neither what it reads nor what else it writes, and
 *   what it reads does not change until it returns (a mapped file can change: see cg_open).
 * - A cg_graph is CG_CLOSED, or what a call cg_open.., cg_check or cg_check_within wrote, or a copy of that. All copies are one
 *   graph. Nobody looks into it or changes it. cg_close, cg_check and cg_check_within take the graph that they are handed, and leave
 *   CG_CLOSED where it was, also where a check refuses it: to close that once more does nothing. No other copy of the graph is used
 *   after that.
 * - Threads: any number of calls may read one graph at a time, and none waits for another. cg_close, or cg_check, or
 *   cg_check_within, is called when no call on the graph is running.
 * - No call keeps a pointer that it was given, but cg_open_lent and cg_open_chain those to the bytes. No call is made from a signal
 *   handler, or in the child of a process with threads before it execs. Memory comes from malloc, realloc and free.
 * - What an out parameter holds before a call does not matter, but for the cg_graph, the cg_bytes or the cg_flag that a call hands
 *   out, which has to be CG_CLOSED, CG_NO_BYTES or CG_NO_FLAG, and for a cg_lent, which has to be CG_NOT_LENT or what was lent before.
 * - Where a call answers a code, CG_OK, 0, is a full answer, and any other the number of the cause: see CG_OK. Other codes than
 *   those that are named beside a call do not come. Calls with a graph that is CG_CLOSED answer CG_CLOSED_GRAPH, or as each says.
 *
 * Costs. Opening decodes the records and copies all bytes; cg_open_lent and cg_open_chain copy none, and the latter decodes a file
 * once that is several layers. A check reads all of them, with a digest of each layer. A lookup goes over the layers from the lowest
 * on, and searches each by halves; a call for a position finds its layer by halves; one for a layer counts those below it. Writing
 * into a room costs what is written. Comments say where a call costs more.
 *
 * The library is for x86-64 Linux. Link with libcommitgraph.a or libcommitgraph.so.1; memory comes from the program's malloc.
 * Until version 1.0, a program is built with the header of the library that it is linked with: calls, structs and numbers may
 * change with the second number of the version, and with it the number of libcommitgraph.so. They do not with the third.
 */
#ifndef COMMITGRAPH_H
#define COMMITGRAPH_H

#include <stdbool.h>
#include <stddef.h>
#include <stdint.h>
#include <string.h>

#ifdef __cplusplus
extern "C" {
#endif

/* By these gcc and clang warn where nobody looks at the answer of a call, and where a pointer is NULL that may not be. The first one is
 * left out where the answer stands in an out parameter too, and where the caller may know it before: that something is written, or
 * freed. */
#if defined(__GNUC__)
#define CG_NODISCARD __attribute__((warn_unused_result))
#define CG_NONNULL(places) __attribute__((nonnull places))
#else
#define CG_NODISCARD
#define CG_NONNULL(places)
#endif

/* The version of this header, 0.1.0: 10000 for the first number, 100 for the second and 1 for the third. */
#define CG_VERSION 100

/* The version of the library, which has to be CG_VERSION. */
CG_NODISCARD uint32_t cg_version(void);

/* Each cause has one number, the same in all calls; cg_strerror (below) has a sentence for it, and cg_advice says what to do, as
 * docs/REFUSALS.md does. All three come from tables/refusals.tsv: gate/refusal_table.py writes them here. */
enum cg_code {
    CG_OK = 0,
    CG_OUT_OF_MEMORY = 1,
    CG_CLOSED_GRAPH = 2,
    CG_NOT_CHECKED = 3,
    CG_NO_SUCH_POSITION = 4,
    CG_PATH_NOT_UTF8 = 5,
    CG_NO_DATES = 6,
    CG_MORE_PARENTS = 7,
    CG_PATH_WANTED = 8,
    CG_NO_SUCH_LAYER = 9,
    CG_STOPPED = 10,

    /* Nothing is opened at a path: "open N" in docs/REFUSALS.md. */
    CG_OPEN_NOTHING_FOUND = 21,
    CG_OPEN_NOT_OPENED = 22,
    CG_OPEN_READ_FAILED = 23,
    CG_OPEN_CHAIN_NOT_TEXT = 24,

    /* The bytes of a layer are refused: "file N" in docs/REFUSALS.md. */
    CG_FILE_TOO_SHORT = 101,
    CG_FILE_SIGNATURE = 102,
    CG_FILE_VERSION = 103,
    CG_FILE_HASH = 104,
    CG_FILE_BASE_SIZE = 106,
    CG_FILE_BASE_COUNT = 107,
    CG_FILE_NO_COMMIT_DATA = 108,
    CG_FILE_COMMIT_DATA_SIZE = 109,
    CG_FILE_NO_FAN = 110,
    CG_FILE_FAN_SIZE = 111,
    CG_FILE_NO_IDS = 112,
    CG_FILE_IDS_SIZE = 113,
    CG_FILE_TOO_MANY_EDGES = 114,
    CG_FILE_TRAILER = 115,
    CG_FILE_BASE_MISSING = 116,
    CG_FILE_FAN_FALLS = 117,
    CG_FILE_ID_COUNT = 118,
    CG_FILE_RECORD_COUNT = 119,

    /* Its table of chunks is: "file 5 chunk K". */
    CG_CHUNK_NONE = 151,
    CG_CHUNK_TABLE_TOO_SMALL = 152,
    CG_CHUNK_EARLY_END = 153,
    CG_CHUNK_DUPLICATE = 154,
    CG_CHUNK_OUT_OF_FILE = 155,
    CG_CHUNK_FALLING = 156,
    CG_CHUNK_NO_END = 157,

    /* Layers make no graph: "graph N". */
    CG_GRAPH_NO_FILES = 201,
    CG_GRAPH_TOO_MANY_COMMITS = 202,
    CG_GRAPH_HASH_MISMATCH = 203,

    /* The check refuses a graph: "verify N", "verify 4 .. fault N" and "verify 5 .. fault N". */
    CG_CHECK_TOO_MANY_FILES = 301,
    CG_CHECK_BASE_COUNT = 302,
    CG_CHECK_BASE_ID = 303,
    CG_CHECK_PARENT_OUT_OF_RANGE = 307,
    CG_CHECK_GENERATION = 308,
    CG_CHECK_DUPLICATE_ID = 311,
    CG_CHECK_CHECKSUM = 341,
    CG_CHECK_FILE_NAME = 342,
    CG_CHECK_FAN = 343,
    CG_CHECK_NULL_ID = 351,
    CG_CHECK_ORDER = 352,
    CG_CHECK_NULL_TREE = 353,

    /* The parents of a commit, or the rest of them, cannot be decoded: "!N". The check refuses them too. */
    CG_PARENT_SECOND_WITHOUT_FIRST = 361,
    CG_PARENT_FIRST_IS_EDGE_INDEX = 362,
    CG_PARENT_NO_EDGE_LIST = 363,
    CG_PARENT_EDGE_OVERFLOW = 364,

    /* Corrected dates are refused: "dates N". */
    CG_DATES_DATA_SIZE = 401,
    CG_DATES_OVERFLOW_SIZE = 402,
    CG_DATES_OVERFLOW_INDEX = 403,
    CG_DATES_TOO_LARGE = 404,
    CG_DATES_WRONG = 405,

    /* Changed-path filters are refused: "filters N". */
    CG_FILTERS_INDEX_SIZE = 501,
    CG_FILTERS_DATA_SIZE = 502,
    CG_FILTERS_VERSION = 503,
    CG_FILTERS_HASHES = 504,
    CG_FILTERS_NO_BITS = 505,
    CG_FILTERS_FALLS = 506,
    CG_FILTERS_PAST_END = 507,
    CG_FILTERS_LEFT_OVER = 508,
    CG_FILTERS_SETTINGS = 509,

    /* A commit is not what the graph says of it: "objects N". */
    CG_OBJECT_OTHER_CONTENTS = 606,
    CG_OBJECT_UNREADABLE = 607,
    CG_OBJECT_TREE = 608,
    CG_OBJECT_PARENT = 609,
    CG_OBJECT_TIME = 610,

    /* Commits make no layer: "write N". */
    CG_WRITE_KIND = 701,
    CG_WRITE_NULL_ID = 702,
    CG_WRITE_NULL_TREE = 703,
    CG_WRITE_TIME = 704,
    CG_WRITE_TWICE = 705,
    CG_WRITE_BELOW = 706,
    CG_WRITE_PARENT = 707,
    CG_WRITE_CYCLE = 708,
    CG_WRITE_NOTHING = 709,
    CG_WRITE_NO_IDS = 712,
    CG_WRITE_TOO_MANY_COMMITS = 721,
    CG_WRITE_TOO_MANY_EDGES = 722,
    CG_WRITE_TOO_MANY_LAYERS = 723
};

/* No position. Positions count from 0 over all layers, the lowest first, and are below cg_num_commits. */
#define CG_NOWHERE 0xffffffffu

/* An open graph, or none. */
typedef struct cg_graph { const void *address; bool opened; } cg_graph;
#if defined(__cplusplus) && __cplusplus >= 201103L
#define CG_CLOSED (cg_graph{ NULL, false })
#elif defined(__cplusplus)
static inline cg_graph cg_closed() { cg_graph closed = { NULL, false }; return closed; }
#define CG_CLOSED (cg_closed())
#else
#define CG_CLOSED ((cg_graph){ NULL, false })
#endif

/* The bytes of a layer, and the path that its file was found at (UTF-8, not ended by a null byte; it may be empty). Where
 * the path's last part is that of a layer of a chain, graph-X.graph, cg_verify checks that X is the file's checksum. */
typedef struct cg_file { const uint8_t *bytes; size_t len; const uint8_t *path; size_t path_len; } cg_file;

/* Why no graph was opened, and the layer, counted from 0, that is refused. `code` is
 *   CG_OK               where one was opened;
 *   CG_PATH_NOT_UTF8    where the path of `layer` is not UTF-8;
 *   101 to 199          where the bytes of `layer` are no layer;
 *   201 to 299          where the layers make no graph: of CG_GRAPH_HASH_MISMATCH `layer` is the first of another kind of hash
 *                       than the one below it;
 *   301 to 399          from cg_open_checked alone, where the check refuses the graph: the verdict has more;
 *   CG_NO_SUCH_LAYER    from cg_open_chain alone, where no file is at the place of `layer`;
 *   CG_OUT_OF_MEMORY    where memory ran out at `layer`, or, if that is 0, there or once all layers were opened. No layer below
 *                       `layer` is refused, nor are its own bytes; the layers above it were not looked at.
 * `layer` is 0 elsewhere. The first refusal is told, in the order of the layers. */
typedef struct cg_error { uint32_t code; uint64_t layer; } cg_error;

/* Opens the graph of these layers, the lowest first: one file, or the files of a chain (see cg_chain_line). On CG_OK *out is the
 * graph, which is the caller's to close; else *out is left as it was. What *out was before is not freed: let it be CG_CLOSED. Where
 * `count` is 0, the code is CG_GRAPH_NO_FILES; cg_strerror and cg_advice then speak of an empty chain file.
 *
 * The bytes and the paths are copied, and may go once the call has returned: who would have the bytes kept where they are takes
 * cg_open_lent. A graph takes 20 bytes a commit, and 4 a word of the extra edge list, besides the bytes. What is no layer is refused
 * before it is copied. All that is read of a graph is read of the copy: where a mapped file changes meanwhile, the graph is one of
 * the bytes that were copied, but no proof says so. A mapped file that gets shorter meanwhile ends the program by SIGBUS, as any read
 * of it does. Whoever fears a change reads the file instead. */
CG_NODISCARD cg_error cg_open(const cg_file *files, size_t count, cg_graph *out) CG_NONNULL((3));

/* Opens the graph as cg_open does, and answers as it does, but copies none of the bytes that it is lent. The paths are copied. The bytes
 * have to stay where they are, unchanged, as long as the graph is open: until cg_close has returned, or a cg_check or cg_check_within
 * that refuses it. A graph that these hand out has the same bytes. Where this call opens none, it keeps none.
 *
 * Every promise is about bytes that do not change. If another process changes a mapped file after the call, no promise holds any
 * more: a call may read outside the graph's memory. If the file gets shorter, a call may end the program by SIGBUS. So lend what
 * nobody writes, or a copy of your own. Git never changes a commit-graph file in place: it writes a new file and renames it. */
CG_NODISCARD cg_error cg_open_lent(const cg_file *files, size_t count, cg_graph *out) CG_NONNULL((3));

/* Opens the graph of a chain of which some lines may name one file, as cg_open_lent does: the layers are the files at these places,
 * which count from 0, the lowest layer first. A file is decoded once, however many layers it is, and they share all that is kept of
 * it. Where some place is none of the `count` files, the code is CG_NO_SUCH_LAYER for the first such layer, and no file is looked at. */
CG_NODISCARD cg_error cg_open_chain(const cg_file *files, size_t count, const uint64_t *places, size_t layers,
                                    cg_graph *out) CG_NONNULL((5));

/* What cg_open_known is to open. */
enum cg_place { CG_ANYTHING = 0, CG_FILE = 1, CG_CHAIN_FOLDER = 2, CG_INFO_FOLDER = 3 };

/* What stands at a path: nothing, a file that was read, a folder; or a file that could not be opened, of which a read failed, or
 * for whose bytes there is no memory. */
enum cg_standing { CG_NOTHING = 0, CG_READ = 1, CG_FOLDER = 2, CG_UNOPENED = 3, CG_UNREAD = 4, CG_NO_MEMORY = 5 };

/* What a caller knows of a path: `kind` is one of cg_standing, and any other number counts as CG_UNOPENED; the bytes are those of a
 * file that was read, else none. */
typedef struct cg_known {
    const char *path; size_t path_len; const uint8_t *bytes; size_t len; uint32_t kind;
} cg_known;

/* Why no graph was opened at a path. `code` is
 *   CG_OK                     where one was opened;
 *   CG_PATH_NOT_UTF8          where the path is not UTF-8;
 *   CG_PATH_WANTED            where nothing is known of a path at which it has to be known what stands: the call is made again then;
 *   CG_OPEN_NOTHING_FOUND     where neither a file nor a folder is at the path: from CG_ANYTHING alone;
 *   CG_OPEN_NOT_OPENED        where a file that is to be read is not there, or is CG_FOLDER or CG_UNOPENED;
 *   CG_OPEN_READ_FAILED       where it is CG_UNREAD;
 *   CG_OPEN_CHAIN_NOT_TEXT    where line `layer` of the chain file, counted from 0, is not UTF-8;
 *   101 to 199                where the file of `layer` is no layer;
 *   201 to 299                where the layers make no graph, as in cg_error;
 *   CG_OUT_OF_MEMORY          where memory ran out, or a file that is to be read is CG_NO_MEMORY: no other file is tried then.
 * `layer` is 0 elsewhere. `length` is that of the path that is told: the one that is wanted, or that of the file that was not read
 * or is refused; from CG_OPEN_CHAIN_NOT_TEXT, and where the layers of a chain make no graph, that of the chain file. It is 0 where
 * none is told: on CG_OK, CG_PATH_NOT_UTF8 and CG_OPEN_NOTHING_FOUND, and where memory ran out in the library. */
typedef struct cg_path_error { uint32_t code; uint64_t layer, length; } cg_path_error;

/* Opens the graph at a path, as the programs do, of what the caller knows of paths: who has none of them learns by CG_PATH_WANTED
 * which one comes next, looks what stands there, adds it and asks again. `what` is one of cg_place:
 *   CG_FILE            the file at the path, as the only layer;
 *   CG_CHAIN_FOLDER    the layers that the lines of its file commit-graph-chain name;
 *   CG_INFO_FOLDER     in most repositories .git/objects/info: its file commit-graph; or, where that is not there, cannot be read
 *                      or is no layer, the chain in its folder commit-graphs. Where neither is opened, the error is that of the
 *                      chain; a call with CG_FILE tells why the file is refused;
 *   CG_ANYTHING        and any other number: a file, a folder with a file commit-graph-chain, or an info folder.
 * A path that is wanted is none of those that are known, and what is known of the others does not say whether a graph is opened. For
 * a chain it is first that of the chain file, and then that of the first layer of which nothing is known, if all before it are
 * layers. It begins with the path that is asked for, and follows it after a slash, which is not written twice; of the empty path it
 * stands alone. So who looks below a folder of their own may ask for the empty path, and the folder's need not be UTF-8. Of two that
 * are known of one path the first counts. What is known of paths that nothing asks for is not looked at: since the layers before a
 * wanted one are opened at each call, a caller does well to add all layers of a chain at once (cg_chain_line).
 * cg_open_path of commitgraph_path.h does all of that, by the C library's own files, for any path.
 *
 * On CG_OK *out is the graph of the bytes that were handed in. It is the caller's to close, and no check has seen it: see cg_check.
 * The bytes are copied, those of a file that several lines of a chain name once. A file that is to be the only layer, and is none,
 * is refused before that. On another code *out is left as it was, and `file` gets the path that is told, as much of it as there is
 * room for. */
CG_NODISCARD cg_path_error cg_open_known(const char *path, size_t path_len, uint32_t what, const cg_known *known, size_t count,
                                         char *file, size_t file_len, cg_graph *out) CG_NONNULL((8));

/* Opens the graph and checks it, as cg_verify does. *verdict is always written, and has the code of the error: on CG_OK the
 * statistics, and then `counts` is written as by cg_verify; on 301 to 399 the fault; elsewhere code and layer alone. Only a graph that
 * this call, cg_check or cg_check_within handed out answers cg_ancestor_walk, cg_is_ancestor, cg_are_ancestors, cg_merge_bases and
 * cg_merge_bases_of, and those of these that stop within a limit. cg_write takes such a graph, or CG_CLOSED. The rest is as in
 * cg_open. */
struct cg_verdict;
struct cg_count;
CG_NODISCARD cg_error cg_open_checked(const cg_file *files, size_t count, bool distinct_ids, struct cg_verdict *verdict,
                                      struct cg_count *counts, size_t counts_len, cg_graph *out) CG_NONNULL((4, 7));

/* Checks a graph, as cg_verify does, and hands it out in *out as cg_open_checked does: no file is read again. *graph is CG_CLOSED
 * after that. Where the graph is refused, it is closed as by cg_close; then *out is left as it was, and `counts` too. So cg_close of
 * both is right in any case. Answers the verdict's code, and *verdict is always written: its codes are those of cg_verify, and
 * `called` is 0 where it is not CG_OK. `graph` and `out` are the addresses of two graphs. */
CG_NODISCARD uint32_t cg_check(cg_graph *graph, bool distinct_ids, struct cg_verdict *verdict, struct cg_count *counts,
                               size_t counts_len, cg_graph *out) CG_NONNULL((1, 3, 6));

/* A flag that stops calls, or none. It follows the rules for a cg_graph, with cg_flag_free in place of cg_close. A thread may raise it
 * while calls of others look at it. No call takes a function of the caller's in its place: the proofs could not speak of it. */
typedef struct cg_flag { const void *address; bool kept; } cg_flag;
#if defined(__cplusplus) && __cplusplus >= 201103L
#define CG_NO_FLAG (cg_flag{ NULL, false })
#elif defined(__cplusplus)
static inline cg_flag cg_no_flag() { cg_flag none = { NULL, false }; return none; }
#define CG_NO_FLAG (cg_no_flag())
#else
#define CG_NO_FLAG ((cg_flag){ NULL, false })
#endif

/* Makes a flag, which is not raised. On CG_OK *out is the flag, which is the caller's to free; on CG_OUT_OF_MEMORY *out is left as it
 * was. */
CG_NODISCARD uint32_t cg_flag_new(cg_flag *out) CG_NONNULL((1));

/* Raises a flag, for good: calls that look at it stop, and so do later ones. A call that has no commit to visit does not look at it,
 * and still answers. Answers whether there was one. That a raised flag stops calls is tested, not proved. */
bool cg_flag_raise(cg_flag flag);

/* Frees a flag, leaves CG_NO_FLAG where it was, and answers whether there was one: false of CG_NO_FLAG, with which nothing is done. */
bool cg_flag_free(cg_flag *flag) CG_NONNULL((1));

/* When a call stops before its end: how many commits it may visit, and a flag, or CG_NO_FLAG, at which it looks before it reads the
 * parents of each, or goes on past each. A call that stops answers CG_STOPPED, and writes only what it writes when it is refused for
 * another cause. With UINT64_MAX and CG_NO_FLAG none stops. An answer that is given is that of the call without a limit. */
typedef struct cg_limit { uint64_t visits; cg_flag flag; } cg_limit;

/* Checks a graph as cg_check does, unless the limit stops the check. It visits the commits in their order, so that CG_STOPPED tells the
 * first one, at `position`, that it did not go on with: without a flag `position` is limit.visits. Nothing before it is wrong. The
 * digest of a file, which comes before its commits, is not stopped. A graph whose check is stopped is closed too. */
CG_NODISCARD uint32_t cg_check_within(cg_graph *graph, bool distinct_ids, cg_limit limit, struct cg_verdict *verdict,
                                      struct cg_count *counts, size_t counts_len, cg_graph *out) CG_NONNULL((1, 4, 7));

/* Frees a graph, leaves CG_CLOSED where it was, and answers whether there was one: false of CG_CLOSED, with which nothing is done. */
bool cg_close(cg_graph *graph) CG_NONNULL((1));

/* The number of commits; 0 of CG_CLOSED. */
CG_NODISCARD uint32_t cg_num_commits(cg_graph graph);

/* The number of bytes of an id: 20 of SHA-1, 32 of SHA-256; 0 of CG_CLOSED. */
CG_NODISCARD size_t cg_id_len(cg_graph graph);

/* The number of layers, which count from the lowest; 0 of CG_CLOSED. */
CG_NODISCARD uint64_t cg_num_layers(cg_graph graph);

/* A layer: the position of its first commit, the number of its commits and of its base ids, and its kind of hash: 1 is SHA-1,
 * and 2 is SHA-256. The positions of a layer are those from `first` on. */
typedef struct cg_layer_info { uint32_t first, num_commits, bases, hash; } cg_layer_info;

/* Writes what is told of a layer; false, and nothing, where there is none, and for CG_CLOSED. */
bool cg_layer(cg_graph graph, uint64_t layer, cg_layer_info *out) CG_NONNULL((3));

/* Writes the checksum that ends a layer's file, or its base id of a number, which counts from 0, as cg_id_at writes an id. */
size_t cg_layer_checksum(cg_graph graph, uint64_t layer, uint8_t *out, size_t len);
size_t cg_base_id_at(cg_graph graph, uint64_t layer, uint64_t index, uint8_t *out, size_t len);

/* The position of an id, or CG_NOWHERE: for a length other than 20 or 32 too, and for CG_CLOSED. A position that is answered
 * holds the id. In a graph that cg_verify found right it is the least that does, and CG_NOWHERE means that none does. */
CG_NODISCARD uint32_t cg_lookup(cg_graph graph, const uint8_t *id, size_t len);

/* Looks up many ids of `id_len` bytes each, which stand one after another, and writes the position of each, or CG_NOWHERE, as
 * cg_lookup answers it, as many as there is room for. Answers how many ids there are; 0, and writes nothing, for an `id_len` other
 * than 20 or 32, and for CG_CLOSED. It costs what so many calls of cg_lookup cost. */
uint64_t cg_lookup_all(cg_graph graph, const uint8_t *ids, size_t ids_len, size_t id_len, uint32_t *out, size_t len);

/* Writes the id at a position, or that of its commit's root tree, and answers its length, which `len` has to be. Answers 0,
 * and writes nothing, for another length, for a position that is none, and for CG_CLOSED. */
size_t cg_id_at(cg_graph graph, uint32_t pos, uint8_t *out, size_t len);
size_t cg_tree_at(cg_graph graph, uint32_t pos, uint8_t *out, size_t len);

/* Bytes that are lent, and stay as they are. Those of an id, as many as cg_id_len says, lie in the graph, and are gone once cg_close,
 * cg_check or cg_check_within is called with it. Those of cg_lend_bytes are gone once cg_bytes_free is. CG_NOT_LENT are none. */
typedef struct cg_lent { const uint8_t *bytes; size_t len; } cg_lent;
#if defined(__cplusplus) && __cplusplus >= 201103L
#define CG_NOT_LENT (cg_lent{ reinterpret_cast<const uint8_t *>(""), 0 })
#elif defined(__cplusplus)
static inline cg_lent cg_not_lent() { cg_lent none = { reinterpret_cast<const uint8_t *>(""), 0 }; return none; }
#define CG_NOT_LENT (cg_not_lent())
#else
#define CG_NOT_LENT ((cg_lent){ (const uint8_t *)"", 0 })
#endif

/* Lends the id at a position, or that of its commit's root tree; false, and *out is left as it was, for a position that is none, and
 * for CG_CLOSED. */
bool cg_lend_id(cg_graph graph, uint32_t pos, cg_lent *out) CG_NONNULL((3));
bool cg_lend_tree(cg_graph graph, uint32_t pos, cg_lent *out) CG_NONNULL((3));

/* How many of many questions were answered, by a call for positions or for pairs. `code` is
 *   CG_CLOSED_GRAPH; else
 *   CG_NOT_CHECKED         from the call for pairs alone, where the graph is none that a check has handed out; else
 *   CG_OK                  where `answered` is as many as were asked, or as there is room for, if that is fewer; else
 *   CG_NO_SUCH_POSITION    where the next position, or one of the next pair, is none: that of number `answered`; else
 *   CG_OUT_OF_MEMORY       from the call for pairs alone, where memory ran out on the next pair.
 * The first `answered` places of the room were written, and no other. It is 0 on the first two. */
typedef struct cg_answered { uint32_t code; uint64_t answered; } cg_answered;

/* Writes the ids at many positions, one after another, each of cg_id_len bytes: there is room for `len` / cg_id_len of them. It costs
 * what so many calls of cg_id_at cost. */
CG_NODISCARD cg_answered cg_ids_at(cg_graph graph, const uint32_t *positions, size_t count, uint8_t *out, size_t len);

/* What a commit's record says: the committer's time in seconds since 1970-01-01 00:00:00 UTC, and the generation number. */
typedef struct cg_commit { uint64_t time; uint32_t generation; } cg_commit;

/* Writes what the record at a position says; false, and nothing, where there is none, and for CG_CLOSED. */
bool cg_commit_at(cg_graph graph, uint32_t pos, cg_commit *out) CG_NONNULL((3));

/* The generation number of the commit at a position: nothing else of it is read. It is 0 where there is no such position, and for
 * CG_CLOSED; in a checked graph no commit has 0. */
CG_NODISCARD uint32_t cg_generation_at(cg_graph graph, uint32_t pos);

/* What the records say from the position `first` on, as many as there is room for. Answers how many commits there are from there on,
 * 0 where `first` is none and for CG_CLOSED: min(answer, len) of them were written. */
uint32_t cg_commits(cg_graph graph, uint32_t first, cg_commit *out, size_t len);

/* The parents of a commit: `count` is how many can be decoded. `code` is
 *   CG_OK                  where these are all: always so in a graph that was found right;
 *   361 to 364             where the next one cannot be decoded;
 *   CG_NO_SUCH_POSITION    where the position is none; and CG_CLOSED_GRAPH. */
typedef struct cg_parent_count { uint32_t code; uint64_t count; } cg_parent_count;

/* Writes the positions of a commit's parents, the first parent first, as many as there is room for. It goes over all parents,
 * also over those that find no room, to count them. */
CG_NODISCARD cg_parent_count cg_parents(cg_graph graph, uint32_t pos, uint32_t *out, size_t len);

/* Writes the same, and stops where the room ends: `count` is the number of parents that were written, and `code` is
 * CG_MORE_PARENTS where more come after them. Its cost is that of so many steps as there is room for: for the first parent
 * alone, room for one. Many commits may share one long list of parents: cg_parents then goes over the list for each of them, and this
 * call does not. */
CG_NODISCARD cg_parent_count cg_first_parents(cg_graph graph, uint32_t pos, uint32_t *out, size_t len);

/* A commit's first parent: its position, or CG_NOWHERE with the code
 *   CG_OK                  where the commit has no parent;
 *   361, 362               where the first one cannot be decoded;
 *   CG_NO_SUCH_POSITION    where the position is none; and CG_CLOSED_GRAPH. */
typedef struct cg_parent { uint32_t code, position; } cg_parent;

/* The first parent of a commit. What the commit's record says of the others is not told. It reads one record, and is the fastest way
 * along first parents. */
CG_NODISCARD cg_parent cg_first_parent(cg_graph graph, uint32_t pos);

/* Of how many commits a block tells, and how many parents they have. */
typedef struct cg_block { uint32_t commits; uint64_t length; } cg_block;

/* The parents of the commits from `first` on: for each commit its answer, which is that of cg_parents, and the positions of
 * all, one commit's after another's. It ends where `answers` is full or no commit is left, and after a commit whose parents
 * find too little room. Only then `length` is above `len`: the parents of the last commit of the block are there in part, and
 * whoever goes on begins with that commit once more, in a larger room if it was the first. Of CG_CLOSED there are no commits.
 *
 * The call goes over all parents of the commits of its block. Of the last one it also counts those that find no room. So let there
 * be room for many commits and their parents: where commits share a long list, a call for each of them goes over it each time. */
CG_NODISCARD cg_block cg_parents_from(cg_graph graph, uint32_t first, cg_parent_count *answers, size_t answers_len,
                                      uint32_t *out, size_t len);

/* What a check found. `code` is CG_OK where the graph is right: `num_commits` is the number of commits, `longest` that of the
 * edges of the longest walk (0 where that is not known, and has_longest 0), and `kinds` that of the different numbers of parents.
 * Else it tells of the first fault:
 *   CG_CHECK_TOO_MANY_FILES;
 *   CG_CHECK_BASE_COUNT             `layer` has not one base id for each layer below it;
 *   CG_CHECK_BASE_ID                its base id of number `index`, which counts from 0, is not the checksum of that layer;
 *   341 to 343                      `layer` has a fault, and CG_CHECK_FAN at the byte `other`;
 *   351 to 353                      the commit at `position` has a fault;
 *   361 to 364                      its parents cannot be decoded;
 *   CG_CHECK_PARENT_OUT_OF_RANGE    its parent at position `other` is none of its layer or of those below;
 *   CG_CHECK_GENERATION             its generation number is not `other`;
 *   CG_CHECK_DUPLICATE_ID           its id stands at the earlier position `other` too: only where distinct ids are asked for;
 *   CG_STOPPED                      the check stopped before the commit at `position`: from cg_check_within alone;
 *   CG_OUT_OF_MEMORY                memory ran out before the check was done; and CG_CLOSED_GRAPH.
 * What is not named is 0, but for `called`: the number of commits that the check passed before the fault, or of all on CG_OK.
 * To ask something of each commit during the check, go over this many commits in their order: what you refuse there comes before
 * the fault. It is 0 on CG_OUT_OF_MEMORY and CG_CLOSED_GRAPH, and where cg_open_checked, cg_check or cg_check_within refuses or stops. */
typedef struct cg_verdict {
    uint32_t code, num_commits, longest, has_longest;
    uint32_t position, other, called;
    uint64_t layer, index, kinds;
} cg_verdict;
typedef struct cg_count { uint32_t parents, commits; } cg_count;

/* Checks a graph, with `distinct_ids` also that no id stands in two layers. Answers the verdict's code.
 * `counts` gets, from the least number of parents on, how many commits have it, as many as there is room for, on CG_OK, and else
 * nothing. */
uint32_t cg_verify(cg_graph graph, bool distinct_ids, cg_verdict *out, cg_count *counts, size_t counts_len) CG_NONNULL((3));

/* What a check found in a layer. `code` is
 *   CG_OK               where it is right alone: `num_commits` is the number of its commits, the generation numbers are those
 *                       from `min_generation` to `max_generation`, both 0 of no commits, and `max_parents` is the greatest number
 *                       of parents;
 *   341 to 343          where the layer has a fault, and CG_CHECK_FAN at the byte `byte`;
 *   351 to 353          where the commit at `position` has one, which counts from 0 in the layer;
 *   361 to 364          where its parents cannot be decoded;
 *   CG_OUT_OF_MEMORY;
 *   CG_NO_SUCH_LAYER    where there is no such layer; and CG_CLOSED_GRAPH.
 * The first fault is told. What is not named is 0. */
typedef struct cg_layer_verdict {
    uint32_t code, num_commits, min_generation, max_generation, max_parents, position, byte;
} cg_layer_verdict;

/* Checks a layer, which counts from the lowest, as a file of its own: its checksum, its file's name, its fan, its ids, its trees, and
 * that its parents can be decoded. What it says of the layers below it is not looked at, and neither are its generation numbers.
 * Answers the verdict's code, and *out is always written. */
uint32_t cg_verify_layer(cg_graph graph, uint64_t layer, cg_layer_verdict *out) CG_NONNULL((3));

/* A search for a walk. `code` is
 *   CG_CLOSED_GRAPH; else
 *   CG_NOT_CHECKED         where the graph is none that a check has handed out; else
 *   CG_NO_SUCH_POSITION    where a position is none; else
 *   CG_STOPPED             from a call with a limit alone, which stopped it; or
 *   CG_OUT_OF_MEMORY; else
 *   CG_OK: `length` is the number of commits on a shortest walk, both ends included, or 0 where there is none, and `visits`
 *      that of the commits that were visited.
 * Where the code is not CG_OK, all else is 0, and nothing is written.
 * cg_ancestor_walk and cg_is_ancestor keep the memory of a search in the graph for the next one, until the graph is closed: a bit
 * for each commit of the graph, and 8 to 24 bytes for each commit that the largest search reached. While one thread searches with
 * it, a call of another takes memory for itself alone, as a search within a limit does: some bytes for each commit that it
 * reaches, and once these are many, a bit for each commit of the graph. */
typedef struct cg_reached { uint32_t code, visits; uint64_t length; } cg_reached;

/* Looks for a shortest walk along parents, and writes its positions, as many as there is room for. */
CG_NODISCARD cg_reached cg_ancestor_walk(cg_graph graph, uint32_t from, uint32_t to, uint32_t *out, size_t len);

/* The same, unless the limit stops it: on CG_OK `visits` is at most what the limit allows. Without a flag CG_STOPPED comes only where more
 * commits than that have to be visited: `from` reaches more whose generation numbers are at least that of `to`. So it does not come
 * where the limit allows as many as the graph has commits. */
CG_NODISCARD cg_reached cg_ancestor_walk_within(cg_graph graph, uint32_t from, uint32_t to, cg_limit limit, uint32_t *out, size_t len);

/* Whether a commit is an ancestor of another: `found` says so on CG_OK, and is false elsewhere. The codes are those of
 * cg_reached. */
typedef struct cg_leads { uint32_t code; bool found; } cg_leads;

/* Looks whether the commit at `ancestor` is an ancestor of the one at `descendant`, which then leads to it along parents. A
 * commit is its own ancestor. The order is that of `git merge-base --is-ancestor`. */
CG_NODISCARD cg_leads cg_is_ancestor(cg_graph graph, uint32_t ancestor, uint32_t descendant);

/* The same, unless the limit stops it, as cg_ancestor_walk_within does with `descendant` for `from`, and `ancestor` for `to`. A commit is
 * visited where its parents are read. */
CG_NODISCARD cg_leads cg_is_ancestor_within(cg_graph graph, uint32_t ancestor, uint32_t descendant, cg_limit limit);

/* Two commits, by their positions, in the order of cg_is_ancestor. */
typedef struct cg_pair { uint32_t ancestor, descendant; } cg_pair;

/* Asks for many pairs what cg_is_ancestor asks for one, and writes of each 1 where `ancestor` is one of `descendant`, and
 * else 0. The memory of the search is the call's own, and is filled once for all pairs. */
CG_NODISCARD cg_answered cg_are_ancestors(cg_graph graph, const cg_pair *pairs, size_t count, uint8_t *out, size_t len);

/* The merge bases of a commit and some others. On CG_OK there are `length`; `ahead` commits are those that the first leads to
 * and none of the others does, and `behind` those that some of the others leads to and the first does not; `visits` commits
 * were visited, those with the latest corrected dates first, if each layer has dates and all are right, and else those with the
 * highest generation numbers. The other codes are those of cg_reached; CG_NO_SUCH_POSITION where a position of any of them is none. */
typedef struct cg_bases { uint32_t code, ahead, behind; uint64_t visits, length; } cg_bases;

/* Looks for the merge bases that `git merge-base --all FIRST OTHERS..` names, and writes their positions, the least first, as
 * many as there is room for. The first call for merge bases of a graph also checks its corrected dates, which cg_close frees: 8 bytes
 * for each commit. Where calls are made at a time before that, each checks them. */
CG_NODISCARD cg_bases cg_merge_bases(cg_graph graph, uint32_t first, const uint32_t *others, size_t count, uint32_t *out, size_t len);

/* The same, unless the limit stops it, as cg_ancestor_walk_within; but a limit of as many visits as the graph has commits may still stop
 * it, since commits at the greatest generation number are visited again where more is found out about them. One of three times as many
 * does not. It visits commits by their generation numbers, whatever the dates. */
CG_NODISCARD cg_bases cg_merge_bases_within(cg_graph graph, uint32_t first, const uint32_t *others, size_t count, cg_limit limit,
                                            uint32_t *out, size_t len);

/* Two commits, by their positions. */
typedef struct cg_two { uint32_t first, other; } cg_two;

/* How many pairs were compared. `code` is
 *   CG_CLOSED_GRAPH; else
 *   CG_NOT_CHECKED         where the graph is none that a check has handed out; else
 *   CG_OK                  where `answered` is as many as were asked, or as `answers` has room for, if that is fewer; else
 *   CG_NO_SUCH_POSITION    where a position of the next pair, whose number `answered` is, is none; else
 *   CG_OUT_OF_MEMORY       where memory ran out on that pair.
 * `length` is the number of merge bases that all answered pairs have together. Both are 0 on the first two. */
typedef struct cg_compared { uint32_t code; uint64_t answered, length; } cg_compared;

/* Compares the commits of many pairs, as cg_merge_bases compares one with another: it writes the answer on each pair, whose code is
 * CG_OK, and the positions of the merge bases, one pair's after another's, as many as there is room for; no place past `answered`
 * and past `length` is written. Where `length` is above `len`, the answers are whole all the same, and the sum of their lengths says
 * of which pairs all positions were written. Two bytes for each commit are filled once for all pairs: with the second pair each costs
 * no more than what is visited for it. */
CG_NODISCARD cg_compared cg_merge_bases_of(cg_graph graph, const cg_two *pairs, size_t count, cg_bases *answers, size_t answers_len,
                                           uint32_t *out, size_t len);

/* The corrected commit dates of a graph, by which Git orders commits. `code` is
 *   CG_OK               where each commit has one, and all are right: there are `length`;
 *   401 to 405          where they are refused: those of `layer` (401, 402), or that of the commit at `position` (403 to 405),
 *                       whose date has to be `expected` (CG_DATES_WRONG). The first refusal is told;
 *   CG_OUT_OF_MEMORY;
 *   CG_NO_DATES         where a layer has no dates, so that Git reads none of the graph; and CG_CLOSED_GRAPH.
 * What is not named is 0. */
typedef struct cg_dates { uint32_t code, position; uint64_t layer, expected, length; } cg_dates;

/* Writes the corrected dates of all commits, in seconds since 1970-01-01 00:00:00 UTC, from position 0 on, as many as there is
 * room for; nothing where the code is not CG_OK. The graph need not be checked: parents are then those that can be decoded. Each call
 * reads and compares all dates, and takes 8 bytes for each commit while it runs. */
CG_NODISCARD cg_dates cg_corrected_dates(cg_graph graph, uint64_t *out, size_t len);

/* Of how many commits the changed-path filters were asked for a path. `code` is
 *   CG_OK                  where `answered` is the smaller of the two lengths: each commit was answered for which there is room;
 *   501 to 509             where the filters of the graph are refused: those of `layer`, whose version (CG_FILTERS_VERSION) or
 *                          number of hashes (CG_FILTERS_HASHES) is `number`, or that of the commit at `position` (506, 507);
 *   CG_OUT_OF_MEMORY;
 *   CG_NO_SUCH_POSITION    where the next position, whose number `answered` is, is none; and CG_CLOSED_GRAPH.
 * The first `answered` places of the room were written, and no other. What is not named is 0. */
typedef struct cg_probed { uint32_t code, position, number; uint64_t layer, answered; } cg_probed;

/* Asks the filters of the commits at these positions for a path, and writes of each commit 0 where the path is none of those that
 * its filter was made for, 1 where it may be, and 2 where there is no filter. A path is bytes, with `/` between its parts and none
 * at either end. Git makes a filter for the paths that a commit changes against its first parent, and the folders that lead to
 * them. The graph need not be checked. Each call reads the sizes of all filters, so that it is best asked for many commits. */
CG_NODISCARD cg_probed cg_probe_path(cg_graph graph, const uint8_t *path, size_t path_len, const uint32_t *positions, size_t count,
                                     uint8_t *out, size_t len);

/* What differs first between the record of a commit and the bytes of its object. `code` is
 *   CG_OK                       where nothing does: the digest of `commit LEN`, a null byte and the bytes is the commit's id, and the
 *                               record has the tree, the parents, in their order, and the time that the bytes say;
 *   CG_OBJECT_OTHER_CONTENTS    where that is not the commit's id; else
 *   CG_OBJECT_UNREADABLE        where the bytes are those of no commit; else
 *   CG_OBJECT_TREE; else
 *   CG_OBJECT_PARENT            from the parent of number `parent` on, which counts from 0, or where only one of both has it; else
 *   CG_OBJECT_TIME;
 *   CG_NO_SUCH_POSITION         where the position is none; and CG_CLOSED_GRAPH.
 * `parent` is 0 elsewhere. */
typedef struct cg_matched { uint32_t code; uint64_t parent; } cg_matched;

/* Compares what the graph says of the commit at a position with the contents of a commit object, as `git cat-file commit ID` writes
 * them. The graph need not be checked. Most of the time goes into the digest. */
CG_NODISCARD cg_matched cg_matches(cg_graph graph, uint32_t pos, const uint8_t *contents, size_t len);

/* A commit that a layer is to have: its id, that of its root tree, the ids of its parents, one after another, first parent first, each
 * as long as its own, which is 20 bytes or 32; and the committer's time, in seconds since 1970-01-01 00:00:00 UTC. */
typedef struct cg_new_commit {
    const uint8_t *id; size_t id_len; const uint8_t *tree; size_t tree_len; const uint8_t *parents; size_t parents_len;
    uint64_t time;
} cg_new_commit;

/* Bytes that a call has made, or none. It follows the rules for a cg_graph, with cg_bytes_free in place of cg_close. */
typedef struct cg_bytes { const void *address; bool kept; } cg_bytes;
#if defined(__cplusplus) && __cplusplus >= 201103L
#define CG_NO_BYTES (cg_bytes{ NULL, false })
#elif defined(__cplusplus)
static inline cg_bytes cg_no_bytes() { cg_bytes none = { NULL, false }; return none; }
#define CG_NO_BYTES (cg_no_bytes())
#else
#define CG_NO_BYTES ((cg_bytes){ NULL, false })
#endif

/* Why no layer was written. `code` is CG_OK where one was, else the first of these that holds; commits that are handed in, and the
 * parents of one, count from 0:
 *   CG_NOT_CHECKED               the graph is open, and none that a check has handed out;
 *   CG_WRITE_NO_IDS              an id of `commit` has neither 20 nor 32 bytes, or not as many as its own;
 *   CG_WRITE_KIND                an id of `commit` is of another kind than the first commit, or than the graph;
 *   CG_WRITE_NULL_ID, CG_WRITE_NULL_TREE, CG_WRITE_TIME    of `commit`; these four are looked for together, commit by commit;
 *   CG_WRITE_TWICE               `commit` has the id of `other`, an earlier one;
 *   CG_WRITE_BELOW               the graph has `commit`, first at `position`;
 *   CG_WRITE_TOO_MANY_COMMITS;
 *   CG_WRITE_PARENT              the parent of number `other` of `commit` is neither handed in nor in the graph;
 *   CG_WRITE_NOTHING             no commit is handed in: Git writes no file then;
 *   401 to 405                   the corrected dates of the graph are wrong: as in cg_dates, with `layer`, `position`, `expected`;
 *   CG_WRITE_CYCLE               `commit` is its own ancestor; where several are, it may be any of them;
 *   CG_WRITE_TOO_MANY_LAYERS, CG_WRITE_TOO_MANY_EDGES;
 *   CG_OUT_OF_MEMORY             which may stand before all of these from CG_WRITE_TWICE on, where a commit is handed in: from there
 *                                on memory is needed.
 * What is not named is 0. */
typedef struct cg_write_error { uint32_t code, position; uint64_t commit, other, layer, expected; } cg_write_error;

/* Makes the file of a layer with these commits, in any order: on top of a checked graph, whose layers are then those below, or, with
 * CG_CLOSED, the only layer. It is what Git writes of them, without changed-path filters: with corrected dates where all layers below
 * have them, as where there are none. Each parent has to be one of the commits, or in the graph. Commits and graph are read where
 * they are, and stay as they are. On CG_OK *out has the bytes of the file, which are the caller's to free; else *out is left as it
 * was. What *out was before is not freed: let it be CG_NO_BYTES. The file's checksum, by which the file of a chain is named
 * graph-X.graph, is its last cg_id_len bytes.
 *
 * The layer is made once, in this call, whose memory is at most some 65 bytes a commit besides the file, and 24 for each commit of the
 * graph below, or 16 where that has no corrected dates. A commit of more than two parents takes 8 more for each further one; of ids of
 * SHA-256, and of filters below, none takes more. The bytes wait in *out. */
CG_NODISCARD cg_write_error cg_write(cg_graph graph, const cg_new_commit *commits, size_t count, cg_bytes *out) CG_NONNULL((4));

/* Copies bytes, from the one of number `start` on, as many as there is room for. Answers how many there are from there on, 0 past
 * their end and of CG_NO_BYTES: so with no room it answers how much is wanted, and copies nothing. */
uint64_t cg_bytes_copy(cg_bytes bytes, uint64_t start, uint8_t *out, size_t len);

/* Lends the bytes where they lie, so that they are written to a file, or opened by cg_open_lent, without a copy; false, and *out is
 * left as it was, of CG_NO_BYTES. */
bool cg_lend_bytes(cg_bytes bytes, cg_lent *out) CG_NONNULL((2));

/* Frees bytes, leaves CG_NO_BYTES where they were, and answers whether there were some: false of CG_NO_BYTES, with which nothing is
 * done. */
bool cg_bytes_free(cg_bytes *bytes) CG_NONNULL((1));

/* A line of a chain file, commit-graph-chain, each of which names a layer, from the lowest on: the line L is the layer of the
 * file graph-L.graph in the same folder. `found`: the line is the bytes from the start that was asked for up to `end`, without
 * its newline and one carriage return before that, and what follows it begins at `next`. Else no line is left. */
typedef struct cg_line { bool found; size_t end, next; } cg_line;

/* The line that begins at the byte `start` of a chain file: 0 for the first one, and then `next` of the one before. */
CG_NODISCARD cg_line cg_chain_line(const uint8_t *text, size_t len, size_t start);

/* What happened, as a sentence; another number than those of cg_code is not known. This call and cg_advice stand here whole, and the
 * library has them besides, by the same names, for other languages. */
static inline const char *cg_strerror(uint32_t code) {
    switch (code) {
    case CG_OK: return "no error";
    case CG_OUT_OF_MEMORY: return "memory ran out";
    case CG_CLOSED_GRAPH: return "no graph is open";
    case CG_NOT_CHECKED: return "no check has found the graph right";
    case CG_NO_SUCH_POSITION: return "the graph has no such position";
    case CG_PATH_NOT_UTF8: return "a path is not UTF-8";
    case CG_NO_DATES: return "a layer has no corrected dates";
    case CG_MORE_PARENTS: return "the commit has more parents than there is room for";
    case CG_PATH_WANTED: return "it has to be known what stands at one more path";
    case CG_NO_SUCH_LAYER: return "the graph has no such layer";
    case CG_STOPPED: return "a limit or a flag stopped the call";
    case CG_OPEN_NOTHING_FOUND: return "no file or folder is at the path";
    case CG_OPEN_NOT_OPENED: return "a file is not there or may not be read";
    case CG_OPEN_READ_FAILED: return "reading a file failed";
    case CG_OPEN_CHAIN_NOT_TEXT: return "a line of the chain file is not UTF-8";
    case CG_FILE_TOO_SHORT: return "the file has fewer than 1100 bytes: often it is truncated";
    case CG_FILE_SIGNATURE: return "the bytes do not begin with `CGPH`";
    case CG_FILE_VERSION: return "another version than 1";
    case CG_FILE_HASH: return "another kind of hash than SHA-1 (1) and SHA-256 (2)";
    case CG_FILE_BASE_SIZE: return "`BASE` ends within an id";
    case CG_FILE_BASE_COUNT: return "`BASE` has another number of ids than the header says";
    case CG_FILE_NO_COMMIT_DATA: return "there is no `CDAT`";
    case CG_FILE_COMMIT_DATA_SIZE: return "`CDAT` ends within a record";
    case CG_FILE_NO_FAN: return "there is no `OIDF`";
    case CG_FILE_FAN_SIZE: return "`OIDF` does not have 256 numbers, 1024 bytes";
    case CG_FILE_NO_IDS: return "there is no `OIDL`";
    case CG_FILE_IDS_SIZE: return "`OIDL` ends within an id";
    case CG_FILE_TOO_MANY_EDGES: return "`EDGE` has more than 4,294,967,294 words";
    case CG_FILE_TRAILER: return "what follows the chunks is not as long as a checksum: often a truncated file";
    case CG_FILE_BASE_MISSING: return "the header counts base ids, and there is no `BASE`";
    case CG_FILE_FAN_FALLS: return "a number of `OIDF` is less than the one before it";
    case CG_FILE_ID_COUNT: return "`OIDL` has another number of ids than `OIDF` says";
    case CG_FILE_RECORD_COUNT: return "`CDAT` has another number of records than `OIDF` says";
    case CG_CHUNK_NONE: return "the number of chunks is 0";
    case CG_CHUNK_TABLE_TOO_SMALL: return "the table of chunks passes the end of the file";
    case CG_CHUNK_EARLY_END: return "an entry before the last has the id 0";
    case CG_CHUNK_DUPLICATE: return "two chunks have one id";
    case CG_CHUNK_OUT_OF_FILE: return "a chunk begins past the end of the file: often a truncated file";
    case CG_CHUNK_FALLING: return "a chunk ends before it begins";
    case CG_CHUNK_NO_END: return "the table does not end with the id 0";
    case CG_GRAPH_NO_FILES: return "the chain file names no layer";
    case CG_GRAPH_TOO_MANY_COMMITS: return "there are more than 1,879,048,191 commits";
    case CG_GRAPH_HASH_MISMATCH: return "layers have different kinds of hash";
    case CG_CHECK_TOO_MANY_FILES: return "there are more than 256 layers";
    case CG_CHECK_BASE_COUNT: return "a layer has another number of base layers than there are layers before it";
    case CG_CHECK_BASE_ID: return "a base id of a layer is not the checksum of the layer that it stands for";
    case CG_CHECK_PARENT_OUT_OF_RANGE: return "a parent of a commit lies past the end of the commit's own layer";
    case CG_CHECK_GENERATION: return "the generation number of a commit is not one more than the greatest of its parents'";
    case CG_CHECK_DUPLICATE_ID: return "the id of a commit stands at an earlier position too, in an earlier layer";
    case CG_CHECK_CHECKSUM: return "the checksum of a layer is not the digest of its bytes: they were changed or lost";
    case CG_CHECK_FILE_NAME: return "a file is named `graph-X.graph`, and X is not its checksum";
    case CG_CHECK_FAN: return "the fan (chunk `OIDF`) does not count the ids whose first byte is at most some byte";
    case CG_CHECK_NULL_ID: return "the id of a commit is null, all zeros";
    case CG_CHECK_ORDER: return "the id of a commit is not above the one before it in its layer";
    case CG_CHECK_NULL_TREE: return "the id of the root tree of a commit is null";
    case CG_PARENT_SECOND_WITHOUT_FIRST: return "the record of a commit in `CDAT` has a second parent and no first";
    case CG_PARENT_FIRST_IS_EDGE_INDEX: return "the first parent field of a commit points into `EDGE`";
    case CG_PARENT_NO_EDGE_LIST: return "the second parent field of a commit points into `EDGE`, which is not there";
    case CG_PARENT_EDGE_OVERFLOW: return "the list of a commit in `EDGE` runs past the end";
    case CG_DATES_DATA_SIZE: return "`GDA2` has not four bytes for each commit";
    case CG_DATES_OVERFLOW_SIZE: return "the length of `GDO2` is no multiple of eight";
    case CG_DATES_OVERFLOW_INDEX: return "the word of a commit is past the end of `GDO2`";
    case CG_DATES_TOO_LARGE: return "the date of a commit is 2^63 or more";
    case CG_DATES_WRONG: return "the date of a commit is not its time or, if later, one second after the latest date of its parents";
    case CG_FILTERS_INDEX_SIZE: return "`BIDX` has not four bytes for each commit";
    case CG_FILTERS_DATA_SIZE: return "`BDAT` has fewer than twelve bytes";
    case CG_FILTERS_VERSION: return "the version of the hash of the filters is neither 1 nor 2";
    case CG_FILTERS_HASHES: return "the number of hashes is 0, or more than 65,535";
    case CG_FILTERS_NO_BITS: return "the number of bits per entry is 0";
    case CG_FILTERS_FALLS: return "a commit's filter ends before it begins";
    case CG_FILTERS_PAST_END: return "a commit's filter ends past the end of `BDAT`";
    case CG_FILTERS_LEFT_OVER: return "there are bytes after the last filter";
    case CG_FILTERS_SETTINGS: return "the version or number of hashes is not that of the lowest layer with filters";
    case CG_OBJECT_OTHER_CONTENTS: return "the bytes are not those of the commit's id";
    case CG_OBJECT_UNREADABLE: return "the bytes are not those of a commit";
    case CG_OBJECT_TREE: return "the root tree is another one in the commit-graph than in the commit";
    case CG_OBJECT_PARENT: return "the parents are others in the commit-graph than in the commit";
    case CG_OBJECT_TIME: return "the time is another one in the commit-graph than in the commit";
    case CG_WRITE_KIND: return "an id of a commit is of another kind of hash than the first commit, or than the graph below";
    case CG_WRITE_NULL_ID: return "the id of a commit is null";
    case CG_WRITE_NULL_TREE: return "the root tree of a commit is null";
    case CG_WRITE_TIME: return "the time of a commit is past 34 bits";
    case CG_WRITE_TWICE: return "a commit is handed in twice";
    case CG_WRITE_BELOW: return "the graph below has a commit that is handed in";
    case CG_WRITE_PARENT: return "a parent of a commit is neither handed in nor in the graph below";
    case CG_WRITE_CYCLE: return "a commit is its own ancestor";
    case CG_WRITE_NOTHING: return "no commit is handed in";
    case CG_WRITE_NO_IDS: return "an id of a commit has neither 20 nor 32 bytes, or another length than the commit's own";
    case CG_WRITE_TOO_MANY_COMMITS: return "with the graph below there are more than 1,879,048,191 commits";
    case CG_WRITE_TOO_MANY_EDGES: return "there are 2^31 parents past the first of commits with more than two";
    case CG_WRITE_TOO_MANY_LAYERS: return "the graph below has 256 layers";
    default: return "a number that is not known";
    }
}

/* What to do about it, with the commands to type, in the words of docs/REFUSALS.md; "" where it says nothing, and for a number that is
 * not known. It does not know which files were opened: whoever tells it names them, as bindings/c/example.c does. */
static inline const char *cg_advice(uint32_t code) {
#define CG_ANEW "remove the files that were opened (of a chain, its whole folder), and then run `git commit-graph write " \
                "--reachable` in their repository, with `--changed-paths` if they had filters"
    switch (code) {
    case CG_OUT_OF_MEMORY: return "give the program more memory";
    case CG_OPEN_NOTHING_FOUND: return "check the path";
    case CG_OPEN_NOT_OPENED:
        return "`git commit-graph write --reachable` makes a commit-graph (not in a shallow repository); if there is one, "
               "check permissions, the path (in most repositories `.git/objects/info`), and whether a layer is in another "
               "object folder, where it is not looked for";
    case CG_OPEN_READ_FAILED: return "try again, and check the disk";
    case CG_GRAPH_TOO_MANY_COMMITS: return "a commit-graph cannot hold more";
    case CG_CHECK_BASE_COUNT: return "open the whole chain, by its folder; else write it anew: " CG_ANEW;
    case CG_CHECK_CHECKSUM: return "check the disk, and write it anew: " CG_ANEW;
    case CG_CHECK_FILE_NAME: return "give it its name back, or write it anew: " CG_ANEW;
    case CG_DATES_WRONG:
        return "write it anew; where a time is past the year 2514, or a date has a minus sign, Git writes dates that are refused "
               "again, and `git -c commitGraph.generationVersion=1 commit-graph write --reachable` writes none; to write it anew, " CG_ANEW;
    case CG_FILTERS_INDEX_SIZE: case CG_FILTERS_DATA_SIZE: case CG_FILTERS_VERSION: case CG_FILTERS_HASHES:
    case CG_FILTERS_NO_BITS: case CG_FILTERS_FALLS: case CG_FILTERS_PAST_END: case CG_FILTERS_LEFT_OVER: case CG_FILTERS_SETTINGS:
        return "write it anew, with `--changed-paths` after the last command; to write it anew, " CG_ANEW;
    case CG_OBJECT_OTHER_CONTENTS: return "take the object from another copy of the repository";
    case CG_OBJECT_UNREADABLE: return "see what `git fsck` says of it";
    case CG_OBJECT_TIME:
        return "write it anew; where its time is past the year 2514, or its date has a minus sign, Git stores the low bits "
               "again, and the commit has to be made anew, with another time; to write it anew, " CG_ANEW;
    case CG_WRITE_KIND: return "hand in ids of one kind";
    case CG_WRITE_NULL_ID: return "hand in its id";
    case CG_WRITE_NULL_TREE: return "see what `git fsck` says of it";
    case CG_WRITE_TIME: return "make the commit anew, with another time";
    case CG_WRITE_TWICE: return "give each commit once";
    case CG_WRITE_BELOW: return "give the commits that the graph lacks";
    case CG_WRITE_PARENT: return "give all ancestors that the graph lacks";
    case CG_WRITE_CYCLE: return "hand in the parents that its object names";
    case CG_WRITE_NOTHING: return "see whether `git rev-list --all` lists any";
    case CG_WRITE_NO_IDS: return "hand in whole ids";
    case CG_WRITE_TOO_MANY_LAYERS: return "write the chain anew as one file";
    default:
        if (strcmp(cg_strerror(code), cg_strerror(0xffffffffu)) == 0) return "";
        return code >= CG_OPEN_CHAIN_NOT_TEXT && code < CG_WRITE_KIND ? CG_ANEW : "";
    }
#undef CG_ANEW
}

#ifdef __cplusplus
}
#endif
#endif
