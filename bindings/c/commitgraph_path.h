/* Opens the commit-graph at a path, by the C library's own files.
 *
 * The code below is not proved: it reads files for cg_open_known, which is. It is for C99 and C++98 and later. */
#ifndef COMMITGRAPH_PATH_H
#define COMMITGRAPH_PATH_H

#include "commitgraph.h"
#include <stdio.h>
#include <stdlib.h>
#include <string.h>
#include <sys/stat.h>

/* What is known of paths; room for one that is wanted, with a null byte behind it; and the folder at which all of them begin. It is
 * empty, or need not be UTF-8. */
typedef struct cg_paths { cg_known *known; size_t count; char *wanted; size_t room; const char *root; size_t root_len; } cg_paths;

/* Reads a file to its end, in a room that is first of this size. */
static inline void cg_paths_read_file(cg_known *it, FILE *file, size_t room) {
    uint8_t *bytes = NULL, *more;
    size_t len = 0;
    it->kind = CG_NO_MEMORY;
    while ((more = (uint8_t *)realloc(bytes, room)) != NULL) {
        bytes = more;
        len += fread(bytes + len, 1, room - len, file);
        if (len < room) {
            it->kind = ferror(file) ? CG_UNREAD : CG_READ;
            break;
        }
        room *= 2;
    }
    if (it->kind == CG_READ) {
        it->bytes = bytes;
        it->len = len;
    } else {
        free(bytes);
    }
}

/* Reads what stands at a path, from the root on. */
static inline void cg_paths_read(cg_known *it, const char *path) {
    struct stat status;
    FILE *file;
    if (stat(path, &status) != 0) return;
    it->kind = CG_FOLDER;
    if (S_ISDIR(status.st_mode)) return;
    it->kind = CG_UNOPENED;
    file = fopen(path, "rb");
    if (!file) return;
    cg_paths_read_file(it, file, (size_t)status.st_size + 1);
    fclose(file);
}

/* How many bytes the root has before a path of this length, with the slash behind it. */
static inline size_t cg_paths_before(const cg_paths *all, size_t len) {
    bool is_joined = all->root_len && len && all->root[all->root_len - 1] != '/';
    return all->root_len + (is_joined ? 1 : 0);
}

/* A path from the root on, with a null byte behind it; or NULL where there is no memory for it. */
static inline char *cg_paths_whole(const cg_paths *all, const char *path, size_t len) {
    size_t before = cg_paths_before(all, len);
    char *whole = (char *)malloc(before + len + 1);
    if (!whole) return NULL;
    if (before) whole[before - 1] = '/';
    if (all->root_len) memcpy(whole, all->root, all->root_len);
    if (len) memcpy(whole + before, path, len);
    whole[before + len] = 0;
    return whole;
}

/* Adds what stands at the path of two texts, one after the other, unless that is known. Answers whether there was memory for it. */
static inline bool cg_paths_add(cg_paths *all, const char *folder, size_t folder_len, const char *name, size_t name_len) {
    cg_known it = { NULL, 0, NULL, 0, CG_NOTHING };
    cg_known *known = (cg_known *)realloc(all->known, (all->count + 1) * sizeof *known);
    char *path = (char *)malloc(folder_len + name_len + 1), *whole;
    size_t i;
    if (known) all->known = known;
    if (!known || !path) {
        free(path);
        return false;
    }
    memcpy(path, folder, folder_len);
    memcpy(path + folder_len, name, name_len);
    path[folder_len + name_len] = 0;
    it.path = path;
    it.path_len = folder_len + name_len;
    for (i = 0; i < all->count; i++) {
        if (known[i].path_len != it.path_len || memcmp(known[i].path, path, it.path_len) != 0) continue;
        free(path);
        return true;
    }
    whole = cg_paths_whole(all, path, it.path_len);
    if (!whole) {
        free(path);
        return false;
    }
    cg_paths_read(&it, whole);
    free(whole);
    known[all->count++] = it;
    return true;
}

/* Whether a path ends with a name. */
static inline bool cg_paths_ends(const cg_known *it, const char *name) {
    size_t len = strlen(name);
    return it->path_len >= len && memcmp(it->path + it->path_len - len, name, len) == 0;
}

/* Adds the layers that a chain file names, if the last path is that of one, up to the first that is not read: otherwise each would
 * be wanted by itself, and those before it opened once more. Each is read once, however many lines name it. */
static inline bool cg_paths_add_layers(cg_paths *all) {
    cg_known chain = all->known[all->count - 1];
    cg_line line = { false, 0, 0 };
    size_t folder, start;
    if (!cg_paths_ends(&chain, "commit-graph-chain")) return true;
    folder = chain.path_len - strlen("commit-graph-chain");
    for (start = 0;; start = line.next) {
        char name[sizeof "graph-.graph" + 64];
        line = cg_chain_line(chain.bytes, chain.len, start);
        if (!line.found) return true;
        if (line.end - start > 64) continue; /* No checksum is that long. */
        memcpy(name, "graph-", 6);
        if (line.end > start) memcpy(name + 6, chain.bytes + start, line.end - start);
        memcpy(name + 6 + (line.end - start), ".graph", 6);
        if (!cg_paths_add(all, chain.path, folder, name, 12 + (line.end - start))) return false;
        if (all->known[all->count - 1].kind != CG_READ) return true;
    }
}

/* The answer about a path of what is known; the path that it tells is in `wanted`. */
static inline cg_path_error cg_paths_ask(cg_paths *all, const char *path, uint32_t what, cg_graph *out) {
    cg_path_error told = { CG_OUT_OF_MEMORY, 0, 0 };
    size_t room = all->wanted ? all->room : strlen(path) + 128;
    for (;;) {
        char *wanted = (char *)realloc(all->wanted, room + 1);
        if (!wanted) {
            told.code = CG_OUT_OF_MEMORY;
            told.layer = told.length = 0;
            return told;
        }
        all->wanted = wanted;
        all->room = room;
        told = cg_open_known(path, strlen(path), what, all->known, all->count, wanted, room, out);
        if (told.length <= room) {
            wanted[told.length] = 0;
            return told;
        }
        room = (size_t)told.length;
    }
}

/* Why the file of an info folder is refused, if it is; else what was told before. */
static inline cg_path_error cg_paths_of_file(cg_paths *all, const char *asked, cg_path_error told) {
    size_t i;
    for (i = 0; i < all->count; i++) {
        const cg_known *it = &all->known[i];
        cg_graph graph = CG_CLOSED;
        cg_path_error again;
        if (it->kind != CG_READ || !cg_paths_ends(it, "commit-graph") || strcmp(it->path, asked) == 0) continue;
        again = cg_paths_ask(all, it->path, CG_FILE, &graph);
        cg_close(&graph);
        if (again.code != CG_OK) return again;
    }
    return told;
}

/* What is opened at a path below the root, where all that is wanted is looked at. */
static inline cg_path_error cg_paths_open(cg_paths *all, const char *path, uint32_t what, cg_graph *out) {
    for (;;) {
        cg_path_error told = cg_paths_ask(all, path, what, out);
        if (told.code == CG_OPEN_NOT_OPENED) return cg_paths_of_file(all, path, told);
        if (told.code != CG_PATH_WANTED) return told;
        if (!cg_paths_add(all, all->wanted, (size_t)told.length, "", 0) || !cg_paths_add_layers(all)) {
            told.code = CG_OUT_OF_MEMORY;
            told.length = 0;
            return told;
        }
    }
}

/* The same of a path that is not UTF-8. Where its folder alone is none, the library is asked for the file's name, since the check
 * compares the name of a layer's file with its checksum; else for what stands at the root. */
static inline cg_path_error cg_paths_open_below(cg_paths *all, const char *path, uint32_t what, cg_graph *out) {
    const char *slash = strrchr(path, '/'), *name = slash ? slash + 1 : path;
    cg_path_error told = { CG_PATH_NOT_UTF8, 0, 0 };
    all->root = path;
    all->root_len = (size_t)(name - path);
    if (*name && slash) told = cg_paths_open(all, name, what, out);
    if (told.code != CG_PATH_NOT_UTF8) return told;
    all->root_len = strlen(path);
    return cg_paths_open(all, "", what, out);
}

/* Writes the path that is told, from the root on, and its length. */
static inline void cg_paths_tell(const cg_paths *all, cg_path_error *told, char *file, size_t file_len) {
    bool is_root = told->code != CG_OK && told->code != CG_OPEN_NOTHING_FOUND && told->code != CG_OUT_OF_MEMORY;
    size_t len = (size_t)told->length, before = len || is_root ? cg_paths_before(all, len) : 0, i;
    told->length = before + len;
    if (!file_len) return;
    for (i = 0; i < before + len && i < file_len - 1; i++) {
        file[i] = i >= before ? all->wanted[i - before] : i < all->root_len ? all->root[i] : '/';
    }
    file[i] = 0;
}

/* Opens the graph at a path, which ends with a null byte, as cg_open_known does, and reads the files itself, those of a chain at
 * once. The path need not be UTF-8: neither CG_PATH_NOT_UTF8 nor CG_PATH_WANTED comes. Where the file of an info folder is refused,
 * and a file of its chain is not there, the error is that of the first. If `file_len` is not 0, `file` gets the path that is told,
 * as much of it as there is room for, and a null byte. The graph is not checked: see cg_check. */
static inline cg_path_error cg_open_path(const char *path, uint32_t what, char *file, size_t file_len, cg_graph *out) {
    cg_paths all = { NULL, 0, NULL, 0, NULL, 0 };
    cg_path_error told = cg_paths_open(&all, path, what, out);
    size_t i;
    if (told.code == CG_PATH_NOT_UTF8) told = cg_paths_open_below(&all, path, what, out);
    cg_paths_tell(&all, &told, file, file_len);
    for (i = 0; i < all.count; i++) {
        free((void *)all.known[i].path);
        free((void *)all.known[i].bytes);
    }
    free(all.known);
    free(all.wanted);
    return told;
}

#endif
