//! What `commitgraph.h` declares.

use std::ffi::c_void;

pub const CLOSED: Graph = Graph { address: std::ptr::null(), opened: false };
pub const NOT_LENT: Lent = Lent { bytes: b"".as_ptr(), len: 0 };
pub const NO_BYTES: Bytes = Bytes { address: std::ptr::null(), kept: false };
pub const NO_FLAG: Flag = Flag { address: std::ptr::null(), kept: false };

// What follows is made of `commitgraph.h` by `gate/declarations.py`.

pub const ANYTHING: u32 = 0;
pub const FILE: u32 = 1;
pub const CHAIN_FOLDER: u32 = 2;
pub const INFO_FOLDER: u32 = 3;
pub const NOTHING: u32 = 0;
pub const READ: u32 = 1;
pub const FOLDER: u32 = 2;
pub const UNOPENED: u32 = 3;
pub const UNREAD: u32 = 4;
pub const NO_MEMORY: u32 = 5;

#[repr(C)]
#[derive(Clone, Copy, Debug)]
pub struct Graph {
    pub address: *const c_void,
    pub opened: bool,
}

#[repr(C)]
#[derive(Clone, Copy, Debug)]
pub struct File {
    pub bytes: *const u8,
    pub len: usize,
    pub path: *const u8,
    pub path_len: usize,
}

#[repr(C)]
#[derive(Clone, Copy, Debug, Default)]
pub struct Error {
    pub code: u32,
    pub layer: u64,
}

#[repr(C)]
#[derive(Clone, Copy, Debug)]
pub struct Known {
    pub path: *const u8,
    pub path_len: usize,
    pub bytes: *const u8,
    pub len: usize,
    pub kind: u32,
}

#[repr(C)]
#[derive(Clone, Copy, Debug, Default)]
pub struct PathError {
    pub code: u32,
    pub layer: u64,
    pub length: u64,
}

#[repr(C)]
#[derive(Clone, Copy, Debug)]
pub struct Flag {
    pub address: *const c_void,
    pub kept: bool,
}

#[repr(C)]
#[derive(Clone, Copy, Debug)]
pub struct Limit {
    pub visits: u64,
    pub flag: Flag,
}

#[repr(C)]
#[derive(Clone, Copy, Debug, Default)]
pub struct Layer {
    pub first: u32,
    pub num_commits: u32,
    pub bases: u32,
    pub hash: u32,
}

#[repr(C)]
#[derive(Clone, Copy, Debug)]
pub struct Lent {
    pub bytes: *const u8,
    pub len: usize,
}

#[repr(C)]
#[derive(Clone, Copy, Debug, Default)]
pub struct Answered {
    pub code: u32,
    pub answered: u64,
}

#[repr(C)]
#[derive(Clone, Copy, Debug, Default)]
pub struct Commit {
    pub time: u64,
    pub generation: u32,
}

#[repr(C)]
#[derive(Clone, Copy, Debug, Default)]
pub struct ParentCount {
    pub code: u32,
    pub count: u64,
}

#[repr(C)]
#[derive(Clone, Copy, Debug, Default)]
pub struct Parent {
    pub code: u32,
    pub position: u32,
}

#[repr(C)]
#[derive(Clone, Copy, Debug, Default)]
pub struct Block {
    pub commits: u32,
    pub length: u64,
}

#[repr(C)]
#[derive(Clone, Copy, Debug, Default)]
pub struct Verdict {
    pub code: u32,
    pub num_commits: u32,
    pub longest: u32,
    pub has_longest: u32,
    pub position: u32,
    pub other: u32,
    pub called: u32,
    pub layer: u64,
    pub index: u64,
    pub kinds: u64,
}

#[repr(C)]
#[derive(Clone, Copy, Debug, Default)]
pub struct Count {
    pub parents: u32,
    pub commits: u32,
}

#[repr(C)]
#[derive(Clone, Copy, Debug, Default)]
pub struct LayerVerdict {
    pub code: u32,
    pub num_commits: u32,
    pub min_generation: u32,
    pub max_generation: u32,
    pub max_parents: u32,
    pub position: u32,
    pub byte: u32,
}

#[repr(C)]
#[derive(Clone, Copy, Debug, Default)]
pub struct Reached {
    pub code: u32,
    pub visits: u32,
    pub length: u64,
}

#[repr(C)]
#[derive(Clone, Copy, Debug, Default)]
pub struct Leads {
    pub code: u32,
    pub found: bool,
}

#[repr(C)]
#[derive(Clone, Copy, Debug, Default)]
pub struct Pair {
    pub ancestor: u32,
    pub descendant: u32,
}

#[repr(C)]
#[derive(Clone, Copy, Debug, Default)]
pub struct Bases {
    pub code: u32,
    pub ahead: u32,
    pub behind: u32,
    pub visits: u64,
    pub length: u64,
}

#[repr(C)]
#[derive(Clone, Copy, Debug, Default)]
pub struct Two {
    pub first: u32,
    pub other: u32,
}

#[repr(C)]
#[derive(Clone, Copy, Debug, Default)]
pub struct Compared {
    pub code: u32,
    pub answered: u64,
    pub length: u64,
}

#[repr(C)]
#[derive(Clone, Copy, Debug, Default)]
pub struct Dates {
    pub code: u32,
    pub position: u32,
    pub layer: u64,
    pub expected: u64,
    pub length: u64,
}

#[repr(C)]
#[derive(Clone, Copy, Debug, Default)]
pub struct Probed {
    pub code: u32,
    pub position: u32,
    pub number: u32,
    pub layer: u64,
    pub answered: u64,
}

#[repr(C)]
#[derive(Clone, Copy, Debug, Default)]
pub struct Matched {
    pub code: u32,
    pub parent: u64,
}

#[repr(C)]
#[derive(Clone, Copy, Debug)]
pub struct NewCommit {
    pub id: *const u8,
    pub id_len: usize,
    pub tree: *const u8,
    pub tree_len: usize,
    pub parents: *const u8,
    pub parents_len: usize,
    pub time: u64,
}

#[repr(C)]
#[derive(Clone, Copy, Debug)]
pub struct Bytes {
    pub address: *const c_void,
    pub kept: bool,
}

#[repr(C)]
#[derive(Clone, Copy, Debug, Default)]
pub struct WriteError {
    pub code: u32,
    pub position: u32,
    pub commit: u64,
    pub other: u64,
    pub layer: u64,
    pub expected: u64,
}

#[repr(C)]
#[derive(Clone, Copy, Debug, Default)]
pub struct Line {
    pub found: bool,
    pub end: usize,
    pub next: usize,
}

extern "C" {
    pub fn cg_version() -> u32;
    pub fn cg_open(files: *const File, count: usize, out: *mut Graph) -> Error;
    pub fn cg_open_lent(files: *const File, count: usize, out: *mut Graph) -> Error;
    pub fn cg_open_chain(files: *const File, count: usize, places: *const u64, layers: usize, out: *mut Graph) -> Error;
    pub fn cg_open_known(
        path: *const u8,
        path_len: usize,
        what: u32,
        known: *const Known,
        count: usize,
        file: *mut u8,
        file_len: usize,
        out: *mut Graph,
    ) -> PathError;
    pub fn cg_open_checked(
        files: *const File,
        count: usize,
        distinct_ids: bool,
        verdict: *mut Verdict,
        counts: *mut Count,
        counts_len: usize,
        out: *mut Graph,
    ) -> Error;
    pub fn cg_check(
        graph: *mut Graph,
        distinct_ids: bool,
        verdict: *mut Verdict,
        counts: *mut Count,
        counts_len: usize,
        out: *mut Graph,
    ) -> u32;
    pub fn cg_flag_new(out: *mut Flag) -> u32;
    pub fn cg_flag_raise(flag: Flag) -> bool;
    pub fn cg_flag_free(flag: *mut Flag) -> bool;
    pub fn cg_check_within(
        graph: *mut Graph,
        distinct_ids: bool,
        limit: Limit,
        verdict: *mut Verdict,
        counts: *mut Count,
        counts_len: usize,
        out: *mut Graph,
    ) -> u32;
    pub fn cg_close(graph: *mut Graph) -> bool;
    pub fn cg_num_commits(graph: Graph) -> u32;
    pub fn cg_id_len(graph: Graph) -> usize;
    pub fn cg_num_layers(graph: Graph) -> u64;
    pub fn cg_layer(graph: Graph, layer: u64, out: *mut Layer) -> bool;
    pub fn cg_layer_checksum(graph: Graph, layer: u64, out: *mut u8, len: usize) -> usize;
    pub fn cg_base_id_at(graph: Graph, layer: u64, index: u64, out: *mut u8, len: usize) -> usize;
    pub fn cg_lookup(graph: Graph, id: *const u8, len: usize) -> u32;
    pub fn cg_lookup_all(graph: Graph, ids: *const u8, ids_len: usize, id_len: usize, out: *mut u32, len: usize) -> u64;
    pub fn cg_id_at(graph: Graph, pos: u32, out: *mut u8, len: usize) -> usize;
    pub fn cg_tree_at(graph: Graph, pos: u32, out: *mut u8, len: usize) -> usize;
    pub fn cg_lend_id(graph: Graph, pos: u32, out: *mut Lent) -> bool;
    pub fn cg_lend_tree(graph: Graph, pos: u32, out: *mut Lent) -> bool;
    pub fn cg_ids_at(graph: Graph, positions: *const u32, count: usize, out: *mut u8, len: usize) -> Answered;
    pub fn cg_commit_at(graph: Graph, pos: u32, out: *mut Commit) -> bool;
    pub fn cg_generation_at(graph: Graph, pos: u32) -> u32;
    pub fn cg_commits(graph: Graph, first: u32, out: *mut Commit, len: usize) -> u32;
    pub fn cg_parents(graph: Graph, pos: u32, out: *mut u32, len: usize) -> ParentCount;
    pub fn cg_first_parents(graph: Graph, pos: u32, out: *mut u32, len: usize) -> ParentCount;
    pub fn cg_first_parent(graph: Graph, pos: u32) -> Parent;
    pub fn cg_parents_from(
        graph: Graph,
        first: u32,
        answers: *mut ParentCount,
        answers_len: usize,
        out: *mut u32,
        len: usize,
    ) -> Block;
    pub fn cg_verify(graph: Graph, distinct_ids: bool, out: *mut Verdict, counts: *mut Count, counts_len: usize) -> u32;
    pub fn cg_verify_layer(graph: Graph, layer: u64, out: *mut LayerVerdict) -> u32;
    pub fn cg_ancestor_walk(graph: Graph, from: u32, to: u32, out: *mut u32, len: usize) -> Reached;
    pub fn cg_ancestor_walk_within(
        graph: Graph,
        from: u32,
        to: u32,
        limit: Limit,
        out: *mut u32,
        len: usize,
    ) -> Reached;
    pub fn cg_is_ancestor(graph: Graph, ancestor: u32, descendant: u32) -> Leads;
    pub fn cg_is_ancestor_within(graph: Graph, ancestor: u32, descendant: u32, limit: Limit) -> Leads;
    pub fn cg_are_ancestors(graph: Graph, pairs: *const Pair, count: usize, out: *mut u8, len: usize) -> Answered;
    pub fn cg_merge_bases(
        graph: Graph,
        first: u32,
        others: *const u32,
        count: usize,
        out: *mut u32,
        len: usize,
    ) -> Bases;
    pub fn cg_merge_bases_within(
        graph: Graph,
        first: u32,
        others: *const u32,
        count: usize,
        limit: Limit,
        out: *mut u32,
        len: usize,
    ) -> Bases;
    pub fn cg_merge_bases_of(
        graph: Graph,
        pairs: *const Two,
        count: usize,
        answers: *mut Bases,
        answers_len: usize,
        out: *mut u32,
        len: usize,
    ) -> Compared;
    pub fn cg_corrected_dates(graph: Graph, out: *mut u64, len: usize) -> Dates;
    pub fn cg_probe_path(
        graph: Graph,
        path: *const u8,
        path_len: usize,
        positions: *const u32,
        count: usize,
        out: *mut u8,
        len: usize,
    ) -> Probed;
    pub fn cg_matches(graph: Graph, pos: u32, contents: *const u8, len: usize) -> Matched;
    pub fn cg_write(graph: Graph, commits: *const NewCommit, count: usize, out: *mut Bytes) -> WriteError;
    pub fn cg_bytes_copy(bytes: Bytes, start: u64, out: *mut u8, len: usize) -> u64;
    pub fn cg_lend_bytes(bytes: Bytes, out: *mut Lent) -> bool;
    pub fn cg_bytes_free(bytes: *mut Bytes) -> bool;
    pub fn cg_chain_line(text: *const u8, len: usize, start: usize) -> Line;
}

/// The sizes and offsets of these structs, as `commitgraph.h` has them on a machine of 64 bits.
#[cfg(target_pointer_width = "64")]
mod layout {
    use super::*;
    use std::mem::{offset_of, size_of};

    macro_rules! laid_out {
        ($name:ident, $size:literal, $($field:ident $offset:literal),*) => {
            const _: () = assert!(size_of::<$name>() == $size $(&& offset_of!($name, $field) == $offset)*);
        };
    }

    laid_out!(Graph, 16, address 0, opened 8);
    laid_out!(File, 32, bytes 0, len 8, path 16, path_len 24);
    laid_out!(Error, 16, code 0, layer 8);
    laid_out!(Known, 40, path 0, path_len 8, bytes 16, len 24, kind 32);
    laid_out!(PathError, 24, code 0, layer 8, length 16);
    laid_out!(Flag, 16, address 0, kept 8);
    laid_out!(Limit, 24, visits 0, flag 8);
    laid_out!(Layer, 16, first 0, num_commits 4, bases 8, hash 12);
    laid_out!(Lent, 16, bytes 0, len 8);
    laid_out!(Answered, 16, code 0, answered 8);
    laid_out!(Commit, 16, time 0, generation 8);
    laid_out!(ParentCount, 16, code 0, count 8);
    laid_out!(Parent, 8, code 0, position 4);
    laid_out!(Block, 16, commits 0, length 8);
    laid_out!(Verdict, 56, code 0, num_commits 4, longest 8, has_longest 12, position 16);
    laid_out!(Verdict, 56, other 20, called 24, layer 32, index 40, kinds 48);
    laid_out!(Count, 8, parents 0, commits 4);
    laid_out!(LayerVerdict, 28, code 0, num_commits 4, min_generation 8, max_generation 12);
    laid_out!(LayerVerdict, 28, max_parents 16, position 20, byte 24);
    laid_out!(Reached, 16, code 0, visits 4, length 8);
    laid_out!(Leads, 8, code 0, found 4);
    laid_out!(Pair, 8, ancestor 0, descendant 4);
    laid_out!(Bases, 32, code 0, ahead 4, behind 8, visits 16, length 24);
    laid_out!(Two, 8, first 0, other 4);
    laid_out!(Compared, 24, code 0, answered 8, length 16);
    laid_out!(Dates, 32, code 0, position 4, layer 8, expected 16, length 24);
    laid_out!(Probed, 32, code 0, position 4, number 8, layer 16, answered 24);
    laid_out!(Matched, 16, code 0, parent 8);
    laid_out!(NewCommit, 56, id 0, id_len 8, tree 16, tree_len 24);
    laid_out!(NewCommit, 56, parents 32, parents_len 40, time 48);
    laid_out!(Bytes, 16, address 0, kept 8);
    laid_out!(WriteError, 40, code 0, position 4, commit 8, other 16, layer 24, expected 32);
    laid_out!(Line, 24, found 0, end 8, next 16);
}
