//! How long calls take for twice and four times as much. Where steps were multiplied, the sizes are such that the time would show it.

mod made;

use commitgraph::{Graph, LayerFile, Place};
use made::{chain_of_lines, chain_of_one, grows_with_its_size, long_lists, nested_lists};
use std::path::{Path, PathBuf};

/// A chain of so many lines in a folder of the build.
fn chain(name: &str, lines: usize, is_one: bool) -> PathBuf {
    let at = Path::new(env!("CARGO_TARGET_TMPDIR")).join(format!("{name} {lines}"));
    chain_of_lines(&at, lines, is_one);
    at
}

#[test]
fn a_chain_of_many_lines_is_opened_line_by_line() {
    let opens = |at: &PathBuf| drop(Graph::open_with_files(at, Place::ChainFolder).unwrap());
    grows_with_its_size(8_000, |lines| chain("one", lines, true), opens);
    grows_with_its_size(500, |lines| chain("each", lines, false), opens);
}

#[test]
fn a_file_is_decoded_once_for_all_lines() {
    let make = |size| {
        let at = chain("decoded", size, true);
        chain_of_one(&at, size);
        at
    };
    grows_with_its_size(4_000, make, |at: &PathBuf| drop(Graph::at(at).unwrap()));
    let files = |size| vec![LayerFile { path: PathBuf::new(), bytes: long_lists(size as u32).into() }; size];
    grows_with_its_size(4_000, files, |files: &Vec<LayerFile>| drop(Graph::of_files(files.clone()).unwrap()));
    let lend = |size| long_lists(size as u32);
    grows_with_its_size(4_000, lend, |bytes: &Vec<u8>| drop(Graph::of_lent(&vec![(&bytes[..], ""); bytes.len() / 64]).unwrap()));
}

#[test]
fn a_chain_is_refused_line_by_line() {
    let make = |lines| {
        let at = chain("refused", lines, false);
        std::fs::remove_file(at.join(format!("graph-{}.graph", lines - 1))).unwrap();
        at
    };
    grows_with_its_size(500, make, |at| assert!(Graph::at(at).is_err()));
}

#[test]
fn lists_of_parents_are_checked_once_for_all_commits() {
    for lists in [long_lists, nested_lists] {
        let open = |commits| Graph::of_files(vec![LayerFile { path: PathBuf::new(), bytes: lists(commits as u32).into() }]).unwrap();
        grows_with_its_size(5_000, open, |graph: &Graph| assert!(graph.layer(0).unwrap().verify().is_ok()));
    }
}
