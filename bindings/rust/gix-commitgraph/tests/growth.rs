//! How long calls take for twice and four times as much, and that no bytes are copied.

#[path = "../../tests/made/mod.rs"]
mod made;

use gix_commitgraph::{at, file, File, Graph};
use made::{chain_of_lines, chain_of_one, grows_with_its_size, long_lists, nested_lists};
use std::collections::HashMap;
use std::path::{Path, PathBuf};
use std::sync::Arc;

fn file_of(bytes: Vec<u8>) -> File {
    File::new(bytes, PathBuf::from("no/such/file")).unwrap()
}

#[test]
fn a_chain_of_many_lines_is_opened_line_by_line() {
    let make = |lines| {
        let folder = Path::new(env!("CARGO_TARGET_TMPDIR")).join(format!("lines {lines}"));
        chain_of_lines(&folder, lines, true);
        folder
    };
    grows_with_its_size(16_000, make, |folder| assert!(at(folder).unwrap().num_commits() > 0));
}

#[test]
fn a_file_is_decoded_once_for_all_lines() {
    let make = |size| {
        let folder = Path::new(env!("CARGO_TARGET_TMPDIR")).join(format!("decoded {size}"));
        chain_of_one(&folder, size);
        folder
    };
    grows_with_its_size(4_000, make, |folder| assert!(at(folder).unwrap().num_commits() > 0));
}

#[test]
fn the_commits_of_many_layers_are_gone_over_quickly() {
    let make = |lines| {
        let folder = Path::new(env!("CARGO_TARGET_TMPDIR")).join(format!("layers {lines}"));
        chain_of_lines(&folder, lines, true);
        at(folder).unwrap()
    };
    let commits = |graph: &Graph| graph.iter_commits().map(|commit| u64::from(commit.generation())).sum::<u64>();
    grows_with_its_size(4_000, make, |graph: &Graph| assert_eq!(commits(graph), u64::from(graph.num_commits())));
}

#[test]
fn commits_that_share_a_list_are_traversed_quickly() {
    for lists in [long_lists, nested_lists] {
        let traverse = |file: &File| drop(file.traverse(|_| Ok(())).unwrap());
        grows_with_its_size(5_000, |commits| file_of(lists(commits as u32)), traverse);
    }
}

/// The number of parents of each commit, as its parents are counted.
fn counted(file: &File) -> HashMap<u32, u32> {
    let mut counts = HashMap::new();
    for commit in file.iter_commits() {
        *counts.entry(commit.iter_parents().count() as u32).or_insert(0) += 1;
    }
    counts
}

#[test]
fn parents_are_counted_as_they_are_told() {
    for (bytes, wanted) in [(long_lists(50), HashMap::from([(51, 50)])), (nested_lists(50), (2..=51).map(|count| (count, 1)).collect())] {
        let file = file_of(bytes);
        let outcome = file.traverse(|_| Ok(())).unwrap();
        assert_eq!((&outcome.parent_counts, outcome.max_parents), (&wanted, 51));
        assert_eq!(counted(&file), wanted);
    }
}

#[test]
fn bytes_are_read_where_they_are() {
    let bytes: Arc<[u8]> = long_lists(50).into();
    let file = File::new(bytes.clone(), PathBuf::from("file")).unwrap();
    let graph = Graph::new(vec![file]).unwrap();
    let own = bytes.as_ptr_range();
    for commit in graph.iter_commits() {
        assert!(own.contains(&commit.id().as_bytes().as_ptr()) && own.contains(&commit.root_tree_id().as_bytes().as_ptr()));
    }
    let told = graph.commit_at(gix_commitgraph::Position(7));
    assert_eq!((told.position(), told.generation(), told.committer_timestamp()), (file::Position(7), 1, 1_000_000_000));
    drop(graph);
    assert_eq!(Arc::strong_count(&bytes), 1);
}

#[test]
fn a_refusal_says_what_to_do_apart() {
    let error = File::new(vec![0u8], PathBuf::from("a/commit-graph")).err().unwrap();
    assert_eq!(error.to_string(), "a/commit-graph: the file has fewer than 1100 bytes: often it is truncated");
    assert!(format!("{error:?}").starts_with("Layer { layer: 0, path: "), "{error:?}");
    assert!(error.advice().starts_with("remove `a/commit-graph`, and then run "), "{}", error.advice());
}
