//! Over a graph that Git writes: four threads read it at a time, and a thread is given it. It has no
//! harness, whose own threads a ThreadSanitizer would complain of where the standard library is not built with it.

mod made;

use commitgraph::{Checked, Graph, Position, VerifyOptions};
use std::convert::Infallible;

const THREADS: usize = 4;

/// All that a graph answers.
fn answers(checked: &Checked) -> String {
    let graph = checked.graph();
    let (commits, last) = (graph.num_commits(), Position(graph.num_commits() - 1));
    let mut all = String::new();
    for commit in graph.iter_commits() {
        let pos = commit.position();
        assert_eq!(graph.lookup(commit.id()), Some(pos));
        assert_eq!(graph.commit_by_id(commit.id()).map(|found| found.position()), Some(pos));
        all += &format!("{pos:?} {} {} {:?}", graph.id_at(pos), commit.root_tree_id(), commit.parents());
        all += &format!(" {:?} {}", commit.parent1(), commit.committer_timestamp() + u64::from(commit.generation()));
        all += &format!(" {:?} {:?}", checked.ancestor_walk(last, pos), checked.is_ancestor(pos, last));
        all += &format!(" {:?} {:?}\n", checked.compare(pos, &[last]), checked.are_ancestors(&[(last, pos), (pos, last)]));
    }
    let options = VerifyOptions { distinct_ids: true };
    let outcome = graph.verify_integrity_with(options, |_| Ok::<_, Infallible>(()));
    let records: Vec<_> = graph.iter_records().collect();
    let parents: Vec<_> = graph.iter_parents().collect();
    let chunks = (graph.corrected_dates(), graph.probe_path(b"file", &[last]));
    all + &format!("{commits} {outcome:?} {records:?} {parents:?} {chunks:?} {}", graph.iter_ids().len())
}

fn is_shared<T: Send + Sync>() {}

fn main() {
    is_shared::<Graph>();
    is_shared::<Checked>();
    let graph = Checked::at(&made::made().file).unwrap();
    let alone = answers(&graph);
    std::thread::scope(|scope| {
        let asked: Vec<_> = (0..THREADS).map(|_| scope.spawn(|| answers(&graph))).collect();
        for answer in asked {
            assert_eq!(answer.join().unwrap(), alone);
        }
    });
    let moved = std::thread::spawn(move || answers(&graph));
    assert_eq!(moved.join().unwrap(), alone);
    println!("{THREADS} threads read one graph");
}
