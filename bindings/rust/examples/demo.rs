//! `demo PATH ID`: opens and checks the graph at the path, and says how its commits are reached from the one with the id.

use commitgraph::{Checked, ObjectId, Position};
use std::error::Error;
use std::process::ExitCode;

fn main() -> ExitCode {
    match demo() {
        Ok(()) => ExitCode::SUCCESS,
        Err(error) => {
            eprintln!("demo: {error}");
            ExitCode::FAILURE
        }
    }
}

fn demo() -> Result<(), Box<dyn Error>> {
    let words: Vec<String> = std::env::args().collect();
    let [_, path, id] = &words[..] else {
        return Err("usage: demo PATH ID".into());
    };
    let checked = Checked::at(path)?;
    let graph = checked.graph();
    println!("{} commits", graph.num_commits());
    println!("{:?}", checked.outcome());
    let id: ObjectId = id.parse()?;
    let from = graph.lookup(id).ok_or("no such commit")?;
    assert_eq!(graph.commit_at(from).id(), id);
    for parent in graph.commit_at(from).parents()? {
        let comparison = checked.compare(parent, &[from])?;
        assert_eq!((&comparison.bases[..], comparison.ahead), (&[parent][..], 0));
        println!("parent {}, {} behind", graph.id_at(parent), comparison.behind);
    }
    // Four threads read the graph at a time.
    std::thread::scope(|scope| {
        let ask = || (0..graph.num_commits()).filter(|to| reaches(&checked, from, Position(*to))).count();
        let asked: Vec<_> = (0..4).map(|_| scope.spawn(ask)).collect();
        for answer in asked {
            println!("{} reached", answer.join().unwrap());
        }
    });
    Ok(())
}

fn reaches(graph: &Checked, from: Position, to: Position) -> bool {
    let leads = graph.is_ancestor(to, from);
    assert_eq!(leads, graph.ancestor_walk(from, to).map(|reached| reached.walk.is_some()));
    leads == Ok(true)
}
