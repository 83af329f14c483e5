//! Graphs of bytes that are lent to them.

use crate::{Checked, Graph, OpenError, VerifyOptions};
use std::marker::PhantomData;
use std::ops::Deref;

/// A graph, or one that its check has found right, which reads bytes where they are lent to it. It is not kept longer than they are,
/// and answers what it answers with bytes of its own.
///
/// ```no_run
/// let bytes = std::fs::read(".git/objects/info/commit-graph")?;
/// let graph = commitgraph::Graph::of_lent(&[(&bytes, "")])?;
/// println!("{} commits", graph.num_commits());
/// # Ok::<(), Box<dyn std::error::Error>>(())
/// ```
///
/// These bytes are gone too early:
///
/// ```compile_fail
/// let graph = {
///     let bytes = std::fs::read(".git/objects/info/commit-graph")?;
///     commitgraph::Graph::of_lent(&[(&bytes, "")])?
/// };
/// println!("{} commits", graph.num_commits());
/// # Ok::<(), Box<dyn std::error::Error>>(())
/// ```
#[derive(Debug)]
pub struct Lent<'b, T> {
    graph: T,
    // It stands behind the graph, so that it is dropped later.
    _bytes: Borrow<'b>,
}

/// A borrow of bytes. As it is dropped, they have to be there still.
#[derive(Debug)]
struct Borrow<'b>(PhantomData<&'b [u8]>);

impl Drop for Borrow<'_> {
    fn drop(&mut self) {}
}

impl<T> Deref for Lent<'_, T> {
    type Target = T;

    #[inline]
    fn deref(&self) -> &T {
        &self.graph
    }
}

impl<'b> Lent<'b, Graph> {
    /// A graph that reads bytes of this lifetime.
    pub(crate) fn new(graph: Graph) -> Lent<'b, Graph> {
        Lent { graph, _bytes: Borrow(PhantomData) }
    }

    /// Checks the graph, for what the options ask.
    ///
    /// # Errors
    ///
    /// Those of [`Checked::of_graph`].
    pub fn check(self, options: VerifyOptions) -> Result<Lent<'b, Checked>, OpenError> {
        let Lent { graph, _bytes } = self;
        Ok(Lent { graph: Checked::of_graph(graph, options)?, _bytes })
    }
}
