// Child of the build copy: what a comparison reads of a graph and of an
// enumerator. Nothing here changes either.
use super::*;

/// Source, target and label of an edge.
pub type Edge<'grammar> = (
    TraceGraphNode<'grammar>,
    TraceGraphNode<'grammar>,
    SymbolSets<'grammar>,
);

impl<'grammar> TraceGraph<'grammar> {
    /// The edges in the order added.
    pub fn edges_in_order(&self) -> Vec<Edge<'grammar>> {
        self.graph
            .edge_indices()
            .map(|e| {
                let (from, to) = self.graph.edge_endpoints(e).unwrap();
                (
                    self.graph[from].clone(),
                    self.graph[to].clone(),
                    self.graph[e],
                )
            })
            .collect()
    }

    pub fn has_item(&self, item: Lr0Item<'grammar>) -> bool {
        self.indices.contains_key(&TraceGraphNode::Item(item))
    }
}

impl PathEnumerator<'_, '_> {
    /// Where the enumerator stands: the numbers of its edges, from the start
    /// item outward. Both ends and the label tell an edge.
    pub fn path(&self) -> Vec<usize> {
        let edge = |inner: &EnumeratorState<'_, '_>, outer: &EnumeratorState<'_, '_>| {
            self.graph
                .graph
                .edges_connecting(outer.index, inner.index)
                .find(|e| *e.weight() == outer.symbol_sets)
                .unwrap()
                .id()
                .index()
        };
        self.stack.windows(2).map(|w| edge(&w[0], &w[1])).collect()
    }
}
