// Edges that hold for a while; a falling one counts as negative.
(edges, hold = 5) => edges
  .filter(({ at }, k) => k + 1 === edges.length || edges[k + 1].at - at >= hold)
  .map(({ at, level }) => level ? at : -at)
