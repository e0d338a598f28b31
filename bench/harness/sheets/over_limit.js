// How long a sample has been over the limit.
(i, u) => (u < 0 ? -u : u) > limit ? i - first + 1 : 0
