// What is kept of a sag.
{ start: sag.first - 200, end: sag.last + 200, depth: 1 - sag.least / nominal, ...common }
