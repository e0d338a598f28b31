// Mean square over a window.
samples.slice(first, first + n).map(x => x * x).reduce((sum, x) => sum + x, 0) / n
