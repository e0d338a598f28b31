(samples, first, count = 200) =>
  Math.sqrt(
    samples
      .slice(first, first + count)
      .reduce((sum, u) => sum + u * u, 0) / count
  )
