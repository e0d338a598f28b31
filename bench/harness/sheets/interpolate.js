// A value of a curve by its points.
(x, points) => (
  k = points.findIndex(([px]) => px > x),
  k <= 0
    ? points[k < 0 ? points.length - 1 : 0][1]
    : ([[x0, y0], [x1, y1]] = [points[k - 1], points[k]], y0 + (y1 - y0) * (x - x0) / (x1 - x0))
)
