// Energy by day and by night, and what it costs.
[day, night] = readings.reduce(([d, n], { hour, kw, dt = 0.25 }) =>
  hour % 24 >= 6 && hour % 24 < 22 ? [d + kw * dt, n] : [d, n + kw * dt], [0, 0]),
cost = day * prices.day + night * (prices.night ?? prices.day)
