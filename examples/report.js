({
  title: "Voltage sags",
  channels: ["L1", "L2", "L3"],
  worst: ([first, ...others]) => others.reduce((a, b) => a.rms < b.rms ? a : b, first),
  depth: (sag, nominal = 230) => 100 * (1 - sag.rms / nominal),
  rows: sags => sags.map(({ start, end, rms }) => ({ start, duration: end - start, rms }))
})
