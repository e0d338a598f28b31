// Gain and offset of each channel from two points.
table.map(({ raw: [r0, r1], real: [v0, v1], unit = 'V', ...tag }, channel) => (
  gain = (v1 - v0) / (r1 - r0),
  { ...tag, channel, unit, gain, offset: v0 - gain * r0, stale: now - (tag.date ?? 0) > 365 * 24 * 3600 }
))
