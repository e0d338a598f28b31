// The bits of a status word.
({ word, mask = 0x00ff }) => ({
  ready: (word & 1) !== 0,
  fault: (word >> 1 & 1) === 1,
  range: word >>> 4 & 0x0f,
  parity: (word ^ word >> 8) & 1,
  raw: word & mask,
  quiet: !(word & ~mask)
})
