// Pulses since the last reading of a counter that wraps.
(now, before, { bits = 16, perPulse = 1 } = {}) => (now - before + 2 ** bits) % 2 ** bits * perPulse
