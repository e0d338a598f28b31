// A filter by its taps; before the first sample there is silence.
({ samples, taps, gain = 1 }) =>
  samples.map((_, k) => gain * taps.reduce((sum, tap, j) => sum + tap * (samples[k - j] ?? 0), 0))
