// A thermal soak: what is kept from one sample to the next.
state.started ??= now,
state.peak = Math.max(state.peak ?? 0, temperature),
state.steady = Math.abs(temperature - state.last) < 0.1 ? (state.steady ?? 0) + 1 : 0,
state.done ||= state.steady >= 600 && now - state.started > 3600,
state.fault &&= temperature < 90,
state.last = temperature
