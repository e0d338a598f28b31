// Phases in their order of rotation, and the peaks so far.
[u1, u2, u3] = rotation < 0 ? [u1, u3, u2] : [u1, u2, u3],
[peak.min, peak.max] = [Math.min(peak.min, ...u1), Math.max(peak.max, ...u1)],
{ [phases[0]]: seen.first, [phases[1]]: seen.second, ...seen.others } = { L1: u1, L2: u2, L3: u3 }
