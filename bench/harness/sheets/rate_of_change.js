// The rate of change of frequency over five cycles trips at 1 Hz/s.
tripped = f.map((x, k) => k < 5 ? 0 : (x - f[k - 5]) * 50 / 5).some(slope => slope > 1 || slope < -1) && !(void log(f))
