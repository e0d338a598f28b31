({ rms, start, end }, nominal) =>
  rms >= 0.1 * nominal && rms < 0.9 * nominal &&
  (end - start) * 1000 >= 10 ? "sag" : null
