// Under 90 % of nominal, while nothing blanks it and the input has settled.
rms(slice(u, last - n + 1, last + 1)) < 0.9 * nominal && !(blanked || i < settle)
