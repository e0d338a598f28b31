// Seconds as hours, minutes and seconds.
[h, m, s] = [t / 3600, t / 60 % 60, t % 60].map(Math.floor), text = pad(h) + ':' + pad(m) + ':' + pad(s)
