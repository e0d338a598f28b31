// The last n samples, if there are as many.
start = last - n + 1, end = last + 1, window = u.slice(start, end), ok = window.length === n
