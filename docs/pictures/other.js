last - (n + 1)
