last - n + 1
