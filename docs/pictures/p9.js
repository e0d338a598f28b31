a - b + c
