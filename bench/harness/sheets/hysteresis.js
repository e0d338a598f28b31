// An alarm with hysteresis: on at 80, off at 75.
(value, { on = 80, off = 75, was = false } = {}) => was ? value > off : value >= on
