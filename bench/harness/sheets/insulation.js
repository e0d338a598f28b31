// Insulation: megohms, polarization index, and a verdict.
[r15, r60, r600] = [15, 60, 600].map(t => at(t).volts / at(t).amps / 1e6),
dar = r60 / r15, index = r600 / r60,
verdict = r60 < 1 ? 'fail' : index >= 2 || r60 > 5000 ? 'good' : index >= 1 && dar > 1.25 ? 'watch' : 'poor'
