// Total harmonic distortion in percent.
thd = ([fundamental, ...rest]) => 100 * Math.sqrt(rest.reduce((sum, h) => sum + h ** 2, 0)) / fundamental
