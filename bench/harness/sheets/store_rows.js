// Rows go to the store as text, one after the other.
async ({ path, rows, header = ['time', 'channel', 'value'], separator = ';' }, done = async n => n) =>
  store(path, [header, ...rows.map(({ time, channel, value }) => [time, channel, value.toFixed(3)])]
    .map(row => row.join(separator)))
    .then(({ length }) => done(length), error => 'code' in error ? error.code : -1)
