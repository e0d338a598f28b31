// What is to be shown, the worst first.
alarms
  .filter(({ when, off = false }) => !off && when(state))
  .map(({ id, level, text }) => ({ id, level, text: text ?? id, at: state.since[id] || now }))
  .sort((a, b) => b.level - a.level || a.at - b.at)
  .slice(0, screen.lines)
