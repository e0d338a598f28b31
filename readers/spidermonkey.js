// For gjs: reads a file of JSON strings, one a line, and prints a 1 for each that is a function's body, 0 for a syntax error, ? if it gave up.
const { Gio } = imports.gi;
const [, data] = Gio.File.new_for_path(ARGV[0]).load_contents(null);
let out = '';
for (const line of new TextDecoder().decode(data).split('\n')) {
  try {
    new Function(JSON.parse(line));
    out += '1';
  } catch (error) {
    out += error instanceof SyntaxError ? '0' : '?';
  }
}
print(out);
