// A reader of the TOML that configurations are written in. It reads whole numbers, true and false, strings, lists and
// tables in all their forms. The program alone decides what a configuration is; this reader serves the drawing, and
// refuses what it doesn't know, so that the page shows less and nothing wrong.

const ESCAPES = { b: "\b", t: "\t", n: "\n", f: "\f", r: "\r", e: "\x1b", '"': '"', "\\": "\\" };
const WHOLE = /^[+-]?(?:0|[1-9](?:_?[0-9])*)$|^0x[0-9a-f](?:_?[0-9a-f])*$|^0o[0-7](?:_?[0-7])*$|^0b[01](?:_?[01])*$/i;

/**
 * Reads a TOML document into tables, which are objects without a prototype.
 * @throws {SyntaxError} for what isn't TOML, and for floats and dates, which no configuration has
 */
export function readToml(text) {
  const reader = new Reader(text.replace(/^\ufeff/, ""));
  const top = Object.create(null);
  let table = top;
  while (reader.skipLines()) {
    if (reader.takes("[[")) table = reader.header("]]", (keys) => itemAt(top, keys));
    else if (reader.takes("[")) table = reader.header("]", (keys) => tableAt(top, keys));
    else reader.pair(table);
    reader.endLine();
  }
  return top;
}

/** The table that these keys lead to, made where it isn't there. Of a list of tables it is the last one. */
function tableAt(from, keys) {
  let table = from;
  for (const key of keys) {
    table[key] ??= Object.create(null);
    table = Array.isArray(table[key]) ? table[key].at(-1) : table[key];
    if (typeof table !== "object") throw new SyntaxError(`${key} is no table`);
  }
  return table;
}

/** A new table at the end of the list that these keys lead to. */
function itemAt(top, keys) {
  const parent = tableAt(top, keys.slice(0, -1));
  const item = Object.create(null);
  const list = (parent[keys.at(-1)] ??= []);
  if (!Array.isArray(list)) throw new SyntaxError(`${keys.at(-1)} is no list`);
  list.push(item);
  return item;
}

class Reader {
  constructor(text) {
    this.text = text;
    this.at = 0;
  }

  fail(what) {
    throw new SyntaxError(`${what} at character ${this.at}`);
  }

  /** Whether this stands next, and then it is passed. */
  takes(what) {
    const stands = this.text.startsWith(what, this.at);
    if (stands) this.at += what.length;
    return stands;
  }

  /** What of a pattern, which is sticky, stands next; it is passed. */
  match(pattern) {
    pattern.lastIndex = this.at;
    const found = pattern.exec(this.text);
    if (found) this.at += found[0].length;
    return found;
  }

  skipSpaces() {
    this.match(/[ \t]*/y);
  }

  /** Passes blanks, comments and ends of lines; whether something is left. */
  skipLines() {
    this.match(/(?:[ \t\r\n]|#[^\n]*)*/y);
    return this.at < this.text.length;
  }

  endLine() {
    this.match(/[ \t]*(?:#[^\n]*)?/y);
    if (this.at < this.text.length && !this.match(/\r?\n/y)) this.fail("more on a line");
  }

  header(end, table) {
    const keys = this.keys();
    if (!this.takes(end)) this.fail("a header without end");
    return table(keys);
  }

  /** The parts of a key, with dots between them. */
  keys() {
    const parts = [];
    do {
      this.skipSpaces();
      const bare = this.match(/[A-Za-z0-9_-]+/y);
      parts.push(bare ? bare[0] : this.string());
      this.skipSpaces();
    } while (this.takes("."));
    return parts;
  }

  /** A key and its value, put into a table. */
  pair(table) {
    const keys = this.keys();
    if (!this.takes("=")) this.fail("a key without value");
    this.skipSpaces();
    const holder = tableAt(table, keys.slice(0, -1));
    if (keys.at(-1) in holder) this.fail("a key twice");
    holder[keys.at(-1)] = this.value();
  }

  value() {
    if (this.takes("[")) return this.list();
    if (this.takes("{")) return this.table();
    if (this.text[this.at] === '"' || this.text[this.at] === "'") return this.string();
    const word = this.match(/[^\s,\]}#]+/y)?.[0] ?? this.fail("no value");
    if (word === "true" || word === "false") return word === "true";
    if (!WHOLE.test(word)) this.fail(`${word}, which isn't read here,`);
    return Number(word.replaceAll("_", ""));
  }

  list() {
    const items = [];
    for (this.skipLines(); !this.takes("]"); this.skipLines()) {
      items.push(this.value());
      this.skipLines();
      if (!this.takes(",") && this.text[this.at] !== "]") this.fail("a list without end");
    }
    return items;
  }

  table() {
    const table = Object.create(null);
    for (this.skipLines(); !this.takes("}"); this.skipLines()) {
      this.pair(table);
      this.skipLines();
      if (!this.takes(",") && this.text[this.at] !== "}") this.fail("a table without end");
    }
    return table;
  }

  string() {
    const plain = this.match(/'''\r?\n?([^]*?'{0,2})'''|'([^'\n]*)'/y);
    if (plain) return plain[1] ?? plain[2];
    const quoted = this.match(/"""\r?\n?((?:\\[^]|[^\\])*?"{0,2})"""|"((?:\\.|[^"\\\n])*)"/y) ?? this.fail("no string");
    return (quoted[1] ?? quoted[2]).replace(/\\(?:([btnfre"\\])|x(..)|u(.{4})|U(.{8})|[ \t]*\r?\n\s*)/g, unescaped);
  }
}

function unescaped(_, letter, ...codes) {
  if (letter) return ESCAPES[letter];
  const code = codes.slice(0, 3).find((it) => it !== undefined);
  return code === undefined ? "" : String.fromCodePoint(parseInt(code, 16));
}
