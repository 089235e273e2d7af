"use strict";
// Where a scenario is wrong: the place of the word that causes a fault line, and why. The program alone says what is wrong; here its word is found,
// by the forms of steps and the limits of docs/FORMATS.md, which stand in WORDS. tools/explain says more of it.

class Misplaced extends Error {
  constructor(at, end, why) { super(why); this.at = at; this.end = end; }
}

// ---- the text, as far as places go

class Reader {
  constructor(text) { this.text = text; this.at = 0; }

  fail(why, at = this.at, end = at + 1) { throw new Misplaced(at, end, why); }
  sees(pattern) { pattern.lastIndex = this.at; return pattern.exec(this.text); }
  skip(pattern) { const found = this.sees(pattern); if (found) this.at += found[0].length; return found && found[0]; }
  blanks() { this.skip(/(?:[ \t\r\n]|#[^\n]*)*/y); }

  // The keys at the top, each with its place and its value; tables are among them, and what stands in these is kept in `inner`.
  keys() {
    const keys = new Map();
    let inTable = false;
    this.inner = new Map();
    for (this.blanks(); this.at < this.text.length; this.blanks()) {
      if (this.sees(/\[/y)) { inTable = true; this.table(keys); continue; }
      const at = this.at, name = this.key(), end = this.at;
      this.skip(/[ \t]*/y);
      if (!this.skip(/=/y)) this.fail('a "=" is wanted after the key');
      this.skip(/[ \t]*/y);
      if (this.at === this.text.length || this.sees(/[\r\n#]/y)) this.fail(`a value is wanted after the key "${name}"`);
      const value = this.value();
      this.lineEnd();
      if (!inTable && keys.has(name)) this.fail(`the key "${name}" stands twice`, at, end);
      (inTable ? this.inner : keys).set(name, { at, end, value });
    }
    return keys;
  }

  table(keys) {
    const brackets = this.skip(/\[\[?/y), at = this.at, name = this.key(), end = this.at;
    if (!this.skip(brackets.length === 2 ? /\]\]/y : /\]/y)) this.fail("the name of a table ends in a bracket");
    this.lineEnd();
    if (keys.has(name) && (brackets.length === 1 || keys.get(name).value.kind !== "array")) this.fail(`"${name}" stands twice`, at, end);
    if (!name.includes(".")) keys.set(name, { at, end, value: { kind: brackets.length === 2 ? "array" : "table", at, end, items: [] } });
  }

  key() {
    const bare = this.skip(/[A-Za-z0-9_.-]+/y);
    if (bare) return bare;
    if (this.sees(/["']/y)) return this.string().data;
    return this.fail("a key is wanted");
  }

  lineEnd() {
    this.skip(/[ \t]*(?:#[^\n]*)?/y);
    if (this.at < this.text.length && !this.skip(/\r?\n/y)) this.fail("the line goes on after its value");
  }

  value() {
    if (this.sees(/["']/y)) return this.string();
    if (this.sees(/\[/y)) return this.list("[", "]", () => this.value());
    if (this.sees(/\{/y)) return this.list("{", "}", () => { this.key(); this.skip(/[ \t]*=[ \t]*/y); return this.value(); });
    const at = this.at, data = this.skip(/[^\s,\]}#]+/y);
    if (!data) this.fail("a value is wanted");
    if (!/^(?:true|false|[+-]?(?:inf|nan)|[+-]?\d.*)$/.test(data)) this.fail("what is no number, true or false stands in quotes", at, this.at);
    if (/^[+-]?0\d+$/.test(data)) this.fail("a number has no leading zero", at, this.at);
    if (/^[+-]?\d{20,}$/.test(data)) this.fail("the number is too large", at, this.at);
    return { kind: "other", at, end: this.at, data };
  }

  list(open, close, read) {
    const at = this.at++, items = [];
    for (this.blanks(); this.text[this.at] !== close; this.blanks()) {
      if (this.at >= this.text.length) this.fail(`this ${open === "[" ? "array" : "table"} isn't closed`, at);
      if (items.length && this.text[this.at++] !== ",") this.fail("a comma or the end is wanted here", this.at - 1);
      this.blanks();
      if (this.text[this.at] === close) break;
      if (this.at >= this.text.length) this.fail(`this ${open === "[" ? "array" : "table"} isn't closed`, at);
      items.push(read());
    }
    this.at++;
    return { kind: open === "[" ? "array" : "table", at, end: this.at, items };
  }

  // A string: its letters, and the place of each.
  string() {
    const at = this.at, quote = this.skip(/"""|'''|"|'/y), places = [];
    let data = "";
    if (quote.length === 3) this.skip(/\r?\n/y);
    while (!this.text.startsWith(quote, this.at)) {
      if (this.at >= this.text.length || (quote.length === 1 && this.sees(/[\r\n]/y))) this.fail("this string isn't closed on its line", at);
      if (quote[0] === '"' && this.skip(/\\[ \t]*\r?\n\s*/y)) continue;
      const place = this.at, letter = quote[0] === '"' && this.text[place] === "\\" ? this.escape() : this.text[this.at++];
      [...letter].forEach(one => { data += one; places.push(place); });
    }
    this.at += quote.length;
    return { kind: "string", at, end: this.at, data, places };
  }

  escape() {
    const place = this.at, code = this.skip(/\\(?:u[0-9A-Fa-f]{4}|U[0-9A-Fa-f]{8}|x[0-9A-Fa-f]{2})/y);
    if (code) return String.fromCodePoint(parseInt(code.slice(2), 16));
    const plain = this.skip(/\\[btnfre"\\]/y);
    if (!plain) this.fail("this is no escape", place, place + 2);
    return { b: "\b", t: "\t", n: "\n", f: "\f", r: "\r", e: "\x1b" }[plain[1]] || plain[1];
  }
}

// ---- words of steps

const isSalted = settings => settings.base === 16 && settings.digits === 40;
const hasDigits = (text, base) => [...text].every(digit => DIGITS.slice(0, base).includes(digit));
const isName = (text, settings) => text.startsWith("@") ? isSalted(settings) && /^@[a-z0-9]{1,64}$/.test(text)
  : text.length === settings.digits && hasDigits(text, settings.base);
const isNumber = (text, most) => /^(?:0|[1-9]\d{0,19})$/.test(text) && BigInt(text) <= BigInt(most);

function isObject(text, settings, kind) {
  const salt = /^(.*)#[1-4]$/.exec(text);
  return salt ? isSalted(settings) && WORDS.ofSalts.includes(kind) && isName(salt[1], settings) : isName(text, settings);
}

function fits(part, text, settings, kind) {
  if (part in WORDS.most) return isNumber(text, WORDS.most[part]);
  if (part === "W") return /^[a-z0-9]{0,32}$/.test(text);
  if (part === "P") return text === "*" || (text.length <= settings.digits && hasDigits(text, settings.base));
  if (part === "O") return isObject(text, settings, kind);
  return part === part.toLowerCase() ? text === part : isName(text, settings);
}

// Which letters of a step are wrong, from one on to another, and why.
function wrongWord(text, settings) {
  const gap = /^ |  | $|[^\S ]/.exec(text), words = text.split(" "), kind = words[0];
  if (text === "") return [0, 0, "it has no word"];
  if (gap) return [gap.index, gap.index + gap[0].length, "words have one space between them, and none before and after"];
  if (!WORDS.forms[kind]) return [0, kind.length, `"${kind}" begins no step`];
  if (settings.carried ? WORDS.ofUncarried.includes(kind) : WORDS.ofCarried.includes(kind)) {
    return [0, kind.length, `"${kind}" is ${settings.carried ? "no step of carried runs" : "a step of carried runs alone"}`];
  }
  if (WORDS.ofSalted.includes(kind) && !isSalted(settings)) return [0, kind.length, `"${kind}" is a step only if names are digests`];
  const forms = WORDS.forms[kind].map(form => form.split(" "));
  const form = [...forms.filter(form => form[1] === words[1]), ...forms.filter(form => form.length === words.length), ...forms][0];
  const bad = form.findIndex((part, place) => place >= words.length || !fits(part, words[place], settings, kind));
  const place = bad < 0 ? form.length : bad, from = words.slice(0, place).join(" ").length + (place ? 1 : 0);
  const written = `it is written "${form.join(" ")}"`;
  if (place >= words.length && bad < 0) return [0, 0, `with it there are more than ${WORDS.mostSteps} steps`];
  if (place >= words.length) return [text.length, text.length, `a word is missing at its end: ${written}`];
  const why = bad < 0 ? "nothing more stands here" : `"${words[place]}" is no ${partWord(form[place], settings)}`;
  return [from, from + words[place].length, `${why}: ${written}`];
}

// What has to stand at a place of a form.
function partWord(part, settings) {
  if (part in WORDS.most) return `number up to ${WORDS.most[part]}`;
  if (part === "W") return "word of a cast";
  if (part === part.toLowerCase()) return `"${part}"`;
  return part === "P" ? "prefix" : `name of ${counted(settings.digits, "digit")} below ${settings.base}`;
}

// ---- the place of a fault

function settingsOf(keys) {
  const data = key => keys.has(key) ? keys.get(key).value.data : undefined;
  return { base: +data("base"), digits: +data("digits"), carried: data("carrier") === "true" };
}

const within = (item, from, to, why) => {
  const place = letter => letter < item.places.length ? item.places[letter] : item.end - 1;
  return [place(from), Math.max(to > from ? place(to - 1) + 1 : place(from) + 1, place(from) + 1), why];
};

function wrongMember(item, list, settings) {
  if (item.kind !== "string") return [item.at, item.end, "a member is a string, in quotes"];
  if (!isName(item.data, settings)) return within(item, 0, item.data.length, `"${item.data}" is no ${partWord("N", settings)}`);
  return list.indexOf(item) > list.findIndex(other => other.data === item.data) ? [item.at, item.end, `"${item.data}" stands twice`] : null;
}

const wrongStep = item => item.kind === "string" ? null : [item.at, item.end, "a step is a string"];

function placeOfValue(key, value, settings) {
  const wrongs = { members: item => wrongMember(item, value.items, settings), steps: wrongStep };
  const inside = wrongs[key] && value.kind === "array" ? value.items.map(wrongs[key]).find(Boolean) : null;
  const over = key === "steps" && value.kind === "array" ? value.items[WORDS.mostSteps] : null;
  if (!inside && over) return [over.at, over.end, `a scenario has at most ${WORDS.mostSteps} steps`];
  const limits = WORDS.limits[key];
  return inside || [value.at, value.end, limits ? `${key} is a whole number from ${limits.join(" to ")}` : `${key} isn't what it has to be`];
}

// The place of what causes a fault line, from one letter on to another, and why; null if it isn't found.
function placeOfFault(text, said) {
  const reader = new Reader(text);
  let keys = null;
  try { keys = reader.keys(); } catch (wrong) {
    if (wrong instanceof Misplaced) return [wrong.at, wrong.end, wrong.message];
    throw wrong;
  }
  const [, sort, name] = /^bad (key|value|step) (\w+)$/.exec(said) || [];
  if (sort === "key") {
    const inside = reader.inner.get(name), other = [...keys.entries()].find(([key]) => !WORDS.keys.includes(key));
    if (inside) return [inside.at, inside.end, `the key "${name}" is missing at the top: here it stands in a table`];
    return other ? [other[1].at, other[1].end, name === "unknown" ? `no scenario has the key "${other[0]}"` : `the key "${name}" is missing`] : null;
  }
  if (sort === "value" && keys.has(name)) return placeOfValue(name, keys.get(name).value, settingsOf(keys));
  const item = sort === "step" && keys.has("steps") && (keys.get("steps").value.items || [])[+name - 1];
  if (!item) return null;
  if (wrongStep(item)) return wrongStep(item);
  const wrong = wrongWord(item.data, settingsOf(keys));
  return wrong[0] === wrong[1] && wrong[0] === 0 ? [item.at, item.end, wrong[2]] : within(item, ...wrong);
}
