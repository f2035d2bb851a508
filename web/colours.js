// The colours of a source, by a grammar of TextMate's form that has matches and nested ranges.
'use strict';

function colourer(grammar) {
  const sticky = (pattern) => new RegExp(pattern, 'y');

  // The rules of a list of patterns, in order, with what they include.
  const lists = new Map();
  function rules(patterns) {
    if (!lists.has(patterns)) {
      const found = [];
      lists.set(patterns, found);
      for (const pattern of patterns) {
        if (pattern.include) found.push(...named(pattern.include.slice(1)));
        else found.push(rule(pattern));
      }
    }
    return lists.get(patterns);
  }
  function named(name) {
    const pattern = grammar.repository[name];
    return pattern.begin ? [rule(pattern)] : rules(pattern.patterns);
  }
  const made = new Map();
  function rule(pattern) {
    if (!made.has(pattern)) {
      made.set(pattern, pattern.match
        ? { name: pattern.name, match: sticky(pattern.match) }
        : { name: pattern.name, match: sticky(pattern.begin), end: sticky(pattern.end), patterns: pattern.patterns || [] });
    }
    return made.get(pattern);
  }
  const matched = (expression, text, at) => {
    expression.lastIndex = at;
    const found = expression.exec(text);
    return found ? found[0].length : 0;
  };

  // The pieces of a text, each with the name of its colour or none.
  return (text) => {
    const pieces = [];
    const open = [{ name: '', patterns: grammar.patterns }];
    let at = 0, plain = 0;
    const flush = (name, from, to) => { if (to > from) pieces.push([name, text.slice(from, to)]); };
    while (at < text.length) {
      const inner = open[open.length - 1];
      const closing = inner.end ? matched(inner.end, text, at) : 0;
      if (closing) {
        flush(inner.name, plain, at + closing);
        open.pop();
        at = plain = at + closing;
        continue;
      }
      const found = rules(inner.patterns).find((it) => matched(it.match, text, at));
      if (!found) {
        at++;
        continue;
      }
      flush(inner.name, plain, at);
      const length = matched(found.match, text, at);
      if (found.end) {
        flush(found.name, at, at + length);
        open.push(found);
      } else {
        flush(found.name, at, at + length);
      }
      at = plain = at + length;
    }
    flush(open[open.length - 1].name, plain, at);
    return pieces;
  };
}

if (typeof module !== 'undefined') module.exports = { colourer };
