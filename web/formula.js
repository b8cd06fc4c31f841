// A formula as people write it, with decimals: where it is wrong, by the rules of scripts/formula.awk, and where its
// decimals stand. The program judges for itself; this only says where.
class FormulaReader {
  // `words` has the words of a to h, eight hex digits each.
  constructor(text, words) {
    Object.assign(this, { text, words, at: 0, bad: false, told: {}, decimals: [] });
    if (text.length > 256 && !text.includes('.')) this.wrong(30, 256, 'and more: a formula has at most 256');
    else this.whole();
  }

  whole() {
    this.sum(0);
    if (!this.bad && this.at < this.text.length) this.wants('+ - * / or the end is wanted here');
    const long = this.withWords(() => '00000000').length;
    if (!this.bad && long > 256) {
      this.wrong(30, this.text.length - 1, `the last: with # and eight digits for each decimal there are ${long} ` +
        'characters, and a formula has at most 256');
    }
  }

  // The refusal and the reason with its place, 30 before 31 before 32; nothing where all is well.
  fault() {
    const number = [30, 31, 32].find(n => this.told[n]);
    return number ? { number, reason: this.told[number] } : null;
  }

  // The formula with the word of each decimal in its place.
  withWords(wordOf) {
    let out = '', from = 0;
    for (const { at, text } of this.decimals) {
      out += `${this.text.slice(from, at)}#${wordOf(text)}`;
      from = at + text.length;
    }
    return out + this.text.slice(from);
  }

  here() { return this.text[this.at] || ''; }

  wrong(number, at, reason) { this.told[number] = this.told[number] || `character ${at + 1}, ${reason}`; }

  shown() {
    if (this.here() === '') return 'the end';
    return /[!-~]/.test(this.here()) ? `"${this.here()}"` : 'a byte that is no text';
  }

  wants(what) {
    this.wrong(30, this.at, this.here() === ' ' ? 'a blank: a formula has none' : `${this.shown()}: ${what}`);
    this.bad = true;
    return 0;
  }

  // Each part reads on, and gives how many words of the stack it needs; `depth` is how deep it stands.
  sum(depth) { return this.chain(/[-+]/, () => this.product(depth)); }

  product(depth) { return this.chain(/[*/]/, () => this.factor(depth)); }

  chain(signs, part) {
    let need = part();
    while (!this.bad && signs.test(this.here())) {
      const sign = this.at++;
      need = Math.max(need, part() + 1);
      if (need > 4) {
        this.wrong(32, sign, `"${this.text[sign]}": this operation needs ${need} words of the stack, which has four; ` +
          'write its longer side first');
      }
    }
    return need;
  }

  factor(depth) {
    if (this.bad) return 0;
    if (/[a-h]/.test(this.here())) return this.letter();
    if (this.here() === '#') return this.constant();
    if (/[0-9.]/.test(this.here())) return this.decimal();
    if (!/[-(]/.test(this.here())) return this.wants('a letter a to h, a decimal, # or - or ( is wanted here');
    if (depth === 16) {
      this.wrong(30, this.at, `${this.shown()}: brackets and minus signs are over 16 deep`);
      this.bad = true;
      return 0;
    }
    const open = this.at++;
    if (this.text[open] === '-') return this.factor(depth + 1);
    const need = this.sum(depth + 1);
    if (!this.bad && this.here() !== ')') this.wants(`+ - * / or the ) of character ${open + 1} is wanted here`);
    this.at++;
    return need;
  }

  proper(word, at, reason) {
    if (word !== '00000000' && !/^..[89A-F]/.test(word)) this.wrong(31, at, reason);
    return 1;
  }

  letter() {
    const word = this.words['abcdefgh'.indexOf(this.here())];
    this.at++;
    return this.proper(word, this.at - 1, `"${this.text[this.at - 1]}": its word ${word} is not proper`);
  }

  constant() {
    const open = this.at++;
    for (; this.at <= open + 8; this.at++) {
      if (!/[0-9A-F]/.test(this.here())) return this.wants('one of 0-9A-F is wanted here');
    }
    const word = this.text.slice(open + 1, this.at);
    return this.proper(word, open, `"#${word}" is not proper`);
  }

  // digits, a point, digits
  decimal() {
    const open = this.at;
    if (!this.digits()) return this.wants('a digit is wanted before the point');
    if (this.here() !== '.') return this.wants(`a point is wanted here, as in ${this.text.slice(open, this.at)}.0`);
    this.at++;
    if (!this.digits()) return this.wants('a digit is wanted behind the point');
    this.decimals.push({ at: open, text: this.text.slice(open, this.at) });
    return 1;
  }

  digits() {
    const from = this.at;
    while (/[0-9]/.test(this.here())) this.at++;
    return this.at - from;
  }
}
