'use strict';
// The script of the page of `bench view`. Its parts: the data, the decode, tracks, the picture, the list, the
// details, the page, the self-check. Times are ticks of 0.1 us; a place is that of a message on the page, from 0.

const faults = [];
window.addEventListener('error', (event) => faults.push(String(event.message)));
const byId = (id) => document.getElementById(id);
const SECOND = 1e7;
const WORD_TIME = 200;

// ---------------------------------------------------------------------------------------------- the data
// Numbers are written by 64 letters, the highest place first; a word is three of them.
const LETTERS = '0123456789ABCDEFGHIJKLMNOPQRSTUVWXYZabcdefghijklmnopqrstuvwxyz_.';
const VALUES = new Uint8Array(128).fill(255);
for (let i = 0; i < 64; i++) VALUES[LETTERS.charCodeAt(i)] = i;

// A text in which `%` and two digits stand for a byte.
function readText(word) {
  try { return decodeURIComponent(word); } catch { return unescape(word); }
}

// The notes behind the messages.
function readNotes(lines, data) {
  for (const line of lines) {
    const words = line.split(' ');
    if (words[0] === 'recording') data.recording = readText(words[1]);
    if (words[0] === 'channel') data.names.set(+words[1], readText(words[2]));
    if (words[0] === 'mark') {
      data.marks.push({ stamp: BigInt(words[1]), ofYear: words[2] === 'year', ticks: BigInt(words[3]) });
    }
    if (words[0] === 'signal') {
      data.signals.push({ name: readText(words[1]), named: words[2] === 'names', unit: readText(words[3] || '') });
    }
  }
  data.marks.sort((a, b) => (a.stamp < b.stamp ? -1 : a.stamp > b.stamp ? 1 : 0));
}

// The data of the page: arrays with an entry for each message.
function readData(text) {
  const data = { text, recording: '', names: new Map(), marks: [], signals: [], count: 0, chosen: 0, origin: 0n };
  const [counts, ...notes] = text.slice(text.lastIndexOf('\n#end ') + 1).split('\n');
  const count = data.count = +counts.split(' ')[1] || 0;
  data.chosen = +counts.split(' ')[2] || 0;
  readNotes(notes, data);
  let at = text.indexOf('\n') + 1;
  Object.assign(data, {
    number: new Float64Array(count), channel: new Uint16Array(count), there: new Float64Array(count),
    begin: new Float64Array(count), end: new Float64Array(count), ofDay: new Uint8Array(count),
    words: new Uint32Array(count), size: new Uint16Array(count), values: new Uint32Array(count),
    block: new Uint16Array(count), gaps: new Uint16Array(count),
  });
  const number = () => {
    let value = 0;
    for (let v; (v = VALUES[text.charCodeAt(at)]) < 64; at++) value = value * 64 + v;
    at++;
    return value;
  };
  let first = true;
  for (let i = 0; i < count; i++) {
    data.number[i] = number();
    data.channel[i] = number();
    data.there[i] = number();
    if (text[at] === '-') { data.begin[i] = NaN; at += 2; } else {
      if (text[at] === '@') { data.ofDay[i] = 1; at++; }
      const from = at;
      const ticks = number();
      if (ticks > Number.MAX_SAFE_INTEGER) {
        let exact = 0n;
        for (let k = from; k < at - 1; k++) exact = exact * 64n + BigInt(VALUES[text.charCodeAt(k)]);
        if (first) data.origin = exact;
        data.begin[i] = Number(exact - data.origin);
      } else data.begin[i] = ticks - Number(data.origin);
      first = false;
    }
    data.words[i] = at;
    while (VALUES[text.charCodeAt(at)] < 64) at++;
    data.size[i] = (at - data.words[i]) / 3 - 2;
    if (text[at] === ' ') { data.values[i] = at; at = text.indexOf('\n', at); }
    at++;
    data.block[i] = wordAt(data, i, -2);
    data.gaps[i] = wordAt(data, i, -1);
  }
  return data;
}

// The word at a place of a message; its block status word and gap times word stand in front, at -2 and -1.
function wordAt(data, i, place) {
  const at = data.words[i] + 6 + 3 * place, text = data.text;
  const value = (place) => VALUES[text.charCodeAt(place)];
  return value(at) * 4096 + value(at + 1) * 64 + value(at + 2);
}

// The values of signals of a message, as [index, text].
function valuesOf(data, i) {
  if (!data.values[i]) return [];
  const line = data.text.slice(data.values[i] + 1, data.text.indexOf('\n', data.values[i]));
  return line.split(' ').map((word) => {
    const at = word.indexOf('=');
    return [[...word.slice(0, at)].reduce((sum, l) => sum * 64 + VALUES[l.charCodeAt(0)], 0), word.slice(at + 1)];
  });
}

// The signal at a place of the dictionary.
const signalAt = (data, index) => data.signals[index] || { name: `signal${index}`, named: false, unit: '' };

// ---------------------------------------------------------------------------------------------- the decode
// Command and status words (MIL-STD-1553B 4.3.3.5).
const addressOf = (word) => word >> 11;
const transmits = (word) => (word >> 10 & 1) === 1;
const subaddressOf = (word) => word >> 5 & 31;
const isMode = (word) => subaddressOf(word) === 0 || subaddressOf(word) === 31;
const isBroadcast = (word) => addressOf(word) === 31;
const codeOf = (word) => word & 31;
const countOf = (word) => (word & 31) || 32;
const hex = (word) => word.toString(16).toUpperCase().padStart(4, '0');

const MODES = {
  T0: 'dynamic bus control', T1: 'synchronize', T2: 'transmit status word', T3: 'initiate self test',
  T4: 'transmitter shutdown', T5: 'override transmitter shutdown', T6: 'inhibit terminal flag',
  T7: 'override inhibit terminal flag', T8: 'reset remote terminal', T16: 'transmit vector word',
  R17: 'synchronize with data', T18: 'transmit last command', T19: 'transmit BIT word',
  R20: 'selected transmitter shutdown', R21: 'override selected transmitter shutdown',
};
const modeKey = (word) => (transmits(word) ? 'T' : 'R') + codeOf(word);

function modeName(word) {
  const code = codeOf(word), key = modeKey(word);
  const kept = code >= 22 || transmits(word) && code >= 9 && code <= 15;
  return MODES[key] || (kept ? 'reserved' : 'undefined') + (transmits(word) ? ', T/R 1' : ', T/R 0');
}

// How many data words go with a command.
function dataWordsOf(word) {
  if (!isMode(word)) return countOf(word);
  const code = codeOf(word);
  if (transmits(word)) return code === 16 || code === 18 || code === 19 || code >= 22 ? 1 : 0;
  return code === 17 || code >= 20 ? 1 : 0;
}

// Which words of a message are commands, status words and data words, by its block status word and gap times word.
function layoutOf(data, i) {
  const words = data.size[i], between = (data.block[i] >> 11 & 1) === 1;
  const first = data.gaps[i] & 255, second = data.gaps[i] >> 8;
  const commands = words === 0 ? 0 : between && words > 1 ? 2 : 1;
  const command = words ? wordAt(data, i, 0) : 0;
  const front = commands < words && first !== 0 && (between || transmits(command) && !isBroadcast(command));
  const start = front ? commands + 1 : commands;
  const last = between ? second : front ? 0 : first;
  const back = start < words && last !== 0;
  return { words, commands, start, end: back ? words - 1 : words, front, back, between, first, second, last };
}

// The tick at which a word begins, behind the begin of its message.
function wordBegin(layout, place) {
  const pause = (gap) => Math.max(0, gap - 20);
  return WORD_TIME * place + (layout.front && place >= layout.commands ? pause(layout.first) : 0) +
    (layout.back && place >= layout.end ? pause(layout.last) : 0);
}

// The form of a message by its first command words: its word in a script, and whom it calls.
const FORMS = ['rx', 'tx', 'rt', 'mode', 'brx', 'brt', 'bmode', 'unknown'];
function formOfCommand(word) {
  if (isMode(word)) return isBroadcast(word) ? 'bmode' : 'mode';
  if (transmits(word)) return isBroadcast(word) ? 'unknown' : 'tx';
  return isBroadcast(word) ? 'brx' : 'rx';
}
function formOf(data, i) {
  if (data.size[i] === 0) return 'unknown';
  const first = wordAt(data, i, 0);
  if (!(data.block[i] >> 11 & 1) || data.size[i] < 2) return formOfCommand(first);
  const second = wordAt(data, i, 1);
  const fits = !transmits(first) && !isMode(second) && transmits(second) && !isBroadcast(second) &&
    countOf(first) === countOf(second);
  return fits ? isBroadcast(first) ? 'brt' : 'rt' : 'unknown';
}

// A form in the words of a script.
function formText(form, first, second) {
  const zero = subaddressOf(first) === 0 ? '0' : '';
  switch (form) {
    case 'rx': case 'tx': return `${form} ${addressOf(first)} ${subaddressOf(first)} ${countOf(first)}`;
    case 'brx': return `brx ${subaddressOf(first)} ${countOf(first)}`;
    case 'mode': return `mode${zero} ${addressOf(first)} ${codeOf(first)} ${modeName(first)}`;
    case 'bmode': return `bmode${zero} ${codeOf(first)} ${modeName(first)}`;
    case 'rt': return `rt ${addressOf(second)} ${subaddressOf(second)} ${addressOf(first)} ` +
      `${subaddressOf(first)} ${countOf(first)}`;
    case 'brt': return `brt ${addressOf(second)} ${subaddressOf(second)} ${subaddressOf(first)} ${countOf(first)}`;
    default: return 'no known form';
  }
}

const STATUS_BITS = [[1 << 10, 'message_error'], [1 << 9, 'instrumentation'], [1 << 8, 'service_request'],
  [7 << 5, 'reserved'], [1 << 4, 'broadcast'], [1 << 3, 'busy'], [1 << 2, 'subsystem'], [1 << 1, 'control'],
  [1, 'terminal']];
const BLOCK_BITS = [[12, 'message_error'], [11, 'terminal_to_terminal'], [10, 'format_error'],
  [9, 'response_timeout'], [5, 'word_count_error'], [4, 'sync_type_error'], [3, 'invalid_word_error']];
const bitNames = (status) => STATUS_BITS.filter(([bits]) => status & bits).map(([, name]) => ' ' + name).join('');
const blockNames = (block) => BLOCK_BITS.filter(([bit]) => block >> bit & 1).map(([, name]) => ' ' + name).join('');
const gapText = (gap) => ` ${Math.floor(gap / 10)}.${gap % 10} us`;

function replyText(status, due, gap) {
  return hex(status) + (addressOf(status) !== due ? ` from ${addressOf(status)}` : '') + bitNames(status) +
    gapText(gap);
}

// The place of a second command, which supersedes the first (MIL-STD-1553B 4.4.3.2), or -1.
function secondCommand(data, i, layout) {
  const suspect = (data.block[i] >> 5 & 1 || data.block[i] >> 4 & 1) && layout.first !== 0 && layout.second === 0;
  if (!suspect) return -1;
  const word = (place) => place < layout.words ? wordAt(data, i, place) : 0;
  if (layout.front) {
    const status = word(layout.commands);
    const own = addressOf(status) === addressOf(word(layout.commands - 1)) && !(status & 0x2E0);
    if (own) return -1;
  }
  const first = word(0);
  const most = layout.commands === 2 || transmits(first) ? 0 : dataWordsOf(first);
  for (let place = layout.commands; place <= layout.commands + most; place++) {
    const command = word(place), answer = word(transmits(command) ? place + 1 : layout.words - 1);
    const answerable = !isBroadcast(command) && (!isMode(command) || MODES[modeKey(command)]);
    const whole = layout.words === place + 2 + dataWordsOf(command);
    const excused = transmits(command) && layout.words === place + 2 && answer & 0x408;
    if (place + 1 < layout.words && answerable && addressOf(answer) === addressOf(command) && (whole || excused)) {
      return place;
    }
  }
  return -1;
}

// From where on the words of a message can't be told apart, or -1.
function unclearFrom(data, i, layout) {
  if (!(data.block[i] >> 5 & 1)) return -1;
  const address = (place) => addressOf(wordAt(data, i, place));
  if (layout.front && address(layout.commands) !== address(layout.commands - 1)) return layout.commands;
  return layout.back && address(layout.end) !== address(0) ? layout.start : -1;
}

// The status words as they stand in a dump, and which words are shown as data words.
function repliesOf(data, i, layout) {
  const word = (place) => wordAt(data, i, place), { commands, words } = layout;
  const front = layout.front ? replyText(word(commands), addressOf(word(commands - 1)), layout.first) : '';
  const second = secondCommand(data, i, layout);
  if (second >= 0) {
    const command = word(second), sends = transmits(command);
    const reply = replyText(word(sends ? second + 1 : words - 1), addressOf(command), layout.first);
    return {
      text: `second command ${formText(formOfCommand(command), command)}: ${reply}`, from: commands, to: second,
      then: sends ? [second + 2, words] : [second + 1, words - 1],
    };
  }
  const unclear = unclearFrom(data, i, layout);
  if (unclear >= 0) {
    const told = commands < unclear;
    return {
      text: (told ? front + ', ' : '') + 'words not told apart' + (!told && layout.first ? gapText(layout.first) : '') +
        (layout.second ? gapText(layout.second) : ''), from: unclear, to: words, then: [0, 0],
    };
  }
  const parts = [];
  if (layout.front) parts.push(front);
  if (layout.back) parts.push(replyText(word(layout.end), addressOf(word(0)), layout.last));
  const firstTold = layout.front || layout.back && !layout.between;
  if (!firstTold && layout.first) parts.push('no status word' + gapText(layout.first));
  if (!(layout.back && layout.between) && layout.second) parts.push('no status word' + gapText(layout.second));
  return { text: parts.join(', ') || '-', from: layout.start, to: layout.end, then: [0, 0] };
}

function wordsText(data, i, from, to) {
  let text = '';
  for (let place = from; place < to; place++) text += ' ' + hex(wordAt(data, i, place));
  return text;
}

// What stands in the columns of a message.
function partsOf(data, i) {
  const layout = layoutOf(data, i), form = formOf(data, i), block = data.block[i];
  const first = layout.words ? wordAt(data, i, 0) : 0, second = layout.words > 1 ? wordAt(data, i, 1) : 0;
  const known = form !== 'unknown';
  const replies = known ? repliesOf(data, i, layout)
    : { text: `block ${hex(block)} gaps ${hex(data.gaps[i])}`, from: 0, to: layout.words, then: [0, 0] };
  const told = ([index, text]) => {
    const signal = signalAt(data, index);
    return ` ${signal.name}=${text}${signal.unit ? ' ' + signal.unit : ''}`;
  };
  return {
    number: String(data.number[i]), seconds: secondsText(data, data.begin[i]), channel: String(data.channel[i]),
    there: String(data.there[i]), line: block >> 13 & 1 ? 'B' : 'A', form: formText(form, first, second),
    replies: replies.text, words: wordsText(data, i, replies.from, replies.to),
    then: replies.then[0] < replies.then[1] ? ' then' + wordsText(data, i, ...replies.then) : '',
    values: known ? valuesOf(data, i).map(told).join('') : '', names: blockNames(block), layout,
  };
}

// A message as a line of `bench dump --decode`, column by column.
function decodeLine(data, i) {
  const p = partsOf(data, i);
  const pad = (text, column) => text + ' '.repeat(Math.max(1, column - text.length));
  let line = p.number.padStart(7) + ' ';
  line = p.seconds === '-' ? line.padEnd(20) + '-' : line + p.seconds.padStart(13);
  line = pad(line + ' ' + p.channel.padStart(7) + ' ' + p.there.padStart(7), 38);
  line = pad(pad(line + p.line, 43) + p.form, 77) + p.replies;
  if (p.words || p.names) line = line.padEnd(102) + p.words;
  if (p.then) line = line.padEnd(102) + p.then;
  return line + p.values + p.names;
}

// ---------------------------------------------------------------------------------------------- times
function secondsText(data, offset) {
  if (Number.isNaN(offset)) return '-';
  const ticks = data.origin + BigInt(Math.round(offset)), whole = ticks / 10000000n;
  return `${whole}.${String(ticks - whole * 10000000n).padStart(7, '0')}`;
}

// A time as --from and --to take it.
const optionText = (data, offset) => secondsText(data, offset).replace(/\.?0+$/, '') + 's';

// A length of time.
function lengthText(ticks) {
  const [unit, size] = ticks >= SECOND ? ['s', SECOND] : ticks >= 1e4 ? ['ms', 1e4] : ['\u00b5s', 10];
  return `${+(ticks / size).toPrecision(4)} ${unit}`;
}

// The time of day: that of the last time packet at or before a stamp, and what has passed since.
function dayText(data, offset, ofDay) {
  const pad = (n, digits = 2) => String(n).padStart(digits, '0');
  const clock = (ticks) => {
    const second = Number(ticks / 10000000n % 86400n);
    return `${pad(Math.floor(second / 3600))}:${pad(Math.floor(second / 60) % 60)}:${pad(second % 60)}` +
      `.${pad(ticks % 10000000n, 7)}`;
  };
  const utc = (ticks) => new Date(Number(ticks / 864000000000n) * 864e5).toISOString().slice(0, 11) + clock(ticks);
  const ticks = data.origin + BigInt(Math.round(offset));
  if (ofDay) return utc(ticks);
  let mark = null;
  for (let low = 0, high = data.marks.length; low < high;) {
    const middle = low + high >> 1;
    if (data.marks[middle].stamp <= ticks) { mark = data.marks[middle]; low = middle + 1; } else high = middle;
  }
  if (!mark) return '';
  const now = mark.ticks + ticks - mark.stamp;
  return mark.ofYear ? `${pad(now / 864000000000n + 1n, 3)}:${clock(now)}` : utc(now);
}

// ---------------------------------------------------------------------------------------------- tracks
// Messages of a lane in the order of their times, with sums that tell the load and the errors of any span at once.
class Track {
  constructor(data, places) {
    const timed = places.filter((i) => !Number.isNaN(data.begin[i]));
    let sorted = true;
    for (let k = 1; k < timed.length && sorted; k++) sorted = data.begin[timed[k - 1]] <= data.begin[timed[k]];
    if (!sorted) timed.sort((a, b) => data.begin[a] - data.begin[b] || a - b);
    this.places = Uint32Array.from(timed);
    const count = this.count = timed.length;
    this.begin = new Float64Array(count);
    this.end = new Float64Array(count);
    this.busy = new Float64Array(count + 1);
    this.errors = new Uint32Array(count + 1);
    this.matched = null;
    for (let k = 0; k < count; k++) {
      const i = timed[k];
      this.begin[k] = data.begin[i];
      this.end[k] = data.end[i];
      this.busy[k + 1] = this.busy[k] + this.end[k] - this.begin[k];
      this.errors[k + 1] = this.errors[k] + (data.block[i] >> 12 & 1);
    }
  }

  // The first message that begins at a time or behind it.
  from(time) {
    let low = 0, high = this.count;
    while (low < high) {
      const middle = low + high >> 1;
      if (this.begin[middle] < time) low = middle + 1; else high = middle;
    }
    return low;
  }

  // The first message that ends behind a time.
  endingBehind(time) {
    const k = this.from(time);
    return k > 0 && this.end[k - 1] > time ? k - 1 : k;
  }

  // How many ticks up to a time messages took, by these sums; so many of them begin before it.
  upTo(time, sums, k = this.from(time)) {
    if (k === 0) return 0;
    const open = this.end[k - 1] > time ? (this.end[k - 1] - time) / (this.end[k - 1] - this.begin[k - 1]) : 0;
    return sums[k] - open * (sums[k] - sums[k - 1]);
  }

  // Of so many columns of a step each: the load, that of what a filter leaves, and how many errors there are.
  columns(from, step, count) {
    const found = { load: new Float64Array(count), matched: new Float64Array(count), errors: new Uint32Array(count) };
    const { busy, matched, errors } = this;
    let k = this.from(from), all = this.upTo(from, busy, k), left = matched ? this.upTo(from, matched, k) : 0;
    for (let c = 0; c < count; c++) {
      const time = from + (c + 1) * step, next = this.from(time), sum = this.upTo(time, busy, next);
      found.load[c] = (sum - all) / step;
      found.errors[c] = errors[next] - errors[k];
      if (matched) {
        const other = this.upTo(time, matched, next);
        found.matched[c] = (other - left) / step;
        left = other;
      }
      k = next;
      all = sum;
    }
    return found;
  }

  // The part of a span that messages took.
  load(from, to) { return this.columns(from, to - from, 1).load[0]; }

  // Takes over which messages a filter leaves; none where all are.
  match(matches) {
    this.matched = matches ? new Float64Array(this.count + 1) : null;
    for (let k = 0; matches && k < this.count; k++) {
      this.matched[k + 1] = this.matched[k] + (matches[this.places[k]] ? this.end[k] - this.begin[k] : 0);
    }
  }
}

// Whether a time is a period, but for an eighth of it.
const isNear = (time, period) => Math.abs(time - period) <= period / 8;

// The period of a command's messages: the time from one to the next in the middle of all by size, where three in four
// are near it; 0 where there is none.
function periodOf(begins) {
  const times = Float64Array.from(begins.slice(1), (begin, k) => begin - begins[k]).sort();
  const middle = times.length < 3 ? 0 : times[times.length >> 1];
  return middle > 0 && times.filter((time) => isNear(time, middle)).length * 4 >= times.length * 3 ? middle : 0;
}

// The commands of a channel that recur with a period, each with the begins of the frames that it would begin.
function rhythmsOf(data, places) {
  const commands = new Map();
  let latest = -Infinity;
  for (const i of places) {
    const between = data.block[i] >> 11 & 1 && data.size[i] > 1;
    const key = (wordAt(data, i, 0) * 65536 + (between ? wordAt(data, i, 1) : 0)) * 2 + (data.block[i] >> 13 & 1);
    if (!commands.has(key) && commands.size < 64) commands.set(key, { begins: [], pause: Infinity });
    const command = commands.get(key);
    if (command) {
      command.begins.push(data.begin[i]);
      command.pause = Math.min(command.pause, data.begin[i] - latest);
    }
    latest = Math.max(latest, data.end[i]);
  }
  if (commands.size < 2) return [];
  const found = [...commands.values()].map(({ begins, pause }) => ({ period: periodOf(begins), pause, begins }));
  return found.filter(({ period }) => period > 0).map((one) => {
    let next = -Infinity;
    const kept = one.begins.filter((begin) => begin >= next && ((next = begin + one.period * 7 / 8), true));
    return { ...one, begins: Float64Array.from(kept) };
  });
}

// The frames that are marked where so many ticks have the room of a mark: those of the shortest period that has it,
// begun by the command with the longest pause in front of it.
function framesOf(rhythms, least) {
  let best = null;
  for (const one of rhythms) {
    if (one.period < least) continue;
    const better = !best || (isNear(one.period, best.period) ? one.pause > best.pause : one.period < best.period);
    if (better) best = one;
  }
  return best;
}

// The values of a signal in a channel over time, in blocks with the least and the greatest of each.
class Series {
  constructor(signal, channel, points) {
    points.sort((a, b) => a[0] - b[0]);
    const count = this.count = points.length;
    Object.assign(this, { signal, channel, texts: points.map((point) => point[1]) });
    this.begin = Float64Array.from(points, (point) => point[0]);
    this.value = Float64Array.from(this.texts, (text) => (text === '' ? NaN : Number(text)));
    this.runs = Uint32Array.from(this.texts.keys()).filter((k) => k === 0 || this.texts[k] !== this.texts[k - 1]);
    this.names = new Map();
    for (const k of signal.named ? this.runs : []) {
      if (!this.names.has(this.texts[k])) this.names.set(this.texts[k], this.names.size);
    }
    this.low = new Float64Array(Math.ceil(count / 16)).fill(Infinity);
    this.high = new Float64Array(Math.ceil(count / 16)).fill(-Infinity);
    for (let k = 0; k < count; k++) {
      if (this.value[k] < this.low[k >> 4]) this.low[k >> 4] = this.value[k];
      if (this.value[k] > this.high[k >> 4]) this.high[k >> 4] = this.value[k];
    }
  }

  // The place of the value that stands at a time, -1 in front of the first.
  at(time) {
    let low = 0, high = this.count;
    while (low < high) {
      const middle = low + high >> 1;
      if (this.begin[middle] <= time) low = middle + 1; else high = middle;
    }
    return low - 1;
  }

  // The least and the greatest from one place up to another.
  range(from, to) {
    let low = Infinity, high = -Infinity;
    for (let k = from; k < to;) {
      const whole = (k & 15) === 0 && k + 16 <= to;
      low = Math.min(low, whole ? this.low[k >> 4] : Number.isNaN(this.value[k]) ? Infinity : this.value[k]);
      high = Math.max(high, whole ? this.high[k >> 4] : Number.isNaN(this.value[k]) ? -Infinity : this.value[k]);
      k += whole ? 16 : 1;
    }
    return [low, high];
  }
}

// What lies over all: the lanes of lines and of terminals, the frames, the plots, and what a filter asks of messages.
function indexData(data) {
  const { count } = data;
  const byKey = (map, key, i) => { const list = map.get(key); if (list) list.push(i); else map.set(key, [i]); };
  const lines = new Map(), terminals = new Map(), channels = new Map(), points = new Map();
  data.form = new Uint8Array(count);
  data.called = new Uint32Array(count);
  for (let i = 0; i < count; i++) {
    const layout = layoutOf(data, i), form = formOf(data, i), channel = data.channel[i];
    data.form[i] = FORMS.indexOf(form);
    data.end[i] = data.begin[i] + Math.max(WORD_TIME, wordBegin(layout, layout.words));
    const first = layout.words ? wordAt(data, i, 0) : 0;
    const second = layout.commands === 2 ? wordAt(data, i, 1) : first;
    data.called[i] = first * 65536 + second;
    byKey(channels, channel, i);
    byKey(lines, channel * 2 + (data.block[i] >> 13 & 1), i);
    if (layout.words) byKey(terminals, channel * 32 + addressOf(first), i);
    if (layout.words && addressOf(second) !== addressOf(first)) byKey(terminals, channel * 32 + addressOf(second), i);
    for (const [index, text] of Number.isNaN(data.begin[i]) ? [] : valuesOf(data, i)) {
      byKey(points, index * 65536 + channel, [data.begin[i], text]);
    }
  }
  const inOrder = (map) => [...map.keys()].sort((a, b) => a - b);
  data.whole = new Track(data, [...Array(count).keys()]);
  data.channels = inOrder(channels).map((channel) => {
    const places = channels.get(channel).filter((i) => !Number.isNaN(data.begin[i]));
    const all = new Track(data, places);
    return {
      channel, name: data.names.get(channel) || '', all, rhythms: rhythmsOf(data, all.places),
      lines: [0, 1].map((line) => new Track(data, lines.get(channel * 2 + line) || [])),
      terminals: inOrder(terminals).filter((key) => key >> 5 === channel)
        .map((key) => ({ address: key & 31, track: new Track(data, terminals.get(key)) })),
    };
  });
  data.series = inOrder(points).map((key) => {
    const index = Math.floor(key / 65536);
    return new Series(signalAt(data, index), key % 65536, points.get(key));
  });
  data.errors = Uint32Array.from(data.whole.places.filter((i) => data.block[i] >> 12 & 1));
  const { begin, end } = data.whole;
  data.first = begin.length ? begin[0] : 0;
  data.last = end.reduce((last, time) => Math.max(last, time), data.first + 10);
  return data;
}

// ---------------------------------------------------------------------------------------------- the picture
const GUTTER = 152;
const OVERVIEW = 34;
const AXIS = 26;
const LANE = 46;
const ROW = 15;
const PLOT = 58;

// What is seen: a span of time, a message that is chosen, where in x the mouse is, and how the lanes are.
const seen = { from: 0, to: 1, chosen: -1, cursor: null, mode: 'lines', matches: null, drawn: null };
let data = null, colors = {};

// The rows of the picture from the top, each with its height and how it is drawn.
function rowsOf() {
  const rows = [{ kind: 'overview', height: OVERVIEW, columns: overview }, { kind: 'axis', height: AXIS }];
  for (const channel of data.channels) {
    if (seen.mode === 'lines') {
      channel.lines.forEach((track, line) => rows.push({ kind: 'lane', height: LANE, channel, track, line }));
    } else {
      rows.push({ kind: 'heading', height: ROW + 5, channel });
      for (const { address, track } of channel.terminals) {
        rows.push({ kind: 'terminal', height: ROW, channel, track, address });
      }
    }
  }
  for (const series of data.series) rows.push({ kind: 'plot', height: PLOT, series });
  let top = 0;
  for (const row of rows) { row.top = top; top += row.height; }
  return { rows, height: top + 6 };
}

const toX = (time) => GUTTER + (time - seen.from) / (seen.to - seen.from) * (canvasSize.width - GUTTER);
const toTime = (x) => seen.from + (x - GUTTER) / (canvasSize.width - GUTTER) * (seen.to - seen.from);
const canvasSize = { width: 1000, height: 300, ratio: 1 };

// The time whose values are told: at the mouse, else at the chosen message, else at the end of what is seen.
function toldTime() {
  if (seen.cursor !== null) return toTime(seen.cursor);
  const begin = seen.chosen >= 0 ? data.begin[seen.chosen] : NaN;
  return begin >= seen.from && begin <= seen.to ? begin : seen.to;
}

function readColors() {
  const style = getComputedStyle(document.documentElement);
  for (const name of ['page', 'panel', 'ink', 'soft', 'rule', 'accent', 'chosen', 'load', 'loaded', 'match', 'command',
    'data', 'status', 'error', 'frame', 'plot', 'inbar', 'hover']) {
    colors[name] = style.getPropertyValue('--' + name).trim();
  }
}

// (the height comes first: with it the bar that scrolls the lanes comes or goes, and the width with that)
function sizeCanvas() {
  const canvas = byId('canvas'), { height } = rowsOf(), ratio = window.devicePixelRatio || 1;
  canvas.style.height = height + 'px';
  const width = byId('lanes').clientWidth;
  if (canvasSize.width !== width) overview = null;
  Object.assign(canvasSize, { width, height, ratio });
  canvas.width = Math.round(width * ratio);
  canvas.height = Math.round(height * ratio);
}

// Draws anew with the next picture of the screen.
let asked = false;
function redraw() {
  if (asked) return;
  asked = true;
  requestAnimationFrame(() => { asked = false; draw(); });
}

function draw() {
  if (byId('lanes').clientWidth !== canvasSize.width) sizeCanvas();
  const pen = byId('canvas').getContext('2d');
  pen.setTransform(canvasSize.ratio, 0, 0, canvasSize.ratio, 0, 0);
  pen.clearRect(0, 0, canvasSize.width, canvasSize.height);
  pen.textBaseline = 'middle';
  const layout = rowsOf();
  const drawers = { overview: drawOverview, axis: drawAxis, lane: drawLane, heading: drawHeading,
    terminal: drawTerminal, plot: drawPlot };
  drawFrames(pen, layout.rows);
  for (const row of layout.rows) drawers[row.kind](pen, row);
  drawCursor(pen, layout);
}

function write(pen, text, x, y, color, font = '12px system-ui, sans-serif', align = 'left') {
  pen.font = font;
  pen.textAlign = align;
  pen.fillStyle = color;
  pen.fillText(text, x, y);
}
const SMALL = '11px system-ui, sans-serif';
const TINY = '10px system-ui, sans-serif';
const CODE = '11px ui-monospace, Menlo, Consolas, "DejaVu Sans Mono", monospace';
const BOLD = '600 12px system-ui, sans-serif';

// The columns of the overview, which are those of each picture of a width.
let overview = null;

// The whole recording: the load of all channels, where errors are, and what is seen of it.
function drawOverview(pen, row) {
  const width = canvasSize.width - GUTTER, span = data.last - data.first, foot = row.top + OVERVIEW - 5;
  write(pen, 'whole recording', 12, row.top + OVERVIEW / 2, colors.soft, SMALL);
  if (!row.columns || row.columns.width !== width) {
    row.columns = data.whole.columns(data.first, span / width * 2, Math.ceil(width / 2));
    row.columns.width = width;
    overview = row.columns;
  }
  const { load, errors } = row.columns;
  for (let c = 0; c < load.length; c++) {
    const high = Math.max(1, Math.min(1, Math.sqrt(Math.max(0, load[c]) / Math.max(1, data.channels.length))) * 22);
    pen.fillStyle = colors.loaded;
    if (load[c] > 0) pen.fillRect(GUTTER + c * 2, foot - high, 2, high);
    pen.fillStyle = colors.error;
    if (errors[c]) pen.fillRect(GUTTER + c * 2, row.top + 2, 2, 5);
  }
  const left = GUTTER + Math.max(0, (seen.from - data.first) / span) * width;
  const right = GUTTER + Math.min(1, (seen.to - data.first) / span) * width - 1;
  pen.strokeStyle = colors.accent;
  pen.lineWidth = 1.5;
  pen.globalAlpha = 0.12;
  pen.fillStyle = colors.accent;
  pen.fillRect(left, row.top + 1, Math.max(2, right - left), OVERVIEW - 4);
  pen.globalAlpha = 1;
  pen.strokeRect(left, row.top + 1, Math.max(2, right - left), OVERVIEW - 4);
  pen.lineWidth = 1;
}

// The step of an axis: 1, 2 or 5 times a power of ten ticks, with some room.
function stepOf(span, width) {
  let step = 1;
  for (let power = 1; ; power *= 10) {
    for (const part of [1, 2, 5]) {
      step = part * power;
      if (step / span * width >= 90) return step;
    }
  }
}

function drawAxis(pen, row) {
  const step = stepOf(seen.to - seen.from, canvasSize.width - GUTTER), y = row.top + AXIS - 9;
  const [unit, size] = step >= 1e6 ? ['s', SECOND] : step >= 1e3 ? ['ms', 1e4] : ['\u00b5s', 10];
  write(pen, data.origin || data.whole.count && data.ofDay[data.whole.places[0]] ? `${unit}, from the begin` : unit,
    12, y, colors.soft, SMALL);
  // (of stamps that are times of day the axis counts from the first)
  pen.strokeStyle = colors.rule;
  pen.beginPath();
  for (let tick = Math.ceil(seen.from / step) * step; tick <= seen.to; tick += step) {
    const x = Math.round(toX(tick)) + 0.5;
    pen.moveTo(x, row.top + AXIS - 3);
    pen.lineTo(x, canvasSize.height);
    const text = String(+(tick / size).toFixed(4)), half = pen.measureText(text).width / 2;
    if (x + half < canvasSize.width) write(pen, text, x, y, colors.soft, SMALL, 'center');
  }
  pen.stroke();
}

// What stands left of a row: a title, and lines below it; an empty one takes no room.
function drawLabel(pen, row, texts) {
  const lines = texts.map((text, k) => [text, k ? colors.soft : colors.ink, k ? SMALL : BOLD]).filter(([text]) => text);
  pen.save();
  pen.beginPath();
  pen.rect(0, row.top + 1, GUTTER - 4, row.height - 2);
  pen.clip();
  pen.fillStyle = colors.panel;
  pen.fillRect(0, row.top + 1, GUTTER - 1, row.height - 2);
  const first = row.top + row.height / 2 - (lines.length - 1) * 7;
  lines.forEach(([text, color, font], k) => write(pen, text, 12, first + 14 * k, color, font));
  pen.restore();
}

const channelText = (channel) => `channel ${channel.channel}`;

// Where frames begin, as dashed lines over the lanes of a channel.
function drawFrames(pen, rows) {
  for (const channel of data.channels) {
    const own = rows.filter((row) => row.channel === channel);
    if (!own.length) continue;
    const frames = framesOf(channel.rhythms, (seen.to - seen.from) * 14 / (canvasSize.width - GUTTER));
    channel.frames = frames;
    if (!frames) continue;
    const top = own[0].top + 1, end = own[own.length - 1].top + own[own.length - 1].height;
    pen.strokeStyle = colors.frame;
    pen.setLineDash([3, 3]);
    pen.beginPath();
    for (const begin of frames.begins) {
      if (begin < seen.from || begin > seen.to) continue;
      const x = Math.round(toX(begin)) - 0.5;
      pen.moveTo(x, top);
      pen.lineTo(x, end);
    }
    pen.stroke();
    pen.setLineDash([]);
  }
}

function drawLane(pen, row) {
  const { track, channel, line } = row, width = canvasSize.width - GUTTER;
  pen.strokeStyle = colors.rule;
  pen.beginPath();
  pen.moveTo(0, row.top + (line ? LANE - 0.5 : 0.5));
  pen.lineTo(canvasSize.width, row.top + (line ? LANE - 0.5 : 0.5));
  pen.stroke();
  const from = track.endingBehind(seen.from), to = track.from(seen.to), count = to - from;
  const clear = count <= 24 || count * 5 <= width;
  pen.save();
  pen.beginPath();
  pen.rect(GUTTER, row.top, width, LANE);
  pen.clip();
  const columns = track.columns(seen.from, (seen.to - seen.from) / width * 2, Math.ceil(width / 2));
  if (clear) drawMessages(pen, row, from, to); else drawLoad(pen, row, columns);
  drawErrors(pen, row, columns.errors);
  pen.restore();
  const load = count ? percentText(track.load(seen.from, seen.to)) : '';
  const frames = channel.frames ? `frames of ${lengthText(channel.frames.period)}` : '';
  drawLabel(pen, row, [line ? '' : channelText(channel), `line ${line ? 'B' : 'A'}   ${load}`,
    line ? '' : channel.name || frames, line && channel.name ? frames : '']);
}

// A part of the time in percent; one that is not none is never shown as 0.
const percentText = (part) => (part > 0 && part < 0.0005 ? '< 0.1 %' : `${(100 * part).toFixed(1)} %`);

// The load of a lane in steps of two pixels, as a square root so that little is seen too; what a filter leaves is
// darker.
function drawLoad(pen, row, { load, matched }) {
  const foot = row.top + LANE - 5, high = LANE - 16, { track } = row;
  const put = (loads, color) => {
    pen.fillStyle = color;
    for (let c = 0; c < loads.length; c++) {
      const height = Math.max(1, Math.min(1, Math.sqrt(Math.max(0, loads[c]))) * high);
      if (loads[c] > 0) pen.fillRect(GUTTER + c * 2, foot - height, 2, height);
    }
  };
  put(load, track.matched ? colors.load : colors.loaded);
  if (track.matched) put(matched, colors.match);
}

// Errors as red marks at the top of a lane, at every scale.
function drawErrors(pen, row, errors) {
  pen.fillStyle = colors.error;
  for (let c = 0; c < errors.length; c++) if (errors[c]) pen.fillRect(GUTTER + c * 2 - 1, row.top + 2, 4, 5);
}

const isFaint = (i) => seen.matches && !seen.matches[i];

// The messages of a lane as bars, down to their words.
function drawMessages(pen, row, from, to) {
  const scale = (canvasSize.width - GUTTER) / (seen.to - seen.from), top = row.top + 19, height = LANE - 25;
  let free = -1e9;
  for (let k = from; k < to; k++) {
    const i = row.track.places[k], left = toX(row.track.begin[k]), right = toX(row.track.end[k]);
    pen.globalAlpha = isFaint(i) ? 0.2 : 1;
    if (i === seen.chosen) {
      pen.fillStyle = colors.chosen;
      pen.fillRect(left - 3, row.top + 3, Math.max(8, right - left + 6), LANE - 6);
    }
    if (WORD_TIME * scale < 1.5) {
      pen.fillStyle = colors.command;
      pen.fillRect(left, top, Math.max(1.5, right - left), height);
    } else drawWords(pen, i, left, scale, top, height);
    if (data.block[i] >> 12 & 1) {
      pen.fillStyle = colors.error;
      pen.fillRect(left, top + height, Math.max(3, right - left), 3);
    }
    const label = `${data.number[i]}  ${shortForm(i)}`, bad = data.block[i] >> 12 & 1;
    if (left > free && right > GUTTER) {
      const x = Math.max(left + (bad ? 4 : 0), GUTTER + 2);
      pen.font = SMALL;
      const end = x + pen.measureText(label).width;
      const next = k + 1 < to ? toX(row.track.begin[k + 1]) : Infinity;
      if (end < canvasSize.width && (end < next || right - left > end - x)) {
        write(pen, label, x, row.top + 12, bad ? colors.error : colors.soft, SMALL);
        free = end + 6;
      }
    }
  }
  pen.globalAlpha = 1;
}

// Whom a message calls: terminal, T or R, subaddress.
function shortForm(i) {
  const form = FORMS[data.form[i]], first = Math.floor(data.called[i] / 65536), second = data.called[i] % 65536;
  const side = (word) => `${addressOf(word)}${transmits(word) ? 'T' : 'R'}${subaddressOf(word)}`;
  if (form === 'rt') return `${side(second)}\u2192${side(first)}`;
  if (form === 'brt') return `${side(second)}\u2192all`;
  if (form === 'mode') return `${addressOf(first)} mode ${codeOf(first)}`;
  if (form === 'bmode') return `all mode ${codeOf(first)}`;
  if (form === 'brx') return `all R${subaddressOf(first)}`;
  return form === 'unknown' ? '?' : side(first);
}

// The words of a message: commands, status words and data words by their colours, with their digits where they have
// the room.
function drawWords(pen, i, left, scale, top, height) {
  const layout = layoutOf(data, i), width = Math.max(1, WORD_TIME * scale - (WORD_TIME * scale > 6 ? 1 : 0));
  for (let place = 0; place < layout.words; place++) {
    const x = left + wordBegin(layout, place) * scale;
    if (x > canvasSize.width || x + width < GUTTER) continue;
    const isCommand = place < layout.commands, isData = place >= layout.start && place < layout.end;
    pen.fillStyle = isCommand ? colors.command : isData ? colors.data : colors.status;
    pen.fillRect(x, top, width, height);
    const from = Math.max(x, GUTTER), to = Math.min(x + width, canvasSize.width);
    if (to - from < 32) continue;
    write(pen, hex(wordAt(data, i, place)), (from + to) / 2, top + height / 2, colors.inbar, CODE, 'center');
  }
}

function drawHeading(pen, row) {
  drawLabel(pen, row, [channelText(row.channel)]);
  const frames = row.channel.frames ? `   frames of ${lengthText(row.channel.frames.period)}` : '';
  write(pen, row.channel.name + frames, GUTTER, row.top + row.height / 2, colors.soft, SMALL);
}

// A terminal over time: the more it talked the darker, red where it had errors.
function drawTerminal(pen, row) {
  const { track } = row, width = canvasSize.width - GUTTER, size = row.height - 2;
  const from = track.endingBehind(seen.from), to = track.from(seen.to);
  pen.fillStyle = colors.hover;
  pen.fillRect(GUTTER, row.top, width, size);
  if ((to - from) * 3 <= width) {
    for (const bad of [0, 1]) {
      for (let k = from; k < to; k++) {
        const i = track.places[k], left = Math.max(GUTTER, toX(track.begin[k])), right = toX(track.end[k]);
        if ((data.block[i] >> 12 & 1) !== bad) continue;
        pen.globalAlpha = isFaint(i) ? 0.2 : 1;
        pen.fillStyle = bad ? colors.error : i === seen.chosen ? colors.status : colors.command;
        pen.fillRect(left, row.top, Math.max(1.5 + bad, right - left), size);
      }
    }
  } else {
    const found = track.columns(seen.from, (seen.to - seen.from) / width * 3, Math.ceil(width / 3));
    const loads = track.matched ? found.matched : found.load;
    for (let c = 0; c < loads.length; c++) {
      const bad = found.errors[c] > 0;
      pen.globalAlpha = bad ? 1 : Math.min(1, 0.12 + Math.sqrt(Math.max(0, loads[c])));
      pen.fillStyle = bad ? colors.error : colors.command;
      if (loads[c] > 0 || bad) pen.fillRect(GUTTER + c * 3, row.top, 3, size);
    }
  }
  pen.globalAlpha = 1;
  pen.fillStyle = colors.panel;
  pen.fillRect(0, row.top, GUTTER - 1, row.height);
  const name = row.address === 31 ? 'broadcast' : `terminal ${row.address}`;
  const errors = track.errors[to] - track.errors[from];
  write(pen, name, 12, row.top + size / 2, colors.ink, SMALL);
  if (errors) write(pen, `${errors}`, GUTTER - 8, row.top + size / 2, colors.error, SMALL, 'right');
}

// A signal over time, as steps or as bands of its names, with its value at the cursor.
function drawPlot(pen, row) {
  const { series } = row, width = canvasSize.width - GUTTER;
  pen.strokeStyle = colors.rule;
  pen.strokeRect(-1, row.top + 0.5, canvasSize.width + 2, PLOT);
  pen.save();
  pen.beginPath();
  pen.rect(GUTTER, row.top, width, PLOT);
  pen.clip();
  if (series.signal.named) drawBands(pen, row); else drawSteps(pen, row);
  pen.restore();
  const k = series.at(toldTime());
  const value = k < 0 ? '-' : `${shortValue(series.texts[k])} ${series.signal.unit}`;
  const others = data.series.some((one) => one !== series && one.signal === series.signal);
  drawLabel(pen, row, [series.signal.name, value, others ? channelText(series) : '']);
}

// The text of a value, of a long one six digits.
const shortValue = (text) => (text === '' ? 'no value' : text.length > 11 ? String(+(+text).toPrecision(6)) : text);

// A bound of a plot, legible over its line.
function writeOver(pen, text, y) {
  pen.font = TINY;
  pen.fillStyle = colors.panel;
  pen.globalAlpha = 0.8;
  pen.fillRect(GUTTER + 1, y - 7, pen.measureText(text).width + 7, 14);
  pen.globalAlpha = 1;
  write(pen, text, GUTTER + 4, y, colors.soft, TINY);
}

function drawSteps(pen, row) {
  const { series } = row;
  const [least, greatest] = series.range(Math.max(0, series.at(seen.from)), series.at(seen.to) + 1);
  const span = greatest - least;
  const y = (value) => row.top + PLOT - 10 - (span > 0 ? (value - least) / span : 0.5) * (PLOT - 20);
  const dense = series.at(seen.to) - series.at(seen.from) > canvasSize.width;
  pen.strokeStyle = colors.plot;
  pen.lineWidth = 1.5;
  pen.beginPath();
  let before = series.at(seen.from), height = before >= 0 ? y(series.value[before]) : NaN, x = GUTTER;
  const to = (nextX, nextY) => {
    if (!Number.isNaN(height)) { pen.moveTo(x, height); pen.lineTo(nextX, height); }
    if (!Number.isNaN(height) && !Number.isNaN(nextY)) pen.lineTo(nextX, nextY);
    x = nextX; height = nextY;
  };
  if (dense) {
    for (let pixel = GUTTER; pixel < canvasSize.width; pixel++) {
      const next = series.at(toTime(pixel + 1)), [low, high] = series.range(before + 1, next + 1);
      if (low <= high) { pen.moveTo(pixel, y(low)); pen.lineTo(pixel, y(high)); }
      if (next > before) to(pixel, y(series.value[next]));
      before = next;
    }
  } else {
    for (let k = before + 1; k < series.count && series.begin[k] <= seen.to; k++) {
      to(toX(series.begin[k]), y(series.value[k]));
    }
  }
  if (series.count) to(Math.min(canvasSize.width, toX(data.last)), height);
  pen.stroke();
  pen.lineWidth = 1;
  if (!(least <= greatest)) return;
  if (span > 0) writeOver(pen, String(+greatest.toPrecision(6)), row.top + 9);
  writeOver(pen, String(+least.toPrecision(6)), row.top + PLOT - 9);
}

function drawBands(pen, row) {
  const { series } = row, runs = series.runs, first = series.at(seen.from);
  let r = 0;
  for (let high = runs.length; r < high;) {
    const middle = r + high >> 1;
    if (runs[middle] <= first) r = middle + 1; else high = middle;
  }
  let drawn = -1;
  for (r = Math.max(0, r - 1); r < runs.length && series.begin[runs[r]] <= seen.to; r++) {
    const left = Math.max(GUTTER, toX(series.begin[runs[r]]));
    const right = Math.min(canvasSize.width, r + 1 < runs.length ? toX(series.begin[runs[r + 1]]) : toX(data.last));
    if (right < drawn + 0.5) continue;
    drawn = right;
    const text = series.texts[runs[r]];
    pen.fillStyle = `hsl(${(150 + series.names.get(text) * 137) % 360} 55% 50% / .28)`;
    pen.fillRect(left, row.top + 14, Math.max(1, right - left), PLOT - 28);
    pen.font = SMALL;
    if (right - left > pen.measureText(text).width + 8) {
      write(pen, text, left + 4, row.top + PLOT / 2, colors.ink, SMALL);
    }
  }
}

// The cursor with its time, the message that is chosen, and what is drawn over.
function drawCursor(pen, layout) {
  const stroke = (time, color) => {
    const x = Math.round(toX(time)) + 0.5;
    if (x < GUTTER) return;
    pen.strokeStyle = color;
    pen.beginPath();
    pen.moveTo(x, OVERVIEW);
    pen.lineTo(x, layout.height);
    pen.stroke();
  };
  if (seen.chosen >= 0) stroke(data.begin[seen.chosen], colors.accent);
  if (seen.drawn) {
    pen.globalAlpha = 0.18;
    pen.fillStyle = colors.accent;
    pen.fillRect(seen.drawn[0], OVERVIEW, seen.drawn[1] - seen.drawn[0], layout.height);
    pen.globalAlpha = 1;
  }
  if (seen.cursor === null) return;
  const time = toTime(seen.cursor);
  stroke(time, colors.soft);
  const day = dayText(data, time, data.whole.count > 0 && data.ofDay[data.whole.places[0]]);
  const text = `${optionText(data, time)}${day ? `  ${day}` : ''}`;
  pen.font = SMALL;
  const wide = pen.measureText(text).width + 12;
  const x = Math.max(GUTTER, Math.min(canvasSize.width - wide, seen.cursor - wide / 2));
  pen.fillStyle = colors.ink;
  pen.fillRect(x, OVERVIEW + 1, wide, 18);
  write(pen, text, x + 6, OVERVIEW + 10, colors.panel, SMALL);
}

// ---------------------------------------------------------------------------------------------- what is seen
// Shows a span of time, at least 20 us and within the recording but for some room.
function show(from, to) {
  const room = (data.last - data.first) * 0.02 + 100, most = data.last - data.first + 2 * room;
  const span = Math.min(Math.max(to - from, 200), most);
  const middle = (from + to) / 2;
  seen.from = Math.min(Math.max(middle - span / 2, data.first - room), data.last + room - span);
  seen.to = seen.from + span;
  byId('tip').hidden = true;
  redraw();
  keepAddress();
}
const showAll = () => show(data.first, data.last);
function zoom(factor, about = (seen.from + seen.to) / 2) {
  const span = Math.max(200, (seen.to - seen.from) * factor), part = (about - seen.from) / (seen.to - seen.from);
  show(about - part * span, about - part * span + span);
}
function pan(part) {
  const span = (seen.to - seen.from) * part;
  show(seen.from + span, seen.to + span);
}

// Brings a time into view, in the middle where it was not there.
function bring(time) {
  const span = seen.to - seen.from;
  if (time < seen.from + span * 0.05 || time > seen.to - span * 0.05) show(time - span / 2, time + span / 2);
}

// Chooses a message, and shows it in the lanes, the list and the details.
function choose(i, scroll = true) {
  if (i < 0 || i >= data.count) return;
  seen.chosen = i;
  if (!Number.isNaN(data.begin[i])) bring(data.begin[i]);
  showDetails(i);
  if (scroll) list.reveal(i);
  list.render();
  redraw();
  keepAddress();
}

// The place of the message with a number of the file, or of the next one.
function placeOf(number) {
  let low = 0, high = data.count;
  while (low < high) {
    const middle = low + high >> 1;
    if (data.number[middle] < number) low = middle + 1; else high = middle;
  }
  return Math.min(low, data.count - 1);
}

// The next in a list of places by time, or the one before: from the chosen message where it is seen, else from where
// what is seen begins or ends.
function besideChosen(places, step) {
  const begin = seen.chosen >= 0 ? data.begin[seen.chosen] : NaN, isSeen = begin >= seen.from && begin <= seen.to;
  const [now, chosen] = isSeen ? [begin, seen.chosen] : [step > 0 ? seen.from : seen.to, -1];
  const isBehind = (i) => data.begin[i] > now || data.begin[i] === now && i > chosen;
  let low = 0, high = places.length;
  while (low < high) {
    const middle = low + high >> 1;
    if (isBehind(places[middle])) high = middle; else low = middle + 1;
  }
  if (step > 0) return low < places.length ? places[low] : -1;
  const before = low - 1 >= 0 && places[low - 1] === chosen ? low - 2 : low - 1;
  return before >= 0 ? places[before] : -1;
}
function nextError(step) {
  const i = besideChosen(data.errors, step);
  if (i >= 0) choose(i); else say(step > 0 ? 'no error behind this' : 'no error in front of this');
}
function nextMessage(step) {
  const i = besideChosen(data.whole.places, step);
  if (i >= 0) choose(i);
}
function zoomToChosen() {
  if (seen.chosen < 0) return;
  const begin = data.begin[seen.chosen], span = data.end[seen.chosen] - begin;
  show(begin - span * 0.6, begin + span * 1.6);
}

// A time as --from takes it, in ticks behind the origin; NaN where a text is none.
function readTime(text) {
  const found = /^(\d+(?:\.\d*)?)\s*(s|ms|us|\u00b5s)$/.exec(text.trim());
  if (!found) return NaN;
  const [whole, part = ''] = found[1].split('.'), places = { s: 7, ms: 4 }[found[2]] || 1;
  const ticks = BigInt(whole + part.padEnd(places, '0').slice(0, places));
  return Number(ticks - data.origin);
}

// Shows so many ticks about a time; the list goes there too.
function showAbout(time, span) {
  show(time - span / 2, time + span / 2);
  const { places, count } = data.whole;
  if (count) list.reveal(places[Math.min(data.whole.from(time), count - 1)]);
  list.render();
}

// Goes to a time or to the message with a number; answers whether the text is either.
function goTo(text) {
  const time = readTime(text);
  if (!Number.isNaN(time)) {
    showAbout(time, Math.min(seen.to - seen.from, (data.last - data.first) / 10));
    return true;
  }
  if (!/^\d+$/.test(text.trim())) return false;
  choose(placeOf(+text));
  return true;
}

// The address of the page: the middle of what is seen, its width, and the message that is chosen.
let kept = 0;
function keepAddress() {
  clearTimeout(kept);
  kept = setTimeout(() => history.replaceState(null, '', '#' + addressText()), 150);
}
function addressText() {
  const width = optionText({ origin: 0n }, seen.to - seen.from);
  const parts = [`t=${optionText(data, (seen.from + seen.to) / 2)}`, `w=${width}`];
  if (seen.chosen >= 0) parts.push(`m=${data.number[seen.chosen]}`);
  if (seen.mode !== 'lines') parts.push(`by=${seen.mode}`);
  return parts.join('&');
}
function readAddress(text) {
  const parts = new Map(text.replace(/^#/, '').split('&').map((part) => part.split('=')));
  if (/^(light|dark)$/.test(parts.get('theme'))) setTheme(parts.get('theme'));
  if (parts.get('by') === 'terminals') setMode('terminals');
  if (parts.has('m')) choose(placeOf(+parts.get('m')));
  const time = readTime(parts.get('t') || '');
  if (Number.isNaN(time)) return;
  const asked = readTime(parts.get('w') || '') + Number(data.origin);
  const width = Number.isNaN(asked) ? Math.min(SECOND, data.last - data.first) : asked;
  if (parts.has('m')) show(time - width / 2, time + width / 2); else showAbout(time, width);
}

// What is seen as options: times, or where stamps are times of day the numbers of the messages.
function optionsText() {
  const from = Math.max(0, Math.floor(seen.from)), to = Math.ceil(seen.to);
  if (!data.ofDay.includes(1)) return `--from ${optionText(data, from)} --to ${optionText(data, to)}`;
  let [least, most] = [Infinity, 0];
  for (const i of data.whole.places.subarray(data.whole.from(seen.from), data.whole.from(seen.to))) {
    least = Math.min(least, data.number[i]);
    most = Math.max(most, data.number[i]);
  }
  return most ? `--from ${least} --to ${most}` : '';
}

// ---------------------------------------------------------------------------------------------- the list
// The list has rows in the document for what is seen of it alone; a screen reader is told of how many there are.
const ROW_HEIGHT = 22;
const list = {
  places: null,
  size() { return this.places ? this.places.length : data.count; },
  at(row) { return this.places ? this.places[row] : row; },
  rowOf(i) {
    if (!this.places) return i;
    let low = 0, high = this.places.length;
    while (low < high) {
      const middle = low + high >> 1;
      if (this.places[middle] < i) low = middle + 1; else high = middle;
    }
    return low;
  },
  height() { return Math.min(this.size() * ROW_HEIGHT, 15e6); },
  // (of very many rows a pixel of the scroll bar stands for more than one)
  firstRow() {
    const scroll = byId('scroll'), most = Math.max(1, this.height() - scroll.clientHeight + 24);
    const rows = Math.max(0, this.size() - Math.floor((scroll.clientHeight - 24) / ROW_HEIGHT));
    return Math.min(rows, Math.round(Math.min(1, scroll.scrollTop / most) * rows));
  },
  render() {
    const scroll = byId('scroll'), first = this.firstRow();
    const shown = Math.ceil(scroll.clientHeight / ROW_HEIGHT) + 1;
    byId('space').style.height = this.height() + 24 + 'px';
    byId('table').style.top = scroll.scrollTop + 'px';
    byId('table').setAttribute('aria-rowcount', this.size() + 1);
    const rows = [];
    for (let row = first; row < Math.min(first + shown, this.size()); row++) rows.push(rowElement(this.at(row), row));
    byId('rows').replaceChildren(...rows);
    const chosen = rows.find((row) => row.getAttribute('aria-selected') === 'true');
    if (chosen) byId('table').setAttribute('aria-activedescendant', chosen.id);
    else byId('table').removeAttribute('aria-activedescendant');
  },
  // Brings the row of a message into view: one beside the rows that are seen to their edge, another to the middle.
  reveal(i) {
    const scroll = byId('scroll'), row = this.rowOf(i), first = this.firstRow();
    const visible = Math.floor((scroll.clientHeight - 24) / ROW_HEIGHT);
    if (row >= first && row < first + visible) return;
    const rows = Math.max(1, this.size() - visible), most = Math.max(1, this.height() - scroll.clientHeight + 24);
    const beside = row === first - 1 || row === first + visible, edge = row < first ? 0 : visible - 1;
    scroll.scrollTop = Math.max(0, Math.min(1, (row - (beside ? edge : visible >> 1)) / rows)) * most;
  },
  move(step) {
    const now = seen.chosen < 0 ? (step > 0 ? -1 : 0) : this.rowOf(seen.chosen);
    const row = Math.max(0, Math.min(this.size() - 1, now + step));
    if (this.size()) choose(this.at(row));
  },
};

function element(tag, text, attributes = {}) {
  const made = document.createElement(tag);
  if (text !== undefined) made.textContent = text;
  for (const [name, value] of Object.entries(attributes)) made.setAttribute(name, value);
  return made;
}

function rowElement(i, row) {
  const p = partsOf(data, i), made = element('tr', undefined, {
    id: `row${i}`, 'aria-rowindex': row + 2, 'aria-selected': String(i === seen.chosen),
  });
  made.dataset.place = i;
  const bad = data.block[i] >> 12 & 1;
  if (bad) made.className = 'bad';
  for (const text of [p.number, p.seconds, p.channel, p.line, p.form, p.replies]) made.append(element('td', text));
  const last = element('td', (p.words + p.then + p.values).trim());
  if (p.names) last.append(element('span', p.names, bad ? { class: 'bad' } : {}));
  made.append(last);
  return made;
}

// What the filter asks of a message.
function filterAsked() {
  const text = byId('byText').value.trim().toLowerCase();
  const number = (id) => (byId(id).value === '' ? -1 : +byId(id).value);
  return {
    channel: number('byChannel'), terminal: number('byTerminal'), subaddress: number('bySubaddress'),
    form: number('byForm'), error: byId('byError').checked, text,
  };
}
const asksNothing = (f) => f.channel < 0 && f.terminal < 0 && f.subaddress < 0 && f.form < 0 && !f.error && !f.text;

function passes(f, i) {
  if (f.channel >= 0 && data.channel[i] !== f.channel) return false;
  if (f.form >= 0 && data.form[i] !== f.form) return false;
  if (f.error && !(data.block[i] >> 12 & 1)) return false;
  const first = Math.floor(data.called[i] / 65536), second = data.called[i] % 65536;
  if (f.terminal >= 0 && addressOf(first) !== f.terminal && addressOf(second) !== f.terminal) return false;
  if (f.subaddress >= 0 && subaddressOf(first) !== f.subaddress && subaddressOf(second) !== f.subaddress) return false;
  return !f.text || decodeLine(data, i).toLowerCase().includes(f.text);
}

// Filters a part of the messages at a time, so that the page goes on.
let filtering = 0;
function filter() {
  const turn = ++filtering, asked = filterAsked();
  if (asksNothing(asked)) return takeMatches(null, null);
  const matches = new Uint8Array(data.count), places = [];
  const part = (from) => {
    if (turn !== filtering) return;
    const to = Math.min(data.count, from + 20000);
    for (let i = from; i < to; i++) if (passes(asked, i)) { matches[i] = 1; places.push(i); }
    if (to < data.count) { byId('matches').value = `${countText(places.length)} ..`; setTimeout(part, 0, to); return; }
    takeMatches(matches, Uint32Array.from(places));
  };
  part(0);
}
function takeMatches(matches, places) {
  seen.matches = matches;
  list.places = places;
  for (const channel of data.channels) {
    for (const track of [...channel.lines, ...channel.terminals.map((one) => one.track)]) track.match(matches);
  }
  byId('matches').value = places ? `${countText(places.length)} of ${countText(data.count)}` : '';
  byId('scroll').scrollTop = 0;
  if (seen.chosen >= 0) list.reveal(seen.chosen);
  list.render();
  redraw();
}

// ---------------------------------------------------------------------------------------------- the details
function tableOf(rows, names) {
  const made = element('table'), head = element('tr');
  for (const name of names) head.append(element('th', name, { scope: 'col' }));
  made.append(element('thead'));
  made.firstChild.append(head);
  const body = element('tbody');
  for (const cells of rows) {
    const row = element('tr');
    for (const cell of cells) row.append(cell instanceof Node ? cell : element('td', cell));
    body.append(row);
  }
  made.append(body);
  return made;
}

function commandText(word) {
  const called = isBroadcast(word) ? '31 (all)' : addressOf(word);
  const side = `terminal ${called}, ${transmits(word) ? 'transmit' : 'receive'}`;
  if (isMode(word)) return `${side}, mode code ${codeOf(word)}: ${modeName(word)}`;
  return `${side}, subaddress ${subaddressOf(word)}, ${countOf(word)} word${countOf(word) > 1 ? 's' : ''}`;
}

// A word with what it is.
function wordRow(i, layout, place) {
  const word = wordAt(data, i, place), isCommand = place < layout.commands;
  const isData = !isCommand && place >= layout.start && place < layout.end;
  const role = isCommand ? 'command' : isData ? 'data' : 'status', cell = element('td');
  cell.append(element('span', undefined, { class: 'role', style: `background:var(--${role})` }), role);
  const signed = word > 32767 ? `, ${word - 65536}` : '';
  const meaning = isCommand ? commandText(word) : isData ? `${word}${signed}`
    : `terminal ${addressOf(word)}${bitNames(word).replace(/ /g, ', ').replace(/_/g, ' ')}`;
  return [cell, element('td', hex(word)), element('td', meaning)];
}

function showDetails(i) {
  const p = partsOf(data, i), box = byId('details'), name = data.names.get(data.channel[i]);
  const day = Number.isNaN(data.begin[i]) ? '' : dayText(data, data.begin[i], data.ofDay[i]);
  const parts = [
    element('h2', `Message ${p.number}: ${p.form}`),
    element('p', `channel ${p.channel}${name ? ` (${name})` : ''}, number ${p.there} there, line ${p.line}`,
      { class: 'where' }),
    element('p', p.seconds === '-' ? 'no known time' : `${p.seconds} s${day ? `   ${day}` : ''}`),
  ];
  const names = p.names.trim().replace(/ /g, ', ').replace(/_/g, ' ');
  if (names) parts.push(element('p', names, { class: data.block[i] >> 12 & 1 ? 'bad' : '' }));
  const values = valuesOf(data, i).map(([index, text]) => {
    const signal = signalAt(data, index);
    return [signal.name, `${text || 'no value'} ${signal.unit}`];
  });
  if (values.length) parts.push(element('h3', 'Signals'), tableOf(values, ['name', 'value']));
  const rows = [];
  for (let place = 0; place < p.layout.words; place++) rows.push(wordRow(i, p.layout, place));
  if (rows.length) parts.push(element('h3', 'Words'), tableOf(rows, ['kind', 'word', 'meaning']));
  const gaps = [p.layout.first, p.layout.second].filter((gap) => gap > 0).map((gap) => gapText(gap).trim());
  if (gaps.length) parts.push(element('h3', 'Response times'), element('p', gaps.join(', ')));
  const line = decodeLine(data, i).trim().replace(/ {2,}/g, '  ');
  parts.push(element('h3', 'As bench dump --decode has it'), element('pre', line));
  box.replaceChildren(...parts);
}

// ---------------------------------------------------------------------------------------------- the page
// Says something for a while.
let saying = 0;
function say(text) {
  byId('said').textContent = text;
  clearTimeout(saying);
  saying = setTimeout(() => { byId('said').textContent = ''; }, 2500);
}

const countText = (count) => count.toLocaleString('en');

function summarize() {
  const many = (count, name) => `${countText(count)} ${name}${count === 1 ? '' : 's'}`;
  const parts = [many(data.count, 'message'), many(data.channels.length, 'channel'), many(data.errors.length, 'error')];
  if (data.whole.count) parts.push(`${lengthText(data.last - data.first)} from ${optionText(data, data.first)}`);
  const day = data.whole.count ? dayText(data, data.first, data.ofDay[data.whole.places[0]]) : '';
  if (day) parts.push(day);
  if (data.chosen > data.count) {
    parts.push(`the first ${countText(data.count)} of ${countText(data.chosen)} that were chosen`);
  }
  byId('summary').textContent = parts.join('\u00a0\u00b7 ');
}

function fillFilter() {
  const add = (id, value, text) => byId(id).append(element('option', text, { value }));
  for (const one of data.channels) add('byChannel', one.channel, `${channelText(one)} ${one.name}`);
  const addresses = new Set(), subaddresses = new Set(), forms = new Set(data.form);
  for (let i = 0; i < data.count; i++) {
    for (const word of [Math.floor(data.called[i] / 65536), data.called[i] % 65536]) {
      addresses.add(addressOf(word));
      subaddresses.add(subaddressOf(word));
    }
  }
  const rising = (set) => [...set].sort((a, b) => a - b);
  for (const a of rising(addresses)) add('byTerminal', a, a === 31 ? 'broadcast' : `terminal ${a}`);
  for (const s of rising(subaddresses)) add('bySubaddress', s, s === 0 || s === 31 ? `mode (${s})` : `subaddress ${s}`);
  for (const f of rising(forms)) add('byForm', f, FORMS[f] === 'unknown' ? 'no known form' : FORMS[f]);
}

function setMode(mode) {
  seen.mode = mode;
  byId('lines').setAttribute('aria-pressed', String(mode === 'lines'));
  byId('terminals').setAttribute('aria-pressed', String(mode === 'terminals'));
  sizeCanvas();
  redraw();
  keepAddress();
}

function setTheme(theme) {
  document.documentElement.dataset.theme = theme;
  readColors();
  redraw();
}

async function copyOptions() {
  const text = optionsText();
  try { await navigator.clipboard.writeText(text); say(`copied: ${text}`); } catch { say(text); }
}

// The message under a point of the lanes, or -1.
function messageAt(x, y) {
  const row = rowsOf().rows.find((one) => y >= one.top && y < one.top + one.height);
  if (!row || !row.track || x < GUTTER) return -1;
  const { track } = row, time = toTime(x), k = track.from(time);
  const far = (m) => (m < 0 || m >= track.count ? Infinity : Math.max(track.begin[m] - time, time - track.end[m], 0));
  const best = far(k - 1) <= far(k) ? k - 1 : k;
  return far(best) <= 6 / (canvasSize.width - GUTTER) * (seen.to - seen.from) ? track.places[best] : -1;
}

function placeOfMouse(event) {
  const box = byId('canvas').getBoundingClientRect();
  return [event.clientX - box.left, event.clientY - box.top];
}

function showTip(x, y) {
  const i = messageAt(x, y), tip = byId('tip');
  tip.hidden = i < 0;
  if (i < 0) return;
  const p = partsOf(data, i);
  tip.textContent = `${p.number}  ${p.form}\n${p.replies}${p.words ? `\n${p.words.trim().slice(0, 79)}` : ''}` +
    `${p.values ? `\n${p.values.trim().slice(0, 79)}` : ''}${p.names ? `\n${p.names.trim()}` : ''}`;
  const box = byId('canvas').getBoundingClientRect(), below = box.top + y + 16;
  const fits = below + tip.offsetHeight < window.innerHeight;
  tip.style.left = box.left + Math.max(0, Math.min(x + 14, canvasSize.width - tip.offsetWidth - 8)) + 'px';
  tip.style.top = (fits ? below : box.top + y - 10 - tip.offsetHeight) + 'px';
}

// Moving through time by mouse, pen and touch: the time between the points stays there, so that one drags and two zoom.
function watchPointers() {
  const canvas = byId('canvas'), points = new Map();
  let start = null, moved = false, held = null;
  const jumpTo = (x) => {
    const time = data.first + (x - GUTTER) / (canvasSize.width - GUTTER) * (data.last - data.first);
    const span = seen.to - seen.from;
    show(time - span / 2, time + span / 2);
  };
  const between = () => {
    const [one, other = one] = points.values();
    return { x: (one.x + other.x) / 2, apart: Math.hypot(one.x - other.x, one.y - other.y) };
  };
  const hold = () => {
    if (!points.size) return;
    const { x, apart } = between();
    held = { time: toTime(x), apart, scale: (seen.to - seen.from) / (canvasSize.width - GUTTER) };
  };
  const follow = () => {
    const { x, apart } = between();
    const scale = held.scale * (Math.min(apart, held.apart) > 8 ? held.apart / apart : 1);
    const from = held.time - (x - GUTTER) * scale;
    show(from, from + scale * (canvasSize.width - GUTTER));
  };
  canvas.addEventListener('pointerdown', (event) => {
    const [x, y] = placeOfMouse(event);
    byId('tip').hidden = true;
    points.set(event.pointerId, { x, y });
    canvas.setPointerCapture(event.pointerId);
    start = { x, over: event.shiftKey, overview: y < OVERVIEW };
    moved = points.size > 1;
    hold();
    if (start.overview) jumpTo(x);
  });
  canvas.addEventListener('pointermove', (event) => {
    const [x, y] = placeOfMouse(event);
    seen.cursor = x >= GUTTER && y > OVERVIEW ? x : null;
    if (!points.has(event.pointerId)) { showTip(x, y); redraw(); return; }
    points.set(event.pointerId, { x, y });
    if (points.size > 1) { follow(); return; }
    if (Math.abs(x - start.x) > 3) moved = true;
    if (start.overview) { jumpTo(x); return; }
    if (start.over) { seen.drawn = [start.x, x]; redraw(); return; }
    if (moved) follow();
  });
  const release = (event) => {
    const [x, y] = placeOfMouse(event);
    points.delete(event.pointerId);
    hold();
    if (seen.drawn) {
      const [from, to] = [...seen.drawn].sort((a, b) => a - b);
      seen.drawn = null;
      if (to - from > 4) show(toTime(from), toTime(to)); else redraw();
    } else if (!moved && event.type === 'pointerup' && start && !start.overview) {
      const i = messageAt(x, y);
      if (i >= 0) { choose(i); showTip(x, y); }
    }
  };
  canvas.addEventListener('pointerup', release);
  canvas.addEventListener('pointercancel', release);
  // (where a finger has left, what it touched stays told)
  canvas.addEventListener('pointerleave', (event) => {
    seen.cursor = null;
    if (event.pointerType !== 'touch') byId('tip').hidden = true;
    redraw();
  });
  document.addEventListener('scroll', (event) => {
    if (event.target !== byId('scroll')) byId('tip').hidden = true;
  }, true);
  canvas.addEventListener('dblclick', (event) => zoom(0.25, toTime(placeOfMouse(event)[0])));
  canvas.addEventListener('wheel', (event) => {
    const [x] = placeOfMouse(event);
    if (x < GUTTER) return;
    event.preventDefault();
    const turn = event.deltaMode === 1 ? event.deltaY * 33 : event.deltaY;
    if (Math.abs(event.deltaX) > Math.abs(event.deltaY)) pan(event.deltaX / (canvasSize.width - GUTTER));
    else if (event.shiftKey) pan(turn / (canvasSize.width - GUTTER));
    else zoom(Math.exp(Math.max(-120, Math.min(120, turn)) * 0.003), toTime(x));
  }, { passive: false });
}

const KEYS = {
  '+': () => zoom(0.5), '=': () => zoom(0.5), '-': () => zoom(2), 0: showAll, e: () => nextError(1),
  E: () => nextError(-1), n: () => nextMessage(1), p: () => nextMessage(-1), z: zoomToChosen,
  g: () => byId('goto').focus(), f: () => byId('byText').focus(), '/': () => byId('byText').focus(),
  l: () => setMode(seen.mode === 'lines' ? 'terminals' : 'lines'), c: copyOptions,
  t: () => setTheme(document.documentElement.dataset.theme === 'dark' ? 'light' : 'dark'),
  '?': () => byId('keys').showModal(),
};
const LANE_KEYS = {
  ArrowLeft: (event) => pan(event.shiftKey ? -0.9 : -0.15), ArrowRight: (event) => pan(event.shiftKey ? 0.9 : 0.15),
  Home: () => show(data.first, data.first + seen.to - seen.from),
  End: () => show(data.last - seen.to + seen.from, data.last),
  Enter: zoomToChosen,
};
const LIST_KEYS = {
  ArrowDown: () => list.move(1), ArrowUp: () => list.move(-1),
  PageDown: () => list.move(15), PageUp: () => list.move(-15),
  Home: () => list.move(-Infinity), End: () => list.move(Infinity), Enter: zoomToChosen,
};

function watchKeys() {
  document.addEventListener('keydown', (event) => {
    if (event.ctrlKey || event.metaKey || event.altKey || byId('keys').open) return;
    const at = document.activeElement;
    if (/^(INPUT|SELECT|TEXTAREA)$/.test(at.tagName) && at.type !== 'checkbox') {
      if (event.key === 'Escape') at.blur();
      return;
    }
    const own = byId('scroll').contains(at) ? LIST_KEYS : at.tagName === 'BUTTON' ? {} : LANE_KEYS;
    const act = own[event.key] || KEYS[event.key] || (at === document.body ? LIST_KEYS[event.key] : null);
    if (!act) return;
    event.preventDefault();
    act(event);
  });
}

function watchControls() {
  const click = (id, act) => byId(id).addEventListener('click', act);
  click('next', () => nextError(1));
  click('before', () => nextError(-1));
  click('in', () => zoom(0.5));
  click('out', () => zoom(2));
  click('all', showAll);
  click('lines', () => setMode('lines'));
  click('terminals', () => setMode('terminals'));
  click('copy', copyOptions);
  click('theme', KEYS.t);
  click('help', KEYS['?']);
  byId('jump').addEventListener('submit', (event) => {
    event.preventDefault();
    if (!goTo(byId('goto').value)) say('a time as 3.0s, 350ms or 12us, or the number of a message');
  });
  byId('filter').addEventListener('submit', (event) => event.preventDefault());
  byId('filter').addEventListener('input', filter);
  byId('scroll').addEventListener('scroll', () => list.render());
  byId('rows').addEventListener('click', (event) => {
    const row = event.target.closest('tr');
    if (row) { byId('table').focus({ preventScroll: true }); choose(+row.dataset.place, false); }
  });
  window.addEventListener('resize', () => { sizeCanvas(); list.render(); redraw(); });
  window.addEventListener('hashchange', () => readAddress(location.hash));
  const dark = matchMedia('(prefers-color-scheme: dark)');
  dark.addEventListener('change', () => setTheme(dark.matches ? 'dark' : 'light'));
}

// ---------------------------------------------------------------------------------------------- the self-check
// With `#selfcheck` in its address the page writes into itself what it has, as JSON: counts, messages as lines (all up
// to 20,000, of more the first and the last hundred), how long pictures took at many zooms, and faults of the script.
function selfCheck() {
  const lines = [];
  const isTold = (i) => data.count <= 20000 || i < 100 || i >= data.count - 100;
  for (let i = 0; i < data.count; i++) if (isTold(i)) lines.push(decodeLine(data, i));
  const times = [];
  draw();
  for (const mode of ['lines', 'terminals']) {
    setMode(mode);
    for (let span = data.last - data.first; span > 1000; span /= 2) {
      show(data.first, data.first + span);
      const begun = performance.now();
      draw();
      times.push(performance.now() - begun);
    }
  }
  const found = {
    messages: data.count, chosen: data.chosen, errors: data.errors.length, channels: data.channels.length,
    rows: byId('rows').childElementCount, series: data.series.length, faults,
    slowest: Math.ceil(Math.max(0, ...times)), usual: Math.ceil(times.sort((a, b) => a - b)[times.length >> 1]), lines,
  };
  document.body.append(element('pre', JSON.stringify(found), { id: 'found' }));
}

function begin() {
  data = indexData(readData(byId('data').textContent.trimStart()));
  document.title = `${data.recording || 'recording'} - messages`;
  byId('title').textContent = data.recording || 'Messages of a recording';
  document.documentElement.dataset.theme = matchMedia('(prefers-color-scheme: dark)').matches ? 'dark' : 'light';
  readColors();
  summarize();
  fillFilter();
  sizeCanvas();
  watchPointers();
  watchKeys();
  watchControls();
  seen.from = data.first;
  seen.to = data.last;
  showAll();
  list.render();
  if (location.hash === '#selfcheck') selfCheck(); else readAddress(location.hash);
  draw();
}
begin();
