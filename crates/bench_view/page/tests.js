'use strict';
// The tests of view.js, which `.ci/view` runs in a copy of the page of examples/failure.job: 400 messages in 10 ms
// frames, of which 30 are not answered and are sent again on line B. Expected values are worked out by hand.
const tested = { many: 0, wrong: [] };
function same(what, found, wanted) {
  tested.many += 1;
  const [one, other] = [JSON.stringify(found), JSON.stringify(wanted)];
  if (one !== other) tested.wrong.push(`${what}: ${one} in place of ${other}`);
}

// Times.
same('seconds', readTime('3.0s'), 30000000);
same('milliseconds', readTime('350ms'), 3500000);
same('microseconds', readTime('12.5us'), 125);
same('no time', Number.isNaN(readTime('12')), true);
same('a time as an option', optionText({ origin: 0n }, 30000001), '3.0000001s');
same('a whole time as an option', optionText({ origin: 0n }, 100000000), '10s');
same('seconds with all digits', secondsText({ origin: 0n }, 12), '0.0000012');
same('a length', lengthText(100000), '10 ms');
const utc = { origin: 0n, marks: [{ stamp: 0n, ofYear: false, ticks: 17356895980000000n }] };
same('a time of day', dayText(utc, 20000000, 0), '2025-01-01T00:00:00.0000000');
const year = { origin: 0n, marks: [{ stamp: 10n, ofYear: true, ticks: 864000000000n }] };
same('a day of a year', dayText(year, 15, 0), '002:00:00:00.0000005');
same('no time of day in front of the first mark', dayText(year, 5, 0), '');

// Words.
same('a form', formText('tx', 0x2C41), 'tx 5 2 1');
same('a mode command', formText('mode', 0x2FE2), 'mode 5 2 transmit status word');
same('32 words', countOf(0x0020), 32);
same('bits of a status word', bitNames(0x2808), ' busy');
same('names of errors', blockNames(0x1200), ' message_error response_timeout');
same('a text', readText('%3Cb%3E%C3%A9'), '<b>\u00e9');

// Tracks: two messages of 100 ticks, from 0 and from 200, and one of 200 ticks from 400 with an error.
const three = {
  begin: Float64Array.of(0, 200, 400), end: Float64Array.of(100, 300, 600), block: Uint16Array.of(0, 0, 0x1000),
};
const track = new Track(three, [2, 0, 1]);
same('in the order of time', [...track.places], [0, 1, 2]);
same('load of all', track.load(0, 400), 0.5);
same('load of a part of a message', track.load(50, 150), 0.5);
same('columns', [...track.columns(0, 100, 6).load], [1, 0, 1, 0, 1, 1]);
same('errors', [...track.columns(0, 200, 3).errors], [0, 0, 1]);
same('ending behind', [track.endingBehind(50), track.endingBehind(100), track.endingBehind(250)], [0, 1, 1]);
track.match(Uint8Array.of(0, 1, 0));
same('load of what a filter leaves', [...track.columns(0, 100, 4).matched], [0, 0, 1, 0]);

// Periods and frames.
same('a period', periodOf([0, 100, 200, 300, 401]), 100);
same('no period of three', periodOf([0, 100, 200]), 0);
same('no period', periodOf([0, 10, 500, 510, 9000, 9001]), 0);
const rhythms = [{ period: 100, pause: 5 }, { period: 101, pause: 50 }, { period: 1000, pause: 9 }];
same('frames of the longest pause', framesOf(rhythms, 10).pause, 50);
same('frames that have the room', framesOf(rhythms, 500).period, 1000);
same('no frames', framesOf(rhythms, 5000), null);

// Values.
const series = new Series({ name: 's', named: false, unit: '' }, 1, [[10, '1'], [20, '-5'], [30, '']]);
same('the value that stands', [series.at(5), series.at(10), series.at(29)], [-1, 0, 1]);
same('the least and the greatest', series.range(0, 3), [-5, 1]);
const values = [...Array(200).keys()].map((k) => [k, String(k)]);
const many = new Series({ name: 's', named: false, unit: '' }, 1, values);
same('of many', many.range(3, 190), [3, 189]);
const named = new Series({ named: true }, 1, [[1, 'a'], [2, 'a'], [3, 'b'], [4, 'a']]);
same('changes', [...named.runs], [0, 2, 3]);
same('names', [...named.names], [['a', 0], ['b', 1]]);

// Colours (WCAG 2: text stands out from what is behind it by 4.5 at least, a bar or a line by 3).
function brightness(color) {
  const part = (at) => parseInt(color.slice(at, at + 2), 16) / 255;
  const linear = (v) => (v <= 0.03928 ? v / 12.92 : ((v + 0.055) / 1.055) ** 2.4);
  return 0.2126 * linear(part(1)) + 0.7152 * linear(part(3)) + 0.0722 * linear(part(5));
}
function contrast(one, other) {
  const [low, high] = [brightness(colors[one]), brightness(colors[other])].sort((a, b) => a - b);
  return (high + 0.05) / (low + 0.05);
}
const TEXTS = ['ink panel', 'ink page', 'ink chosen', 'soft panel', 'soft page', 'soft chosen', 'error panel',
  'error chosen', 'inbar command', 'inbar data', 'inbar status'];
const MARKS = ['command panel', 'data panel', 'status panel', 'loaded panel', 'match load', 'frame panel', 'plot panel',
  'error hover', 'command hover', 'accent panel'];
for (const theme of ['dark', 'light']) {
  setTheme(theme);
  const faint = (pairs, least) => pairs.filter((pair) => contrast(...pair.split(' ')) < least);
  same(`what is faint in ${theme}`, [faint(TEXTS, 4.5), faint(MARKS, 3)], [[], []]);
}

// The page.
same('percent', [percentText(0), percentText(0.0004), percentText(0.526)], ['0.0 %', '< 0.1 %', '52.6 %']);
same('the step of an axis', [stepOf(1000, 1000), stepOf(7000, 1000)], [100, 1000]);
same('messages', data.count, 400 + 30);
show(29000000, 33000000);
nextError(1);
same('the first error of what is seen', data.number[seen.chosen], 301);
nextError(1);
same('the next', data.number[seen.chosen], 303);
nextError(-1);
same('the error before', data.number[seen.chosen], 301);
show(31450000, 31550000);
nextError(1);
same('the next where the chosen one is not seen', data.number[seen.chosen], 331);
show(31450000, 31550000);
nextError(-1);
same('the one before that', data.number[seen.chosen], 331 - 2);
same('a message by its number', goTo('17') && data.number[seen.chosen], 17);
same('a time', goTo('3.1s') && Math.round((seen.from + seen.to) / 2), 31000000);
// (message 321 begins then: 300 messages up to 3 s, and two in each of ten frames; its place is 320)
same('the list at a time', byId('row320') !== null, true);
same('neither', goTo('x'), false);
say('one');
say('another');
same('said', byId('said').textContent, 'another');
readAddress('#t=2s&w=10ms&m=5');
same('an address', [Math.round(seen.from), Math.round(seen.to), data.number[seen.chosen]], [19950000, 20050000, 5]);
same('the address of what is seen', addressText(), 't=2s&w=0.01s&m=5');
same('options', optionsText(), '--from 1.995s --to 2.005s');
same('the time of the message that is chosen is not seen', toldTime(), seen.to);
seen.cursor = GUTTER;
same('the time at the mouse', toldTime(), seen.from);
seen.cursor = null;
choose(placeOf(301));
same('the time of the message that is chosen', toldTime(), 30000000);
draw();
same('as wide as its place', canvasSize.width, byId('lanes').clientWidth);
showTip(toX(30000000), canvasSize.height - 1);
same('no tip where no message is', byId('tip').hidden, true);
showTip(toX(30000000), OVERVIEW + AXIS + LANE - 2);
same('a tip', byId('tip').textContent.split('\n')[0], '301  tx 5 2 2');
same('the lanes hold the tip in no bar', byId('lanes').scrollHeight, byId('lanes').clientHeight);
byId('byError').checked = true;
filter();
same('a filter', list.size(), 30);
byId('byError').checked = false;
byId('byText').value = 'response_timeout';
filter();
same('a filter by text', list.size(), 30);
byId('byText').value = '';
filter();
same('no filter', list.size(), data.count);
setMode('terminals');
draw();
same('lanes by terminal', rowsOf().rows.filter((row) => row.kind === 'terminal').map((row) => row.address), [5]);
setMode('lines');
same('rows of the list', byId('rows').querySelectorAll('tr[aria-rowindex]').length > 3, true);
setTheme('dark');
same('dark', colors.page, '#0f1318');
same('faults of the script', faults, []);
document.body.append(element('pre', JSON.stringify(tested), { id: 'tested' }));
