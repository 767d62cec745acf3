// The page: what is typed, what the library says of it, and the address that keeps it.
import * as pep440 from './pep440-rattle/index.js';
import { drawLine, escaped, many } from './line.js';
import { conflictOf, exampleOf, readList, spansOf } from './sets.js';
import { readVersions } from './versions.js';

const $ = (id) => document.getElementById(id);
const lists = [$('a'), $('b')], field = $('v'), always = $('pre');
const EXAMPLE = { a: '~=2.2, !=2.5.*', v: '2.0 2.1.3 v2.2 2.2.1 2.3rc1 2.3.0 2.4.0 2.4.0.post1 2.5.0 2.5.1 2.6 2.10.0 3.0a1 3.0.dev4 3.0'.replaceAll(' ', '\n') };
const FIRST_ROWS = 60, MORE_ROWS = 500, MOST_ERRORS = 8, MOST_MARKS = 200, LONGEST_LINK = 16000, REST = 300, QUIET = 900;

let versions = readVersions(''), answer, shown = FIRST_ROWS, width = $('line').clientWidth;

const code = (text) => `<code>${escaped(text)}</code>`;
// The library has versions between backticks.
const inHtml = (message) => escaped(message).replace(/`([^`]*)`/g, '<code>$1</code>');

// ---- what is wrong

// The text with its wrong pieces marked. A piece that is missing is a gap.
function marked(text, faults) {
  let out = '', at = 0;
  for (const { start, end } of faults) {
    out += escaped(text.slice(at, start)) + (start < end ? `<mark>${escaped(text.slice(start, end))}</mark>` : '<mark class="gap"></mark>');
    at = end;
  }
  return out + escaped(text.slice(at));
}

// The specifier around a fault.
function pieceAt(text, { start }) {
  const from = text.lastIndexOf(',', start - 1) + 1, to = text.indexOf(',', from);
  return text.slice(from, to < 0 ? undefined : to).trim();
}

function showListErrors(input, errors) {
  const text = input.value;
  input.previousElementSibling.innerHTML = marked(text, errors);
  $(`${input.id}-errors`).innerHTML = errors.slice(0, MOST_ERRORS).map((it) => {
    const piece = pieceAt(text, it);
    return `<li>${piece ? `${code(piece)}: ` : 'Beside a comma: '}${inHtml(it.message)}</li>`;
  }).join('');
  input.setAttribute('aria-invalid', errors.length > 0);
}

// Under the field lie the wrong lines alone, each at its height.
function showLineErrors({ bad }) {
  $('marks').innerHTML = bad.slice(0, MOST_MARKS).map(({ number, line, fault }) => `<div style="top:calc(${number} * var(--row))">${marked(line, [fault])}</div>`).join('');
  field.setAttribute('aria-invalid', bad.length > 0);
}

// ---- matching

const countIn = (spans) => spans.reduce((sum, [from, to]) => sum + to - from, 0);
const presIn = (spans) => spans.reduce((sum, [from, to]) => sum + versions.pres[to] - versions.pres[from], 0);

// Whether pre-releases match: since the page or the list asks for them, or since nothing else matches.
function prereleasesOf(list, spans) {
  const pres = presIn(spans), [from] = spans.find(([low, high]) => versions.pres[high] > versions.pres[low]) ?? [];
  if (always.checked) return 'asked';
  if (pres === 0) return 'none';
  let first = from;
  while (!versions.order[first].isPre) first++;
  if (pep440.satisfies(versions.order[first].line, list)) return 'asked';
  return pres === countIn(spans) ? 'alone' : 'left out';
}

// For each version 1 if it matches, else 0.
function matchesOf(spans, prereleases) {
  const matches = new Uint8Array(versions.order.length);
  for (const [from, to] of spans) matches.fill(1, from, to);
  if (prereleases === 'left out') versions.order.forEach((it, i) => { if (it.isPre) matches[i] = 0; });
  return matches;
}

// What a list says of the versions.
function ask(list) {
  const read = readList(list);
  if (read.errors.length) return { ...read, isValid: false, intervals: [], spans: [], matches: matchesOf([]) };
  const spans = spansOf(read, versions), prereleases = prereleasesOf(list, spans);
  return { ...read, isValid: true, spans, prereleases, matches: matchesOf(spans, prereleases) };
}

// The lists, and if there are two the one that both make. Blanks are the empty list, which allows everything.
function askAll() {
  const [a, b] = lists.map((it) => (it.value.trim() ? it.value : ''));
  const asked = [{ ...ask(a), name: b && 'First list' }];
  if (!b) return asked;
  asked.push({ ...ask(b), name: 'Second list' });
  if (asked.every((it) => it.isValid)) asked.push({ ...ask(a ? `${a},${b}` : b), name: 'Both', list: '', joined: a ? `${a},${b}` : b });
  return asked;
}

// ---- showing

function showVerdict({ rows, last, specifiers }) {
  const wrong = rows.findIndex((it) => !it.isValid);
  if (wrong >= 0) return `The ${rows.length === 1 ? '' : wrong ? 'second ' : 'first '}list is not valid.`;
  if (last.example === null) {
    const why = conflictOf(specifiers);
    return `Nothing satisfies ${rows.length > 1 ? 'both' : 'the list'}: ${why.map(code).join(' and ')} ${why.length > 1 ? 'exclude each other' : 'allows no version'}.`;
  }
  const count = last.matches.reduce((sum, it) => sum + it, 0), total = versions.order.length;
  if (total === 0) return 'No versions to ask about yet.';
  if (count === 0) return `None of ${many(total, 'version')} matches.`;
  const newest = versions.order[last.matches.lastIndexOf(1)].normal;
  return `${count.toLocaleString('en')} of ${many(total, 'version')} ${count === 1 ? 'matches' : 'match'}; the newest is <span class="mono">${escaped(newest)}</span>.`;
}

const intervalText = ({ low, high }) => `${low?.closed ? '[' : '('}${low?.label ?? '*'}, ${high?.label ?? '*'}${high?.closed ? ']' : ')'}`;

function prereleaseText({ prereleases, spans }) {
  const count = presIn(spans);
  switch (prereleases) {
    case 'none': return 'none to leave out';
    case 'alone': return `${count === 1 ? 'it is' : `${count} are`} all that matches`;
    case 'asked': return count ? `${many(count, 'matches', 'match')}${always.checked ? '' : ': a specifier asks'}` : 'none matches';
    default: return `${count.toLocaleString('en')} left out: no specifier asks`;
  }
}

function showFacts({ last }) {
  const facts = !last.isValid ? {} : {
    normal: last.normal ? code(last.normal) : 'empty: everything',
    example: last.example === null ? 'nothing' : code(last.example),
    intervals: last.why || last.intervals.map((it) => code(intervalText(it))).join(' ') || 'none',
    prereleases: prereleaseText(last),
  };
  for (const id of ['normal', 'example', 'intervals', 'prereleases']) $(id).innerHTML = facts[id] ?? '&ndash;';
}

// Why a version matches, or does not: each specifier is asked alone.
function reason(position) {
  const { last, specifiers } = answer, { line, isPre, normal } = versions.order[position];
  if (last.matches[position]) return ['yes', isPre && last.prereleases === 'alone' ? 'matches: a pre-release, as nothing else does' : 'matches'];
  const by = specifiers.filter((it) => !pep440.satisfies(line, it.text, { prereleases: true }));
  if (by.length) return ['no', `rejected by ${by.map((it) => code(it.text)).join(', ')}`];
  return ['no', `${/\.dev\d+/.test(normal) ? 'developmental release' : 'pre-release'}, not asked for`];
}

const row = (kind, version, words) => `<tr class="${kind}"><th scope="row">${version}</th><td>${words}</td></tr>`;

function versionRow(position) {
  const { normal, line, isPre } = versions.order[position], written = line.trim();
  const [kind, words] = answer.last.isValid ? reason(position) : ['no', '&ndash;'];
  return row(`${kind}${isPre ? ' pre' : ''}`, escaped(normal) + (written === normal ? '' : ` <small>written ${escaped(written)}</small>`), words);
}

const badRow = ({ number, line, fault }) => row('bad', `<button type="button" data-line="${number}">line ${number + 1}</button> ${marked(line, [fault]).trim()}`, inHtml(fault.message));
const badText = ({ bad }) => (bad.length ? `${many(bad.length, 'line is', 'lines are')} not a version` : '');

function showRows(count) {
  const { order, bad } = versions, rows = bad.slice(0, MOST_ERRORS).map(badRow);
  for (let i = order.length - 1; i >= Math.max(0, order.length - count); i--) rows.push(versionRow(i));
  $('rows').innerHTML = rows.join('');
  $('caption').textContent = [order.length > count ? `The newest ${count} of ${many(order.length, 'version')}` : `${many(order.length, 'version')}, the newest first`, badText(versions)].filter(Boolean).join('; ');
  $('more').hidden = order.length <= count;
  $('more').textContent = `Show ${Math.min(MORE_ROWS, order.length - count)} more`;
}

function showLine() {
  const { svg, legend } = drawLine(answer.rows, versions, width);
  $('line').innerHTML = svg;
  $('legend').textContent = legend;
}

// ---- each change

function update() {
  const begin = performance.now();
  if (field.value !== versions.text) {
    versions = readVersions(field.value, versions);
    showLineErrors(versions);
  }
  const rows = askAll(), last = rows.at(-1), list = last.joined ?? last.list;
  answer = { rows, last, specifiers: rows.slice(0, 2).flatMap((it) => it.specifiers ?? []) };
  lists.forEach((input, i) => showListErrors(input, rows[i]?.errors ?? []));
  if (rows.some((it) => !it.isValid)) answer.last = { isValid: false };
  else Object.assign(last, { example: exampleOf(list, answer.specifiers) });
  $('verdict').innerHTML = showVerdict(answer);
  showFacts(answer);
  showRows(FIRST_ROWS);
  showLine();
  performance.clearMeasures('update');
  performance.measure('update', { start: begin });
  saveSoon();
}

// ---- the address, and what a screen reader is told

let saved, saving, saying;

function stateText() {
  const state = new URLSearchParams({ a: lists[0].value });
  if (lists[1].value.trim()) state.set('b', lists[1].value);
  if (field.value !== EXAMPLE.v) state.set('v', field.value);
  if (always.checked) state.set('pre', '1');
  const isLong = String(state).length > LONGEST_LINK;
  if (isLong) state.delete('v');
  $('too-long').hidden = !isLong;
  return `#${state}`;
}

function save() {
  if (shown > FIRST_ROWS) showRows(shown);
  saved = stateText();
  if (location.hash !== saved) history.replaceState(null, '', saved);
}

function say() {
  const wrong = answer.rows.flatMap((it) => it.errors)[0];
  const said = [$('verdict').textContent, wrong && `${wrong.message}.`, badText(versions)].filter(Boolean).join(' ');
  if ($('live').textContent !== said) $('live').textContent = said;
}

function saveSoon() {
  clearTimeout(saving);
  clearTimeout(saying);
  saving = setTimeout(save, REST);
  saying = setTimeout(say, QUIET);
}

function readAddress() {
  if (location.hash === saved) return;
  saved = location.hash;
  const state = new URLSearchParams(location.hash.slice(1));
  lists[0].value = state.get('a') ?? EXAMPLE.a;
  lists[1].value = state.get('b') ?? '';
  field.value = state.get('v') ?? EXAMPLE.v;
  always.checked = state.get('pre') === '1';
  shown = FIRST_ROWS;
  update();
}

// ---- events

function tell(message) {
  $('broken').hidden = !message;
  $('broken').textContent = message;
}

// The module is made anew after an exception, so the next change works.
const guarded = (change) => (...words) => {
  try {
    change(...words);
    tell('');
  } catch (error) {
    console.error(error);
    tell(`That failed: ${error.message}. Change a field to ask again.`);
  }
};

function showMore() {
  showRows(shown += MORE_ROWS);
  if ($('more').hidden) $('caption').focus();
}

// Selects what is wrong with the line of a button.
function goToLine({ target }) {
  if (!target.dataset.line) return;
  const number = Number(target.dataset.line), { fault } = versions.bad.find((it) => it.number === number);
  const start = field.value.split('\n').slice(0, number).reduce((sum, it) => sum + it.length + 1, 0);
  field.focus();
  field.setSelectionRange(start + fault.start, start + fault.end);
  field.scrollTop = Math.max(0, (number - 3) * (field.scrollHeight / field.value.split('\n').length));
}

for (const input of lists) {
  input.addEventListener('keydown', (event) => { if (event.key === 'Enter') event.preventDefault(); });
  input.addEventListener('input', guarded(update));
}
field.addEventListener('input', guarded(() => { shown = FIRST_ROWS; update(); }));
field.addEventListener('scroll', () => { $('marks').style.transform = `translate(${-field.scrollLeft}px, ${-field.scrollTop}px)`; });
always.addEventListener('change', guarded(update));
$('more').addEventListener('click', guarded(showMore));
$('rows').addEventListener('click', goToLine);
addEventListener('hashchange', guarded(readAddress));
guarded(readAddress)();
// The width is read here alone: in an update it would cost a layout. To draw at once could change the height that is being observed, an error for the browser.
new ResizeObserver(([entry]) => {
  if (entry.contentRect.width === width) return;
  width = entry.contentRect.width;
  requestAnimationFrame(guarded(showLine));
}).observe($('line'));
performance.mark('ready');
