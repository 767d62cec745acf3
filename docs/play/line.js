// The number line: each boundary and each version is a step, in the order of versions, and none is to scale.
import { countBelow, releaseOf, stepBetween } from './versions.js';

const LANE = 15, LANES = 3, PAD = 12, ROOM_AT_BOUND = 11, BESIDE_ITSELF = 0.2, LONGEST = 20, MOST_LABELS = 200, CROWDED = 5, END = 4.5;
const escapes = { '&': '&amp;', '<': '&lt;', '>': '&gt;', '"': '&quot;' };
export const escaped = (text) => String(text).replace(/[&<>"]/g, (it) => escapes[it]);
export const many = (count, one, more = `${one}s`) => `${count.toLocaleString('en')} ${count === 1 ? one : more}`;

const short = (text, longest = LONGEST) => (text.length > longest ? `${text.slice(0, longest - 1)}\u2026` : text);
const rounded = (number) => Math.round(number * 10) / 10;
const endsOf = (rows) => rows.flatMap(({ intervals }) => intervals.flatMap(({ low, high }) => [low, high])).filter(Boolean);

let charWidth;

// How wide a character of a label is.
function widthOf(text) {
  if (!charWidth) {
    const context = document.createElement('canvas').getContext('2d');
    context.font = `12px ${getComputedStyle(document.documentElement).getPropertyValue('--mono')}`;
    charWidth = context.measureText('0'.repeat(100)).width / 100 || 7.25;
  }
  return text.length * charWidth;
}

// The boundaries in order, one for each key, with the position of the first version that is not below it.
function boundsOf(rows, versions) {
  const bounds = new Map();
  for (const { key, label } of endsOf(rows)) if (!bounds.has(key)) bounds.set(key, { key, at: countBelow(versions, key), release: label ? releaseOf(label) : ['0'] });
  return [...bounds.values()].sort((left, right) => (left.key < right.key ? -1 : 1));
}

// A boundary beside a version of its own release is near it.
const stepAtBound = (left, right) => (left.join() === right.join() ? BESIDE_ITSELF : stepBetween(left, right));

// Walks versions and boundaries together, and gives each the sum of the steps before it: those that stretch, and the fixed ones beside boundaries.
function measure(versions, bounds) {
  const { order, widths } = versions, stretch = new Float64Array(order.length), fixed = new Float64Array(order.length);
  let wide = 0, firm = 0, next = 0, before = null;
  const step = (release, width, isBound) => {
    wide += before ? width : 0;
    firm += before && (isBound || before.isBound) ? ROOM_AT_BOUND : 0;
    before = { release, isBound };
  };
  for (let i = 0; i <= order.length; i++) {
    for (; next < bounds.length && bounds[next].at === i && bounds[next].key !== order[i]?.key; next++) {
      step(bounds[next].release, before ? stepAtBound(before.release, bounds[next].release) : 0, true);
      Object.assign(bounds[next], { stretch: wide, fixed: firm });
    }
    if (i === order.length) break;
    const isBound = next < bounds.length && bounds[next].key === order[i].key, isSame = i > 0 && order[i].key === order[i - 1].key;
    if (!isSame) step(order[i].release, before?.isBound ? stepAtBound(before.release, order[i].release) : widths[i], isBound);
    [stretch[i], fixed[i]] = [wide, firm];
    if (isBound) Object.assign(bounds[next++], { stretch: wide, fixed: firm });
  }
  return { stretch, fixed, wide, firm };
}

// Where each version and each boundary stands.
function placed(versions, bounds, width) {
  const { stretch, fixed, wide, firm } = measure(versions, bounds), inner = width - 2 * PAD - 2 * ROOM_AT_BOUND;
  const squeeze = firm ? Math.min(1, (0.6 * inner) / firm) : 1, unit = (inner - firm * squeeze) / (wide + 2), from = PAD + ROOM_AT_BOUND + unit;
  const xs = stretch.map((it, i) => from + it * unit + fixed[i] * squeeze);
  return { xs, xOf: new Map(bounds.map((it) => [it.key, from + it.stretch * unit + it.fixed * squeeze])) };
}

// How many of the sorted numbers are at most x.
function upTo(numbers, x) {
  let low = 0;
  for (let high = numbers.length; low < high; ) {
    const middle = (low + high) >> 1;
    if (numbers[middle] <= x) low = middle + 1;
    else high = middle;
  }
  return low;
}

// Whether the label covers no other one, and no line leads through a label.
function isFree({ x, lane, left, right }, others) {
  return others.every((it) => {
    if (it.lane === lane) return right <= it.left || it.right <= left;
    return it.lane < lane ? x < it.left || x > it.right : it.x < left || it.x > right;
  });
}

// Places labels in lanes, the more wanted ones first: rather in a near lane, in the middle, and over nothing else; or nowhere.
function placeLabels(labels, width) {
  const all = labels.map((it) => it.x).sort((left, right) => left - right), placed = [];
  for (const label of labels.slice(0, MOST_LABELS)) {
    const wide = widthOf(label.text) + 6;
    let best = null;
    for (let lane = 0; lane < LANES; lane++) for (const share of [0.5, Math.min(0.5, 9 / wide), Math.max(0.5, 1 - 9 / wide)]) {
      const left = Math.min(Math.max(label.x - wide * share, 0), Math.max(width - wide, 0)), tried = { ...label, lane, left, right: left + wide };
      const covers = upTo(all, tried.right) - upTo(all, left) > 1, cost = 0.6 * lane + (covers ? 1 - lane / 2 : 0) + (share === 0.5 ? 0 : 0.4);
      if ((!best || cost < best.cost) && isFree(tried, placed)) best = { ...tried, cost };
    }
    if (best) placed.push(best);
  }
  return { placed, lanes: placed.reduce((most, it) => Math.max(most, it.lane + 1), 0) };
}

const written = ({ left, right, text }, y, kind) => `<text class="${kind}" x="${rounded((left + right) / 2)}" y="${y}" text-anchor="middle">${escaped(text)}</text>`;
const leader = ({ x }, from, to) => `<line class="lead" x1="${rounded(x)}" x2="${rounded(x)}" y1="${from}" y2="${to}"/>`;

// Labels of the ends of a row's intervals: one where the same label stands twice side by side, as at a hole.
function boundLabels({ intervals }, xOf) {
  const labels = [];
  for (const { key, label } of endsOf([{ intervals }])) {
    const before = labels.at(-1), x = xOf.get(key);
    if (before && before.text === short(label ?? '') && x - before.x < 3 * ROOM_AT_BOUND) before.x = (before.x + x) / 2;
    else labels.push({ x, text: short(label ?? '') });
  }
  return labels;
}

const end = (bound, x, y) => `<circle class="end ${bound.closed ? 'closed' : 'open'}" cx="${rounded(x)}" cy="${y}" r="${END}"/>`;

// The intervals: a band with filled ends where the version is in the set, open ones where it is not, arrows where it goes on.
function drawIntervals({ intervals }, xOf, y, width) {
  const bands = intervals.map(({ low, high }) => {
    const from = low ? xOf.get(low.key) : 4, to = high ? xOf.get(high.key) : width - 4;
    return `<rect class="band" x="${rounded(from)}" y="${y - 4}" width="${rounded(Math.max(1, to - from))}" height="8"/>`
      + (low ? '' : `<path class="goes-on" d="M8 ${y - 6}L2 ${y}L8 ${y + 6}"/>`) + (high ? '' : `<path class="goes-on" d="M${width - 8} ${y - 6}L${width - 2} ${y}L${width - 8} ${y + 6}"/>`);
  });
  const ends = intervals.flatMap(({ low, high }) => [low, high]).filter(Boolean);
  return `<line class="axis" x1="0" x2="${width}" y1="${y}" y2="${y}"/>${bands.join('')}${ends.map((it) => end(it, xOf.get(it.key), y)).join('')}`;
}

// Many versions: strokes, at most one for two pixels, and a match hides others.
function drawStrokes(versions, xs, matches, y) {
  const heights = new Map();
  versions.order.forEach(({ isPre }, i) => {
    const at = 2 * Math.round(xs[i] / 2), height = (matches[i] ? 6 : 2.5) - (isPre ? 1 : 0);
    if (!(heights.get(at) > height)) heights.set(at, height);
  });
  const path = (kind, wanted) => `<path class="strokes ${kind}" d="${[...heights].filter(([, height]) => wanted(height)).map(([at, height]) => `M${at} ${y - height}V${y + height}`).join('')}"/>`;
  return path('no', (height) => height < 4) + path('yes', (height) => height > 4);
}

// Few versions: dots, and ticks for pre-releases; filled if they match.
function drawDots(groups, y, radius) {
  return groups.map(({ x, isPre, isMatch, name }) => {
    const kind = isMatch ? 'yes' : 'no', title = `<title>${escaped(name)}</title>`;
    return isPre ? `<rect class="${kind} tick" x="${rounded(x - 0.5)}" y="${y - 6}" width="1" height="12">${title}</rect>` : `<circle class="${kind} dot" cx="${rounded(x)}" cy="${y}" r="${radius}">${title}</circle>`;
  }).join('');
}

// Versions with equal keys are one dot.
function groupsOf(versions, xs, matches) {
  const groups = [];
  versions.order.forEach((it, i) => {
    const before = groups.at(-1);
    if (before?.key !== it.key) groups.push({ key: it.key, x: xs[i], isPre: it.isPre, isMatch: matches[i] === 1, label: it.normal, name: it.normal });
    else before.name += ` = ${it.normal}`;
  });
  return groups;
}

// The newest match is most wanted, then where matching begins or ends, the outermost, other matches, the rest, pre-releases.
function wantedLabels(groups) {
  const newest = groups.findLast((it) => it.isMatch);
  const rank = (it, i) => {
    if (it === newest) return 0;
    if ((i && groups[i - 1].isMatch !== it.isMatch) || (i + 1 < groups.length && groups[i + 1].isMatch !== it.isMatch)) return 1;
    if (i === 0 || i === groups.length - 1) return 2;
    return it.isPre ? 5 : it.isMatch ? 3 : 4;
  };
  return groups.map((it, i) => ({ x: it.x, text: short(it.label), isMatch: it.isMatch, rank: rank(it, i) })).sort((left, right) => left.rank - right.rank);
}

const inWords = ({ low, high }) => `${low ? `from ${low.label}${low.closed ? '' : ', left out,'}` : 'from the lowest'} ${high ? `to ${high.label}${high.closed ? '' : ', left out'}` : 'without end'}`;

function describe(rows) {
  return rows.map((it) => (it.name && `${it.name}: `) + (it.why || !it.isValid ? it.why || 'not valid' : it.intervals.map(inWords).join('; ') || 'no version')).join('. ');
}

function drawRow(row, versions, { xs, xOf, groups, radius, width }, y) {
  let out = '';
  if (row.name) {
    const said = short(row.list.trim(), Math.max(1, Math.floor((width - row.name.length * 8 - 16) / widthOf('0'))));
    out += `<text class="name" x="0" y="${y + 12}">${row.name}<tspan class="said" dx="8">${escaped(said)}</tspan></text>`;
    y += 20;
  }
  const { placed, lanes } = placeLabels(boundLabels(row, xOf), width), band = y + lanes * LANE + 12, rail = band + 22;
  for (const it of placed) out += (it.lane ? leader(it, band - 9 - it.lane * LANE, band - 7) : '') + written(it, band - 12 - it.lane * LANE, '');
  out += drawIntervals(row, xOf, band, width) + (groups ? drawDots(groupsOf(versions, xs, row.matches), rail, radius) : drawStrokes(versions, xs, row.matches, rail));
  return { out, y: rail + 14 };
}

// Labels of many versions: those where matching begins or ends, and the outermost.
function groupsAtEdges(versions, xs, { spans, matches }) {
  const positions = [0, versions.order.length - 1, matches.lastIndexOf(1), ...spans.flatMap(([from, to]) => [from - 1, from, to - 1, to])];
  const edges = [...new Set(positions)].filter((i) => i >= 0 && i < versions.order.length).sort((left, right) => left - right);
  return edges.map((i) => ({ x: xs[i], label: versions.order[i].normal, isPre: versions.order[i].isPre, isMatch: matches[i] === 1 }));
}

function legend(groups, labels, versions, rows) {
  const said = [groups ? 'Dots are versions, ticks pre-releases; filled ones match.' : 'Strokes are versions: long ones match.'];
  if (endsOf(rows).length) said.unshift('A filled end is in the set, an open one is not.');
  if (labels.length < versions.order.length) said.push(`${labels.length} of ${many(versions.order.length, 'version')} ${labels.length === 1 ? 'has' : 'have'} a label.`);
  return said.join(' ');
}

/** The picture of the rows, and the words below it. A row has a name, the list, its intervals, and of the sorted versions which it contains (`spans`) and
 * which match (`matches`, without pre-releases that are left out). */
export function drawLine(rows, versions, width) {
  const bounds = boundsOf(rows, versions), { xs, xOf } = placed(versions, bounds, width);
  let gap = Infinity;
  for (let i = 1; i < xs.length; i++) if (xs[i] > xs[i - 1]) gap = Math.min(gap, xs[i] - xs[i - 1]);
  const groups = gap >= CROWDED, radius = Math.min(5, Math.max(2, gap / 2 - 1)), last = rows.at(-1);
  let out = '', y = 2;
  rows.forEach((row, i) => {
    const drawn = drawRow(row, versions, { xs, xOf, groups, radius: rounded(radius), width }, y + (i ? 10 : 0));
    out += drawn.out;
    y = drawn.y;
  });
  const shown = groups ? groupsOf(versions, xs, last.matches) : groupsAtEdges(versions, xs, last);
  const { placed: labels, lanes } = placeLabels(wantedLabels(shown), width);
  for (const it of labels) out += leader(it, y - 6, y + it.lane * LANE) + written(it, y + 10 + it.lane * LANE, it.isMatch ? '' : 'dim');
  const height = y + lanes * LANE + 4;
  return {
    svg: `<svg role="img" aria-label="${escaped(`Number line. ${describe(rows)}.`)}" viewBox="0 0 ${width} ${height}" height="${height}">${out}</svg>`,
    legend: legend(groups, labels, versions, rows),
  };
}
