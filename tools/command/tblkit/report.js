// The session is beside this script, packed: `requests` and `actors` are lists of names; `actor`, `request` and `status` tell of each
// request by its place; `lines` has its answer as text. Each table has its spans (from a request up to another), its refusals, and the
// places of all requests about it. Only what is in view is drawn.

// In points: how wide a dot is, below which width bars are drawn as one, from which width of a request on its name is written, and how
// wide a letter, a name and the number below a refusal are.
const DOT = 6, NARROW = 3, WRITTEN = 14, LETTER = 6.6, ROOM = 66, NUMBER = 20, NUMBERS = 50;
// How many requests are filled in at once, and how many are in view at least.
const CHUNK = 100, LEAST = 8;
const byId = id => document.getElementById(id);
const escaped = words => String(words).replace(/[&<>"]/g, it => ({ '&': '&amp;', '<': '&lt;', '>': '&gt;', '"': '&quot;' }[it]));
const inRange = (value, least, most) => Math.max(least, Math.min(most, value));

async function unpacked(id) {
  const bytes = Uint8Array.from(atob(byId(id).textContent), it => it.charCodeAt(0));
  const stream = new Blob([bytes]).stream().pipeThrough(new DecompressionStream('deflate'));
  return new Response(stream).json();
}

if (!('DecompressionStream' in window)) byId('said').textContent = 'This page needs a browser of 2023 or later.';
const session = await unpacked('session');
const length = session.status.length;
const flags = places => {
  const found = new Uint8Array(length);
  places.forEach(place => { found[place] = 1; });
  return found;
};
const refused = flags(session.refused);
const tables = session.tables.map(({ name, spans, refusals, about }) => ({
  name, refusals, about, spans: spans.map(([first, last, kind, words, number]) => ({ first, last, kind, words, number })),
}));
// What is looked at: the places from `first` up to `last`, and of the requests those in `shown`, which `isShown` has by place and `by` by actor.
const view = { first: 0, last: Math.max(1, length), shown: [], isShown: flags([]), by: [], marked: -1 };

// ---- what is looked at

const statusWords = status => session.statuses[status] ? `${status} ${session.statuses[status]}` : String(status);
const requestWords = place => `${place} ${session.requests[session.request[place]]}: ${statusWords(session.status[place])}`;
const counts = { refused: place => refused[place], all: () => true };

function chooser(kind) {
  const [name, number] = kind.split('-');
  if (name === 'status') return place => session.status[place] === Number(number);
  if (name === 'event') {
    const places = new Set(session.events[number]);
    return place => places.has(place);
  }
  return counts[name];
}

function choose() {
  const table = byId('table').value, words = byId('words').value, isChosen = chooser(byId('kind').value);
  const places = table === '' ? [...session.status.keys()] : tables[table].about;
  view.shown = places.filter(place => isChosen(place) && (!words || session.lines[place].includes(words)));
  view.isShown = flags(view.shown);
  view.by = session.actors.map(() => []);
  view.shown.forEach(place => view.by[session.actor[place]].push(place));
  byId('count').textContent = `${view.shown.length.toLocaleString('en')} of ${length.toLocaleString('en')} requests`;
  for (const lane of document.querySelectorAll('.lane[data-lane]')) lane.hidden = table !== '' && lane.dataset.lane !== table;
  drawAll();
  fillLog();
}

function zoom(first, last) {
  const width = inRange(Math.round(last - first), Math.min(LEAST, Math.max(1, length)), Math.max(1, length));
  view.first = inRange(Math.round(first), 0, Math.max(0, length - width));
  view.last = view.first + width;
  byId('from').value = view.first;
  byId('to').value = Math.max(view.first, Math.min(length, view.last) - 1);
  drawAll();
}

function scaled(factor) {
  const middle = view.marked >= view.first && view.marked < view.last ? view.marked + 0.5 : (view.first + view.last) / 2;
  const width = Math.max(LEAST, (view.last - view.first) * factor);
  const share = (middle - view.first) / (view.last - view.first);
  zoom(middle - width * share, middle + width * (1 - share));
}

const moved = share => zoom(view.first + (view.last - view.first) * share, view.last + (view.last - view.first) * share);

// ---- the picture

// The width of a request. Beside the last one there is room for its name.
const step = width => {
  const count = view.last - view.first;
  return (width - (width / count >= WRITTEN ? ROOM : 0)) / count;
};
const at = (place, width) => +((place - view.first + 0.5) * step(width)).toFixed(1);

function firstFrom(places, place) {
  let low = 0, high = places.length;
  while (low < high) {
    const middle = (low + high) >> 1;
    if (places[middle] < place) low = middle + 1; else high = middle;
  }
  return low;
}

const visible = places => places.slice(firstFrom(places, view.first), firstFrom(places, view.last));

function made(name, attributes, title, content = '') {
  const said = Object.entries(attributes).filter(([, value]) => value !== undefined && value !== null);
  return `<${name}${said.map(([key, value]) => ` ${key}="${escaped(value)}"`).join('')}>${title ? `<title>${escaped(title)}</title>` : ''}${content}</${name}>`;
}

// Places whose marks would cover each other, as one.
function gathered(places, width, least) {
  const found = [];
  for (const place of places) {
    const last = found.at(-1);
    if (last && at(place, width) - last.at < least) last.places.push(place);
    else found.push({ at: at(place, width), places: [place] });
  }
  return found;
}

function refusalWords(places) {
  const numbers = new Map();
  for (const place of places) numbers.set(session.status[place], (numbers.get(session.status[place]) || 0) + 1);
  const most = [...numbers].sort((one, other) => other[1] - one[1]);
  const title = places.length === 1 ? requestWords(places[0])
    : `${places.length} refusals, from request ${places[0]} to ${places.at(-1)}: ${most.map(([it, count]) => `${statusWords(it)} (${count})`).join(', ')}`;
  const [status, count] = most[0];
  return { title, label: count === 1 ? String(status) : `${status}×${count}`, more: most.length > 1 ? `+${places.length - count}` : '' };
}

// The triangles of refusals, each with its number below it; those that stand close together are one with the commonest number.
function refusals(places, below, width, table) {
  const alone = gathered(places, width, NUMBER);
  return (alone.every(it => it.places.length === 1) ? alone : gathered(places, width, NUMBERS)).map(it => {
    const { title, label, more } = refusalWords(it.places), isOne = it.places.length === 1;
    const own = { class: 'refused', d: `M${it.at} ${below}l5 9h-10z`, 'data-entry': it.places[0], 'data-table': table };
    if (isOne) Object.assign(own, { 'data-status': session.status[it.places[0]], 'data-actor': table === undefined ? session.actors[session.actor[it.places[0]]].number : undefined });
    else own['data-count'] = it.places.length;
    const place = inRange(it.at, label.length * LETTER / 2, width - label.length * LETTER / 2);
    return made('path', own, title) + made('text', { x: place, y: below + 19, class: 'status' }, '', label)
      + (more ? made('text', { x: place, y: below + 29, class: 'status' }, '', more) : '');
  }).join('');
}

function drawActor(actor, width) {
  const places = visible(view.by[actor]);
  const isWritten = width / (view.last - view.first) >= WRITTEN, below = isWritten ? 62 : 14;
  const accepted = places.filter(place => !refused[place]);
  const dots = gathered(accepted, width, DOT).map(it => made('circle', {
    cx: it.at, cy: below, r: it.places.length > 1 ? 4 : Math.min(5, Math.max(3, step(width) / 2)), class: 'accepted', 'data-entry': it.places[0],
    'data-actor': it.places.length === 1 ? session.actors[actor].number : undefined,
    'data-status': it.places.length === 1 ? session.status[it.places[0]] : undefined, 'data-count': it.places.length > 1 ? it.places.length : undefined,
  }, it.places.length === 1 ? requestWords(it.places[0]) : `${it.places.length} accepted, from request ${it.places[0]} to ${it.places.at(-1)}`));
  const names = isWritten ? places.map(place => made('text', {
    x: at(place, width), y: below - 8, class: 'request', transform: `rotate(-38 ${at(place, width)} ${below - 8})`,
  }, '', escaped(session.requests[session.request[place]]))) : [];
  const deepest = places.some(place => refused[place]) ? 36 : 14;
  return { height: below + deepest, content: dots.join('') + refusals(places.filter(place => refused[place]), below - 5, width) + names.join('') };
}

// Spans as bars. Those that are narrower than a mark are drawn as one with the ones beside them.
function bars(spans, below, height, width, table, kind, more) {
  const found = [];
  for (const span of spans) {
    if (span.last < view.first || span.first >= view.last) continue;
    const begin = Math.max(0, at(span.first, width)), end = span.last < length ? Math.min(width, at(span.last, width)) : width;
    const last = found.at(-1);
    if (last && end - begin < NARROW && begin - last.end < NARROW && last.end - last.begin < NARROW * (last.spans.length + 1)) {
      last.spans.push(span);
      last.end = Math.max(last.end, end);
    } else found.push({ begin, end, spans: [span] });
  }
  return found.map(({ begin, end, spans: some }) => {
    const span = some[0], room = Math.max(NARROW, end - begin), isOne = some.length === 1;
    const style = isOne ? more(span) : { class: 'many' };
    const title = isOne ? `${span.words}, from request ${span.first} to ${span.last}` : `${some.length} of them, from request ${span.first} to ${some.at(-1).last}: ${span.words} to ${some.at(-1).words}`;
    const own = { x: begin, y: below, width: room, height, 'data-entry': span.first, 'data-kind': isOne ? kind : undefined, 'data-count': isOne ? undefined : some.length };
    if (isOne) Object.assign(own, { 'data-from': span.first, 'data-to': span.last, 'data-table': table });
    const label = kind !== 'image' ? '' : isOne ? [span.words, String(span.number)].find(it => it.length * LETTER + 8 < room) : [`${some.length} images`, `${some.length}`].find(it => it.length * LETTER + 8 < room);
    return made('rect', { ...own, ...style }, title) + (label ? made('text', { x: begin + 4, y: below + 12, class: 'written' }, '', label) : '');
  }).join('');
}

function rowsOfPins(pins) {
  const handles = [...new Set(pins.map(it => it.number))].sort((one, other) => one - other);
  return new Map(handles.map((it, row) => [it, row]));
}

function drawTable(table, width) {
  const { name, spans, refusals: places } = tables[table], of = kind => spans.filter(it => it.kind === kind);
  const rows = rowsOfPins(of('pin')), image = 13, pins = image + 19, end = pins + 6 * Math.max(1, rows.size) + 4;
  const content = [
    bars(of('registered'), 2, end - 2, width, name, 'registered', () => ({ class: 'registered' })),
    ...['load', 'dump'].map(kind => bars(of(kind), 4, 8, width, name, kind, it => ({ class: session.phases[it.words], 'data-phase': it.words }))),
    bars(of('image'), image, 17, width, name, 'image', it => ({
      class: it.words.endsWith('recovered') ? 'recovered' : `image-${(it.number - 1) % 4}`, 'data-image': it.number,
      'data-recovered': it.words.endsWith('recovered') ? 'yes' : undefined })),
    ...[...rows].map(([handle, row]) => bars(of('pin').filter(it => it.number === handle), pins + 6 * row, 4, width, name, 'pin', () => ({ class: 'held', 'data-handle': handle }))),
    refusals(visible(places).filter(place => view.isShown[place]), end + 2, width, name)];
  return { height: end + (places.length ? 36 : 6), content: content.join('') };
}

function ticks(width) {
  const every = [1, 2, 5, 10, 20, 50, 100, 200, 500, 1000, 2000, 5000].find(it => it * step(width) >= 54) || 10000;
  const found = [];
  for (let place = Math.ceil(view.first / every) * every; place < view.last; place += every) found.push(place);
  return found;
}

// What is behind all lanes: a line at some places, one at each reset, and the request that is marked.
function frame(height, width) {
  const lines = ticks(width).map(place => made('line', { x1: at(place, width), x2: at(place, width), y1: 0, y2: height, class: 'grid' }));
  const resets = gathered(visible(session.resets), width, 3).map(it => made('line', {
    x1: it.at, x2: it.at, y1: 0, y2: height, class: 'reset', 'data-entry': it.places[0],
  }, it.places.map(requestWords).slice(0, 9).join('; ')));
  const isMarked = view.marked >= view.first && view.marked < view.last;
  const cursor = made('rect', { class: 'cursor', x: isMarked ? at(view.marked - 0.5, width) : 0, y: 0, width: isMarked ? Math.max(3, step(width)) : 0, height });
  return cursor + lines.join('') + resets.join('');
}

function drawRuler(width) {
  const numbers = ticks(width).map(place => made('text', { x: inRange(at(place, width), 4 * LETTER, width - 4 * LETTER), y: 28, class: 'tick' }, '', place));
  const resets = gathered(visible(session.resets), width, 7).map(it => made('path', {
    d: `M${it.at - 5} 2h10l-5 9z`, class: 'reset-mark', 'data-entry': it.places[0], 'data-kind': it.places.length === 1 ? 'reset' : undefined,
    'data-count': it.places.length > 1 ? it.places.length : undefined }, it.places.map(requestWords).slice(0, 9).join('; ')));
  return { height: 32, content: numbers.join('') + resets.join('') };
}

const drawings = { ruler: (_, width) => drawRuler(width), actor: drawActor, table: drawTable };

function draw(lane) {
  const svg = lane.querySelector('svg'), width = Math.max(100, svg.parentElement.clientWidth);
  const { height, content } = drawings[lane.dataset.kind](Number(lane.dataset.number), width);
  svg.setAttribute('height', height);
  svg.setAttribute('viewBox', `0 0 ${width} ${height}`);
  svg.innerHTML = frame(height, width) + content;
  markIn(svg);
}

const inSight = new Set();
const drawAll = () => { inSight.forEach(it => { if (!it.hidden) draw(it); }); drawOverview(); };
const laneWatch = new IntersectionObserver(seen => seen.forEach(({ target, isIntersecting }) => {
  if (!isIntersecting) inSight.delete(target);
  else if (!inSight.has(target)) { inSight.add(target); draw(target); }
}), { root: byId('timeline'), rootMargin: '400px 0px' });

// The whole session in a strip: where something was refused or reset, and which part is in the picture below.
function drawOverview() {
  const svg = byId('overview'), width = Math.max(100, svg.parentElement.clientWidth), scale = width / Math.max(1, length);
  const strip = (places, name, top, height) => made('path', {
    class: name, d: [...new Set(places.map(it => Math.floor(it * scale / 2)))].map(it => `M${it * 2} ${top}h2v${height}h-2z`).join('') });
  const window = made('rect', { x: view.first * scale, y: 1, width: Math.max(4, (view.last - view.first) * scale), height: 22, class: 'window' });
  svg.setAttribute('viewBox', `0 0 ${width} 24`);
  svg.innerHTML = window + strip(view.shown.filter(it => !refused[it]), 'accepted', 14, 4) + strip(view.shown.filter(it => refused[it]), 'refused', 5, 8)
    + strip(session.resets, 'reset-mark', 1, 22);
}

// ---- the requests below

let chunks = [];
const chunkWatch = new IntersectionObserver(seen => seen.forEach(({ target, isIntersecting }) => {
  if (isIntersecting) fill(target);
  else if (target.childElementCount) {
    target.style.height = `${target.offsetHeight}px`;
    target.replaceChildren();
  }
}), { rootMargin: '1200px 0px' });

function entry(place) {
  const lines = session.lines[place], end = lines.indexOf(' ');
  const first = `<a href="#entry-${place}">${lines.slice(0, end)}</a>${escaped(lines.slice(end))}`;
  return `<div id="entry-${place}" data-entry="${place}" class="entry${refused[place] ? ' refused' : ''}${place === view.marked ? ' marked' : ''}">${first}</div>`;
}

function fill(chunk) {
  if (chunk.childElementCount) return;
  chunk.innerHTML = view.shown.slice(chunk.dataset.first, Number(chunk.dataset.first) + CHUNK).map(entry).join('');
  chunk.style.height = '';
}

const linesOf = words => words.split('\n').length;

function fillLog() {
  chunkWatch.disconnect();
  chunks = [];
  for (let first = 0; first < view.shown.length; first += CHUNK) {
    const chunk = document.createElement('div');
    chunk.dataset.first = first;
    chunk.style.height = `${view.shown.slice(first, first + CHUNK).reduce((sum, place) => sum + 18 * linesOf(session.lines[place]) + 4, 0)}px`;
    chunks.push(chunk);
  }
  byId('log').replaceChildren(...chunks);
  chunks.forEach(it => chunkWatch.observe(it));
}

// ---- one request, marked in the picture and below

function markIn(part) {
  part.querySelectorAll('.marked').forEach(it => it.classList.remove('marked'));
  part.querySelectorAll(`[data-entry="${view.marked}"]`).forEach(it => it.classList.add('marked'));
}

function mark(place, isFromPicture) {
  if (!(place >= 0 && place < length)) return;
  view.marked = place;
  if (!view.shown.includes(place)) {
    ['kind', 'table', 'words'].forEach(id => { byId(id).value = id === 'kind' ? 'all' : ''; });
    choose();
  }
  if (place < view.first || place >= view.last) zoom(place - (view.last - view.first) / 2, place + (view.last - view.first) / 2);
  else drawAll();
  const chunk = chunks[Math.floor(firstFrom(view.shown, place) / CHUNK)];
  fill(chunk);
  markIn(byId('log'));
  if (isFromPicture) byId(`entry-${place}`).scrollIntoView({ block: 'nearest' });
  byId('said').textContent = session.lines[place].split('\n')[0];
}

function moveMark(by) {
  if (!view.shown.length) return;
  const next = view.marked < 0 ? 0 : firstFrom(view.shown, view.marked) + by;
  mark(view.shown[inRange(next, 0, view.shown.length - 1)], true);
}

// ---- what people do

function dragged(event) {
  const svg = byId('overview'), box = svg.getBoundingClientRect(), place = it => (it.clientX - box.left) / box.width * length;
  const from = place(event);
  const move = to => {
    if (Math.abs(to.clientX - event.clientX) > 4) zoom(Math.min(from, place(to)), Math.max(from, place(to)));
  };
  const stop = to => {
    removeEventListener('pointermove', move);
    removeEventListener('pointerup', stop);
    if (Math.abs(to.clientX - event.clientX) <= 4) zoom(from - (view.last - view.first) / 2, from + (view.last - view.first) / 2);
  };
  addEventListener('pointermove', move);
  addEventListener('pointerup', stop);
}

const buttons = { earlier: () => moved(-0.5), later: () => moved(0.5), in: () => scaled(0.5), out: () => scaled(2), all: () => zoom(0, length) };
const keys = { ArrowLeft: () => moveMark(-1), ArrowRight: () => moveMark(1), '+': buttons.in, '-': buttons.out };

byId('controls').addEventListener('click', event => buttons[event.target.dataset.do]?.());
byId('overview').addEventListener('pointerdown', dragged);
byId('timeline').addEventListener('keydown', event => {
  if (event.ctrlKey || event.metaKey || event.altKey || !keys[event.key]) return;
  event.preventDefault();
  keys[event.key]();
});
for (const id of ['kind', 'table', 'words']) byId(id).addEventListener('input', choose);
for (const id of ['from', 'to']) byId(id).addEventListener('change', () => zoom(Number(byId('from').value), Number(byId('to').value) + 1));
document.addEventListener('click', event => {
  const found = event.target.closest('[data-entry]'), name = event.target.closest('[data-choose]');
  if (found) {
    const isLink = event.target.closest('a') !== null;
    mark(Number(found.dataset.entry), found.closest('svg') !== null);
    if (isLink) event.preventDefault();
  } else if (name) {
    byId('table').value = byId('table').value === name.dataset.choose ? '' : name.dataset.choose;
    choose();
  }
});
const followed = () => { if (location.hash.startsWith('#entry-')) mark(Number(location.hash.slice(7)), true); };
addEventListener('hashchange', followed);
let drawnWidth = 0;
new ResizeObserver(() => {
  if (drawnWidth !== byId('timeline').clientWidth) drawAll();
  drawnWidth = byId('timeline').clientWidth;
}).observe(byId('timeline'));

zoom(0, length);
choose();
document.querySelectorAll('.lane').forEach(it => laneWatch.observe(it));
followed();
document.documentElement.dataset.ready = 'yes';
