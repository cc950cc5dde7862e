'use strict';
// The page: what is chosen and typed, and what is shown of it. Texts of a capture become text nodes, and nothing else.

const $ = (id) => document.getElementById(id);
const MOST_LINES = 1000, MOST_BYTES = 4096, MOST_ROWS = 2000, MOST_NODES = 300;
// Lines may be wider than their boxes: their beginning is shown.
const NEAREST = { block: 'nearest', inline: 'start' };
// A larger capture or a longer text waits for a pause in typing.
const MANY_PACKETS = 1e5, LONG_TEXT = 2000, PAUSE = 250;
const OUTCOMES = {
  [KEPT]: ['✓', 'matches', 'keeps'], [NOT_KEPT]: ['✗', "doesn't match", 'drops'], [REJECTED]: ['!', 'is rejected', 'odd'],
  [NOT_FILTERED]: ['–', "isn't filtered", 'odd'], '.': ['', 'not evaluated', 'not-asked'], '?': ['', 'too deep to evaluate by itself', 'not-asked'],
};

// The packets that are listed, as indexes of the capture; the first shown one, the chosen one, and the step of its runs (-1: none).
let capkit, capture, fileName = '', listed = [], first = 0, at = -1, step = -1, waiting;
const sides = [];

function made(name, text, kind = '') {
  const element = Object.assign(document.createElement(name), { className: kind });
  if (text !== undefined) element.textContent = text;
  return element;
}
function say(element, text, isBad = false) {
  if (element.textContent !== text) element.textContent = text;
  element.classList.toggle('bad', isBad);
}
const number = (n) => n.toLocaleString('en');
const counted = (n, what) => `${number(n)} ${what}${n === 1 ? '' : 's'}`;
const register = (value) => (value < 10 ? String(value) : `${hex(value)} = ${value}`);
// Control characters, and what else has no shape, are shown by their numbers; so are bytes that aren't UTF-8.
const visible = (text) => text.replace(/[\p{Cc}\p{Cf}\p{Cs}\p{Co}\p{Cn}\p{Zl}\p{Zp}]/gu, (it) => `\\u{${it.codePointAt(0).toString(16)}}`);
function textOfBytes(data) {
  try {
    return visible(new TextDecoder('utf-8', { fatal: true, ignoreBOM: true }).decode(data));
  } catch {
    return visible([...data].map((it) => (it < 128 ? String.fromCharCode(it) : `\\x${it.toString(16)}`)).join(''));
  }
}

// A part of the page made of a template; elements get ids of their own, and are returned by their names in it.
function cloned(name, place) {
  const content = $(name).content.cloneNode(true), parts = {}, idOf = (it) => `${it}-${place}`;
  for (const it of content.querySelectorAll('[data-id]')) parts[it.dataset.id] = Object.assign(it, { id: idOf(it.dataset.id) });
  for (const it of content.querySelectorAll('[data-for]')) it.htmlFor = idOf(it.dataset.for);
  for (const what of ['labelledby', 'describedby']) {
    for (const it of content.querySelectorAll(`[data-${what}]`)) it.setAttribute(`aria-${what}`, idOf(it.dataset[what]));
  }
  parts.section = content.firstElementChild;
  return parts;
}

// ---- a capture

function open(data, name) {
  capture = capkit.open(data);
  fileName = name;
  const { count, fault, offset } = capture;
  const damage = fault && `; it is damaged at byte ${offset} (${fault}), so nothing is read from there on`;
  say($('about'), `${visible(name)}: ${counted(data.length, 'byte')}, ${counted(count, 'packet')}${damage}`, !!fault);
  [listed, at] = [[], -1];
  for (const side of sides) Object.assign(side, { isNew: true, kept: new Uint8Array(count) }, noPrograms());
  update();
  // While a filter is refused, no packet of this capture matches.
  if (sides.some(({ refusal }) => refusal)) list();
}

// ---- filters

// The programs of a filter by link types, why it has none, the programs as they are shown, and those of its parts.
const noPrograms = () => ({ programs: new Map(), unread: new Map(), looks: new Map(), partPrograms: new Map() });

function addSide() {
  const place = sides.length, parts = cloned('filter', place), run = cloned('run', place);
  const side = { parts, run, isNew: true, kept: new Uint8Array(capture?.count ?? 0), ...noPrograms() };
  sides.push(side);
  $('filters').append(parts.section);
  $('runs').append(run.section);
  const changed = guarded(() => { side.isNew = true; later(update, parts.text.value.length); });
  parts.text.addEventListener('input', changed);
  parts.text.addEventListener('scroll', () => { parts.mirror.scrollTop = parts.text.scrollTop; });
  parts.kind.addEventListener('change', guarded(() => { changeKind(side); changed(); }));
  parts.save.addEventListener('click', guarded(() => save(side)));
  nameSides();
  return side;
}

// What a filter is called before something of it: nothing if it is the only one.
const letterOf = (place, after) => (sides.length > 1 ? `Filter ${'AB'[place]}${after}` : '');
function nameSides() {
  sides.forEach(({ parts, run }, place) => {
    parts.title.textContent = letterOf(place, '') || 'Filter';
    parts.parts.textContent = letterOf(place, ': its parts') || 'Its parts';
    run.program.textContent = letterOf(place, ': the program') || 'The program';
    run.ways.textContent = letterOf(place, ': the ways through it') || 'The ways through it';
  });
  $('second').setAttribute('aria-pressed', sides.length > 1);
  const option = $('show').querySelector('[value=differ]');
  option.hidden = option.disabled = sides.length < 2;
  if (option.disabled && $('show').value === 'differ') $('show').value = KEPT;
}

// A second filter, or none.
function compare(text) {
  if (sides.length < 2) {
    const side = addSide();
    side.parts.text.value = text ?? sides[0].parts.text.value;
    if (text === undefined) side.parts.text.focus();
  } else {
    const { parts, run } = sides.pop();
    parts.section.remove();
    run.section.remove();
    nameSides();
  }
  update();
}

// From an expression to its listing: that of the program of the first link type.
function changeKind(side) {
  const program = side.programs.values().next().value;
  if (side.parts.kind.value === 'listing' && program) side.parts.text.value = capkit.listingOf(program);
}

// What a filter means, or why it is refused.
function check(side) {
  const { text: { value }, kind } = side.parts;
  side.listing = kind.value === 'listing';
  const told = side.listing ? capkit.tried(() => capkit.readListing(value)) : capkit.explain(value);
  side.refusal = told.message === undefined ? undefined : told;
  if (!side.refusal) side.meaning = told.text;
}

// Its programs, one for each link type.
function compile(side) {
  const { value } = side.parts.text, links = capture.links.size ? [...capture.links.keys()] : [CAPKIT.LINK_ETHERNET];
  Object.assign(side, noPrograms());
  for (const link of links) {
    const program = side.listing ? { ...capkit.readListing(value), link } : capkit.compile(value, link);
    if (program.program) side.programs.set(link, program); else side.unread.set(link, program.message);
  }
}

// What of a refused text is wrong: from one character to another. Places in expressions are bytes from 1, in listings lines.
function spanOf(side, text) {
  const { status, place } = side.refusal;
  if (side.listing) {
    const lines = text.split('\n'), line = status === CAPKIT.NOT_A_LISTING ? place : status > CAPKIT.TOO_MANY && status < CAPKIT.NO_RETURN ? place + 2 : 0;
    if (!line || line > lines.length) return [0, text.length];
    const begin = lines.slice(0, line - 1).reduce((sum, it) => sum + it.length + 1, 0);
    return [begin, begin + lines[line - 1].length];
  }
  if (!place) return [0, text.length];
  const begin = new TextDecoder().decode(new TextEncoder().encode(text).slice(0, place - 1)).length;
  return [begin, begin + /^([^\s()!&|=<>[\]]+|[^]?)/u.exec(text.slice(begin))[0].length];
}

function refusalText({ listing, refusal: { status, message, place } }) {
  if (!listing) return place ? `${message} (at byte ${place})` : message;
  if (status === CAPKIT.NOT_A_LISTING) return `${message} (line ${place})`;
  return `${message}${status > CAPKIT.TOO_MANY && status < CAPKIT.NO_RETURN ? ` (instruction ${place})` : ''}: no packet is run on it`;
}

function showFilter(side) {
  const { parts, refusal } = side, text = parts.text.value, [begin, end] = refusal ? spanOf(side, text) : [text.length, text.length];
  // A line feed at the end has a line in a textarea, but not elsewhere.
  parts.mirror.replaceChildren(text.slice(0, begin), made('u', text.slice(begin, end)), `${text.slice(end)} `);
  parts.mirror.scrollTop = parts.text.scrollTop;
  parts.text.rows = Math.min(8, Math.max(2, text.split('\n').length));
  parts.text.setAttribute('aria-invalid', !!refusal);
  parts.save.disabled = !!refusal;
  parts.explained.classList.toggle('stale', !!refusal);
  if (refusal) return say(parts.message, refusalText(side), true);
  parts.explained.hidden = side.listing;
  if (side.listing) return undefined;
  parts.meaning.textContent = side.meaning || 'The empty expression: every packet matches.';
  showTree(side);
  return undefined;
}

// What is done at once, or after a pause if it takes long.
function later(action, length) {
  clearTimeout(waiting);
  if (capture && (capture.count > MANY_PACKETS || length > LONG_TEXT)) waiting = setTimeout(guarded(action), PAUSE); else if (capture) action();
}

// While a filter is refused, the results are those before it was.
function update() {
  sides.forEach(check);
  sides.forEach(showFilter);
  const isRefused = sides.some(({ refusal }) => refusal);
  document.body.classList.toggle('refused', isRefused);
  if (isRefused) return;
  capkit.forget();
  sides.forEach(compile);
  sides.forEach(match);
  say($('differ'), sides.length > 1 ? `The filters differ on ${number(differences().length)} of ${counted(capture.count, 'packet')}.` : '');
  list();
}

function match(side) {
  const began = performance.now();
  if (side.isNew) {
    side.kept = capture.filter(side.programs);
    side.took = performance.now() - began;
    side.isNew = false;
  }
  const matching = side.kept.reduce((sum, it) => sum + it, 0);
  const unread = [...side.unread].map(([link, message]) => `; ${message} ${link}, so ${counted(capture.links.get(link) ?? 0, 'packet')} of it can't match`);
  const told = `${number(matching)} of ${counted(capture.count, 'packet')} match, in ${side.took.toFixed(0)} ms${unread.join('')}`;
  say(side.parts.message, told, unread.length > 0);
}

const differences = () => Array.from(sides[0].kept.keys()).filter((i) => sides[0].kept[i] !== sides[1].kept[i]);

function save(side) {
  const { pieces, refusal } = capture.write(side.kept, !side.unread.size);
  if (refusal) return say(side.parts.saved, `Nothing is saved: ${refusal}`, true);
  const link = made('a');
  link.href = URL.createObjectURL(new Blob(pieces, { type: 'application/octet-stream' }));
  link.download = `${fileName.replace(/\.[^.]*$/, '')}-filtered.pcapng`;
  link.click();
  setTimeout(() => URL.revokeObjectURL(link.href), 60000);
  return say(side.parts.saved, `Saved ${counted(side.kept.reduce((sum, it) => sum + it, 0), 'packet')}.`);
}

// ---- the list of packets

const verdictOf = (side, i) => {
  const it = capture.packet(i);
  return side.kept[i] ? KEPT : capkit.verdict(it, side.programs.get(it.link));
};

// The packets that `Show` names: with two filters, those for which one of them has the outcome.
function packetsOf(show) {
  if (show === 'differ') return differences();
  const all = Array.from({ length: capture.count }, (_, i) => i);
  if (show === 'all') return all;
  const isShown = show === KEPT ? (side, i) => side.kept[i] : (side, i) => !side.kept[i] && verdictOf(side, i) === show;
  return all.filter((i) => sides.some((side) => isShown(side, i)));
}

function list() {
  const chosen = listed[at];
  listed = packetsOf($('show').value);
  const place = at < 0 ? -1 : listed.indexOf(chosen);
  first = -1;
  select(place < 0 ? Math.min(0, listed.length - 1) : place);
}

function optionOf(i, place) {
  const option = made('div', undefined, sides.length > 1 && sides[0].kept[i] !== sides[1].kept[i] ? 'differs' : '');
  option.id = `packet-${i + 1}`;
  option.setAttribute('role', 'option');
  option.setAttribute('aria-posinset', place + 1);
  option.setAttribute('aria-setsize', listed.length);
  for (const side of sides) {
    const [sign, text, kind] = OUTCOMES[verdictOf(side, i)], mark = made('span', sign, `mark mark-${kind}`);
    mark.setAttribute('aria-hidden', 'true');
    option.append(mark, made('span', `${text}, `, 'spoken'));
  }
  option.append(`${String(i + 1).padStart(String(capture.count).length)}  ${capture.line(capture.packet(i))}`);
  return option;
}

// The lines of the packets from `first` on.
function showLines() {
  const lines = listed.slice(first, first + MOST_LINES), end = first + lines.length;
  $('list').replaceChildren(...lines.map((i, place) => optionOf(i, first + place)));
  $('list').hidden = !lines.length;
  $('earlier').hidden = $('later').hidden = lines.length === listed.length;
  $('earlier').disabled = first === 0;
  $('later').disabled = end >= listed.length;
  const range = lines.length < listed.length ? `, of which ${number(first + 1)} to ${number(end)} are listed` : '';
  say($('shown'), `${number(listed.length)} of ${counted(capture.count, 'packet')}${range}`);
}

// Chooses a packet of the list.
function select(place) {
  const begin = Math.max(0, Math.floor(place / MOST_LINES)) * MOST_LINES;
  at = place;
  step = -1;
  if (begin !== first) { first = begin; showLines(); }
  $('list').querySelector('[aria-selected]')?.removeAttribute('aria-selected');
  const option = $('list').children[place - first];
  option?.setAttribute('aria-selected', 'true');
  option?.scrollIntoView(NEAREST);
  if (option) $('list').setAttribute('aria-activedescendant', option.id); else $('list').removeAttribute('aria-activedescendant');
  showPacket();
}

const KEYS = { ArrowDown: 1, ArrowUp: -1, PageDown: 10, PageUp: -10, Home: -Infinity, End: Infinity };
function pressed(event) {
  const by = KEYS[event.key];
  if (!by || event.ctrlKey || event.altKey || event.metaKey) return;
  event.preventDefault();
  const place = Math.max(0, Math.min(listed.length - 1, at + by));
  if (listed.length && place !== at) select(place);
}
function turn(by) {
  if (listed.length) select(Math.max(0, Math.min(listed.length - 1, first + by * MOST_LINES)));
}

// ---- the chosen packet

// A program for a link type as it is looked at: its instructions, in words.
function lookOf(side, link) {
  const program = side.programs.get(link);
  if (!program) return undefined;
  if (!side.looks.has(link)) {
    const instructions = capkit.instructions(program);
    side.looks.set(link, { link, program, instructions, glosses: glossesOf(instructions, link) });
  }
  return side.looks.get(link);
}

function showPacket() {
  const i = listed[at], it = i === undefined ? undefined : capture.packet(i);
  $('packet').textContent = it ? `Packet ${i + 1}` : 'No packet';
  $('line').textContent = it ? capture.line(it) : '';
  for (const side of sides) {
    side.look = lookOf(side, it ? it.link : [...side.programs.keys()][0]);
    side.trace = it && side.look ? capkit.trace(it, side.look.program) : undefined;
    showParts(side, it);
    showProgram(side);
  }
  showFacts(it, i);
  showReasons(it);
  showStep();
  showAddress(i);
}

// The address of the page with the sample, the expressions and the packet that are shown.
function showAddress(i) {
  const texts = sides.map(({ parts }) => parts.text.value), named = { sample: $('sample').value, filter: texts[0] };
  $('address').hidden = !named.sample || sides.some(({ listing }) => listing);
  $('address').href = `#${new URLSearchParams({ ...named, ...(sides.length > 1 && { with: texts[1] }), ...(i !== undefined && { packet: i + 1 }) })}`;
}

function showFacts(it, i) {
  const facts = [];
  if (it) {
    const { comment, name } = capture.notes(i);
    facts.push(['captured', counted(it.captured, 'byte')], ['on the wire', counted(it.original, 'byte')], ['link type', linkName(it.link)]);
    if (name.length) facts.push(['interface', textOfBytes(name)]);
    if (comment.length) facts.push(['comment', textOfBytes(comment)]);
  }
  $('facts').replaceChildren(...facts.flatMap(([name, text]) => [made('dt', name), made('dd', text)]));
}

function showReasons(it) {
  $('reasons').replaceChildren(...(it ? sides : []).map((side, place) => {
    const { look, trace } = side, paragraph = made('p', letterOf(place, ': '));
    const reason = trace ? `${reasonOf(look.instructions, look.glosses, trace, it.captured)} ${counted(trace.states.length, 'step')}.`
      : `It isn't filtered: its link type is ${it.link}.`;
    paragraph.append(made('span', reason, `reason mark-${OUTCOMES[trace?.verdict ?? NOT_FILTERED][2]}`));
    return paragraph;
  }));
}

// The parts of an expression as nested lists, each with its outcome.
function showTree(side) {
  const { parts, meaning } = side;
  side.root = meaning && mostNodes(meaning) <= MOST_NODES ? treeOf(meaning) : undefined;
  side.outcomes = new Map();
  const item = (node) => {
    const line = made('li'), outcome = made('span', '', 'outcome');
    side.outcomes.set(node, outcome);
    line.append(made('code', node.kind === 'test' ? node.text : node.kind), ' ', outcome);
    if (node.operands.length) line.append(made('ul'));
    line.lastChild.append(...node.operands.map(item));
    return line;
  };
  const tree = made('ul');
  if (side.root) tree.append(item(side.root));
  parts.tree.replaceChildren(side.root ? tree : made('p', meaning ? 'It has too many parts to show.' : 'It has no parts.'));
}

// What each part says of a packet, compiled and run by itself.
function showParts(side, it) {
  if (side.listing || !side.root) return;
  const verdicts = new Map(), programs = side.partPrograms;
  const verdict = (node) => {
    const key = `${it.link} ${node.text}`;
    if (!programs.has(key)) programs.set(key, capkit.compile(node.text, it.link));
    if (!verdicts.has(node)) verdicts.set(node, programs.get(key).program ? capkit.verdict(it, programs.get(key)) : '?');
    return verdicts.get(node);
  };
  const isFiltered = it && side.programs.has(it.link), asked = isFiltered ? evaluated(side.root, verdict) : new Set();
  for (const [node, outcome] of side.outcomes) {
    const [sign, text, kind] = OUTCOMES[asked.has(node) ? verdict(node) : '.'];
    outcome.textContent = it ? `${sign} ${text}`.trim() : '';
    outcome.className = `outcome mark-${kind}`;
  }
}

// ---- programs

const usesMemory = ({ code }) => [KIND.STORE, KIND.STORE_X].includes(code & 7);
const memoryText = (words) => words.flatMap((value, word) => (value ? [`M[${word}] ${register(value)}`] : [])).join(', ');

// A row of a program: the instruction, and cells for the state of a run before it.
function rowOf({ instructions, glosses }, index) {
  const row = made('tr'), text = instructions[index].text.replace(/^\(\d+\)\s*/, '').split(/\s+/).join(' ');
  const index_ = made('th', indexText(index));
  index_.scope = 'row';
  row.append(made('td'), index_, made('td', text, 'code'), made('td', glosses[index].text), ...Array.from({ length: 4 }, () => made('td')));
  return row;
}

// All rows of a program, or of a large one those that run.
function showProgram(side) {
  const { run, look, trace } = side, states = trace?.states ?? [];
  if (!look) {
    Object.assign(side, { rows: new Map(), picture: undefined, shownLook: undefined });
    run.rows.replaceChildren();
    run.picture.replaceChildren();
    run.count.textContent = 'No filter is compiled for the link type of the packet.';
    return;
  }
  const { length } = look.instructions, isLarge = length > MOST_ROWS;
  const told = isLarge ? `, of which the table has ${states.length > MOST_ROWS ? `the first ${number(MOST_ROWS)} that run` : 'those that run'}` : '';
  run.count.textContent = `${counted(length, 'instruction')}, for ${linkName(look.link)}${told}`;
  if (isLarge || side.shownLook !== look) {
    const indexes = isLarge ? states.slice(0, MOST_ROWS).map(({ index }) => index) : [...look.instructions.keys()];
    side.rows = new Map(indexes.map((index) => [index, rowOf(look, index)]));
    run.rows.replaceChildren(...side.rows.values());
    run.rows.parentElement.classList.toggle('without-memory', !look.instructions.some(usesMemory));
    side.picture = length > MOST_DRAWN ? undefined : waysPicture(look.instructions);
    run.picture.replaceChildren(side.picture?.svg ?? made('p', 'It has too many instructions to draw.'));
    side.shownLook = look;
  }
  fillRows(side, states);
  side.picture?.mark(states);
}

const GOES = { yes: 'yes', no: 'no', next: '' };
function fillRows({ rows, look: { instructions } }, states) {
  for (const row of rows.values()) {
    if (row.className) for (const place of [0, 4, 5, 6, 7]) row.cells[place].textContent = '';
    row.className = '';
  }
  states.forEach(({ index, a, x, memory }, place) => {
    const row = rows.get(index), after = states[place + 1];
    if (!row) return;
    row.className = 'ran';
    const goes = after ? GOES[wayTo(instructions[index], index, after.index)] : '';
    [place + 1, register(a), register(x), goes, memoryText(memory)].forEach((text, i) => { row.cells[[0, 4, 5, 6, 7][i]].textContent = text; });
  });
}

// ---- steps, and the bytes that they read

// The places of bytes that the runs read: 1, or 2 if the shown step reads it, or the last one of a run that is rejected.
function readPlaces() {
  const places = new Map();
  for (const { trace, look } of sides) {
    const now = step < 0 && trace?.verdict === REJECTED ? trace.states.length - 1 : step;
    trace?.states.forEach(({ index, x }, i) => {
      const insn = look.instructions[index], size = sizeOf(insn), start = placeOf(insn, x);
      for (let place = start; place < start + size; place++) places.set(place, i === now ? 2 : places.get(place) ?? 1);
    });
  }
  return places;
}

function showBytes() {
  const i = listed[at], it = i === undefined ? undefined : capture.packet(i), data = it ? capture.bytes(it) : [];
  const places = readPlaces(), shown = Math.min(data.length, MOST_BYTES), parts = [];
  for (let start = 0; start < shown; start += 16) {
    const row = [...data.slice(start, Math.min(start + 16, shown))];
    parts.push(`${start.toString(16).padStart(4, '0')}  `);
    row.forEach((byte, place) => {
      const text = byte.toString(16).padStart(2, '0'), read = places.get(start + place);
      parts.push(read ? made('mark', text, read === 2 ? 'now' : '') : text, place === 7 ? '  ' : ' ');
    });
    const missing = 16 - row.length, signs = row.map((byte) => (byte > 31 && byte < 127 ? String.fromCharCode(byte) : '.')).join('');
    parts.push(`${' '.repeat(3 * missing + (missing > 8 ? 1 : 0))} ${signs}\n`);
  }
  if (shown < data.length) parts.push(`${counted(data.length - shown, 'more byte')}, not shown here\n`);
  $('bytes').replaceChildren(...parts);
}

function showStep() {
  const told = [];
  sides.forEach(({ rows, trace, look, run }, place) => {
    for (const row of run.rows.querySelectorAll('.here')) row.classList.remove('here');
    const state = trace?.states[step], row = state && rows.get(state.index);
    row?.classList.add('here');
    row?.scrollIntoView(NEAREST);
    sides[place].picture?.frame(state?.index);
    if (state) {
      const { text } = look.glosses[state.index], insn = look.instructions[state.index].text.replace(/\s+/g, ' ');
      told.push(`${letterOf(place, ': ')}${insn}: ${text}${text.endsWith('?') ? '' : '.'} Before it A is ${register(state.a)} and X is ${register(state.x)}.`);
    }
  });
  say($('step'), step < 0 ? '' : `Step ${step + 1}. ${told.join(' ')}`);
  showBytes();
}

function go(by) {
  const last = Math.max(0, ...sides.map(({ trace }) => trace?.states.length ?? 0)) - 1;
  if (last < 0) return;
  step = Math.max(0, Math.min(last, step + by));
  showStep();
}

// ---- the page starts, and is driven

const packed = (id) => new Blob([Uint8Array.from(atob($(id).textContent), (it) => it.charCodeAt(0))]).stream()
  .pipeThrough(new DecompressionStream('gzip'));
const unpacked = async (id) => new Uint8Array(await new Response(packed(id)).arrayBuffer());

async function start() {
  const { instance } = await WebAssembly.instantiate(await unpacked('module'), {});
  capkit = openCapkit(instance.exports);
  $('version').textContent = capkit.version;
}

// What fails is reported. A module that trapped traps ever after, so the next capture has a new one.
const guarded = (action) => async (event) => {
  try {
    await action(event);
  } catch (error) {
    capture = undefined;
    say($('about'), `${error.message}: open the capture again`, true);
    await start();
  }
};
const load = async ([file, ...others]) => {
  if (!file) return;
  $('sample').value = '';
  say($('about'), `${visible(file.name)}: it is read`);
  open(new Uint8Array(await file.arrayBuffer()), file.name);
  if (others.length) say($('about'), `${$('about').textContent}; of ${others.length + 1} files only this one is opened`, true);
};
const sample = async (name) => {
  $('sample').value = name;
  open(await unpacked(`sample-${name}`), name);
};

// What the address names: #filter=..&with=..&sample=..&packet=..
async function follow() {
  const named = new URLSearchParams(location.hash.slice(1)), name = named.get('sample');
  if (named.has('filter')) Object.assign(sides[0].parts.text, { value: named.get('filter') });
  sides[0].isNew = true;
  if (name !== null || !capture) await sample([...$('sample').options].some(({ value }) => value && value === name) ? name : 'day.pcap');
  if (named.has('with') && sides.length > 1) compare();
  if (named.has('with')) compare(named.get('with')); else update();
  if (named.has('packet')) choosePacket(Number(named.get('packet')) - 1);
}

// Chooses a packet by its number, among all if it isn't listed.
function choosePacket(i) {
  if (!(i in sides[0].kept)) return;
  if (!listed.includes(i)) { $('show').value = 'all'; list(); }
  select(listed.indexOf(i));
}

const listen = (id, event, action) => $(id).addEventListener(event, guarded(action));
function listenToAll() {
  listen('file', 'change', () => load($('file').files));
  listen('sample', 'change', () => $('sample').value && sample($('sample').value));
  listen('second', 'click', () => capture && compare());
  listen('show', 'change', () => capture && list());
  listen('earlier', 'click', () => capture && turn(-1));
  listen('later', 'click', () => capture && turn(1));
  listen('list', 'keydown', (event) => capture && pressed(event));
  listen('list', 'click', (event) => {
    const place = [...$('list').children].indexOf(event.target.closest('[role=option]'));
    if (capture && place >= 0) select(first + place);
  });
  listen('back', 'click', () => capture && go(-1));
  listen('on', 'click', () => capture && go(1));
  document.addEventListener('keydown', guarded((event) => {
    const by = { n: 1, p: -1 }[event.key];
    if (by && capture && !/^(input|textarea|select)$/i.test(event.target.tagName) && !event.ctrlKey && !event.altKey && !event.metaKey) go(by);
  }));
  for (const kind of ['dragover', 'dragleave', 'drop']) {
    document.addEventListener(kind, (event) => { event.preventDefault(); document.body.classList.toggle('dropping', kind === 'dragover'); });
  }
  document.addEventListener('drop', guarded((event) => load(event.dataTransfer.files)));
  window.addEventListener('hashchange', guarded(follow));
}

async function begin() {
  try {
    await start();
  } catch (error) {
    say($('about'), `This browser can't run the module, which needs WebAssembly with 64-bit memory: ${error.message}`, true);
    return;
  }
  addSide().parts.text.value = 'tcp port 80';
  listenToAll();
  await guarded(follow)();
}
begin();
