'use strict';
// The ways through a program as a picture: its instructions below each other, and the jumps to farther ones on both sides.

const MOST_DRAWN = 300;
const ROW = 26, BOX = 20, LANE = 9, MARGIN = 8, LETTER = 7.9, HEAD = 5;

function drawn(name, attributes, text) {
  const element = document.createElementNS('http://www.w3.org/2000/svg', name);
  for (const [key, value] of Object.entries(attributes)) element.setAttribute(key, value);
  if (text !== undefined) element.textContent = text;
  return element;
}

// The jumps past the next instruction. Those of one kind to one target share a lane, next to others that it overlaps with.
function jumpsOf(instructions) {
  const jumps = new Map(), taken = { yes: [], no: [] };
  instructions.forEach((insn, index) => {
    for (const [target, way] of waysOf(insn, index).filter(([to]) => to > index + 1)) {
      const key = `${way} ${target}`;
      jumps.set(key, jumps.get(key) ?? { way, target, sources: [] });
      jumps.get(key).sources.push(index);
    }
  });
  const length = ({ target, sources }) => target - sources[0];
  for (const jump of [...jumps.values()].sort((one, other) => length(one) - length(other))) {
    const lanes = taken[jump.way === 'no' ? 'no' : 'yes'], [start] = jump.sources, end = jump.target;
    const lane = lanes.findIndex((spans) => spans.every(([first, last]) => end < first || last < start));
    jump.lane = lane < 0 ? lanes.push([]) - 1 : lane;
    lanes[jump.lane].push([start, end]);
  }
  return { jumps, left: taken.no.length, right: taken.yes.length };
}

// A picture, what marks in it the instructions and ways of a run, and what frames the instruction of a step.
function waysPicture(instructions) {
  const { jumps, left, right } = jumpsOf(instructions), texts = instructions.map(({ text }) => text.split('jt')[0].trim().replace(/\s+/g, ' '));
  const edge = MARGIN + LANE * (left + 1) + HEAD, width = Math.round(LETTER * Math.max(...texts.map(({ length }) => length)) + 12);
  const yOf = (index) => MARGIN + BOX / 2 + ROW * index;
  const size = { width: edge + width + LANE * (right + 1) + HEAD + MARGIN, height: 2 * MARGIN + ROW * instructions.length };
  // The line of a way: down to the next instruction, or past those between, with an arrow's head.
  function lineOf(source, target, way) {
    const jump = jumps.get(`${way} ${target}`);
    if (!jump) return `M${edge + width / 2} ${yOf(source) + BOX / 2}v${ROW - BOX}`;
    const [side, out] = way === 'no' ? [edge, -1] : [edge + width, 1], rail = side + out * (LANE * (jump.lane + 1) + HEAD);
    return `M${side} ${yOf(source) + 3}H${rail}V${yOf(target) - 3}H${side}m${out * HEAD} -3l${-out * HEAD} 3l${out * HEAD} 3`;
  }
  const svg = drawn('svg', { role: 'img', viewBox: `0 0 ${size.width} ${size.height}`, ...size });
  const run = drawn('path', { class: 'on-way' });
  instructions.forEach((insn, index) => {
    for (const [target, way] of waysOf(insn, index)) {
      const line = lineOf(index, target, way), isFirst = (jumps.get(`${way} ${target}`)?.sources[0] ?? index) === index;
      svg.append(drawn('path', { d: isFirst ? line : line.split('V')[0], class: way }));
    }
  });
  svg.append(run);
  const boxes = texts.map((text, index) => {
    const box = drawn('g', {});
    box.append(drawn('rect', { x: edge, y: yOf(index) - BOX / 2, width, height: BOX, rx: 4 }), drawn('text', { x: edge + 6, y: yOf(index) + 4.5 }, text));
    svg.append(box);
    return box;
  });
  function mark(states) {
    const indexes = states.map(({ index }) => index), met = new Set(indexes);
    boxes.forEach((box, index) => box.classList.toggle('on-way', met.has(index)));
    run.setAttribute('d', indexes.slice(1).map((to, i) => lineOf(indexes[i], to, wayTo(instructions[indexes[i]], indexes[i], to))).join(''));
  }
  const frame = (at) => boxes.forEach((box, index) => box.classList.toggle('here', index === at));
  return { svg, mark, frame };
}
