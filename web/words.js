'use strict';
// What each instruction of a program does, in words of the field, and why a packet matches or doesn't.
//
// The words are a reading aid next to the instructions: which field of a packet a load reads depends on the tests before it, so what
// is known of the packet is carried along all ways through the program. If the ways don't agree, or a field doesn't have that place,
// the words name the bytes. No result on the page rests on them. The places are those of IEEE 802.3, RFC 791, 826, 8200, 9293, 768
// and 792, and of LINKTYPE_LINUX_SLL; a field's key is its place and its size.

const QUARTERS = ['first', 'second', 'third', 'last'];
const quartersFrom = (place, address) => QUARTERS.map((name, i) => [`${place + 4 * i},4`, `${name} quarter of the ${address} address`]);
const ARP = { '0,2': 'hardware type', '2,2': 'protocol type', '6,2': 'operation', '14,4': "sender's IPv4 address", '24,4': "target's IPv4 address" };
const HEADERS = {
  IPv4: {
    '0,1': 'version and header length', '1,1': 'type of service', '2,2': 'total length', '4,2': 'identification',
    '6,2': 'flags and fragment offset', '8,1': 'time to live', '9,1': 'protocol', '10,2': 'header checksum', '12,4': 'source address',
    '16,4': 'destination address', '12,1': 'first byte of the source address', '16,1': 'first byte of the destination address',
  },
  IPv6: {
    '0,1': 'version and header length', '4,2': 'payload length', '6,1': 'next header', '7,1': 'hop limit',
    '24,1': 'first byte of the destination address', ...Object.fromEntries([...quartersFrom(8, 'source'), ...quartersFrom(24, 'destination')]),
  },
  ARP, RARP: ARP,
  // What isn't a network header that is known here has no fields, but a first byte.
  other: { '0,1': 'version and header length' },
};
const PORTS = { '0,2': 'source port', '2,2': 'destination port' };
const TRANSPORTS = {
  TCP: {
    ...PORTS, '4,4': 'sequence number', '8,4': 'acknowledgment number', '12,1': 'data offset', '13,1': 'TCP flags', '14,2': 'window', '16,2': 'checksum',
  },
  UDP: { ...PORTS, '4,2': 'UDP length', '6,2': 'checksum' },
  ICMP: { '0,1': 'ICMP type', '1,1': 'ICMP code' },
  ICMPv6: { '0,1': 'ICMPv6 type', '1,1': 'ICMPv6 code' },
};
const ETHERNET = {
  '12,2': 'EtherType', '0,1': 'first byte of the destination address', '0,4': 'first 4 bytes of the destination address',
  '4,2': 'last 2 bytes of the destination address', '0,2': 'first 2 bytes of the destination address',
  '2,4': 'last 4 bytes of the destination address', '6,4': 'first 4 bytes of the source address',
  '10,2': 'last 2 bytes of the source address', '6,2': 'first 2 bytes of the source address', '8,4': 'last 4 bytes of the source address',
};
const COOKED = { '0,2': 'packet type', '2,2': 'device type', '4,2': 'length of the address', '14,2': 'EtherType' };
const EVERY_NETWORK = ['IPv4', 'IPv6', 'ARP', 'RARP', 'other'];
const RAW = { name: 'raw IP', header: 0, fields: {}, networks: ['IPv4', 'IPv6', 'other'] };
const LINKS = {
  1: { name: 'Ethernet', header: 14, fields: ETHERNET, networks: EVERY_NETWORK }, 12: RAW, 101: RAW,
  113: { name: 'Linux cooked', header: 16, fields: COOKED, networks: EVERY_NETWORK },
};
const linkName = (link) => LINKS[link]?.name ?? `link type ${link}`;

const ETHERTYPES = { 0x800: 'IPv4', 0x806: 'ARP', 0x8035: 'RARP', 0x8100: 'a VLAN tag', 0x86dd: 'IPv6', 0x88cc: 'LLDP' };
const PROTOCOLS = { 1: 'ICMP', 2: 'IGMP', 6: 'TCP', 17: 'UDP', 47: 'GRE', 50: 'ESP', 58: 'ICMPv6', 132: 'SCTP' };
const NAMES = {
  EtherType: ETHERTYPES, protocol: PROTOCOLS, 'next header': PROTOCOLS, 'next header or protocol': PROTOCOLS,
  operation: { 1: 'a request', 2: 'a reply' }, version: { 0x40: '4', 0x60: '6' },
};
const NETWORKS = { EtherType: ETHERTYPES, version: { 0x40: 'IPv4', 0x60: 'IPv6' } };
// What is a part of an address isn't written as one. Fields whose numbers are read as such, and those whose bits are read.
const isAddress = (field) => field.endsWith('address') && !/quarter|byte/.test(field);
const COUNTED = /(port|length|limit|to live|window|type|code)$/;
const OF_BITS = /(EtherType|flags|checksum|fragment offset|header length|address)$/;

const hex = (number) => `0x${number.toString(16)}`;

// A number that a field is compared with, as readers of that field write it.
function valueText(field, number) {
  if (isAddress(field)) return [24, 16, 8, 0].map((shift) => number >>> shift & 255).join('.');
  const name = NAMES[field]?.[number];
  if (name) return name;
  if (number >= 10 && OF_BITS.test(field) && !field.includes('byte')) return hex(number);
  return number < 10 || COUNTED.test(field) ? String(number) : `${number} (${hex(number)})`;
}

// An IPv4 network, if the bits of a mask are the first ones of an address.
function networkText(number, mask) {
  const length = [...mask.toString(2)].filter((bit) => bit === '1').length;
  return mask === 2 ** 32 - 2 ** (32 - length) ? `${valueText('address', number)}/${length}` : undefined;
}

// ---- instructions: their kinds are the low 3 bits of the code

const KIND = { LOAD: 0, LOAD_X: 1, STORE: 2, STORE_X: 3, COMPUTE: 4, JUMP: 5, RETURN: 6 };
const SIZES = { 0: 4, 8: 2, 16: 1 };
const ARITHMETIC = {
  0: 'add {} to A', 16: 'subtract {} from A', 32: 'multiply A by {}', 48: 'divide A by {}', 64: 'set bits {} in A', 80: 'A = A & {}',
  96: 'shift A left by {} bits', 112: 'shift A right by {} bits', 144: 'A = A mod {}', 160: 'flip bits {} of A',
};
const MASKS = [64, 80, 160], GO_ON = 5, AND = 0x54, X_TO_A = 0x87, A_TO_X = 7, HEADER_LENGTH = 0xb1, EQUAL = 0x15;
const MOST_MEANINGS = 2;
const kindOf = ({ code }) => code & 7;

// How many bytes of the packet an instruction loads, 0 if none; and the place from which it loads them.
function sizeOf({ code }) {
  const kind = code & 7, mode = code & 0xe0;
  const loads = (kind === KIND.LOAD && (mode === 0x20 || mode === 0x40)) || (kind === KIND.LOAD_X && mode === 0xa0);
  return loads ? SIZES[code & 0x18] : 0;
}
const placeOf = ({ code, k }, x) => ((code & 0xe0) === 0x40 ? (k + x) % 2 ** 32 : k);

// The ways from an instruction: [index, 'yes', 'no' or 'next'].
function waysOf(insn, index) {
  const { code, jt, jf, k } = insn;
  if (kindOf(insn) === KIND.RETURN) return [];
  if (code === GO_ON) return [[index + 1 + k, 'next']];
  if (kindOf(insn) !== KIND.JUMP) return [[index + 1, 'next']];
  return jt === jf ? [[index + 1 + jt, 'next']] : [[index + 1 + jt, 'yes'], [index + 1 + jf, 'no']];
}
const wayTo = (insn, index, target) => waysOf(insn, index).find(([to]) => to === target)?.[1] ?? 'next';

// ---- what is known before an instruction: the networks and transports that may be there, the field that A is, whether X is the
// length of the IPv4 header, from what A was loaded, and which bits were kept of it

function joined(one, other) {
  if (!one) return other;
  const same = one.subject === other.subject && one.mask === other.mask;
  return {
    networks: new Set([...one.networks, ...other.networks]), transports: new Set([...one.transports, ...other.transports]),
    field: one.field === other.field ? one.field : undefined, isHeader: one.isHeader && other.isHeader,
    subject: same ? one.subject : undefined, mask: same ? one.mask : undefined,
  };
}

// The fields of each transport header that may be there.
function transportsOf({ transports }) {
  const names = [...transports];
  if (names.length > 1 && names.every((name) => name === 'TCP' || name === 'UDP')) return [PORTS];
  return names.map((name) => TRANSPORTS[name] ?? {});
}

// What the bytes at a place are, in each kind of packet that may be there.
function fieldsAt(known, link, place, size) {
  if (place < link.header) return [link.fields[`${place},${size}`]];
  const within = place - link.header;
  return [...known.networks].flatMap((network) => (network === 'IPv6' && (within === 40 || within === 42)
    ? transportsOf(known).map((fields) => fields[`${within - 40},${size}`]) : [HEADERS[network]?.[`${within},${size}`]]));
}

// The field that a load reads, or undefined.
function loadField(known, link, { code, k }) {
  const size = SIZES[code & 0x18], mode = code & 0xe0;
  let found = [];
  if (mode === 0x20) found = fieldsAt(known, link, k, size);
  else if (mode === 0x40 && known.isHeader && k >= link.header) found = transportsOf(known).map((fields) => fields[`${k - link.header},${size}`]);
  const names = [...new Set(found)];
  return names.length && names.length <= MOST_MEANINGS && !names.includes(undefined) ? names.sort().join(' or ') : undefined;
}

// Which bytes of a packet a load reads, counted from 0.
const bytesText = (size, place, base = '') => (size === 1 ? `byte ${base}${place}` : `bytes ${base}${place} to ${base}${place + size - 1}`);

// What a load into A reads, in words; and as a test on it calls it, if it has a name.
function loadTexts(known, link, insn) {
  const { code, k } = insn, mode = code & 0xe0, size = SIZES[code & 0x18] ?? 4;
  if (mode === 0x00) return [`the number ${k}`];
  if (mode === 0x60) return [`the word M[${k}]`];
  if (mode === 0x80) return ['the length of the packet on the wire', 'the length'];
  const base = mode === 0x40 ? 'X + ' : '', place = size > 1 ? `${size} bytes from byte ${base}${k}` : `byte ${base}${k}`;
  const field = loadField(known, link, insn);
  return field ? [`the ${field} (${place})`, `the ${field}`] : [place, `the number in ${bytesText(size, k, base)}`];
}

// The field that a test is on, whose bits may be masked.
const fieldOf = ({ field, subject }) => field ?? (subject ?? '').replace('the ', '');

function bitsText(known, subject, { code, k }) {
  if (code & 8) return `has ${subject} a bit of X?`;
  if (known.field === 'flags and fragment offset' && k === 0x1fff) return 'is it a later fragment?';
  return `is ${(k & (k - 1)) === 0 ? 'the bit' : 'one of the bits'} ${hex(k)} set in ${subject}?`;
}

// The question that a test asks.
function testText(known, insn) {
  const { code, k } = insn, operator = code & 0xf0, subject = known.subject ?? 'A';
  if (operator === 0x40) return bitsText(known, subject, insn);
  const how = { 0x10: '', 0x20: 'above ', 0x30: 'at least ' }[operator];
  if (code & 8) return `is ${subject} ${how}X?`;
  if (known.mask !== undefined && known.field === undefined) {
    const network = isAddress(subject) && operator === 0x10 ? networkText(k, known.mask) : undefined;
    return network ? `is ${subject.replace('address', 'network')} ${network}?` : `are the bits ${hex(known.mask)} of ${subject} ${how}${hex(k)}?`;
  }
  return `is ${known.field === 'version' ? 'the version' : subject} ${how}${valueText(fieldOf(known), k)}?`;
}

function computeText({ code, k }) {
  if (code === 0x84) return 'A is 0 - A';
  return ARITHMETIC[code & 0xf0].replace('{}', code & 8 ? 'X' : MASKS.includes(code & 0xf0) ? hex(k) : String(k));
}

const TEXTS = {
  [KIND.LOAD]: (known, link, insn) => `A is ${loadTexts(known, link, insn)[0]}`,
  [KIND.LOAD_X]: (known, link, insn) => ((insn.code & 0xe0) !== 0xa0 ? `X is ${loadTexts(known, link, insn)[0]}`
    : `X is four times the low half of byte ${insn.k}${insn.k === link.header ? ", the IPv4 header's length" : ''}`),
  [KIND.STORE]: (known, link, { k }) => `the word M[${k}] is A`,
  [KIND.STORE_X]: (known, link, { k }) => `the word M[${k}] is X`,
  [KIND.COMPUTE]: (known, link, insn) => computeText(insn),
  [KIND.JUMP]: (known, link, insn) => (insn.code === GO_ON ? 'go on there' : testText(known, insn)),
  [KIND.RETURN]: (known, link, { code, k }) => (code & 0x18 ? 'return A: keep the packet unless it is 0' : k ? 'keep the packet' : "don't keep it"),
  7: (known, link, { code }) => (code === A_TO_X ? 'X is A' : 'A is X'),
};

// What is known if a test holds, or if it doesn't: more after a test for equality.
function narrowed(known, { code, k }, holds) {
  const one = (set, name) => (holds ? new Set([name]) : new Set([...set].filter((it) => it !== name)));
  const network = NETWORKS[known.field]?.[k];
  if (code === EQUAL && network in HEADERS) return { ...known, networks: one(known.networks, network) };
  if (code !== EQUAL || !['protocol', 'next header', 'next header or protocol'].includes(known.field)) return known;
  return { ...known, transports: one(known.transports, PROTOCOLS[k] in TRANSPORTS ? PROTOCOLS[k] : 'other') };
}

// What is known after an instruction that isn't a jump.
function after(known, link, insn) {
  const { code, k } = insn, kind = kindOf(insn);
  if (kind === KIND.LOAD) return { ...known, field: loadField(known, link, insn), subject: loadTexts(known, link, insn)[1], mask: undefined };
  if (kind === KIND.LOAD_X || code === A_TO_X) return { ...known, isHeader: code === HEADER_LENGTH && k === link.header };
  if (kind === KIND.COMPUTE) {
    const isMask = code === AND && known.mask === undefined;
    const isVersion = code === AND && k === 0xf0 && known.field === 'version and header length';
    return { ...known, field: isVersion ? 'version' : undefined, subject: isMask ? known.subject : undefined, mask: isMask ? k : undefined };
  }
  return code === X_TO_A ? { ...known, field: undefined, subject: undefined, mask: undefined } : known;
}

// Each instruction in words, with the field that A is before it, and whether that is masked. A listing doesn't say for which link
// type it was made, so it is read as the packet's.
function glossesOf(instructions, linkType) {
  const link = LINKS[linkType] ?? LINKS[1], states = [];
  const start = { networks: new Set(link.networks), transports: new Set([...Object.keys(TRANSPORTS), 'other']), isHeader: false };
  states[0] = start;
  return instructions.map((insn, index) => {
    // What no way leads to is read as if anything could be there.
    const known = states[index] ?? start;
    for (const [target, way] of waysOf(insn, index)) {
      const then = after(known, link, insn);
      states[target] = joined(states[target], way === 'next' ? then : narrowed(then, insn, way === 'yes'));
    }
    const isMasked = known.mask !== undefined && known.field === undefined;
    return { text: TEXTS[kindOf(insn)](known, link, insn), field: fieldOf(known), isMasked };
  });
}

// ---- why a packet matches or doesn't, in a sentence or two

const indexText = (index) => `(${String(index).padStart(3, '0')})`;

// Why a run ends before a return.
function faultOf(insn, x, captured) {
  const size = sizeOf(insn);
  return size ? `it loads ${bytesText(size, placeOf(insn, x))}, counted from 0, and ${captured} were captured` : 'it divides by X, which is 0';
}

// The number that a test was on, as the packet has it: before bits were masked out.
function valueTold({ code }, gloss, before, state) {
  if (code & 8) return `A is ${valueText(gloss.field, state.a)} and X is ${state.x}`;
  const isOfBits = (code & 0xf0) === 0x40 || gloss.text.startsWith('are the bits');
  return `${isOfBits ? 'the number' : 'it'} is ${valueText(gloss.field, gloss.isMasked && before ? before.a : state.a)}`;
}

function reasonOf(instructions, glosses, { states, result, verdict }, captured) {
  const last = states.length - 1, end = states[last];
  if (verdict === REJECTED) {
    return `It is rejected at ${indexText(end.index)}, so it isn't kept: ${faultOf(instructions[end.index], end.x, captured)}.`;
  }
  const start = verdict === KEPT ? 'It matches' : "It doesn't match", returns = `${indexText(end.index)} returns ${result}`;
  const isTest = ({ index }) => kindOf(instructions[index]) === KIND.JUMP && instructions[index].code !== GO_ON;
  const step = states.findLastIndex(isTest);
  if (step < 0) return `${start}: ${returns}.`;
  const { index } = states[step], insn = instructions[index], gloss = glosses[index], way = wayTo(insn, index, states[step + 1].index);
  const before = states[step - 1], wasMasked = before && instructions[before.index].code === AND;
  const told = way === 'next' ? 'Either way' : `${way === 'yes' ? 'Yes' : 'No'}, ${valueTold(insn, gloss, wasMasked && before, states[step])}`;
  return `${start}. The last test is ${indexText(index)}: ${gloss.text} ${told}. ${returns}.`;
}
