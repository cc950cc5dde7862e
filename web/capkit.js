'use strict';
// The calls of capkit.h over a WebAssembly module. The module has no heap: what its calls read and write lies in memory that is
// handed out here, and the calls that allocate (those in _in) are lent a part of it. Addresses and sizes are BigInts.

// The structs that are used here, with their sizes and the offsets of their fields, and numbers, as in capkit.h.
// tools/check_page.py compiles that file and compares.
const LAYOUT = {
  capkit_insn: { bytes: 8, code: 0, jt: 2, jf: 3, k: 4 },
  capkit_step: { bytes: 76, index: 0, a: 4, x: 8, memory: 12 },
  capkit_memory: { bytes: 16, start: 0, size: 8 },
  capkit_reader: { bytes: 24, offset: 0, form: 19 },
  capkit_interface: { bytes: 280, name_length: 22, name: 23 },
  capkit_packet: { bytes: 48, time: 0, at: 8, captured: 24, original: 28, interface: 36, link_type: 44 },
  capkit_writer: { bytes: 8 },
};
const CAPKIT = {
  VERSION_NUMBER: 0x000100, MOST_INSNS: 32768, MOST_INTERFACES: 256, MOST_UNIT: 1048576, PACKET: 0, OK: 0, WRITTEN: 0, VALID: 0,
  NOT_A_LISTING: 17, TOO_MANY: 102, NO_RETURN: 108, END: 222, ANOTHER_LINK_TYPE: 226, UNIT_BEFORE: 227, LINK_ETHERNET: 1,
};
const PCAPNG = 2; // of capkit_reader's form
const { capkit_insn: INSN, capkit_step: STEP, capkit_memory: MEMORY, capkit_reader: READER, capkit_interface: INTERFACE,
  capkit_packet: PACKET } = LAYOUT;
// What is lent to a call: twice as much as any expression is known to need. A listing of the most instructions is shorter than MOST_LISTING.
const LENT = 1 << 24, MOST_LISTING = 1 << 20, ROOM = 1 << 22, MOST_COMMENT = 65536, CHECKPOINT = 65536;
const RETURN = 6;
const KEPT = '+', NOT_KEPT = '-', REJECTED = '!', NOT_FILTERED = ' ';

// A number of 64 bits, of which a size or a place needs at most 53.
const numberAt = (view, place) => view.getUint32(place, true) + 2 ** 32 * view.getUint32(place + 4, true);

// Memory from the end of the module's own data on. What is reserved last can be given back.
function memoryOf({ memory, __heap_base }) {
  let end = BigInt(__heap_base.value), view = new DataView(memory.buffer);
  return {
    get end() { return end; },
    giveBack(place) { end = place; },
    reserve(size) {
      const start = (end + 15n) / 16n * 16n, missing = start + BigInt(size) - BigInt(memory.buffer.byteLength);
      if (missing > 0n) memory.grow((missing + 65535n) / 65536n);
      end = start + BigInt(size);
      return start;
    },
    // The whole memory; a new view after it grew.
    get view() { return view.buffer === memory.buffer ? view : (view = new DataView(memory.buffer)); },
    bytes: (start, size) => new Uint8Array(memory.buffer, Number(start), Number(size)),
  };
}

function openCapkit(calls) {
  const memory = memoryOf(calls), { bytes } = memory;
  const sizes = {
    insns: INSN.bytes * CAPKIT.MOST_INSNS, steps: STEP.bytes * CAPKIT.MOST_INSNS, number: 8, text: MOST_LISTING, out: ROOM,
    reader: READER.bytes, packet: PACKET.bytes, table: INTERFACE.bytes * CAPKIT.MOST_INTERFACES,
    written: INTERFACE.bytes * CAPKIT.MOST_INTERFACES, writer: LAYOUT.capkit_writer.bytes, comment: MOST_COMMENT, memory: MEMORY.bytes,
    lent: LENT,
  };
  const at = Object.fromEntries(Object.entries(sizes).map(([name, size]) => [name, memory.reserve(size)]));
  const base = memory.end, most = BigInt(CAPKIT.MOST_INTERFACES), room = BigInt(ROOM);
  // The place of the first program: after the capture.
  let programs = base;

  const field = (start, offset) => Number(start) + offset;
  const number = () => numberAt(memory.view, field(at.number, 0));
  const textOf = (size) => new TextDecoder().decode(bytes(at.out, size));
  const nameOf = (status) => textOf(calls.capkit_text(status, at.out, room));

  // The memory that a call is lent, which the one before gave back.
  memory.view.setBigUint64(field(at.memory, MEMORY.start), at.lent, true);
  memory.view.setBigUint64(field(at.memory, MEMORY.size), BigInt(LENT), true);
  function lent() {
    if (memory.view.getBigUint64(field(at.memory, MEMORY.start), true)) return at.memory;
    throw new Error('a call kept the memory that it was lent');
  }
  // A call that is given a text: what `made` returns for its number, or why the text is refused, and where.
  function withText(text, call, made) {
    const written = new TextEncoder().encode(text);
    if (written.length > MOST_LISTING) return { status: -1, message: `longer than ${MOST_LISTING} bytes`, place: 0 };
    bytes(at.text, written.length).set(written);
    const status = call(lent(), at.text, BigInt(written.length));
    return status === CAPKIT.OK ? made(number()) : { status, message: nameOf(status), place: number() };
  }
  // The instructions that a call left, kept until they are forgotten.
  function keep(count, link) {
    const program = memory.reserve(INSN.bytes * count);
    bytes(program, INSN.bytes * count).set(bytes(at.insns, INSN.bytes * count));
    return { program, count: BigInt(count), link };
  }
  const compile = (text, link) => withText(text,
    (lend, start, size) => calls.capkit_compile_in(lend, start, size, link, at.insns, BigInt(CAPKIT.MOST_INSNS), at.number),
    (count) => keep(count, link));
  const explain = (text) => withText(text,
    (lend, start, size) => calls.capkit_explain_in(lend, start, size, at.out, room, at.number), (size) => ({ text: textOf(size) }));
  // A listing: its place is the first wrong line, or of a program that isn't valid the index of the instruction, from 0.
  function readListing(text) {
    const read = withText(text,
      (lend, start, size) => calls.capkit_read_listing_in(lend, start, size, at.insns, BigInt(CAPKIT.MOST_INSNS), at.number),
      (count) => keep(count, 0));
    if (!read.program) return read;
    const status = calls.capkit_check(read.program, read.count, at.number);
    return status === CAPKIT.VALID ? read : { status, message: nameOf(status), place: number() };
  }
  function listingOf({ program, count }) {
    const status = calls.capkit_write_listing_in(lent(), program, count, at.out, room, at.number);
    return status === CAPKIT.OK ? textOf(number()) : nameOf(status);
  }
  const codeAt = ({ program }, index) => memory.view.getUint16(field(program, INSN.bytes * index + INSN.code), true);
  // The instructions, each with its text as `tcpdump -d` prints it.
  function instructions({ program, count }) {
    return Array.from({ length: Number(count) }, (_, index) => {
      const insn = program + BigInt(INSN.bytes * index), text = textOf(calls.capkit_insn_text(insn, index, at.out, room));
      const { view } = memory, get = (name) => view.getUint8(field(insn, INSN[name]));
      return { code: codeAt({ program }, index), jt: get('jt'), jf: get('jf'), k: view.getUint32(field(insn, INSN.k), true), text };
    });
  }
  // Runs. Whether a packet matches; how its run ends; each step of it.
  const matches = (it, { program, count }) => calls.capkit_matches(program, count, it.address, BigInt(it.captured), it.original) >>> 0;
  const steps = (it, { program, count }) =>
    Number(calls.capkit_trace(program, count, it.address, BigInt(it.captured), it.original, at.steps, BigInt(CAPKIT.MOST_INSNS)));
  function verdict(it, program) {
    if (!program) return NOT_FILTERED;
    if (matches(it, program)) return KEPT;
    const last = memory.view.getUint32(field(at.steps, STEP.bytes * (steps(it, program) - 1) + STEP.index), true);
    return (codeAt(program, last) & 7) === RETURN ? NOT_KEPT : REJECTED;
  }
  function trace(it, program) {
    const count = steps(it, program), { view } = memory;
    const states = Array.from({ length: count }, (_, i) => {
      const get = (offset) => view.getUint32(field(at.steps, STEP.bytes * i + offset), true);
      const words = Array.from({ length: 16 }, (__, word) => get(STEP.memory + 4 * word));
      return { index: get(STEP.index), a: get(STEP.a), x: get(STEP.x), memory: words };
    });
    return { states, result: matches(it, program), verdict: verdict(it, program) };
  }

  // ---- captures

  const begin = () => bytes(at.reader, READER.bytes).fill(0);
  const readerForm = () => memory.view.getUint8(field(at.reader, READER.form));
  // The name of the interface of the packet that was found last: its place and length. Only pcapng has a table of them.
  function interfaceName() {
    const interfaceNumber = memory.view.getUint32(field(at.packet, PACKET.interface), true);
    const entry = at.table + BigInt(INTERFACE.bytes * interfaceNumber);
    const size = readerForm() === PCAPNG ? memory.view.getUint8(field(entry, INTERFACE.name_length)) : 0;
    return { start: entry + BigInt(INTERFACE.name), size };
  }

  function open(data) {
    memory.giveBack(base);
    const start = memory.reserve(data.length), size = BigInt(data.length);
    bytes(start, data.length).set(data);
    programs = memory.end;
    const next = () => calls.capkit_next(at.reader, at.table, most, start, size, at.packet);
    const commentSize = () => calls.capkit_comment(at.reader, start, size, at.packet, at.comment, BigInt(MOST_COMMENT));
    // The packets as capkit_next gives them, and for some of them what the reader knew before.
    let found = new Uint8Array(1 << 16), count = 0, status;
    const checkpoints = [], links = new Map();
    begin();
    for (;;) {
      if (count % CHECKPOINT === 0) checkpoints.push([bytes(at.reader, READER.bytes).slice(), bytes(at.table, sizes.table).slice()]);
      if ((status = next()) !== CAPKIT.PACKET) break;
      if (PACKET.bytes * (count + 1) > found.length) { const more = new Uint8Array(2 * found.length); more.set(found); found = more; }
      found.set(bytes(at.packet, PACKET.bytes), PACKET.bytes * count++);
      const link = memory.view.getUint16(field(at.packet, PACKET.link_type), true);
      links.set(link, (links.get(link) ?? 0) + 1);
    }
    const offset = numberAt(memory.view, field(at.reader, READER.offset));
    const fields = new DataView(found.buffer), place = (i) => numberAt(fields, PACKET.bytes * i + PACKET.at);
    const linkOf = (i) => fields.getUint16(PACKET.bytes * i + PACKET.link_type, true);
    const packet = (i) => ({
      time: fields.getBigUint64(PACKET.bytes * i + PACKET.time, true), address: start + BigInt(place(i)), link: linkOf(i),
      captured: fields.getUint32(PACKET.bytes * i + PACKET.captured, true), original: fields.getUint32(PACKET.bytes * i + PACKET.original, true),
    });

    // Goes to a packet again, so that the reader and its table are as they were then.
    function goTo(i) {
      const [reader, table] = checkpoints[Math.floor(i / CHECKPOINT)];
      bytes(at.reader, READER.bytes).set(reader);
      bytes(at.table, sizes.table).set(table);
      for (let done = i - i % CHECKPOINT; done <= i; done++) next();
    }
    // Which packets match: 1 or 0 for each. `programs` has one for each link type; a packet of another one doesn't match.
    function filter(programsByLink) {
      const kept = new Uint8Array(count), first = programsByLink.values().next().value;
      if (!first) return kept;
      begin();
      for (let i = 0; ; i++) {
        const told = calls.capkit_next_match(at.reader, at.table, most, start, size, first.program, first.count, first.link, at.packet);
        if (told !== CAPKIT.PACKET && told !== CAPKIT.ANOTHER_LINK_TYPE) return kept;
        const where = numberAt(memory.view, field(at.packet, PACKET.at));
        while (place(i) !== where) i++;
        const other = told === CAPKIT.PACKET ? undefined : programsByLink.get(linkOf(i));
        kept[i] = told === CAPKIT.PACKET || (other && matches(packet(i), other)) ? 1 : 0;
      }
    }
    // Puts the packet that was found last to the writer, and returns why it was refused; `used` bytes are before it.
    function put(it, file) {
      for (;;) {
        if (ROOM - file.used < CAPKIT.MOST_UNIT) file.flush();
        const name = interfaceName();
        const told = calls.capkit_writer_put(at.writer, at.written, most, at.packet, name.start, BigInt(name.size), it.address, BigInt(it.captured),
          at.comment, commentSize(), at.out + BigInt(file.used), BigInt(ROOM - file.used), at.number);
        if (told !== CAPKIT.WRITTEN && told !== CAPKIT.UNIT_BEFORE) return nameOf(told);
        file.used += number();
        if (told === CAPKIT.WRITTEN) return '';
      }
    }
    // The packets that match, as the pieces of a pcapng file, with the names of their interfaces and their comments. As the program
    // does, it writes no file without packets if some couldn't be read or filtered.
    function write(kept, isWhole) {
      const pieces = [], file = { used: 0, flush() { pieces.push(bytes(at.out, file.used).slice()); file.used = 0; } };
      begin();
      bytes(at.writer, LAYOUT.capkit_writer.bytes).fill(0);
      for (let i = 0; next() === CAPKIT.PACKET; i++) {
        const refusal = kept[i] ? put(packet(i), file) : '';
        if (refusal) return { pieces: [], refusal: `packet ${i + 1}: ${refusal}` };
      }
      if (!file.used && !pieces.length) {
        if (status !== CAPKIT.END || !isWhole) return { pieces, refusal: `no packet that can be ${isWhole ? 'read' : 'filtered'} matches` };
        if (calls.capkit_write_section(at.out, room, at.number) === CAPKIT.WRITTEN) file.used = number();
      }
      file.flush();
      return { pieces, refusal: '' };
    }
    return {
      count, packet, filter, write, links, offset, fault: status === CAPKIT.END ? '' : nameOf(status),
      bytes: (it) => bytes(it.address, it.captured).slice(),
      line: (it) => textOf(calls.capkit_line(it.link, it.time, it.original, it.address, BigInt(it.captured), 0, at.out, room)).trimEnd(),
      // The comment and the name of the interface of a packet, as bytes.
      notes(i) {
        goTo(i);
        const name = interfaceName(), size = Math.min(Number(commentSize()), MOST_COMMENT);
        return { comment: bytes(at.comment, size).slice(), name: bytes(name.start, name.size).slice() };
      },
    };
  }

  const version = calls.capkit_version();
  return {
    compile, explain, readListing, listingOf, instructions, verdict, trace, open, calls,
    // All programs are forgotten; or those that an action made.
    forget: () => memory.giveBack(programs),
    tried(action) {
      const { end } = memory, made = action();
      memory.giveBack(end);
      return made;
    },
    version: [version >> 16, version >> 8 & 255, version & 255].join('.'),
  };
}
