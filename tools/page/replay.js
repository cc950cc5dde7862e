// Makes the calls of a file that tools/port/calls.py wrote in the module of the page, and compares every result and every byte of every
// buffer. It is an expression for check_page.py: [how many calls, which differ, of how many functions]. Calls that take their memory
// from malloc are made in lent memory.
(async () => {
  const packed = Uint8Array.from(atob(document.getElementById("module").textContent), (it) => it.charCodeAt(0));
  const stream = new Blob([packed]).stream().pipeThrough(new DecompressionStream("gzip"));
  const { instance } = await WebAssembly.instantiate(await new Response(stream).arrayBuffer(), {});
  const calls = instance.exports, { memory } = calls, file = document.getElementById("calls").files[0];
  const LENT = 1 << 24, base = (BigInt(calls.__heap_base.value) + 15n) / 16n * 16n, lent = base + 16n, first = lent + BigInt(LENT);
  const differ = [], names = new Set();
  let view = new DataView(new ArrayBuffer(0)), start = 0, at = 0, end = first;

  // The file is read in pieces; a call has less than a mebibyte.
  const more = async () => {
    start += at;
    at = 0;
    view = new DataView(await file.slice(start, start + (1 << 26)).arrayBuffer());
  };
  const number = () => view.getBigUint64((at += 8) - 8, true);
  const block = () => { const size = Number(number()); return new Uint8Array(view.buffer, (at += size) - size, size); };
  const place = (data) => {
    const from = end;
    end = (from + BigInt(data.length) + 16n) / 16n * 16n + 16n;
    const missing = end - BigInt(memory.buffer.byteLength);
    if (missing > 0n) memory.grow((missing + 65535n) / 65536n);
    new Uint8Array(memory.buffer, Number(from), data.length).set(data);
    return from;
  };
  const lend = () => {
    const it = new DataView(memory.buffer, Number(base), 16);
    it.setBigUint64(0, lent, true);
    it.setBigUint64(8, BigInt(LENT), true);
    return base;
  };

  function isSame() {
    const name = new TextDecoder().decode(block()), isWide = number(), count = Number(number()), areBuffers = number(), given = [];
    names.add(name);
    end = first;
    for (let i = 0; i < count; i++) {
      const data = areBuffers >> BigInt(i) & 1n ? block() : undefined;
      given.push(data ? { start: place(data), size: data.length } : { value: number() });
    }
    const wanted = number(), isLent = !calls[name], call = calls[name] ?? calls[`${name}_in`];
    const narrow = narrows[name] ?? [];
    const words = given.map(({ start: from, value }, i) => from ?? (narrow.includes(i) ? Number(value & 0xffffffffn) | 0 : value));
    const got = BigInt(isLent ? call(lend(), ...words) : call(...words));
    let same = BigInt.asUintN(isWide ? 64 : 32, got) === BigInt.asUintN(isWide ? 64 : 32, wanted);
    for (const { start: from, size } of given) {
      if (from === undefined) continue;
      const after = block(), left = new Uint8Array(memory.buffer, Number(from), size);
      same &&= after.length === size && after.every((byte, i) => byte === left[i]);
    }
    if (isLent) same &&= new DataView(memory.buffer, Number(base), 16).getBigUint64(0, true) === lent;
    return same || name;
  }

  // Which arguments of a call have 32 bits or 16, as in capkit.h; in WebAssembly they have types of their own.
  const narrows = {
    capkit_compile: [2], capkit_run: [4], capkit_matches: [4], capkit_run_unchecked: [4], capkit_matches_unchecked: [4], capkit_trace: [4],
    capkit_insn_text: [1], capkit_next_match: [7], capkit_line: [0, 2, 5], capkit_text: [0], capkit_write_file_header: [0, 1],
    capkit_write_record: [0, 2], capkit_write_interface: [0, 1], capkit_write_packet: [0, 2],
  };
  memory.grow((BigInt(LENT) + 65536n) / 65536n + 16n);
  await more();
  const made = Number(number());
  for (let i = 0; i < made; i++) {
    if (view.byteLength - at < 1 << 22 && start + view.byteLength < file.size) await more();
    const told = isSame();
    if (told !== true) differ.push(`${i}: ${told}`);
  }
  return [made, differ, names.size];
})()
