
// Appended to the shim's encode.rs: the same program image into a buffer that is kept from call to call, no text copied twice.
fn put2(out: &mut Vec<u8>, v: usize) {
    out.extend((v as u16).to_be_bytes());
}
fn put4(out: &mut Vec<u8>, v: usize) {
    out.extend((v as u32).to_be_bytes());
}
fn put_text(out: &mut Vec<u8>, s: &str) {
    put2(out, s.len());
    out.extend_from_slice(s.as_bytes());
}

fn put_instruction(out: &mut Vec<u8>, i: &Instr) {
    let (sub, a, b) = operands(i);
    let [a0, a1, a2, a3] = a.to_be_bytes();
    let [b0, b1] = b.to_be_bytes();
    out.extend([opcode(i), sub, a0, a1, a2, a3, b0, b1]);
}

fn put_pools(out: &mut Vec<u8>, program: &Program) {
    put4(out, program.consts.len());
    program.consts.iter().for_each(|c| out.extend(c.to_bits().to_be_bytes()));
    put4(out, program.posts.len());
    for p in &program.posts {
        out.extend(p.scale.to_bits().to_be_bytes());
        out.extend(p.offset.to_bits().to_be_bytes());
    }
    put4(out, program.hashes.len());
    program.hashes.iter().for_each(|h| out.extend(h.to_be_bytes()));
    put4(out, program.names.len());
    for n in &program.names {
        out.extend(n.hash.to_u64().to_be_bytes());
        put_text(out, &n.text);
    }
    put4(out, program.temps.len());
    program.temps.iter().for_each(|t| out.extend(t.0.to_be_bytes()));
    put4(out, program.members.len());
    for m in &program.members {
        out.extend(m.hash.to_u64().to_be_bytes());
        put_text(out, &m.text);
        put_text(out, &m.report);
    }
}

fn put_stores_and_calls(out: &mut Vec<u8>, program: &Program) {
    put4(out, program.stores.len());
    for s in &program.stores {
        let (root, index) = match s.root {
            StoreRoot::Var(n) => (0, n.0),
            StoreRoot::Temp(t) => (1, t.0),
            StoreRoot::Other => (2, 0),
        };
        out.push(root);
        out.extend(index.to_be_bytes());
        put2(out, s.path.len());
        s.path.iter().for_each(|h| out.extend(h.to_u64().to_be_bytes()));
    }
    put4(out, program.calls.len());
    for c in &program.calls {
        out.extend(c.index.0.to_be_bytes());
        out.push(c.impl_idx);
        put2(out, c.args.len());
        c.args.iter().for_each(|a| out.extend(a.to_be_bytes()));
    }
}

/// The flags in 01's order.
fn flag_bits(flags: ProgramFlags) -> u16 {
    let order = [
        ProgramFlags::FLOAT_ONLY, ProgramFlags::READS_ACTOR_VARS, ProgramFlags::USES_TEMPS, ProgramFlags::READS_CONTEXT,
        ProgramFlags::USES_MEMBERS, ProgramFlags::HAS_ASSIGNMENT, ProgramFlags::HAS_LOOPS, ProgramFlags::USES_ARROW,
        ProgramFlags::USES_QUERIES, ProgramFlags::USES_RANDOM, ProgramFlags::USES_RANDOM_OP,
    ];
    order.into_iter().enumerate().map(|(bit, f)| u16::from(flags.contains(f)) << bit).sum()
}

pub(super) fn write(program: &Program, out: &mut Vec<u8>) {
    out.extend([1, 0, 0, 0, 0]);
    put4(out, program.code.len());
    program.code.iter().for_each(|i| put_instruction(out, i));
    put_pools(out, program);
    put_stores_and_calls(out, program);
    put2(out, program.depths.stack.into());
    put2(out, program.depths.loops.into());
    put2(out, program.depths.handlers.into());
    out.extend(flag_bits(program.flags).to_be_bytes());
    out.push(program.float_loop.into());
    let rest = (out.len() - 5) as u32;
    out[1..5].copy_from_slice(&rest.to_be_bytes());
}
