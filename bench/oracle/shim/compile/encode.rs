//! The program image of 01, from the genuine `Program`.
use super::program::*;

fn p2(out: &mut Vec<u8>, v: usize) {
    out.extend(u16::try_from(v).expect("fits 2 bytes").to_be_bytes());
}
fn p4(out: &mut Vec<u8>, v: usize) {
    out.extend(u32::try_from(v).expect("fits 4 bytes").to_be_bytes());
}
fn text(out: &mut Vec<u8>, s: &str, latin1: bool) {
    let bytes: Vec<u8> = if latin1 {
        s.chars().map(|c| u8::try_from(u32::from(c)).expect("latin-1")).collect()
    } else {
        s.as_bytes().to_vec()
    };
    p2(out, bytes.len());
    out.extend(bytes);
}
fn divisor(d: Divisor) -> u8 {
    match d {
        Divisor::Signed => 0,
        Divisor::Absolute => 1,
    }
}
fn cmp(op: CmpOp) -> u8 {
    match op {
        CmpOp::Lt => 0,
        CmpOp::Le => 1,
        CmpOp::Ge => 2,
        CmpOp::Gt => 3,
    }
}
fn eq(op: EqOp) -> u8 {
    match op {
        EqOp::Eq => 0,
        EqOp::Ne => 1,
    }
}

include!("opcodes.rs"); // made by derive.py: fn opcode(&Instr) -> u8, from `enum Instr` in program.rs

/// (sub, A, B); the match is exhaustive so that no arm is forgotten.
fn operands(i: &Instr) -> (u8, u32, u16) {
    match *i {
        Instr::Const { c } | Instr::PushConst { c } => (0, c.0, 0),
        Instr::Hash { h } | Instr::Resource { h } => (0, h.0, 0),
        Instr::This { p }
        | Instr::Negate { p }
        | Instr::Not { p }
        | Instr::AddLast { p }
        | Instr::Mul { p }
        | Instr::Div { p }
        | Instr::AndLast { p }
        | Instr::OrLast { p }
        | Instr::Post { p }
        | Instr::PointerLeave { p }
        | Instr::Return { p } => (0, 0, p.0),
        Instr::LoadVar { n, p }
        | Instr::LoadCtx { n, p }
        | Instr::ArrayElement { n, p }
        | Instr::StoreVar { n, p } => (0, n.0.into(), p.0),
        Instr::LoadTemp { t, p } | Instr::StoreTemp { t, p } => (0, t.0.into(), p.0),
        Instr::Member { m, p } => (0, m.0.into(), p.0),
        Instr::StoreMember { s, p } => (0, s.0.into(), p.0),
        Instr::Call { q, p } => (0, q.0.into(), p.0),
        Instr::Push | Instr::AddAcc | Instr::LoopEnd | Instr::Halt | Instr::End => (0, 0, 0),
        Instr::DivGuard { end, divisor: d } => (divisor(d), end, 0),
        Instr::HostMath { f, argc, p } => (argc, f.0.into(), p.0),
        Instr::Cmp { op, p } => (cmp(op), 0, p.0),
        Instr::CmpConst { op, c, p } => (cmp(op), c.0, p.0),
        Instr::Eq { op, p } => (eq(op), 0, p.0),
        Instr::EqConst { op, c, p } => (eq(op), c.0, p.0),
        Instr::EqHash { op, h, p } => (eq(op), h.0, p.0),
        Instr::AndStep { to, p } | Instr::OrStep { to, p } | Instr::PointerEnter { to, p } => {
            (0, to, p.0)
        }
        Instr::Jump { to }
        | Instr::JumpIfFalsy { to }
        | Instr::HandlerPush { to }
        | Instr::HandlerPop { to } => (0, to, 0),
        Instr::LoopBegin { exit } | Instr::EachBegin { exit } => (0, exit, 0),
        Instr::LoopCheck { body } => (0, body, 0),
        Instr::EachNextVar { n, exit } => (0, exit, n.0),
        Instr::EachNextTemp { t, exit } => (0, exit, t.0),
    }
}

pub(super) fn encode(program: &Program, latin1: bool) -> Vec<u8> {
    let mut b = Vec::new();
    p4(&mut b, program.code.len());
    for i in &program.code {
        let (sub, a, bb) = operands(i);
        b.push(opcode(i));
        b.push(sub);
        b.extend(a.to_be_bytes());
        b.extend(bb.to_be_bytes());
    }
    p4(&mut b, program.consts.len());
    for c in &program.consts {
        b.extend(c.to_bits().to_be_bytes());
    }
    p4(&mut b, program.posts.len());
    for p in &program.posts {
        b.extend(p.scale.to_bits().to_be_bytes());
        b.extend(p.offset.to_bits().to_be_bytes());
    }
    p4(&mut b, program.hashes.len());
    for h in &program.hashes {
        b.extend(h.to_be_bytes());
    }
    p4(&mut b, program.names.len());
    for n in &program.names {
        b.extend(n.hash.to_u64().to_be_bytes());
        text(&mut b, &n.text, latin1);
    }
    p4(&mut b, program.temps.len());
    for t in &program.temps {
        b.extend(t.0.to_be_bytes());
    }
    p4(&mut b, program.members.len());
    for m in &program.members {
        b.extend(m.hash.to_u64().to_be_bytes());
        text(&mut b, &m.text, latin1);
        text(&mut b, &m.report, latin1);
    }
    p4(&mut b, program.stores.len());
    for s in &program.stores {
        let (root, index) = match s.root {
            StoreRoot::Var(n) => (0, n.0),
            StoreRoot::Temp(t) => (1, t.0),
            StoreRoot::Other => (2, 0),
        };
        b.push(root);
        b.extend(index.to_be_bytes());
        p2(&mut b, s.path.len());
        for h in &s.path {
            b.extend(h.to_u64().to_be_bytes());
        }
    }
    p4(&mut b, program.calls.len());
    for c in &program.calls {
        b.extend(c.index.0.to_be_bytes());
        b.push(c.impl_idx);
        p2(&mut b, c.args.len());
        for a in &c.args {
            b.extend(a.to_be_bytes());
        }
    }
    p2(&mut b, program.depths.stack.into());
    p2(&mut b, program.depths.loops.into());
    p2(&mut b, program.depths.handlers.into());
    let order = [
        ProgramFlags::FLOAT_ONLY,
        ProgramFlags::READS_ACTOR_VARS,
        ProgramFlags::USES_TEMPS,
        ProgramFlags::READS_CONTEXT,
        ProgramFlags::USES_MEMBERS,
        ProgramFlags::HAS_ASSIGNMENT,
        ProgramFlags::HAS_LOOPS,
        ProgramFlags::USES_ARROW,
        ProgramFlags::USES_QUERIES,
        ProgramFlags::USES_RANDOM,
        ProgramFlags::USES_RANDOM_OP,
    ];
    assert!(!program.flags.contains(ProgramFlags::CONSTANT));
    let mut flags = 0u16;
    for (bit, f) in order.into_iter().enumerate() {
        if program.flags.contains(f) {
            flags |= 1 << bit;
        }
    }
    b.extend(flags.to_be_bytes());
    b.push(program.float_loop.into());
    let mut out = vec![1u8];
    p4(&mut out, b.len());
    out.extend(b);
    out
}
