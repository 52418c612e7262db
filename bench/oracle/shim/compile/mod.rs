//! Stands for the compiler around the builder; ast.rs, program.rs and codegen/ beside it are genuine.
pub mod ast; // genuine
mod codegen; // genuine (eight files)
mod encode; // ours: the program image of 01
pub(crate) mod program; // genuine

pub(crate) mod parse {
    //! The one name that ast.rs takes from the parser.
    #[derive(Copy, Clone, Debug, PartialEq, Eq)]
    pub struct TokenClasses(u8);
    impl TokenClasses {
        pub const ALL: Self = Self(u8::MAX);
    }
}

use crate::catalog::{MathCatalog, MathRef, QueryCatalog, QueryIndex};
use crate::diag::LanguageMessage;
use crate::numeric::{Platform, PostOp};
use crate::ops::ExpressionOp;
use crate::version::MolangVersion;
use ast::{Name, Node, Payload, QueryRef, Span};
use std::fmt;
use tree::{TNode, TPayload, Tree};

/// The arrays byte of a tree image.
#[derive(Copy, Clone, Debug, PartialEq, Eq, Hash)]
pub enum ArrayAccess {
    Unresolved,
    FromHost,
}

/// What the builder reads of the compiler's settings.
#[derive(Copy, Clone)]
pub(crate) struct Settings<'o> {
    pub(crate) catalog: &'o QueryCatalog,
    pub(crate) math: Option<&'o MathCatalog>,
    pub(crate) platform: Platform,
    pub(crate) arrays: ArrayAccess,
}

/// What the builder asks of the compiler.
pub(crate) struct Cx<'o> {
    pub(crate) opts: Settings<'o>,
    version: MolangVersion,
    write_to_other_mob: bool,
}

impl Cx<'_> {
    pub(crate) fn version(&self) -> MolangVersion {
        self.version
    }
    pub(crate) fn language(&mut self, message: LanguageMessage, _: Span, _: &[&dyn fmt::Display]) {
        match message {
            LanguageMessage::WriteToOtherMob => self.write_to_other_mob = true,
        }
    }
}

/// What one call of `build` gave.
pub struct Lowered {
    /// 0, 5 UsesArrays, 6 UsesResources, 7 Failed, 8 WriteToOtherMob.
    pub refusal: u32,
    pub image: Vec<u8>,
}

/// `latin1`: each text byte goes through the builder as the char of that number and is mapped back in the image, so texts can be any bytes;
/// otherwise they must be UTF-8.
pub fn lower(tree: &Tree, latin1: bool) -> Lowered {
    let catalog = QueryCatalog;
    let mut cx = Cx {
        opts: Settings {
            catalog: &catalog,
            math: None,
            platform: Platform::default(),
            arrays: if tree.arrays == 1 { ArrayAccess::FromHost } else { ArrayAccess::Unresolved },
        },
        version: if tree.divisor == 0 { MolangVersion::SignedDivisor } else { MolangVersion::AbsoluteDivisor },
        write_to_other_mob: false,
    };
    let node = node(&tree.root, latin1);
    let built = codegen::build(&mut cx, &node);
    let refused = |refusal| Lowered { refusal, image: Vec::new() };
    match built {
        Err(codegen::LinkError::UsesArrays) => refused(5),
        Err(codegen::LinkError::UsesResources) => refused(6),
        Err(codegen::LinkError::Failed) => refused(if cx.write_to_other_mob { 8 } else { 7 }),
        Ok(program) => {
            assert!(!cx.write_to_other_mob);
            Lowered { refusal: 0, image: encode::encode(&program, latin1) }
        }
    }
}

fn text(bytes: &[u8], latin1: bool) -> String {
    if latin1 {
        bytes.iter().map(|&b| char::from(b)).collect()
    } else {
        String::from_utf8(bytes.to_vec()).expect("the caller tested the texts")
    }
}

fn payload(t: &TPayload, latin1: bool) -> Payload {
    let name = |hash: u64, bytes: &[u8]| Name::with_hash(text(bytes, latin1), hash);
    match t {
        TPayload::None => Payload::None,
        TPayload::Float(bits) => Payload::Float(f32::from_bits(*bits)),
        TPayload::Hash(h) => Payload::Hash(*h),
        TPayload::Name(3, h, b) => Payload::Context(name(*h, b)),
        TPayload::Name(4, h, b) => Payload::Entity(name(*h, b)),
        TPayload::Name(5, h, b) => Payload::Temp(name(*h, b)),
        TPayload::Name(6, h, b) => Payload::Member(name(*h, b)),
        TPayload::Name(7, h, b) => Payload::ArrayVariable(name(*h, b)),
        TPayload::Name(8, h, b) => Payload::Geometry(name(*h, b)),
        TPayload::Name(9, h, b) => Payload::Material(name(*h, b)),
        TPayload::Name(10, h, b) => Payload::Texture(name(*h, b)),
        TPayload::Name(..) => unreachable!(),
        TPayload::Query(index, impl_idx) => Payload::Query(QueryRef { index: QueryIndex(*index), impl_idx: *impl_idx }),
        TPayload::HostMath(f) => Payload::HostMath(MathRef(*f)),
    }
}

fn node(t: &TNode, latin1: bool) -> Node {
    Node {
        op: ExpressionOp::from_code(t.op).expect("question 3 knows every code"),
        post: PostOp { scale: f32::from_bits(t.scale), offset: f32::from_bits(t.offset) },
        value: payload(&t.payload, latin1),
        children: t.children.iter().map(|c| node(c, latin1)).collect(),
        span: Span::new(0, 0),
        below: parse::TokenClasses::ALL,
    }
}
