//! The types of the parser that document 001 names. Its file is not among the documents; these are here so that 001 compiles. Nothing runs them.

use alloc::{string::String, vec::Vec};

pub type AstNodeId = usize;

#[derive(Clone, Copy)]
pub enum BinOp {
    Add,
    Sub,
    Mul,
    Div,
    Mod,
    Eq,
    StrictEq,
    NotEq,
    StrictNotEq,
    Lt,
    Gt,
    LtEq,
    GtEq,
    And,
    Or,
    BitAnd,
    BitOr,
    BitXor,
    ShiftLeft,
    ShiftRight,
    Instanceof,
    In,
}

#[derive(Clone, Copy)]
pub enum UnaryOp {
    Neg,
    Not,
    Typeof,
    Void,
    Delete,
    BitNot,
}

#[derive(Clone)]
pub enum AstNode {
    Program(Vec<AstNodeId>),
    VarDecl { name: String, init: Option<AstNodeId>, kind: () },
    FuncDecl { name: String, params: Vec<String>, body: AstNodeId },
    Return(Option<AstNodeId>),
    If { condition: AstNodeId, then_branch: AstNodeId, else_branch: Option<AstNodeId> },
    While { condition: AstNodeId, body: AstNodeId },
    For { init: Option<AstNodeId>, condition: Option<AstNodeId>, update: Option<AstNodeId>, body: AstNodeId },
    Block(Vec<AstNodeId>),
    ExprStatement(AstNodeId),
    BinaryExpr { op: BinOp, left: AstNodeId, right: AstNodeId },
    UnaryExpr { op: UnaryOp, operand: AstNodeId },
    AssignExpr { target: AstNodeId, value: AstNodeId },
    CompoundAssign { op: BinOp, target: AstNodeId, value: AstNodeId },
    CallExpr { callee: AstNodeId, args: Vec<AstNodeId> },
    MemberExpr { object: AstNodeId, property: String },
    IndexExpr { object: AstNodeId, index: AstNodeId },
    ObjectLiteral(Vec<(String, AstNodeId)>),
    ArrayLiteral(Vec<AstNodeId>),
    NumberLit(i64),
    StringLit(String),
    BoolLit(bool),
    NullLit,
    UndefinedLit,
    Identifier(String),
    This,
    FuncExpr { params: Vec<String>, body: AstNodeId },
    ArrowFunc { params: Vec<String>, body: AstNodeId },
    NewExpr { callee: AstNodeId, args: Vec<AstNodeId> },
    TypeofExpr(AstNodeId),
    Throw(AstNodeId),
    TryCatch { try_body: AstNodeId, catch_body: Option<AstNodeId>, finally_body: Option<AstNodeId>, catch_param: Option<String> },
    Break,
    Continue,
    Empty,
}

pub struct AstArena(pub Vec<AstNode>);

impl AstArena {
    pub fn get(&self, id: AstNodeId) -> Option<&AstNode> {
        self.0.get(id)
    }
}
