//! A standard library whose root holds `bench`: the one of the statement of what to build, and
//! the wider one that calls need.

use std::net::Ipv4Addr;

use crate::args::Args;
use crate::interp::RuntimeErrorKind;
use crate::libapi::{ArgDecl, ArgDesc, FuncDef, Module, SymDesc};
use crate::sym::Symbol;
use crate::val::{Val, ValDef, ValType};

/// No function is ever run
fn exec(mut args: Args) -> Result<Val, RuntimeErrorKind> {
    args.void();
    Err(RuntimeErrorKind::LibTodo)
}

const fn sym(name: &'static str, sym: Symbol) -> SymDesc {
    SymDesc { name, sym }
}

const fn val(name: &'static str, val: ValDef) -> SymDesc {
    sym(name, Symbol::Val(val))
}

const fn arg(name: &'static str, typ: ValType) -> ArgDesc {
    ArgDesc {
        name,
        typ: ArgDecl::Positional(typ),
        doc: "",
    }
}

macro_rules! func {
    ($static:ident, $name:literal, ($($arg:literal: $typ:ident),*) -> $ret:ident) => {
        static $static: FuncDef = FuncDef {
            name: $name,
            return_type: ValType::$ret,
            args: &[$(arg($arg, ValType::$typ)),*],
            arg_pos: |name| $static.args.iter().position(|arg| arg.name == name),
            min_args: [$($arg),*].len(),
            collect_type: ValType::Void,
            exec,
            doc: "",
        };
    };
}

macro_rules! module {
    ($vis:vis $static:ident, $name:literal, [$($sym:expr),* $(,)?]) => {
        $vis static $static: Module = Module {
            name: $name,
            symtab: &[$($sym),*],
            lookup: |name| $static.symtab.iter().position(|sym| sym.name == name),
            doc: "",
        };
    };
}

func!(PING, "ping", ("to": Ip4) -> Pkt);
func!(PAUSE, "pause", ("time": U32) -> TimeJump);
func!(BURST, "burst", ("to": Sock4, "body": Str) -> PktGen);
func!(MARK, "mark", ("on": Bool) -> Void);
func!(PICK, "pick", ("port": U16) -> U32);
func!(HOST, "host", ("number": U8) -> Ip4);

module!(DEEP, "deep", [val("ZERO", ValDef::U8(0))]);

module!(
    BENCH,
    "bench",
    [
        val("HTTP", ValDef::U16(80)),
        val("LOOP", ValDef::Ip4(Ipv4Addr::new(127, 0, 0, 1))),
        val("BIG", ValDef::U32(70000)),
        val("ON", ValDef::Bool(true)),
        val("BANNER", ValDef::Str(b"ok")),
        sym("ping", Symbol::Func(&PING)),
        sym("deep", Symbol::Module(&DEEP)),
    ]
);

module!(
    WIDE_BENCH,
    "bench",
    [
        val("HTTP", ValDef::U16(80)),
        val("LOOP", ValDef::Ip4(Ipv4Addr::new(127, 0, 0, 1))),
        val("BIG", ValDef::U32(70000)),
        val("ON", ValDef::Bool(true)),
        val("BANNER", ValDef::Str(b"ok")),
        sym("ping", Symbol::Func(&PING)),
        sym("deep", Symbol::Module(&DEEP)),
        sym("pause", Symbol::Func(&PAUSE)),
        sym("burst", Symbol::Func(&BURST)),
        sym("mark", Symbol::Func(&MARK)),
        sym("pick", Symbol::Func(&PICK)),
        sym("host", Symbol::Func(&HOST)),
    ]
);

module!(pub STDLIB, "stdlib", [sym("bench", Symbol::Module(&BENCH))]);

module!(pub WIDE, "stdlib", [sym("bench", Symbol::Module(&WIDE_BENCH))]);
