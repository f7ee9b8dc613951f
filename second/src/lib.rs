//! A second `piperench`, written plainly and apart from the program: each mode, from the words of the command line to the bytes
//! of the answer, without contracts. The fuzzer compares the program with it, and `bench/compile.py` measures the program by it.
//!
//! A program's lines come twice, by two ways that share no step after the scope rules: [`evaluate`] takes its meaning from the
//! tree on whole lists, and [`machine`] runs its configuration cycle by cycle.

pub mod call;
pub mod configuration;
pub mod cut;
pub mod equation;
pub mod evaluate;
pub mod expand;
pub mod list;
pub mod machine;
pub mod modes;
pub mod narrow;
pub mod parse;
pub mod place;
pub mod plant;
pub mod refusal;
pub mod route;
pub mod samples;
pub mod scope;
pub mod stall;
pub mod token;
pub mod tree;
pub mod width;
pub mod words;

pub use refusal::Refusal;

/// How many columns a stage has, and how many registers a column.
#[derive(Clone, Copy, PartialEq, Eq, Debug)]
pub struct Fabric {
    pub columns: usize,
    pub registers: usize,
}

pub const BASE: Fabric = Fabric { columns: 16, registers: 8 };
pub const WIDE: Fabric = Fabric { columns: 32, registers: 16 };

/// How a program is to be compiled.
#[derive(Clone, Copy, Debug)]
pub struct Target {
    pub fabric: Fabric,
    pub narrowed: bool,
}

/// The equations of a program's text, with their widths.
pub fn equations(text: &[u8]) -> Result<(equation::Flat, Vec<u32>), Refusal> {
    let tokens = token::read(text);
    let program = parse::program(&tokens)?;
    let statics = scope::check(&program)?;
    let flat = expand::expand(&program, &statics)?;
    let widths = width::solve(&flat)?;
    Ok((flat, widths))
}

/// The net of a program's text.
pub fn net(text: &[u8], target: Target) -> Result<cut::Net, Refusal> {
    let (mut flat, mut widths) = equations(text)?;
    if target.narrowed {
        flat = narrow::narrow(flat, &widths);
        widths = width::solve(&flat)?;
    }
    cut::cut(&flat, &widths, target.fabric)
}

/// The configuration of a program's text.
pub fn compile(text: &[u8], target: Target) -> Result<configuration::Configuration, Refusal> {
    let net = net(text, target)?;
    let placement = place::place(&net, target.fabric)?;
    Ok(route::configuration(&net, &placement, target.fabric))
}
