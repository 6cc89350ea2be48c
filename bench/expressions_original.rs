//! Evaluates the expression of crates/cases_unwinding by the original's `gimli`, and prints the same line. `bench/expressions
//! --original` builds it.

use gimli::{
    Encoding, EndianSlice, Evaluation, EvaluationResult, EvaluationStorage, Format, LittleEndian, Location, Piece, Reader,
    Register, Result, Value, X86_64,
};
use std::hint::black_box;
use std::io::Read;
use std::time::{Duration, Instant};

const ROUNDS: u32 = 2_000;
const ENCODING: Encoding = Encoding { address_size: 8, format: Format::Dwarf32, version: 5 };

/// A stack of 64 values in place.
struct Fixed;

impl<R: Reader> EvaluationStorage<R> for Fixed {
    type Stack = [Value; 64];
    type ExpressionStack = [(R, R); 0];
    type Result = [Piece<R>; 1];
}

/// The values of RSP and RIP.
#[derive(Clone, Copy)]
struct Registers {
    sp: u64,
    ip: u64,
}

impl Registers {
    fn get(&self, register: Register) -> u64 {
        match register {
            X86_64::RSP => self.sp,
            X86_64::RA => self.ip,
            _ => 0,
        }
    }
}

/// The value of an expression that asks for at most eight registers, if it has one.
fn value_of(expression: EndianSlice<LittleEndian>, registers: Registers) -> Result<Option<u64>> {
    let mut evaluation = Evaluation::<_, Fixed>::new_in(expression, ENCODING);
    let mut answer = evaluation.evaluate()?;
    for _ in 0..8 {
        match answer {
            EvaluationResult::RequiresRegister { register, .. } => {
                answer = evaluation.resume_with_register(Value::Generic(registers.get(register)))?;
            }
            _ => break,
        }
    }
    Ok(match evaluation.as_result() {
        [Piece { location: Location::Address { address }, .. }] => Some(*address),
        _ => None,
    })
}

/// The sum of the values at the 16 addresses of an entry of a PLT in turn. An expression without a value counts as 0.
fn sum_of_values(expression: EndianSlice<LittleEndian>, count: u64) -> u64 {
    (0..count).fold(0, |sum: u64, i| {
        let registers = Registers { sp: 0x7000, ip: 0x1020 + i % 16 };
        sum.wrapping_add(value_of(expression, registers).ok().flatten().unwrap_or(0))
    })
}

fn main() {
    let mut bytes = Vec::new();
    std::io::stdin().read_to_end(&mut bytes).expect("the input is read");
    let count: u64 = std::env::args().nth(2).and_then(|text| text.parse().ok()).expect("a number of evaluations");
    let expression = EndianSlice::new(&bytes, LittleEndian);
    let mut least = Duration::MAX;
    let mut sum = 0;
    for _ in 0..ROUNDS {
        let start = Instant::now();
        sum = sum_of_values(black_box(expression), black_box(count));
        least = least.min(start.elapsed());
    }
    println!("{count} evaluations {} ns, sum {sum:#x}", least.as_nanos());
}
