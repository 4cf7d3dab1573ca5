//! Functions: the operators, and one that the calculator hasn't.

use crate::Served;
use calculator::{FunctionCallCall, FunctionDispatch, FunctionServer, Operator};
use jamdrosek::fields::List;
use jamdrosek::interfaces::{MethodFault, MethodResult, ServiceObject};
use jamdrosek::server::{Either, Context};

/// A function of two numbers, by what it is called with.
#[derive(Clone, Copy)]
pub enum Binary {
    Operator(Operator),
    /// The first number as often as the second says.
    Power,
}

/// A function of two numbers.
#[derive(Drop)]
pub struct Function {
    binary: Binary,
}

impl Function {
    /// The function, to be served.
    pub fn of(binary: Binary) -> Served {
        let function = FunctionDispatch::new(Function { binary });
        Either::Right(Either::Right(Either::Left(function)))
    }
}

impl ServiceObject for Function {
    type Makes = Served;

    fn has_more(&self) -> bool {
        false
    }
}

impl FunctionServer for Function {
    fn call(&mut self, call: &mut FunctionCallCall<'_>, _context: &mut Context<Served>) -> MethodResult {
        let Some((first, second)) = two_of(call.params.params()?) else {
            return Err(MethodFault::Unimplemented);
        };
        call.results
            .set_number(number_of(self.binary, first, second)?);
        Ok(())
    }
}

/// Two numbers, where these are two.
fn two_of(numbers: List<'_, f64>) -> Option<(f64, f64)> {
    if numbers.len() != 2 {
        return None;
    }
    Some((numbers.get(0), numbers.get(1)))
}

/// What a function gives.
fn number_of(binary: Binary, first: f64, second: f64) -> Result<f64, MethodFault> {
    match binary {
        Binary::Operator(Operator::Add) => Ok(first + second),
        Binary::Operator(Operator::Subtract) => Ok(first - second),
        Binary::Operator(Operator::Multiply) => Ok(first * second),
        Binary::Operator(Operator::Divide) => Ok(first / second),
        Binary::Operator(Operator::Unknown(_)) => Err(MethodFault::Unimplemented),
        Binary::Power => Ok(power(first, second)),
    }
}

/// A number as often as another one says, a thousand times at most.
fn power(number: f64, times: f64) -> f64 {
    let (mut power, mut left) = (1.0, times);
    for _ in 0..1000 {
        if left < 1.0 {
            break;
        }
        power = power * number;
        left = left - 1.0;
    }
    power
}
