//! Calls of a calculator.

use crate::peer::{Calling, came};
use calculator::{
    CalculatorClient, CalculatorDefineParamsBuilder, CalculatorEvaluateParamsBuilder,
    ExpressionBuilder, ExpressionListBuilder, FunctionClient, Operator,
    ReckonerReckonParamsBuilder, ValueClient,
};
use jamdrosek::client::Cap;
use jamdrosek::interfaces::CapTableBuilder;
use std::alloc::Global;
use std::io::{Read, Write};

/// An expression under way, with the capabilities that it names.
#[derive(Drop)]
struct Maker {
    alloc: Global,
    table: CapTableBuilder,
}

impl Maker {
    fn new(alloc: Global) -> Maker {
        let table = CapTableBuilder::new(alloc);
        Maker { alloc, table }
    }

    fn number(&self, number: f64) -> anyhow::Result<ExpressionBuilder> {
        let mut expression = ExpressionBuilder::new(self.alloc)?;
        expression.set_number(number);
        Ok(expression)
    }

    fn param(&self, place: u32) -> anyhow::Result<ExpressionBuilder> {
        let mut expression = ExpressionBuilder::new(self.alloc)?;
        expression.set_param(place);
        Ok(expression)
    }

    fn value(&mut self, value: &ValueClient) -> anyhow::Result<ExpressionBuilder> {
        let target = value.target.copy()?;
        let mut expression = ExpressionBuilder::new(self.alloc)?;
        expression.set_value(&mut self.table, ValueClient { target })?;
        Ok(expression)
    }

    fn call(
        &mut self,
        function: &FunctionClient,
        first: ExpressionBuilder,
        second: ExpressionBuilder,
    ) -> anyhow::Result<ExpressionBuilder> {
        let mut params = ExpressionListBuilder::new(self.alloc);
        params.push(first)?;
        params.push(second)?;
        let target = function.target.copy()?;
        let mut expression = ExpressionBuilder::new(self.alloc)?;
        expression.set_call();
        expression.set_call_function(&mut self.table, FunctionClient { target })?;
        expression.set_call_params(params);
        Ok(expression)
    }
}

/// A calculator that is called.
#[derive(Drop)]
pub struct Evaluating<'a, R, W> {
    alloc: Global,
    client: &'a mut Calling<R, W>,
    calculator: CalculatorClient,
}

impl<'a, R: Read + Drop, W: Write + Drop> Evaluating<'a, R, W> {
    /// Calls the peer's calculator.
    pub fn new(
        alloc: Global,
        client: &'a mut Calling<R, W>,
    ) -> anyhow::Result<Evaluating<'a, R, W>> {
        let cap = client.bootstrap()?.cap(alloc);
        let root = client.own(cap);
        Ok(Evaluating {
            alloc,
            client,
            calculator: CalculatorClient::new(alloc, root),
        })
    }

    /// The function that an operator is, before it came.
    fn operator(&mut self, operator: Operator) -> anyhow::Result<FunctionClient> {
        let reckoner = self.calculator.as_reckoner()?;
        Ok(reckoner.operator(self.client, operator)?.function()?)
    }

    /// What an expression comes to, before it came.
    fn evaluate(&mut self, maker: Maker, body: ExpressionBuilder) -> anyhow::Result<ValueClient> {
        let mut params = CalculatorEvaluateParamsBuilder::new(self.alloc)?;
        params.table = maker.table;
        params.set_expression(body);
        let promise = self.calculator.evaluate(self.client, params)?;
        Ok(promise.value()?)
    }

    /// The number of a value.
    fn read(&mut self, value: &ValueClient) -> anyhow::Result<f64> {
        let promise = value.read(self.client)?;
        let came = came(self.client, promise.question())?;
        Ok(promise.results(&came)?.number())
    }

    /// 123 + 45 - 67, by functions that haven't come.
    pub fn operators(&mut self) -> anyhow::Result<f64> {
        let (add, subtract) = (
            self.operator(Operator::Add)?,
            self.operator(Operator::Subtract)?,
        );
        let mut maker = Maker::new(self.alloc);
        let (a, b, c) = (
            maker.number(123.0)?,
            maker.number(45.0)?,
            maker.number(67.0)?,
        );
        let sum = maker.call(&add, a, b)?;
        let difference = maker.call(&subtract, sum, c)?;
        let value = self.evaluate(maker, difference)?;
        self.read(&value)
    }

    /// 4 * 6 + 3, by a value that hasn't come.
    pub fn values(&mut self) -> anyhow::Result<f64> {
        let (add, multiply) = (
            self.operator(Operator::Add)?,
            self.operator(Operator::Multiply)?,
        );
        let mut maker = Maker::new(self.alloc);
        let (a, b) = (maker.number(4.0)?, maker.number(6.0)?);
        let product = maker.call(&multiply, a, b)?;
        let value = self.evaluate(maker, product)?;
        let mut maker = Maker::new(self.alloc);
        let (a, b) = (maker.value(&value)?, maker.number(3.0)?);
        let sum = maker.call(&add, a, b)?;
        let value = self.evaluate(maker, sum)?;
        self.read(&value)
    }

    /// f(x, y) = x * 100 + y, of 12 and 34.
    pub fn definitions(&mut self) -> anyhow::Result<f64> {
        let (add, multiply) = (
            self.operator(Operator::Add)?,
            self.operator(Operator::Multiply)?,
        );
        let mut maker = Maker::new(self.alloc);
        let (x, y, hundred) = (maker.param(0)?, maker.param(1)?, maker.number(100.0)?);
        let product = maker.call(&multiply, x, hundred)?;
        let sum = maker.call(&add, product, y)?;
        let mut params = CalculatorDefineParamsBuilder::new(self.alloc)?;
        params.table = maker.table;
        params.set_body(sum);
        let defined = self.calculator.define(self.client, params)?;
        let mut maker = Maker::new(self.alloc);
        let (a, b) = (maker.number(12.0)?, maker.number(34.0)?);
        let called = maker.call(&defined.function()?, a, b)?;
        let value = self.evaluate(maker, called)?;
        self.read(&value)
    }

    /// 2 ^ (4 + 5), by a function of this end's.
    pub fn own_functions(&mut self) -> anyhow::Result<f64> {
        let add = self.operator(Operator::Add)?;
        let power = FunctionClient::new(self.alloc, self.client.own(Cap::Object(2)));
        let mut maker = Maker::new(self.alloc);
        let (a, b, c) = (maker.number(2.0)?, maker.number(4.0)?, maker.number(5.0)?);
        let sum = maker.call(&add, b, c)?;
        let called = maker.call(&power, a, sum)?;
        let value = self.evaluate(maker, called)?;
        self.read(&value)
    }

    /// A number, by the interface that the calculator's extends.
    pub fn superinterface(&mut self) -> anyhow::Result<f64> {
        let reckoner = self.calculator.as_reckoner()?;
        let maker = Maker::new(self.alloc);
        let mut params = ReckonerReckonParamsBuilder::new(self.alloc)?;
        params.set_expression(maker.number(7.5)?);
        let promise = reckoner.reckon(self.client, params)?;
        let came = came(self.client, promise.question())?;
        Ok(promise.results(&came)?.number())
    }

    /// A param outside of any function.
    pub fn exceptions(&mut self) -> anyhow::Result<f64> {
        let maker = Maker::new(self.alloc);
        let body = maker.param(0)?;
        let value = self.evaluate(maker, body)?;
        self.read(&value)
    }

    /// 3 and a value that is none, which counts as 0. The function's pointer comes after its null one.
    pub fn no_value(&mut self) -> anyhow::Result<f64> {
        let add = self.operator(Operator::Add)?;
        let mut maker = Maker::new(self.alloc);
        let nothing = ValueClient::new(self.alloc, self.client.own(Cap::None));
        let (nothing, three) = (maker.value(&nothing)?, maker.number(3.0)?);
        let sum = maker.call(&add, nothing, three)?;
        let value = self.evaluate(maker, sum)?;
        self.read(&value)
    }

    /// A function that is none.
    pub fn no_function(&mut self) -> anyhow::Result<f64> {
        let mut maker = Maker::new(self.alloc);
        let nothing = FunctionClient::new(self.alloc, self.client.own(Cap::None));
        let (one, two) = (maker.number(1.0)?, maker.number(2.0)?);
        let called = maker.call(&nothing, one, two)?;
        let value = self.evaluate(maker, called)?;
        self.read(&value)
    }

    /// A value that is none.
    pub fn null(&mut self) -> anyhow::Result<f64> {
        let value = ValueClient::new(self.alloc, self.client.own(Cap::None));
        self.read(&value)
    }
}
