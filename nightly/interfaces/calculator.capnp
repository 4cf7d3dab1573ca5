@0xa7d22fa76af3cb7e;
# A calculator whose expressions call functions, which may be objects of whoever asks. In the manner of the reference library's sample.

interface Reckoner {
  # Says at once what an expression comes to.

  reckon @0 (expression :Expression) -> (number :Float64);

  operator @1 (operator :Operator) -> (function :Function);
  # The function that an operator is.
}

interface Calculator extends(Reckoner) {
  # Has values and functions that it keeps.

  evaluate @0 (expression :Expression) -> (value :Value);

  define @1 (body :Expression) -> (function :Function);
  # The function that gives what this expression comes to of its params.
}

interface Value {
  read @0 () -> (number :Float64);
}

interface Function {
  call @0 (params :List(Float64)) -> (number :Float64);
}

enum Operator {
  add @0;
  subtract @1;
  multiply @2;
  divide @3;
}

struct Expression {
  union {
    number @0 :Float64;

    value @1 :Value;
    # What a calculator came to before.

    param @2 :UInt32;
    # A param of the function whose body the expression is in.

    call :group {
      function @3 :Function;
      params @4 :List(Expression);
    }
  }
}
