@0xc9d6f2aa81b40e37;

# What a server makes tail calls of, and what makes a client one.

struct Value {
  value @0 :UInt64;
}

struct Given {
  cell @0 :Cell;
}

interface Cell @0xe5a1000000000002 {
  add @0 (amount :UInt64) -> Value;
  get @1 () -> Value;
}

interface Maker @0xe5a10000000000c1 {
  make @0 () -> Given;
  # Gives the maker's own cell.

  pass @1 (cell :Cell) -> Given;
  # Gives back what it is given.
}

interface Tails @0xe5a10000000000c2 {
  count @0 (cell :Cell) -> Value;
  # A tail call of `get`.

  made @1 (maker :Maker) -> Given;
  # A tail call of `make`.

  passed @2 (maker :Maker) -> Given;
  # A tail call of `pass`, with a cell of the server's that holds 5.

  become @3 (milliseconds :UInt64, cell :Cell) -> Given;
  # Gives a promise at once, which so much later comes to what is given.

  asks @4 (cell :Cell) -> Value;
  # Asks a cell, and gives what that answers.

  hold @5 (cell :Cell) -> ();
  # Holds a cell.

  held @6 () -> Value;
  # Asks the cell that is held.

  give @7 () -> Given;
  # Gives the cell that is held.

  after @8 (milliseconds :UInt64) -> Value;
  # Answers so much later.
}
