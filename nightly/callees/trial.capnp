@0xd2b7a4c19e60f385;

# What a server by the reference library offers to `capnp_cli call`, beside a Desk.

using import "../peers/desk.capnp".Cell;
using import "../peers/desk.capnp".Desk;

interface Trial @0xe5a1000000000003 extends(Desk) {
  echo @0 (content :AnyPointer) -> (content :AnyPointer);
  # Gives back what it is given.

  after @1 (milliseconds :UInt64, number :UInt64) -> (number :UInt64);
  # Answers so much later.

  become @2 (milliseconds :UInt64, cell :Cell) -> (cell :Cell);
  # Gives a promise at once, which so much later resolves to what it is given, or to an exception where that is nothing.

  tell @3 (cell :Cell) -> (value :UInt64);
  # Asks a cell that it is given, and gives what that answered.

  cells @4 () -> (number :UInt64);
  # How many cells of its own there are. The one over the Rust library doesn't say.
}
