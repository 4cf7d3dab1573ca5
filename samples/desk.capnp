@0xd4bf2f7b886756b7;
# What `capnp_cli serve` serves: each connection has a Desk, its bootstrap object, and a Cell.

interface Desk @0xe5a1000000000001 {
  now @0 () -> (cell :Cell);
  # Gives the Cell.

  later @1 () -> (cell :Cell);
  # Gives the Cell once another message has come.
}

interface Cell @0xe5a1000000000002 {
  add @0 (amount :UInt64) -> (value :UInt64);
  # Adds to the number that the Cell holds, 0 at first, and returns the sum, modulo 2^64.

  get @1 () -> (value :UInt64);
  # Returns the number.
}
