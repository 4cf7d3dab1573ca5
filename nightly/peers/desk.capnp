@0x9f6b1c0a5d1e4b27;

# The objects that `capnp_cli serve` offers. Params are wider than they need to be, so that a client can give objects of its
# own: no object looks at them.

interface Desk @0xe5a1000000000001 {
  now @0 (gift :Cell) -> (cell :Cell);
  later @1 (gift :Cell) -> (cell :Cell);
  never @2 ();
}

interface Cell @0xe5a1000000000002 {
  add @0 (amount :UInt64, gift :Cell) -> (value :UInt64);
  get @1 () -> (value :UInt64);
}
