@0xc1a4b4d1f0b2e6a7;
# What the peers of recordings.txt call. recordings.request is what `capnp compile -o- recordings.capnp` prints.

interface Desk @0xe5a1000000000001 {
  now @0 (gift :Cell) -> (cell :Cell);
  later @1 (gift :Cell) -> (cell :Cell);
  never @2 ();
}

interface Cell @0xe5a1000000000002 {
  add @0 (amount :UInt64, gift :Cell) -> (value :UInt64);
  get @1 () -> (value :UInt64);
}

interface Trial @0xe5a1000000000003 extends(Desk) {
  echo @0 (content :AnyPointer) -> (content :AnyPointer);
  after @1 (milliseconds :UInt64, number :UInt64) -> (number :UInt64);
  become @2 (milliseconds :UInt64, cell :Cell) -> (cell :Cell);
  tell @3 (cell :Cell) -> (value :UInt64);
  cells @4 () -> (number :UInt64);
}
