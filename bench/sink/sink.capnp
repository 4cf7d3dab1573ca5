@0xf02d0dd5903fcc3d;

# What compare.py calls.

interface Sink @0xe5a1000000000005 {
  put @0 (data :Data) -> (sum :UInt64);
  # The sum of the first and the last byte of all that came.

  get @1 (size :UInt32) -> (data :Data);
  # So many bytes.

  raise @2 (items :List(Item)) -> (items :List(Item));
  # The same items, each price one higher.

  open @3 (number :UInt64) -> (page :Page);
  # A new page, which lives while its client has it.
}

struct Item {
  id @0 :UInt64;
  price @1 :UInt32;
  name @2 :Text;
}

interface Page {
  read @0 () -> (number :UInt64, text :Text);
}
