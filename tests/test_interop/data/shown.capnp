@0xc0ffee0000000007;
# What the rows of commands.txt show by a schema. shown.request is what `capnp compile -o- shown.capnp` prints.

enum Kind { plain @0; fancy @1; }

struct Book {
  title @0 :Text;
  cover @1 :Data;
  weight @2 :Float64 = 1.5;
  price @3 :Float32;
  kind @4 :Kind = fancy;
  pages @5 :List(List(Int16));
  read @6 :Bool = true;
  union {
    free @7 :Void;
    lent :group {
      to @8 :Text;
      days @9 :UInt8 = 14;
    }
    sequel @10 :Book;
    note @12 :Text = "none \"yet\"";
  }
  parts @11 :List(Book);
}

interface Desk @0xe5a1000000000001 {
  now @0 (gift :Cell) -> (cell :Cell);
  later @1 (gift :Cell) -> (cell :Cell);
}

interface Cell @0xe5a1000000000002 {
  add @0 (amount :UInt64, gift :Cell) -> (value :UInt64);
  get @1 () -> (value :UInt64);
}

interface Exchange @0xe5a1000000000003 {
  swap @0 Couple(Text, List(UInt8)) -> Couple(List(UInt8), Text);
}

struct Couple(A, B) {
  left @0 :A;
  right @1 :B;
}
