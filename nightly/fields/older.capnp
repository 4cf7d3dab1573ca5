@0xc0ffee0000000002;
# A schema as it was at first.

enum Kind { plain @0; fancy @1; }

struct Part { size @0 :UInt32; }

struct Thing {
  id @0 :UInt16;
  kind @1 :Kind = fancy;
  numbers @2 :List(UInt16);
  names @3 :List(Text);
  parts @4 :List(Part);
  part @5 :Part;
  union {
    none @6 :Void;
    some @7 :UInt32;
  }
}
