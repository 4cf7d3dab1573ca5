@0xa3de737bab9b2d16;
# Names that the clauses and definitions of generated code have too: of fields, params, results, groups and an enum's values.

enum Not {
  on @0;
  blank @1;
  none @2;
}

struct Held {
  on @0 :UInt8;
  not @1 :Bool = true;
  blank @2 :Text;
  w32 @3 :Int32 = -1;
  textTree @4 :Data;
  map @5 :List(Float32);
  withPointer @6 :Not;

  union {
    plain @7 :Void;

    length :group {
      bitXor @8 :UInt16 = 7;
      areOf @9 :Text;
    }
  }
}

interface Blank {
  take @0 (on :UInt8, not :Bool, blank :Text, w32 :Int32) -> (textTree :Text, length :UInt64);
  # Takes values.

  give @1 (textTree :Data, withUint :Float64, naming :Blank, noneNamed :Not) -> (held :Held, table :Blank);
  # Takes a capability among values.

  hold @2 (held :Held, map :List(Int16), notNumber :Not) -> (on :Not);
  # Takes a struct, a list and a value of an enum, called as definitions call such a value's number.
}
