@0xbf5147cbbecf40c1;
# What the rows of texts.txt are. texts.request is what `capnp compile -o- texts.capnp` prints.

enum Colour { red @0; green @1; blue @2; }

interface Box {}

struct Thing {
  number @0 :UInt8;
  small @1 :Int8;
  large @2 :UInt64;
  real @3 :Float32;
  flag @4 :Bool;
  name @5 :Text;
  bytes @6 :Data;
  colour @7 :Colour;
  list @8 :List(Int16);
  lists @9 :List(List(Text));
  inner @10 :Thing;
  nothing @11 :Void;
  any @12 :AnyPointer;
  union {
    one @13 :UInt32;
    two @14 :Text;
    three :group {
      row @15 :UInt8;
      title @16 :Text;
    }
  }
  box @17 :Box;
  things @18 :List(Thing);
  boxes @19 :List(Box);
  place :group {
    column @20 :Int64 = -1;
    note @21 :Text = "here";
    union { none @22 :Void; some @23 :UInt16 = 7; }
  }
  flags @24 :List(Bool);
  reals @25 :List(Float64);
  colours @26 :List(Colour);
  voids @27 :List(Void);
  datas @28 :List(Data);
  octets @29 :List(UInt8);
  quads @30 :List(Int32);
  words @31 :List(UInt64);
  double @32 :Float64 = 1.5;
  open @33 :Bool = true;
  hue @34 :Colour = blue;
  short @35 :Int16;
  wide @36 :Int32;
}

struct Pair(A, B) {
  # What its fields are is told by what has it.

  first @0 :A;
  place :group {
    second @1 :B;
    within @2 :Within;
  }
  struct Within {
    own @0 :A;
    back @1 :Pair(B, A);
    union { none @2 :Void; other @3 :B; }
  }
  pairs @3 :List(List(Pair(A, Text)));
  any @4 :Pair;
}

struct Pairs {
  texts @0 :Pair(Text, Data);
  lists @1 :Pair(List(UInt8), List(List(Colour)));
  pairs @2 :Pair(List(Pair(Text, Data)), Pair(Box, Colours));
  within @3 :Pair(Text, Data).Within;
  unbound @4 :Pair;
}

struct Colours { colours @0 :List(Colour) = [red]; }
