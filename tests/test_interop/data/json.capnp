# The structs of json.txt: each kind of field, and each annotation of json.capnp that concerns them.
@0xc0ffee0000000011;

using Json = import "/capnp/compat/json.capnp";

enum Colour {
  red @0;
  green @1 $Json.name("grün");
  blue @2;
}

struct Plain {
  nothing @0 :Void;
  flag @1 :Bool;
  byte @2 :UInt8;
  small @3 :Int8;
  half @4 :Int16;
  quad @5 :UInt32;
  wide @6 :Int64;
  large @7 :UInt64;
  real @8 :Float32;
  double @9 :Float64 = 1.5;
  text @10 :Text;
  data @11 :Data;
  colour @12 :Colour = green;
  inner @13 :Inner;
  voids @14 :List(Void);
  bits @15 :List(Bool);
  numbers @16 :List(Int16);
  texts @17 :List(Text);
  datas @18 :List(Data);
  colours @19 :List(Colour);
  inners @20 :List(Inner);
  deep @21 :List(List(UInt64));
  speaker @22 :Speaker;
  union {
    off @23 :Void;
    name @24 :Text = "none";
    pair :group {
      left @25 :Int32;
      right @26 :Inner;
    }
  }
}

struct Inner {
  x @0 :Int32;
  next @1 :Inner;
}

interface Speaker {
  say @0 (text :Text) -> (count :UInt32, self :Speaker);
}

struct Named {
  number @0 :Int64 $Json.name("a_number");
  quoted @1 :Text $Json.name("with \"quotes\" and é");
  base64 @2 :Data $Json.base64;
  hex @3 :Data $Json.hex;
  point @4 :Inner $Json.flatten(prefix = "at_");
  bare :group $Json.flatten() {
    left @5 :UInt8;
    right @6 :Text;
  }
  shape :union $Json.flatten(prefix = "s_") $Json.discriminator() {
    none @7 :Void;
    round @8 :Float64;
    square @9 :Text $Json.name("box");
  }
  kind :union $Json.discriminator(name = "which") {
    first @10 :Void;
    second @11 :UInt16;
  }
  animal @12 :Animal;
  animals @13 :List(Herd);
}

struct Animal $Json.discriminator(name = "kind", valueName = "is") {
  id @0 :UInt64;
  union {
    cat @1 :Text;
    dog @2 :Int8;
    fish @3 :Void;
    cow @4 :Inner;
  }
}

struct Herd $Json.discriminator(name = "kind") {
  id @0 :UInt64;
  union {
    cat @1 :Text;
    cow @2 :Inner $Json.flatten();
    pig :group $Json.flatten(prefix = "pig_") {
      weight @3 :Int8;
      name @4 :Text;
    }
    fish @5 :Void;
  }
}

struct Holder(T) {
  held @0 :T $Json.flatten(prefix = "in_");
  pair @1 :Pair(T, Data);
  union {
    pairs @2 :List(Pair(Text, Data)) = [(left = "l", right = "r")];
    other @3 :T;
    wide @4 :Pair(List(UInt64), Data);
  }

  struct Pair(A, B) {
    left @0 :A;
    right @1 :B $Json.hex;
    both :group { held @2 :T; more @3 :Pair(A, B); }
  }
}

struct Holders {
  inner @0 :Holder(Inner);
  outer @1 :Holder(Holder(Inner));
}
