@0xc0ffee0000000001;
# Every kind of field, each with a default and without.

enum Colour { red @0; green @1; blue @2; }

struct Small {
  number @0 :UInt32;
  name @1 :Text;
}

struct Box(T) {
  content @0 :T;
  label @1 :Text;
}

const five :Small = (number = 5, name = "five");
const pair :List(Small) = [.five, (name = "six")];

interface Door { open @0 (key :Text, times :UInt8 = 2) -> (room :Small); }

struct Every {
  # Numbers, side by side as the compiler lays them.
  flag @0 :Bool;
  yes @1 :Bool = true;
  int8 @2 :Int8;
  int16 @3 :Int16 = -5;
  int32 @4 :Int32;
  int64 @5 :Int64 = -9223372036854775808;
  uint8 @6 :UInt8 = 255;
  uint16 @7 :UInt16;
  uint32 @8 :UInt32 = 4294967295;
  uint64 @9 :UInt64;
  float32 @10 :Float32;
  float64 @11 :Float64 = 1.5;
  colour @12 :Colour;
  sky @13 :Colour = blue;
  nothing @14 :Void;

  text @15 :Text;
  data @16 :Data;
  small @17 :Small;
  any @18 :AnyPointer;
  door @19 :Door;

  voids @20 :List(Void);
  bools @21 :List(Bool);
  bytes @22 :List(UInt8);
  halves @23 :List(Int16);
  quads @24 :List(Int32);
  words @25 :List(UInt64);
  floats @26 :List(Float32);
  doubles @27 :List(Float64);
  colours @28 :List(Colour);
  texts @29 :List(Text);
  datas @30 :List(Data);
  smalls @31 :List(Small);
  lists @32 :List(List(Int16));
  deep @33 :List(List(List(Text)));
  inner @34 :Every;
  boxes @35 :List(Box(Small));
  box @36 :Box(Text);

  place :group {
    row @37 :Int32 = 7;
    column @38 :Int32;
    union {
      floor @39 :Int8 = -1;
      roof @40 :Text;
      kept :group {
        since @41 :UInt16 = 1900;
        by @42 :Text;
      }
      none @43 :Void;
    }
  }

  union {
    one @44 :UInt8;
    two @45 :Text;
    three @46 :Small;
    four @47 :List(Small);
    five @48 :Float32 = 0.5;
    six @49 :Colour = green;
    seven @50 :Bool = true;
    eight @51 :AnyPointer;
    nine @60 :Text = "h\xc3\xa9 \"you\"\n";
    ten @61 :Data = 0x"00 ff 41";
  }

  more :union {
    empty @52 :Void;
    type @53 :UInt32;
    which @54 :Int64 = -2;
  }

  # Names that are words of the language or of what is made.
  struct @55 :Struct;
  result @56 :UInt8;
  self @57 :Bool;
  unknown @58 :Option;

  struct Struct { match @0 :Bool = true; of @1 :Text; }
  enum Option { none @0; some @1; unknown @2; }

  last @59 :Bool = true;
  greeting @62 :Text = "hello";
  seal @63 :Data = "seal";

  defaults @64 :Defaults;
  start @65 :Small = (number = 3, name = "in");
  steps @66 :List(Small) = [(number = 1), (name = "two")];
  empty @67 :List(Text) = [];
}

struct Defaults {
  # A default of each kind of pointer. What null stands for is printed of a union's members alone.
  union {
    none @0 :Void;
    voids @1 :List(Void) = [void, void];
    bools @2 :List(Bool) = [true, false, false, true, true, false, true, false, false, true];
    bytes @3 :List(UInt8) = [1, 255, 0];
    halves @4 :List(Int16) = [-1, 32767, -32768];
    quads @5 :List(Int32) = [-2147483648, 7];
    words @6 :List(UInt64) = [18446744073709551615, 1];
    floats @7 :List(Float32) = [1.25, -inf, nan];
    doubles @8 :List(Float64) = [-0, 1e300];
    colours @9 :List(Colour) = [blue, green];
    texts @10 :List(Text) = ["a", "", "h\xc3\xa9 \"you\"\n"];
    datas @11 :List(Data) = [0x"fe", ""];
    smalls @12 :List(Small) = [(number = 1, name = "one"), (number = 4294967295)];
    lists @13 :List(List(Int16)) = [[1, -2], [], [3]];
    deep @14 :List(List(List(Text))) = [[["a", "b"], []], [[""]], []];
    empty @15 :List(Small) = [];
    small @16 :Small = (number = 3, name = "in");
    blank @17 :Small = ();
    same @18 :Small = .five;
    pair @19 :List(Small) = .pair;
    box @20 :Box(Text) = (label = "l");
    boxes @21 :List(Box(Small)) = [(label = "x"), ()];
    every @22 :Every = (uint8 = 3, float64 = -0.5, text = "deep", small = (number = 4), place = (roof = "tiles"),
        bools = [true, false], smalls = [(number = 1), (name = "b")], three = (number = 9), defaults = (small = (number = 8)));
    any @23 :AnyPointer = .five;
    words2 :group {
      held @24 :List(UInt64) = [7];
      one @25 :Small = (name = "grouped");
    }
  }
}
