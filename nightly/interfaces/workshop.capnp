@0xb9e1f2b3c4d5e6a7;
# Each kind of list, of params and of results of which the plugin writes code.

enum Colour {
  red @0;
  green @1;
  blue @2;
}

struct Tool {
  # A part of params and results, which names a capability.
  name @0 :Text;
  maker @1 :Maker;
  colour @2 :Colour;

  union {
    loose @3 :Void;
    owner @4 :Maker;
    labels @5 :List(Text);
  }
}

struct Stock {
  texts @0 :List(Text);
  pictures @1 :List(Data);
  bools @2 :List(Bool);
  bytes @3 :List(UInt8);
  halves @4 :List(UInt16);
  quads @5 :List(UInt32);
  words @6 :List(UInt64);
  signedBytes @7 :List(Int8);
  signedHalves @8 :List(Int16);
  signedQuads @9 :List(Int32);
  signedWords @10 :List(Int64);
  singles @11 :List(Float32);
  doubles @12 :List(Float64);
  colours @13 :List(Colour);
  tools @14 :List(Tool);
  makers @15 :List(Maker);
  matrix @16 :List(List(Float64));
  poems @17 :List(List(Text));
  boxes @18 :List(List(List(Tool)));
  grid @19 :List(List(Int16));
  flags @20 :List(List(Bool));
  counts @21 :List(List(UInt32));
  anything @22 :AnyPointer;
}

struct Wanted {
  name @0 :Text;
  by @1 :Maker;
}

interface Maker {
  make @0 (name :Text, lists :Stock, for :Maker) -> (tool :Tool, by :Maker, count :UInt32);
  # Its results have a table of their own, and a part that names a capability in it.

  send @1 (bytes :Data) -> stream;
  # Takes bytes.

  give @2 (tool :Tool) -> stream;
  # Takes a tool.

  find @3 Wanted -> Tool;
  # Params and results that are structs with names.

  list @4 (count :UInt32) -> Stock;
  # The same, with lists.

  shout @5 (text :Text) -> stream;
  # A stream of texts.
}
