@0xc0ffee0000000003;
# The same schema, grown.

enum Kind { plain @0; fancy @1; odd @2; }

struct Part { size @0 :UInt32; weight @1 :Float64 = 2.5; name @2 :Text; }

struct Number { first @0 :UInt16; second @1 :UInt16 = 9; third @2 :Text; }

struct Name { name @0 :Text; age @1 :Int8 = -1; }

struct Thing {
  id @0 :UInt16;
  kind @1 :Kind = fancy;
  numbers @2 :List(Number);
  names @3 :List(Name);
  parts @4 :List(Part);
  part @5 :Part;
  union {
    none @6 :Void;
    some @7 :UInt32;
    many @8 :List(UInt32);
  }
  late @9 :Bool = true;
  later @10 :Text;
  spare @11 :Part = (size = 5, name = "spare");
  spares @12 :List(Part) = [(size = 1, weight = 0.5), (name = "x")];
  words @13 :List(Text) = ["a", "", "b"];
  flags @14 :List(Bool) = [true, false];
}
