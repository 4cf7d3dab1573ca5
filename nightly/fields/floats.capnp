@0xc0ffee0000000005;
# Floats of each size, unions and groups by their places, lists of lists.

enum Letter { a @0; b @1; c @2; }

struct Floats {
  f @0 :Float32;
  d @1 :Float64;
  t @2 :Text;
  b @3 :Data;
  union {
    n @4 :Text;
    m @5 :UInt16;
    s @6 :Floats;
    l @7 :List(Bool);
  }
  e @8 :Letter = b;
  ls @9 :List(List(Floats));
  g :group {
    x @10 :Int8 = -3;
    union { y @11 :Void; z @12 :List(Letter); }
  }
  ef @13 :Float32 = 2.5;
  ed @14 :Float64 = -1e-7;
  any @15 :AnyPointer;
  i @16 :Int64;
  dd @17 :List(Float64);
  ff @18 :List(Float32);
  li @19 :List(Int16);
  lt @20 :List(Text);
  lv @21 :List(Void);
}
