@0xf6ac78aa0831bc43;
# Shapes, each of a kind: a union of groups, in one of which is another such union.

struct Shape {
  area @0 :Float64;

  kind :union {
    nothing @1 :Void;

    square :group {
      side @2 :UInt32;
      label @3 :Text;
      filled @4 :Bool = true;
    }

    circle :group {
      radius @5 :Int32 = -1;
      name @6 :Text;

      style :union {
        plain @7 :Void;

        dashed :group {
          length @8 :UInt16;
          note @9 :Text;
        }
      }
    }

    code @10 :UInt64;
  }
}
