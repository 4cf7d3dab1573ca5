@0xe5b0d3b1a9c44b37;
# What the rows of calls.txt call. calls.request is what `capnp compile -o- calls.capnp` prints.

enum Colour { red @0; green @1; blue @2; }

interface Named {
  # What has a name.

  name @0 () -> (name :Text);
  # It may be empty.
}

interface Page extends(Named) {
  read @0 () -> (text :Text, next :Page, place :Place);
  turn @1 (by :Int8 = -1) -> stream;
}

interface Notebook extends(Named) {
  add @0 (text :Text, tags :List(Text), colour :Colour) -> (page :Page);
  put @1 Place -> Place;
  show @2 (page :Page, pages :List(Page), other :AnyPointer) -> (any :AnyPointer, count :UInt32);

  interface Shelf {
    read @0 () -> (pages :List(Page));
    find @1 (text :Text) -> (page :Page);
  }
}

struct Place {
  # Where a page lies.

  shelf @0 :UInt16 = 7;
  owner @1 :Notebook;
  # Whose it is.
  #
  # Or null.

  label @2 :Text = "a \"b\"\n";
  at :group {
    row @3 :Int64 = -2;
    page @4 :Page;
    # The page that lies there.
  }
  union {
    none @5 :Void;
    colour @6 :Colour = blue;
    inner @7 :Place;
    bytes @8 :Data = 0x"00 ff";
    numbers @9 :List(List(Float32));
  }
  real @10 :Float64 = 2.5;
  flag @11 :Bool = true;
  list @12 :List(UInt8) = [1, 2];
}

const limit :Int32 = -3;

interface Exchange {
  swap @0 Couple(Text, List(UInt8)) -> Couple(List(UInt8), Text);
}

struct Couple(A, B) {
  left @0 :A;
  right @1 :B;
}
