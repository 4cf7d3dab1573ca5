@0xbf5147cbbecf40c1;
# People and how to reach them.

const largest :UInt16 = 500;
# How many people a book may have.

struct Person {
  id @0 :UInt32;
  name @1 :Text;
  email @2 :Text;
  phones @3 :List(PhoneNumber);

  struct PhoneNumber {
    number @0 :Text;
    type @1 :Type;

    enum Type {
      mobile @0;
      home @1;
      work @2;
    }
  }

  employment :union {
    unemployed @4 :Void;
    employer @5 :Text;
    school @6 :Text;
    selfEmployed @7 :Void;
  }

  age @8 :UInt8 = 18;
  # In years.

  height @9 :Int16 = -5;
  # In centimetres, from the average.

  active @10 :Bool = true;
  spouse @11 :Person;
  scores @12 :List(UInt32);
  picture @13 :Data;
  weight @14 :Float64 = 70.5;
}

struct AddressBook {
  people @0 :List(Person);

  owner @1 :Person = (name = "Nobody", age = 0);
  # Whose book it is.

  circles @2 :List(Text) = ["family", "work"];
  # What people are sorted into.
}
