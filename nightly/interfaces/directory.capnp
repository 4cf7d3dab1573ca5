@0xd1c7a0e5b2f04368;
# A directory of people, as an interface.

struct Person {
  name @0 :Text;

  age @1 :UInt8;
  # In years.

  friend @2 :Friend;
  # Who speaks for the person.
}

interface Named {
  # What has a name.

  name @0 () -> (name :Text);
}

interface Friend {
  # Who can be greeted.

  greet @0 (greeting :Text) -> (answer :Text);
}

interface Watcher {
  # Is told of each person that is added.

  added @0 (person :Person) -> stream;
}

interface Directory extends(Named) {
  # Finds people by their names.

  find @0 (name :Text) -> (person :Person);
  # The person of this name.

  add @1 (person :Person) -> (count :UInt32);
  # Adds a person, and says how many there are.

  watch @2 (watcher :Watcher) -> ();
  # Has a watcher told of each person that is added from now on.
}
