@0x910abb742042da3c;
# A chat room. Each member hears what all of them say.

interface Chat {
  join @0 (name :Text, listener :Listener) -> (member :Member);
  # Makes a member, whose listener hears all that is said from now on. Who drops it has left.
}

interface Member {
  say @0 (text :Text) -> ();
  # Says this to all members.
}

interface Listener {
  heard @0 (name :Text, text :Text) -> ();
  # Takes what the member of this name said.
}
