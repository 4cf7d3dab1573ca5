@0xc3a5d8e1b7f49206;
# Members of a directory find one another, and call one another.

interface Directory {
  join @0 (name :Text, member :Member) -> ();
  # Has others find a member by this name.

  find @1 (name :Text) -> (member :Member);
  # The member of this name, whichever connection it came by.
}

interface Member {
  say @0 (text :Text, back :Member) -> (heard :Text, other :Member);
  # Says something to a member, who may call back.
}
