@0xaecd4b5604c35e1c;
# Notes that all clients share. A page is an object that a call makes.

interface Notebook {
  add @0 (text :Text) -> (id :UInt32);
  # Adds a note, and tells all watchers of it.

  open @1 (id :UInt32) -> (page :Page);
  # Makes an object for a note. It goes once its client drops it.

  watch @2 (watcher :Watcher) -> ();
  # Tells a watcher of each note that is added from now on.

  next @3 () -> (page :Page);
  # The page of the note that is added next. Calls of it wait for that note.
}

interface Page {
  read @0 () -> (text :Text);
  # The text of the note.
}

interface Watcher {
  added @0 (text :Text) -> ();
  # Takes a note that was added.
}
