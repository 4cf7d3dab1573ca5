@0xf63c9cfdd6c3a619;
# A store of texts, which many clients share.

interface Store {
  # Keeps texts by their keys.

  put @0 (key :Text, value :Text) -> ();
  # Keeps a text under a key, in place of the one before.

  get @1 (key :Text) -> (value :Text);
  # The text of a key, or none.
}
