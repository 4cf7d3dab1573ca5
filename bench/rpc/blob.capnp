@0xf02d0dd5903fcc3c;

# What the modes `large-results` and `echo-..` call.

interface Blob @0xe5a1000000000004 {
  get @0 () -> (calls :UInt64, bytes :Data);
  # How often it was called, and 1 MiB.

  echo @1 (number :UInt64, bytes :Data) -> (number :UInt64, bytes :Data);
  # What it is given.
}
