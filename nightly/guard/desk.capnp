@0xb7d1e6a2c4f80935;

# What a guard stands before. The rules allow Desk.open, .give, .ask, .echo, Drawer.look, and what these inherit by name; they don't allow the
# other methods, which the server counts.

struct Found {
  drawer @0 :Drawer;
}

interface Lamp @0xb7d1e6a2c4f80001 {
  light @0 () -> (on :Bool);
  smash @1 () -> ();
}

interface Drawer @0xb7d1e6a2c4f80002 extends(Lamp) {
  look @0 () -> (value :UInt64);
  burn @1 () -> (drawer :Drawer);
}

interface Caller @0xb7d1e6a2c4f80003 {
  call @0 (desk :Desk, drawer :Drawer) -> Found;
  # Called by the server, which passes a drawer of its own. It may call the desk in turn, and give what that call gives.
}

interface Desk @0xb7d1e6a2c4f80004 {
  open @0 (value :UInt64) -> Found;
  give @1 (drawers :List(Drawer)) -> (values :List(UInt64));
  # The value of each drawer: what its look gives, or 0 of one that isn't there.
  ask @2 (caller :Caller) -> (drawer :Drawer);
  echo @3 (bytes :Data) -> (bytes :Data);
  destroy @4 (drawers :List(Drawer)) -> Found;
  forget @5 (caller :Caller) -> (caller :Caller);
}
