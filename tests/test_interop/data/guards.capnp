@0xd2c8f0a1b7e94d35;
# What the rules of guards.txt name. guards.request is what `capnp compile -o- guards.capnp` prints.

interface Store @0x8000000000000001 {
  get @0 () -> ();
  put @1 () -> ();
}

interface Queue @0x8000000000000002 {
  submit @0 () -> (handle :Handle);
}

interface Task @0x8000000000000004 {
  cancel @0 () -> ();
}

interface Handle @0x8000000000000003 extends(Task) {
  wait @0 () -> ();
  fork @1 () -> (handle :Handle);
}
