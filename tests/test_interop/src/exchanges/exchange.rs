//! Exchanges, in each way in which they are played.

use crate::exchanges::bytes::sent;
use crate::exchanges::connecting::{connected, cut, tail_called, wanted};
use crate::exchanges::pairs::both_played;
use crate::exchanges::playing::played;
use crate::exchanges::running::ran;
use crate::exchanges::script::UNREAD;
use crate::exchanges::sessions::{in_session, read, reported, served};
use crate::exchanges::written::calls_read;
use cp_frame::Mode;
use cp_dispatch::Dispatcher;
use cp_scripts::{Lines, Taken};
use std::alloc::Global;

/// How an exchange went, and by which way.
#[derive(Drop)]
pub struct Fault {
    pub way: &'static str,
    pub lines: Lines,
}

/// How an exchange went, unless it goes by each way as its script says.
pub fn failure(alloc: Global, players: &str, script: &Lines) -> Option<Fault> {
    let script = script.text().unwrap_or(UNREAD);
    let players = Players::of(players);
    for way in players.ways() {
        let lines = players.lines(alloc, *way, script);
        if !way.is_right(alloc, script, lines.text().unwrap_or(UNREAD)) {
            let way = way.name();
            return Some(Fault { way, lines });
        }
        drop(lines);
    }
    None
}

/// Who plays. Beside each vat is the object that a Bootstrap gets.
#[derive(Clone, Copy)]
enum Players {
    /// A vat and its peer.
    One(Option<u32>),
    /// A vat, of which the bytes that it sends are looked at alone.
    Sender(Option<u32>),
    /// Two vats.
    Two(Option<u32>, Option<u32>),
    /// A connection without its vat's peer, whose bytes come whole and byte by byte.
    Connection(Option<u32>),
    /// The same, of a connection that serves tail calls.
    Tails(Option<u32>),
    /// A connection whose bytes come in pieces of each length.
    Cut(Option<u32>),
    /// A server of objects and its peer, with bytes in this form.
    Server(Mode),
    /// Objects on a connection, which may call or may not.
    Objects(bool),
    /// Nobody: frames are read.
    Reader,
    /// Nobody: lines are read as calls.
    Calls,
    Nobody,
}

impl Players {
    /// The players of a line: `vat OBJECT`, `sender OBJECT`, `connection OBJECT`, `tails OBJECT`, `cut OBJECT` or `vats OBJECT OBJECT`,
    /// where an object is `none` or `object:N`; or `server MODE`, `objects`, `objects that call`, `reader` or `calls`.
    fn of(line: &str) -> Players {
        let mut words = line.split(' ');
        let name = words.next().unwrap_or("");
        let first = bootstrap(words.next());
        match name {
            "vat" => Players::One(first),
            "sender" => Players::Sender(first),
            "vats" => Players::Two(first, bootstrap(words.next())),
            "connection" => Players::Connection(first),
            "tails" => Players::Tails(first),
            "cut" => Players::Cut(first),
            "server" if line == "server packed" => Players::Server(Mode::Packed),
            "server" => Players::Server(Mode::Plain),
            "objects" => Players::Objects(line == "objects that call"),
            "reader" => Players::Reader,
            "calls" => Players::Calls,
            _ => Players::Nobody,
        }
    }

    /// The ways in which they play.
    fn ways(self) -> &'static [Way] {
        match self {
            Players::One(_) => &WAYS[..5],
            Players::Two(..) => &WAYS[1..3],
            Players::Connection(_) | Players::Tails(_) => &WAYS[3..5],
            Players::Cut(_) => &WAYS[5..6],
            Players::Server(_) => &WAYS[6..],
            Players::Objects(_) => &WAYS[7..],
            Players::Sender(_) | Players::Reader | Players::Calls | Players::Nobody => &WAYS[..1],
        }
    }

    /// What they do.
    fn lines(self, alloc: Global, way: Way, script: &str) -> Lines {
        match self {
            Players::One(vat) => one_played(alloc, vat, way, script),
            Players::Sender(vat) => sent(alloc, vat, script),
            Players::Two(first, second) => {
                both_played(alloc, (first, second), way.taken(), script)
            }
            Players::Connection(vat) => connected(alloc, vat, way.piece(), script),
            Players::Tails(vat) => tail_called(alloc, vat, way.piece(), script),
            Players::Cut(vat) => cut(alloc, vat, script),
            Players::Server(mode) => answered(alloc, mode, way, script),
            Players::Objects(may_call) => {
                let owed = objects(alloc, may_call);
                in_session(alloc, Mode::Plain, owed, way.lends(), script)
            }
            Players::Reader => read(alloc, script),
            Players::Calls => calls_read(alloc, script),
            Players::Nobody => Lines::new(alloc),
        }
    }
}

/// What a server does.
fn answered(alloc: Global, mode: Mode, way: Way, script: &str) -> Lines {
    match way {
        Way::Served => served(alloc, mode, script),
        _ => in_session(alloc, mode, Dispatcher::new(alloc), way.lends(), script),
    }
}

/// What one vat does.
fn one_played(alloc: Global, vat: Option<u32>, way: Way, script: &str) -> Lines {
    match way {
        Way::Listed => ran(alloc, vat, script),
        Way::Connected(piece) => connected(alloc, vat, piece, script),
        _ => played(alloc, vat, way.taken(), script),
    }
}

fn bootstrap(object: Option<&str>) -> Option<u32> {
    object?.strip_prefix("object:")?.parse::<u32>().ok()
}

/// What objects owe that may call or may not.
fn objects(alloc: Global, may_call: bool) -> Dispatcher {
    if may_call {
        Dispatcher::that_call(alloc)
    } else {
        Dispatcher::new(alloc)
    }
}

/// How the events of an exchange are played.
#[derive(Clone, Copy)]
enum Way {
    /// One vat's as one list, by `run`.
    Listed,
    /// One by one.
    Each(Taken),
    /// One by one, through a connection, whose bytes come in pieces of this length.
    Connected(usize),
    /// The same, in pieces of each length.
    Cut,
    /// By a server, to which all bytes come at once.
    Served,
    /// One by one, through a connection with objects, to which calls are lent or aren't.
    Objects { lends: bool },
}

static WAYS: [Way; 9] = [
    Way::Listed,
    Way::Each(Taken::Owned),
    Way::Each(Taken::InPlace),
    Way::Connected(usize::MAX),
    Way::Connected(1),
    Way::Cut,
    Way::Served,
    Way::Objects { lends: true },
    Way::Objects { lends: false },
];

impl Way {
    fn name(self) -> &'static str {
        match self {
            Way::Listed => "by run",
            Way::Each(Taken::Owned) => "with messages as values",
            Way::Each(Taken::InPlace) => "with messages in place",
            Way::Connected(1) => "through a connection, byte by byte",
            Way::Connected(_) => "through a connection",
            Way::Cut => "through a connection, in pieces of each length",
            Way::Served => "by a server",
            Way::Objects { lends: true } => "with calls that are lent",
            Way::Objects { lends: false } => "in pieces",
        }
    }

    /// The bytes in which pieces come.
    fn piece(self) -> usize {
        match self {
            Way::Connected(piece) => piece,
            _ => usize::MAX,
        }
    }

    fn lends(self) -> bool {
        matches!(self, Way::Objects { lends: true })
    }

    fn taken(self) -> Taken {
        match self {
            Way::Each(taken) => taken,
            _ => Taken::Owned,
        }
    }

    /// Whether these are the lines of a script. A list of events ends at the first that is refused, and there the lines end.
    fn is_right(self, alloc: Global, script: &str, lines: &str) -> bool {
        match self {
            Way::Listed => script
                .strip_prefix(lines)
                .is_some_and(|rest| rest.is_empty() || ends_refused(lines)),
            Way::Each(_) | Way::Objects { .. } => lines == script,
            Way::Connected(_) | Way::Cut => wanted(alloc, script).text() == Some(lines),
            Way::Served => reported(alloc, script).text() == Some(lines),
        }
    }
}

/// Whether the first refusal is the last line.
fn ends_refused(lines: &str) -> bool {
    lines
        .split_once("\n= refused ")
        .and_then(|(_, rest)| rest.split_once('\n'))
        .is_some_and(|(_, after)| after.is_empty())
}
