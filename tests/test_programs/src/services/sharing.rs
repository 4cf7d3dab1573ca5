//! References that go from one session of a host to another: they are called there in order, come home as what they are, and end with
//! their session.

use crate::services::ends::{Ends, Got, Seen, Step, With};
use crate::services::notebook::done;
use cp_objects::{Context, Letter, Objects, ServedObject, SharedCap};
use cp_refs::{Cap, Caps, Outcome, Request};
use cp_servants::{
    OutgoingCall, PayloadBuilder, Reply, RequestView, Servant, Settled, named_imports, outcome_of,
    word_in,
};
use cp_session::DrivenSession;
use cp_vat_machine::Ids;
use std::alloc::{AllocError, Global};
use std::cell::RefCell;
use std::collections::VecDeque;
use std::process::Abort;
use std::rc::Rc;

/// Methods of a board: to add what is named, to give what was added at a place, and to drop that.
const JOIN: u16 = 0;

const FIND: u16 = 1;

const LEAVE: u16 = 2;

/// Methods of a member: to note a word and give it back, to give what was named, to answer later, and to answer all that wait with a word.
const SAY: u16 = 0;

const GIVE: u16 = 1;

const WAIT: u16 = 2;

const ANSWER: u16 = 3;

/// What was added, for all sessions.
type Members = Rc<RefCell<Vec<Option<SharedCap>>>>;

#[derive(Drop)]
struct Board {
    members: Members,
}

fn nothing(alloc: Global) -> Ids {
    Ids::new(Vec::new(alloc))
}

impl Board {
    fn join(&self, caps: &Caps, context: &mut Context<Board>) -> Result<Reply, AllocError> {
        let alloc = context.alloc();
        let Some(first) = caps.caps().first() else {
            return done(alloc, caps);
        };
        let first = context.own(first.copy(alloc)?);
        let shared = context.share(&first)?;
        let Ok(mut members) = self.members.try_borrow_mut() else {
            return Err(AllocError);
        };
        members.push(Some(shared))?;
        Ok(Reply::Now {
            outcome: outcome_of(alloc, PayloadBuilder::new(alloc).word(members.len() as u64))?,
            gives_up: nothing(alloc),
        })
    }

    fn find(&self, place: u64, context: &mut Context<Board>) -> Result<Reply, AllocError> {
        let alloc = context.alloc();
        let Ok(members) = self.members.try_borrow() else {
            return Err(AllocError);
        };
        let cap = match members.get(place as usize) {
            Some(Some(shared)) => context.here(shared)?.into_cap(context.session())?,
            _ => Cap::None,
        };
        Ok(Reply::Now {
            outcome: outcome_of(alloc, PayloadBuilder::new(alloc).cap(cap))?,
            gives_up: nothing(alloc),
        })
    }

    fn leave(&self, place: u64, context: &mut Context<Board>) -> Result<Reply, AllocError> {
        let Ok(mut members) = self.members.try_borrow_mut() else {
            return Err(AllocError);
        };
        if let Some(member) = members.get_mut(place as usize) {
            drop(member.take());
        }
        drop(members);
        done(context.alloc(), &Caps::new(Vec::new(context.alloc())))
    }
}

impl ServedObject for Board {
    type Makes = Board;

    fn call(
        &mut self,
        _ticket: u64,
        request: RequestView<'_>,
        context: &mut Context<Board>,
    ) -> Result<Reply, AllocError> {
        let request = request.request(context.alloc())?;
        let word = word_in(&request.content, 0);
        match request.method {
            JOIN => self.join(&request.caps, context),
            FIND => self.find(word, context),
            _ => self.leave(word, context),
        }
    }

    fn poll(&mut self, _context: &mut Context<Board>) -> Result<Option<Settled>, AllocError> {
        Ok(None)
    }

    fn has_more(&self) -> bool {
        false
    }

    fn next_call(
        &mut self,
        _context: &mut Context<Board>,
    ) -> Result<Option<OutgoingCall>, AllocError> {
        Ok(None)
    }

    fn on_response(
        &mut self,
        _call_id: u64,
        _outcome: Outcome,
        _context: &mut Context<Board>,
    ) -> Result<(), AllocError> {
        Ok(())
    }

    fn on_cancel(&mut self, _ticket: u64, _context: &mut Context<Board>) -> Result<(), AllocError> {
        Ok(())
    }
}

/// An object of a client.
#[derive(Drop)]
struct Member {
    alloc: Global,
    words: Vec<u64>,
    waiting: VecDeque<u64>,
    /// The word with which all that wait are answered.
    answer: Option<u64>,
}

impl Member {
    fn new(alloc: Global) -> Member {
        Member {
            alloc,
            words: Vec::new(alloc),
            waiting: VecDeque::new(alloc),
            answer: None,
        }
    }
}

impl Servant for Member {
    fn call(&mut self, ticket: u64, request: Request) -> Result<Reply, AllocError> {
        let word = word_in(&request.content, 0);
        let results = PayloadBuilder::new(self.alloc);
        let results = match request.method {
            SAY => {
                self.words.push(word)?;
                results.word(word)
            }
            GIVE => match request.caps.caps().first() {
                Some(cap) => results.cap(cap.copy(self.alloc)?),
                None => Ok(results),
            },
            WAIT => {
                self.waiting.push_back(ticket)?;
                return Ok(Reply::Later);
            }
            _ => {
                self.answer = Some(word);
                Ok(results)
            }
        };
        Ok(Reply::Now {
            outcome: outcome_of(self.alloc, results)?,
            gives_up: named_imports(self.alloc, &request.caps)?,
        })
    }

    fn poll(&mut self) -> Result<Option<Settled>, AllocError> {
        let Some(word) = self.answer else {
            return Ok(None);
        };
        let Some(ticket) = self.waiting.pop_front() else {
            self.answer = None;
            return Ok(None);
        };
        Ok(Some(Settled {
            ticket,
            outcome: outcome_of(self.alloc, PayloadBuilder::new(self.alloc).word(word))?,
            gives_up: nothing(self.alloc),
        }))
    }

    fn has_more(&self) -> bool {
        self.answer.is_some()
    }
}

/// Clients with a member each, and a server whose sessions share a board. That of the client at place k has the number k + 1.
struct Hub {
    ends: Vec<Ends<Vec<Member>, Objects<Board>>>,
    members: Members,
    /// Whether the connection of each is there.
    lives: Vec<bool>,
}

// Not derived: who lets one go calls this function, and need not prove the drop of its sessions.
impl Drop for Hub {
    fn drop(self) {
        let Hub {
            ends: _,
            members: _,
            lives: _,
        } = self;
    }
}

impl Hub {
    fn new(rt: &impl Abort, alloc: Global, clients: u64) -> Hub {
        let members = Rc::new(alloc, RefCell::new(Vec::new(alloc))).expect(rt, "memory");
        let mut hub = Hub {
            ends: Vec::new(alloc),
            members,
            lives: Vec::new(alloc),
        };
        for number in 1..clients + 1 {
            hub.add(rt, alloc, number);
        }
        hub
    }

    fn add(&mut self, rt: &impl Abort, alloc: Global, number: u64) {
        let members = Rc::clone(&self.members).expect(rt, "memory");
        let mut objects = Objects::new(alloc);
        drop(objects.add(Board { members }).expect(rt, "an object"));
        let member = Vec::from_array(alloc, [Member::new(alloc)]).expect(rt, "memory");
        let mut ends = Ends::new(alloc, member, objects, number);
        ends.act(rt, Step::Bootstrap);
        ends.act(rt, Step::Take);
        self.ends.push(ends).expect(rt, "memory");
        self.lives.push(true).expect(rt, "memory");
    }

    fn at(&mut self, rt: &impl Abort, place: usize) -> &mut Ends<Vec<Member>, Objects<Board>> {
        self.ends.get_mut(place).expect(rt, "a client")
    }

    fn act(&mut self, rt: &impl Abort, place: usize, step: Step) -> Seen {
        self.at(rt, place).act(rt, step)
    }

    /// All letters that are there are delivered. Says whether there were some.
    fn deliver(&mut self, rt: &impl Abort) -> bool {
        let mut letters: VecDeque<Letter> = VecDeque::new(self.ends[0].alloc);
        for place in 0..self.ends.len() {
            while let Some(letter) = self.at(rt, place).server.next_letter() {
                letters.push_back(letter).expect(rt, "memory");
            }
        }
        let were_any = !letters.is_empty();
        while let Some(letter) = letters.pop_front() {
            let place = (letter.to - 1) as usize;
            if self.lives[place] {
                let done = self.at(rt, place).server.deliver(letter.body);
                done.expect(rt, "memory");
            } else if let Some(back) = letter.bounced() {
                letters.push_back(back).expect(rt, "memory");
            }
        }
        were_any
    }

    /// All that is on its way comes to where it goes.
    fn settle(&mut self, rt: &impl Abort) {
        for _ in 0..1_000 {
            for place in 0..self.ends.len() {
                if self.lives[place] {
                    self.act(rt, place, Step::Pass(0));
                }
            }
            if !self.deliver(rt) {
                return;
            }
        }
        check!(rt; false);
    }

    /// A client calls what it has, and waits.
    fn call(&mut self, rt: &impl Abort, place: usize, import: u32, method: u16, with: With) -> Got {
        let asked = self.begin(rt, place, import, method, with);
        self.settle(rt);
        let (question, got) = self.take(rt, place);
        check!(rt; question == asked);
        got
    }

    fn begin(&mut self, rt: &impl Abort, place: usize, import: u32, method: u16, with: With) -> u32 {
        let asked = self.act(rt, place, Step::Call(import, method, with)).asked;
        self.act(rt, place, Step::Carry);
        asked.expect(rt, "a question")
    }

    fn take(&mut self, rt: &impl Abort, place: usize) -> (u32, Got) {
        let got = self.act(rt, place, Step::Take).got;
        got.expect(rt, "an outcome")
    }

    /// A client adds its member, and says at which place.
    fn join(&mut self, rt: &impl Abort, place: usize) -> u64 {
        let got = self.call(rt, place, 0, JOIN, With::Object(0));
        check!(rt; !got.is_failed);
        got.word - 1
    }

    /// What a client finds there.
    fn find(&mut self, rt: &impl Abort, place: usize, at: u64) -> Got {
        self.call(rt, place, 0, FIND, With::Word(at))
    }

    /// The connection of a client ends.
    fn end(&mut self, rt: &impl Abort, place: usize) {
        let ends = self.at(rt, place);
        ends.server.close(ends.now);
        self.settle(rt);
        self.lives[place] = false;
        self.settle(rt);
    }

    /// How many bytes the server keeps for a client.
    fn kept(&mut self, rt: &impl Abort, place: usize) -> u64 {
        self.act(rt, place, Step::Carry).kept
    }

    /// Time passes, as long as all that is lent is looked at.
    fn pass(&mut self, rt: &impl Abort) {
        for place in 0..self.ends.len() {
            if self.lives[place] {
                self.act(rt, place, Step::Pass(1_000));
            }
        }
        self.settle(rt);
    }

    /// The second client finds what is at a place, has it give back its own member, and drops it.
    fn find_and_call(&mut self, rt: &impl Abort, place: u64) {
        let found = self.find(rt, 1, place).import.expect(rt, "a member");
        check!(rt; self.call(rt, 1, found, GIVE, With::Object(0)).is_own);
        self.act(rt, 1, Step::ReleaseOthers(0));
    }

    /// The words that a client's member heard.
    fn heard(&mut self, rt: &impl Abort, place: usize) -> &[u64] {
        match self.at(rt, place).client.objects().as_slice() {
            [member, ..] => member.words.as_slice(),
            [] => &[],
        }
    }
}

#[test]
fn what_one_client_gives_another_one_calls_in_order(rt: HostRuntime) {
    let mut hub = Hub::new(&rt, rt.alloc(), 2);
    let place = hub.join(&rt, 0);
    let found = hub.find(&rt, 1, place).import.expect(&rt, "a member");
    for word in 0..20 {
        hub.begin(&rt, 1, found, SAY, With::Word(word));
    }
    hub.settle(&rt);
    for word in 0..20 {
        let (_, got) = hub.take(&rt, 1);
        check!(&rt; !got.is_failed && got.word == word);
    }
    let heard = hub.heard(&rt, 0);
    check!(&rt; heard.len() == 20 && heard.iter().enumerate().all(|(at, word)| at as u64 == *word));
    drop(hub);
}

#[test]
fn what_comes_home_is_what_it_was(rt: HostRuntime) {
    let mut hub = Hub::new(&rt, rt.alloc(), 3);
    let place = hub.join(&rt, 0);
    check!(&rt; hub.find(&rt, 0, place).is_own);
    // Over a second client, and over the first one's member.
    let found = hub.find(&rt, 1, place).import.expect(&rt, "a member");
    let got = hub.call(&rt, 1, 0, JOIN, With::Import(found));
    let again = got.word - 1;
    check!(&rt; hub.find(&rt, 0, again).is_own);
    let third = hub.find(&rt, 2, again).import.expect(&rt, "a member");
    check!(&rt; hub.call(&rt, 2, third, SAY, With::Word(7)).word == 7);
    // What the second client passes and gets back is its own.
    check!(&rt; hub.call(&rt, 1, found, GIVE, With::Object(0)).is_own);
    // The third one's reference doesn't go over the second.
    hub.end(&rt, 1);
    check!(&rt; hub.call(&rt, 2, third, SAY, With::Word(8)).word == 8);
    check!(&rt; hub.heard(&rt, 0) == [7, 8].as_slice());
    drop(hub);
}

#[test]
fn what_is_passed_on_is_called_back(rt: HostRuntime) {
    let mut hub = Hub::new(&rt, rt.alloc(), 2);
    let place = hub.join(&rt, 0);
    let found = hub.find(&rt, 1, place).import.expect(&rt, "a member");
    // The first client has what the second one passed, as its member gives it to the board.
    hub.call(&rt, 1, found, GIVE, With::Object(0));
    let other = hub.join(&rt, 1);
    let back = hub.find(&rt, 0, other).import.expect(&rt, "a member");
    check!(&rt; hub.call(&rt, 0, back, SAY, With::Word(3)).word == 3);
    check!(&rt; hub.heard(&rt, 1) == [3].as_slice());
    drop(hub);
}

#[test]
fn calls_of_one_that_ends_fail(rt: HostRuntime) {
    let mut hub = Hub::new(&rt, rt.alloc(), 3);
    let place = hub.join(&rt, 0);
    let found = hub.find(&rt, 1, place).import.expect(&rt, "a member");
    let waits = hub.begin(&rt, 1, found, WAIT, With::Word(0));
    hub.settle(&rt);
    check!(&rt; hub.act(&rt, 1, Step::Take).got.is_none());
    hub.end(&rt, 0);
    let (question, got) = hub.take(&rt, 1);
    check!(&rt; question == waits && got.is_failed);
    check!(&rt; hub.call(&rt, 1, found, SAY, With::Word(0)).is_failed);
    // It is found yet, and its calls fail; others go on.
    let found = hub.find(&rt, 2, place).import.expect(&rt, "a member");
    check!(&rt; hub.call(&rt, 2, found, SAY, With::Word(0)).is_failed);
    let other = hub.join(&rt, 1);
    let found = hub.find(&rt, 2, other).import.expect(&rt, "a member");
    check!(&rt; hub.call(&rt, 2, found, SAY, With::Word(4)).word == 4);
    drop(hub);
}

#[test]
fn nothing_is_kept_of_what_is_dropped(rt: HostRuntime) {
    let mut hub = Hub::new(&rt, rt.alloc(), 2);
    let place = hub.join(&rt, 0);
    // What makes the calls of others is made once, and stays.
    hub.find_and_call(&rt, place);
    hub.pass(&rt);
    hub.pass(&rt);
    let (first, second) = (hub.kept(&rt, 0), hub.kept(&rt, 1));
    for _ in 0..100 {
        hub.find_and_call(&rt, place);
    }
    hub.pass(&rt);
    hub.pass(&rt);
    check!(&rt; hub.kept(&rt, 0) == first);
    check!(&rt; hub.kept(&rt, 1) == second);
    // What nobody has any more goes, as a second passes.
    hub.call(&rt, 0, 0, LEAVE, With::Word(place));
    hub.pass(&rt);
    hub.pass(&rt);
    check!(&rt; hub.kept(&rt, 0) < first);
    check!(&rt; hub.find(&rt, 1, place).import.is_none());
    drop(hub);
}

#[test]
fn what_is_given_up_isnt_kept(rt: HostRuntime) {
    let mut hub = Hub::new(&rt, rt.alloc(), 2);
    let place = hub.join(&rt, 0);
    let found = hub.find(&rt, 1, place).import.expect(&rt, "a member");
    hub.call(&rt, 1, found, SAY, With::Word(0));
    hub.pass(&rt);
    let (first, second) = (hub.kept(&rt, 0), hub.kept(&rt, 1));
    for _ in 0..50 {
        let waits = hub.begin(&rt, 1, found, WAIT, With::Word(0));
        hub.settle(&rt);
        hub.act(&rt, 1, Step::Finish(waits));
        hub.settle(&rt);
    }
    check!(&rt; hub.kept(&rt, 1) == second);
    hub.call(&rt, 1, found, ANSWER, With::Word(0));
    hub.pass(&rt);
    check!(&rt; hub.kept(&rt, 0) == first && hub.kept(&rt, 1) == second);
    drop(hub);
}

#[test]
fn what_an_answer_names_stays(rt: HostRuntime) {
    let mut hub = Hub::new(&rt, rt.alloc(), 3);
    let (first, third) = (hub.join(&rt, 0), hub.join(&rt, 2));
    let found = hub.find(&rt, 1, first).import.expect(&rt, "a member");
    let named = hub.find(&rt, 1, third).import.expect(&rt, "a member");
    let asked = hub.begin(&rt, 1, found, GIVE, With::Import(named));
    // The answer comes to the second client's session, which has time to look for what nobody needs before it goes on.
    for _ in 0..20 {
        hub.act(&rt, 0, Step::Pass(0));
        hub.deliver(&rt);
        let ends = hub.at(&rt, 1);
        ends.now += 1_000;
        ends.server.tick(ends.now);
    }
    hub.settle(&rt);
    let (question, got) = hub.take(&rt, 1);
    check!(&rt; question == asked && !got.is_failed);
    let given = got.import.expect(&rt, "a member");
    check!(&rt; hub.call(&rt, 1, given, SAY, With::Word(5)).word == 5);
    check!(&rt; hub.heard(&rt, 2) == [5].as_slice());
    drop(hub);
}
