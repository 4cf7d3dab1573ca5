//! Random calls of a notebook and its pages, beside a plain model of which pages there are.

use crate::services::ends::{Got, Step, With};
use crate::services::notebook::{GIVE_UP, KEEP, KEPT, OPEN, READ};
use crate::services::pair::Pair;
use std::alloc::Global;
use std::process::Abort;

/// A page, as the model has it: by its number, which no other has.
#[derive(Clone, Copy)]
struct Plain {
    number: u64,
    /// The client's capability of it.
    import: Option<u32>,
    /// The number of the page that it keeps.
    keeps: Option<u64>,
}

/// The pages that are there.
#[derive(Drop)]
struct Model {
    pages: Vec<Plain>,
}

impl Model {
    /// A page is there.
    fn add(&mut self, rt: &impl Abort, number: u64, import: Option<u32>) {
        let page = Plain {
            number,
            import,
            keeps: None,
        };
        self.pages.push(page).expect(rt, "memory");
    }

    /// The client has this capability of a page that is kept.
    fn take(&mut self, kept: Option<u64>, import: Option<u32>) {
        for page in &mut self.pages {
            if kept == Some(page.number) {
                page.import = import;
            }
        }
    }

    /// A page keeps another now, or none.
    fn set_kept(&mut self, place: usize, kept: Option<u64>) {
        if let Some(page) = self.pages.get_mut(place) {
            page.keeps = kept;
        }
    }

    /// The client has dropped its capability of a page.
    fn drop_import(&mut self, place: usize) {
        if let Some(page) = self.pages.get_mut(place) {
            page.import = None;
        }
    }

    /// Pages that neither the client nor a page holds go.
    fn sweep(&mut self) {
        for _ in 0..self.pages.len() {
            match self.loose() {
                Some(place) if place < self.pages.len() => {
                    let _ = self.pages.remove(place);
                }
                _ => return,
            }
        }
    }

    /// The place of a page that neither the client nor a page holds.
    fn loose(&self) -> Option<usize> {
        for (place, page) in self.pages.iter().enumerate() {
            if page.import.is_none() && !self.keeps(page.number) {
                return Some(place);
            }
        }
        None
    }

    /// Whether a page keeps the one of this number.
    fn keeps(&self, number: u64) -> bool {
        for page in &self.pages {
            if page.keeps == Some(number) {
                return true;
            }
        }
        false
    }
}

/// A number below a bound.
fn draw(seed: &mut u64, bound: usize) -> usize {
    *seed = seed
        .wrapping_mul(6_364_136_223_846_793_005)
        .wrapping_add(1_442_695_040_888_963_407);
    let number = (*seed >> 33) as usize;
    if bound == 0 { 0 } else { number % bound }
}

/// A pair, its model, and where the random steps are.
struct Walk {
    pair: Pair,
    model: Model,
    seed: u64,
    /// The number of the page that is made next.
    next: u64,
}

// Not derived: who lets one go calls this function, and need not prove the drop of its sessions.
impl Drop for Walk {
    fn drop(self) {
        let Walk {
            pair: _,
            model: _,
            seed: _,
            next: _,
        } = self;
    }
}

impl Walk {
    /// One random step.
    fn step(&mut self, rt: &impl Abort) {
        let choice = draw(&mut self.seed, 6);
        if self.model.pages.is_empty() || choice == 0 {
            return self.open(rt);
        }
        let place = draw(&mut self.seed, self.model.pages.len());
        let page = *self.model.pages.get(place).expect(rt, "a page");
        if let Some(import) = page.import {
            self.call(rt, choice, (place, page), import);
            self.model.sweep();
        }
    }

    /// A page is made.
    fn open(&mut self, rt: &impl Abort) {
        let number = self.number();
        let page = self.pair.page(rt, OPEN, number);
        self.model.add(rt, number, Some(page));
    }

    /// The number of a page that is made.
    fn number(&mut self) -> u64 {
        let number = self.next;
        self.next = number.saturating_add(1);
        number
    }

    /// A page is called, or dropped.
    fn call(&mut self, rt: &impl Abort, choice: usize, (place, page): (usize, Plain), import: u32) {
        match choice {
            1 => {
                check!(rt; self.got(rt, import, READ, 0).word == page.number);
            }
            2 => {
                let number = self.number();
                self.got(rt, import, KEEP, number);
                self.model.set_kept(place, Some(number));
                self.model.add(rt, number, None);
            }
            3 => {
                let kept = self.got(rt, import, KEPT, 0).import;
                check!(rt; kept.is_some() == page.keeps.is_some());
                self.model.take(page.keeps, kept);
            }
            4 => {
                self.got(rt, import, GIVE_UP, 0);
                self.model.set_kept(place, None);
            }
            _ => {
                self.pair.act(rt, Step::Drop(import));
                self.model.drop_import(place);
            }
        }
    }

    /// What a method of a page gives.
    fn got(&mut self, rt: &impl Abort, import: u32, method: u16, word: u64) -> Got {
        let got = self.pair.call(rt, import, method, With::Word(word));
        check!(rt; !got.is_failed);
        got
    }
}

#[test]
fn as_many_pages_as_the_model_has(rt: HostRuntime) {
    let mut seed = 17;
    for session in 0..20 {
        seed = walked(&rt, rt.alloc(), session, seed);
    }
}

/// Sixty steps of a session. Gives the seed after them.
fn walked(rt: &impl Abort, alloc: Global, session: u64, seed: u64) -> u64 {
    let mut walk = Walk {
        pair: Pair::new(rt, alloc, session),
        model: Model {
            pages: Vec::new(alloc),
        },
        seed,
        next: 1,
    };
    for _ in 0..60 {
        walk.step(rt);
        walk.pair.act(rt, Step::Pass(1_000));
        check!(rt; walk.pair.objects() == walk.model.pages.len().saturating_add(1));
    }
    let seed = walk.seed;
    drop(walk);
    seed
}
