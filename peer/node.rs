//! The node: a store, divided among reserves.

use crate::amount::{G, MOST_QUANTA, RESERVES, ROOT, TAPS};
use crate::answer::{Answer, Totals};
use crate::frame::Call;
use crate::grant::{Grant, Grants};
use crate::refusal::Refusal;
use crate::reserve::{Reserve, Reserves};
use crate::store::Store;
use crate::tap::{Tap, Taps};

pub struct Node {
    store: Store,
    reserves: Reserves,
    taps: Taps,
    grants: Grants,
    /// The totals of the audit but held, which the store is asked for.
    books: Books,
    ticks: u32,
    /// How many grants were given; it is the last serial too.
    serials: u32,
}

struct Books {
    received: u64,
    open: u64,
    spent: u64,
    lost: u64,
    granted: u64,
    settled: u64,
}

impl Node {
    pub fn new(store: Store) -> Self {
        let held = store.held();
        Node {
            store,
            reserves: Reserves::new(held),
            taps: Taps::new(),
            grants: Grants::new(),
            books: Books {
                received: u64::from(held),
                open: 0,
                spent: 0,
                lost: 0,
                granted: 0,
                settled: 0,
            },
            ticks: 0,
            serials: 0,
        }
    }

    pub fn call(&mut self, call: Call) -> Result<Answer, Refusal> {
        match call {
            Call::Open { task, parent, number, owner, limit, amount } => {
                let reserve = Reserve { owner, parent, limit, level: amount };
                self.open(task, number, reserve).map(|()| Answer::Done)
            }
            Call::Close { task, number } => self.close(task, number).map(|()| Answer::Done),
            Call::Tap { task, tap, source, sink, n, d } => {
                self.tap(task, tap, source, sink, n, d).map(|()| Answer::Done)
            }
            Call::Shut { task, tap } => self.shut(task, tap).map(|()| Answer::Done),
            Call::Grant { task, reserve, amount } => {
                self.grant(task, reserve, amount).map(|serial| Answer::Granted { serial })
            }
            Call::Settle { task, serial, used } => {
                self.settle(task, serial, used).map(|lost| Answer::Settled { lost })
            }
            Call::Tick { harvest } => {
                self.tick(harvest).map(|(loss, intake)| Answer::Ticked { loss, intake })
            }
            Call::Audit => Ok(Answer::Audited(self.audit())),
        }
    }

    fn open(&mut self, task: u8, number: u8, new: Reserve) -> Result<(), Refusal> {
        let parent = new.parent;
        in_range(is_reserve(parent) && is_reserve(number) && number != ROOT && new.limit <= G)?;
        let giver = self.reserves.get(parent)?;
        if self.reserves.is_open(number) {
            return Err(Refusal::AlreadyOpen);
        }
        owned(giver, task)?;
        if new.level > new.limit {
            return Err(Refusal::AboveLimit);
        }
        has_level(giver, task, parent, new.level)?;
        self.reserves.take(parent, new.level);
        self.reserves.put(number, new);
        Ok(())
    }

    fn close(&mut self, task: u8, number: u8) -> Result<(), Refusal> {
        in_range(is_reserve(number) && number != ROOT)?;
        let closed = *self.reserves.get(number)?;
        owned(&closed, task)?;
        let in_use = self.reserves.is_parent(number)
            || self.taps.any_at(number)
            || self.grants.any_of(number);
        if in_use {
            return Err(Refusal::InUse);
        }
        self.reserves.remove(number);
        self.reserves.give_back(closed.parent, closed.level);
        Ok(())
    }

    fn tap(
        &mut self,
        task: u8,
        tap: u8,
        source: u8,
        sink: u8,
        n: u32,
        d: u16,
    ) -> Result<(), Refusal> {
        in_range(is_tap(tap) && is_reserve(source) && is_reserve(sink))?;
        in_range(n <= MOST_QUANTA && d >= 1)?;
        let giver = self.reserves.get(source)?;
        self.reserves.get(sink)?;
        if self.taps.is_open(tap) {
            return Err(Refusal::AlreadyOpen);
        }
        owned(giver, task)?;
        if source == sink {
            return Err(Refusal::SameEnds);
        }
        self.taps.put(tap, Tap::new(source, sink, n, d));
        Ok(())
    }

    fn shut(&mut self, task: u8, tap: u8) -> Result<(), Refusal> {
        in_range(is_tap(tap))?;
        let source = self.taps.get(tap)?.source;
        owned(self.reserves.get(source)?, task)?;
        self.taps.remove(tap);
        Ok(())
    }

    /// Gives a grant, whose slip the node keeps, and tells its serial.
    fn grant(&mut self, task: u8, reserve: u8, amount: u32) -> Result<u32, Refusal> {
        in_range(is_reserve(reserve) && (1..=G).contains(&amount))?;
        let giver = self.reserves.get(reserve)?;
        owned(giver, task)?;
        if self.grants.is_full() {
            return Err(Refusal::TooManyGrants);
        }
        if self.serials == G {
            return Err(Refusal::Exhausted);
        }
        has_level(giver, task, reserve, amount)?;
        self.store
            .draw(amount)
            .map_err(|fault| Refusal::StoreRefused { task, reserve, fault })?;
        self.reserves.take(reserve, amount);
        self.serials += 1;
        let serial = self.serials;
        self.grants.push(Grant { serial, reserve, amount });
        self.books.open += u64::from(amount);
        self.books.granted += u64::from(amount);
        Ok(serial)
    }

    /// Ends a grant, and tells what of the unused quanta was lost.
    fn settle(&mut self, task: u8, serial: u32, used: u32) -> Result<u32, Refusal> {
        let (place, grant) = self.grants.find(serial)?;
        owned(self.reserves.get(grant.reserve)?, task)?;
        if used > grant.amount {
            return Err(Refusal::Overused);
        }
        self.grants.remove(place);
        let unused = grant.amount - used;
        let taken = self.store.charge(unused);
        let lost = unused - taken;
        self.reserves.give_back(grant.reserve, taken);
        self.books.open -= u64::from(grant.amount);
        self.books.settled += u64::from(grant.amount);
        self.books.spent += u64::from(used);
        self.books.lost += u64::from(lost);
        Ok(lost)
    }

    /// Lets a tick pass, and tells the loss and the intake.
    fn tick(&mut self, harvest: u32) -> Result<(u32, u32), Refusal> {
        in_range(harvest <= G)?;
        if self.ticks == G {
            return Err(Refusal::Exhausted);
        }
        self.ticks += 1;
        let loss = self.store.tick();
        self.reserves.bear_loss(loss);
        let intake = self.store.charge(harvest);
        self.reserves.give(ROOT, intake);
        for tap in self.taps.open_mut() {
            let due = tap.step();
            self.reserves.move_due(tap.source, tap.sink, due);
        }
        self.books.received += u64::from(harvest);
        self.books.lost += u64::from(loss) + u64::from(harvest - intake);
        Ok((loss, intake))
    }

    fn audit(&self) -> Totals {
        Totals {
            received: self.books.received,
            held: u64::from(self.store.held()),
            open: self.books.open,
            spent: self.books.spent,
            lost: self.books.lost,
            granted: self.books.granted,
            settled: self.books.settled,
        }
    }
}

fn is_reserve(number: u8) -> bool {
    usize::from(number) < RESERVES
}

fn is_tap(number: u8) -> bool {
    usize::from(number) < TAPS
}

fn in_range(fits: bool) -> Result<(), Refusal> {
    if fits {
        Ok(())
    } else {
        Err(Refusal::OutOfRange)
    }
}

fn owned(reserve: &Reserve, task: u8) -> Result<(), Refusal> {
    if reserve.owner == task {
        Ok(())
    } else {
        Err(Refusal::NotOwner)
    }
}

fn has_level(giver: &Reserve, task: u8, reserve: u8, amount: u32) -> Result<(), Refusal> {
    if amount <= giver.level {
        Ok(())
    } else {
        Err(Refusal::LevelTooLow { task, reserve, deficit: amount - giver.level })
    }
}
