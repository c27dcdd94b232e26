//! A line and the crossed line fed to two receivers of one version, each with a
//! record of its own, by the same list of calls. No other version runs beside:
//! each call's answers are compared with each other.

use crate::archive::{short, Calls};
use crate::crossed::{crossed, demanded_fed, demanded_synced, inverted};
use crate::long_lines::size;
use crate::random::Random;
use crate::records::{Fed, FeedCall, Receiver, ReceiverSynced, FEED_CALLS};

/// The two receivers, and how many calls both have had.
pub struct Pair<'a> {
    calls: &'a Calls,
    pub plain: Receiver,
    pub crossed: Receiver,
    pub made: u64,
}

impl<'a> Pair<'a> {
    /// Two fresh receivers.
    pub fn fresh(calls: &'a Calls) -> Self {
        Pair {
            calls,
            plain: (calls.ows_fresh)(),
            crossed: (calls.ows_fresh)(),
            made: 0,
        }
    }

    /// An admitted record and its crossed record.
    pub fn from(calls: &'a Calls, record: Receiver) -> Self {
        Pair {
            calls,
            plain: record,
            crossed: crossed(&record),
            made: 0,
        }
    }

    /// Feeds bytes to one receiver and the inverted bytes to the other, both by
    /// the same call and with these slots. The answer on the plain line, and the
    /// slots used. `Err` tells both calls if a refusal, the bytes or slots used,
    /// the content of any slot, a total, or what else the records must have in
    /// common differs.
    pub fn feed(
        &mut self,
        call: FeedCall,
        bytes: &[u8],
        before: &[u16],
    ) -> Result<(Fed, Vec<u16>), String> {
        let starts = [self.plain, self.crossed];
        let lines = [bytes.to_vec(), inverted(bytes)];
        let mut slots = [before.to_vec(), before.to_vec()];
        let fed = |k: usize, slots: &mut Vec<u16>| -> Result<Fed, String> {
            self.calls.feed_by(call, starts[k], &lines[k], slots)
        };
        let (plain, given) = (fed(0, &mut slots[0])?, fed(1, &mut slots[1])?);
        let demanded = demanded_fed(starts.each_ref(), &plain, &given.receiver);
        if plain.refusal != 0 || given != demanded || slots[0] != slots[1] {
            let told = |name: &str, k: usize, fed: &Fed| {
                let (start, line, slots) = (starts[k], short(&lines[k]), short(&slots[k]));
                let call = call.name();
                format!(
                    "{name} line, {call}, {start:?}, bytes {line}\n  gave {fed:?}, slots {slots}\n"
                )
            };
            let both = told("plain", 0, &plain) + &told("crossed", 1, &given);
            let before = short(before);
            return Err(format!(
                "{both}  demanded {demanded:?}; slots before {before}"
            ));
        }
        (self.plain, self.crossed) = (plain.receiver, given.receiver);
        self.made += 1;
        let [mut used, _] = slots;
        used.truncate(plain.slots);
        Ok((plain, used))
    }

    /// The SYNC call of both.
    pub fn sync(&mut self) -> Result<(), String> {
        let plain: ReceiverSynced = (self.calls.ows_receiver_sync)(self.plain);
        let given = (self.calls.ows_receiver_sync)(self.crossed);
        let starts = [&self.plain, &self.crossed];
        let demanded = demanded_synced(starts, &plain, &given.receiver);
        if plain.refusal != 0 || given != demanded {
            return Err(format!(
                "plain line, SYNC, {:?}\n  gave {plain:?}\ncrossed line, SYNC, {:?}\n  \
                 gave {given:?}\n  demanded {demanded:?}",
                self.plain, self.crossed
            ));
        }
        (self.plain, self.crossed) = (plain.receiver, given.receiver);
        self.made += 1;
        Ok(())
    }

    /// Feeds a whole line in calls of up to `largest` bytes, each by one of the
    /// two calls, with any slots lent and a SYNC call before one feeding call in
    /// `sync_one_in`. The items handed out.
    pub fn feed_line(
        &mut self,
        line: &[u8],
        largest: usize,
        sync_one_in: usize,
        random: &mut Random,
    ) -> Result<Vec<u16>, String> {
        let mut items = Vec::new();
        let mut rest = line;
        while !rest.is_empty() {
            if random.one_in(sync_one_in) {
                self.sync()?;
            }
            let length = size(largest, random).min(rest.len());
            let room = match random.below(4) {
                0 => size(largest, random),
                1 => length / 2,
                _ => length,
            };
            let (call, slots) = (random.pick(&FEED_CALLS), random.slots(room));
            let (fed, used) = self.feed(call, &rest[..length], &slots)?;
            items.extend(used);
            rest = &rest[fed.bytes..];
        }
        Ok(items)
    }
}
