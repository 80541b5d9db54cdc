//! An answer in words; it says more if the requests are known.

use crate::hint;
use crate::line::Line;
use crate::number::grouped;
use crate::record::Record;
use std::collections::HashMap;
use stopblocker::layout::{GRANTED, OPENED, RELEASED, WAITS};
use stopblocker::{Board, ClaimView, Disk, Item, Method, Refusal};

/// What a ticket is for.
#[derive(Clone, Copy)]
struct Known {
    method: Method,
    value: i32,
    active: bool,
}

/// Says answers in words, one after the other, and remembers what each ticket is for.
#[derive(Default)]
pub struct Teller {
    claims: HashMap<(u8, u32), Known>,
}

impl Teller {
    /// A teller that knows the claims on a board.
    pub fn of(board: &Board) -> Teller {
        let mut teller = Teller::default();
        for disk in Disk::all() {
            if let Some(view) = board.disk(disk) {
                view.active().for_each(|claim| teller.learn_view(disk, &claim, true));
                view.waiting().for_each(|claim| teller.learn_view(disk, &claim, false));
            }
        }
        teller
    }

    /// The answer of a line in words; `asked` is the request if it is known.
    pub fn tell(&mut self, line: &Line, asked: Option<&Result<Record, String>>) -> String {
        let Line { of_pass, record, disk, item } = *line;
        if let Some(Ok(Record::Claim(claim))) = asked {
            if let (Some(method), GRANTED | WAITS, false) = (claim.known_method(), item.code, of_pass) {
                self.claims.insert((disk, item.ticket), Known { method, value: claim.value, active: false });
            }
        }
        // The program shows disk 0 for a record that it cannot read.
        let who = match item.code {
            number if number == Refusal::Record.number() => format!("record {record}"),
            _ if of_pass => format!("  + record {record}"),
            _ => format!("record {record}, disk {disk}"),
        };
        let what = match item.code {
            GRANTED => self.granted(disk, of_pass, &item),
            WAITS => format!("ticket {} waits, tried again at each release", item.ticket),
            RELEASED => format!("released ticket {}{}", item.ticket, self.after_release(disk, item.ticket)),
            OPENED => format!("opened{}", limits(asked)),
            number => refused(number, asked),
        };
        format!("{who}: {what}\n")
    }

    fn learn_view(&mut self, disk: Disk, claim: &ClaimView, active: bool) {
        if let Some(method) = claim.method {
            self.claims.insert((disk.number(), claim.ticket), Known { method, value: claim.value, active });
        }
    }

    fn granted(&mut self, disk: u8, of_pass: bool, item: &Item) -> String {
        let place = if of_pass { format!("disk {disk} ") } else { String::new() };
        let known = self.claims.get_mut(&(disk, item.ticket)).map(|known| {
            known.active = true;
            *known
        });
        let told = grouped(item.told.into());
        let off = grouped(item.amount.into());
        let what = match known.map(|known| known.method) {
            Some(Method::ReportUsed) => format!("{place}used may now be off by {off} MiB"),
            Some(Method::AddPromised | Method::SetPromised) => format!("{place}promised may now be off by {off} MiB"),
            Some(Method::SetState) => format!("{place}state changes at its release"),
            Some(Method::ReadUsed) => format!("told {place}used: {told} MiB, may be off by {off} MiB"),
            Some(Method::ReadLoad) => format!("told {place}used + promised: {told} MiB, may be off by {off} MiB"),
            Some(Method::ReadState) => format!("told {place}state: {told}"),
            None if of_pass => format!("disk {disk}, told {told}, may be off by {off}"),
            None => format!("told {told}, may be off by {off}"),
        };
        format!("ticket {} granted, {what}", item.ticket)
    }

    fn after_release(&mut self, disk: u8, ticket: u32) -> String {
        let known = match self.claims.remove(&(disk, ticket)) {
            Some(known) => known,
            None => return String::new(),
        };
        let value = grouped(known.value.into());
        match known.method {
            _ if !known.active => ", which still waited".to_string(),
            Method::ReportUsed => format!(", used is now {value} MiB"),
            Method::SetPromised => format!(", promised is now {value} MiB"),
            Method::SetState => format!(", state is now {value}"),
            Method::AddPromised if known.value < 0 => {
                format!(", {} MiB taken off promised", grouped(known.value.unsigned_abs().into()))
            }
            Method::AddPromised => format!(", {value} MiB added to promised"),
            Method::ReadUsed | Method::ReadLoad | Method::ReadState => String::new(),
        }
    }
}

fn limits(asked: Option<&Result<Record, String>>) -> String {
    match asked {
        Some(Ok(Record::Open { used_limit, promised_limit, .. })) => format!(
            ", used may be off by {} MiB at most, promised by {} MiB",
            grouped((*used_limit).into()),
            grouped((*promised_limit).into())
        ),
        _ => String::new(),
    }
}

fn refused(number: u32, asked: Option<&Result<Record, String>>) -> String {
    let refusal = Refusal::of(number).expect("a line has a code 0 to 3 or a refusal");
    format!("refused {number}, {refusal}\n    hint: {}", hint::of(refusal, asked))
}
