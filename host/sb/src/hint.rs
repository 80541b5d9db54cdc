//! What to do about a refusal.

use crate::number::grouped;
use crate::record::{Claim, Record};
use stopblocker::layout::{MOST_ERROR, MOST_STATE, MOST_VALUE};
use stopblocker::{Method, Refusal};

/// A hint; it says more if the record is known.
pub fn of(refusal: Refusal, asked: Option<&Result<Record, String>>) -> String {
    match (refusal, asked) {
        (Refusal::Record, Some(Err(why))) => why.clone(),
        (Refusal::Field, Some(Ok(record))) => out_of_range(record).join("; "),
        (Refusal::OwnError, Some(Ok(Record::Claim(claim)))) => of_own_error(claim),
        _ => refusal.what_to_do().to_string(),
    }
}

/// Why a write's own error exceeds its attribute's limit. The open has set the limits, except the state's, which is 0.
fn of_own_error(claim: &Claim) -> String {
    let own = grouped(claim.error.into());
    match claim.known_method() {
        Some(Method::SetState) => format!("a state has no error: own is 0, not {own}"),
        Some(Method::ReportUsed) => above_limit(&own, "used"),
        _ => above_limit(&own, "promised"),
    }
}

fn above_limit(own: &str, attribute: &str) -> String {
    let todo = Refusal::OwnError.what_to_do();
    format!("the own error {own} is above the limit that the open gave {attribute}; {todo}")
}

/// Every field of a record that is out of range, which refusal 17 is for.
pub fn out_of_range(record: &Record) -> Vec<String> {
    match record {
        Record::Open { used_limit, promised_limit, .. } => [("used", *used_limit), ("promised", *promised_limit)]
            .into_iter()
            .filter(|(_, limit)| *limit > MOST_ERROR)
            .map(|(attribute, limit)| above(&format!("the limit of {attribute}"), limit))
            .collect(),
        Record::Claim(claim) => match claim.known_method() {
            Some(method) if method.is_reading() => of_reading(claim),
            Some(method) => of_write(claim, method),
            None => Vec::new(),
        },
        Record::Release { .. } => Vec::new(),
    }
}

fn of_reading(claim: &Claim) -> Vec<String> {
    let mut faults = Vec::new();
    if claim.value != 0 {
        faults.push(format!("a reading has value 0, not {}", grouped(claim.value.into())));
    }
    if claim.measured != 0 {
        faults.push(format!("a reading has second of measuring 0, not {}", claim.measured));
    }
    if claim.error > MOST_ERROR {
        faults.push(above("the stated limit", claim.error));
    }
    faults
}

fn of_write(claim: &Claim, method: Method) -> Vec<String> {
    let mut faults = Vec::new();
    if method == Method::SetState {
        if !(0..=MOST_STATE as i32).contains(&claim.value) {
            faults.push(format!("a state is 0 to {MOST_STATE}, not {}", grouped(claim.value.into())));
        }
    } else if claim.value.unsigned_abs() > MOST_VALUE {
        faults.push(format!("the value {} is not within ±{}", grouped(claim.value.into()), grouped(MOST_VALUE.into())));
    }
    if claim.error > MOST_ERROR {
        faults.push(above("the own error", claim.error));
    }
    if claim.fresh {
        faults.push("only a reading asks for fresh figures".to_string());
    }
    if claim.measured > claim.now {
        faults.push(format!("measured at {}, after now, which is {}", claim.measured, claim.now));
    }
    faults
}

fn above(what: &str, number: u32) -> String {
    format!("{what} {} is above {}", grouped(number.into()), grouped(MOST_ERROR.into()))
}

#[cfg(test)]
mod tests {
    use super::*;
    use stopblocker::layout::{ANSWER_BYTES, BOARD_BYTES};
    use stopblocker::step;

    /// On an opened disk, at all edges: a field is named exactly if the desk refuses 17.
    #[test]
    fn refusal_17_and_no_other() {
        let open = Record::Open { disk: 3, now: 7, used_limit: MOST_ERROR, promised_limit: MOST_ERROR };
        let answer = |board: &mut [u8], record: &Record| step(board, &record.bytes(), &mut [0; ANSWER_BYTES]);
        let (mut named, mut tried) = (0, 0);
        let mut agrees = |board: &[u8], record: Record| {
            let code = answer(&mut board.to_vec(), &record);
            assert_eq!(code == 17, !out_of_range(&record).is_empty(), "{code} {record:?}");
            named += u32::from(code == 17);
            tried += 1;
        };

        let words = [0, 1, MOST_ERROR, MOST_ERROR + 1, u32::MAX];
        for used_limit in words {
            for promised_limit in words {
                agrees(&[0; BOARD_BYTES], Record::Open { disk: 3, now: 7, used_limit, promised_limit });
            }
        }
        let mut board = [0; BOARD_BYTES];
        assert_eq!(answer(&mut board, &open), 3);
        let most = MOST_VALUE as i32;
        for value in [0, -1, 1, 255, 256, most, most + 1, -most, -most - 1, i32::MAX, i32::MIN] {
            for error in words {
                for (measured, fresh) in [(0, false), (7, false), (8, false), (0, true), (u32::MAX, true)] {
                    for method in 0..8 {
                        let claim = Claim { disk: 3, now: 7, method, priority: 0, fresh, measured, value, error };
                        agrees(&board, Record::Claim(claim));
                    }
                }
            }
        }
        assert_eq!(tried, 25 + 11 * 5 * 5 * 8);
        assert!(named > 500 && named < tried - 300, "{named} of {tried}");
    }
}
