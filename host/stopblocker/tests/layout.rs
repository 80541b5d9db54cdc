//! docs/LAYOUT.md, the C header and src/layout.rs have the same names and the same numbers.

use std::collections::BTreeMap;
use stopblocker::{Method, Refusal};

const PAGE: &str = include_str!("../../../docs/LAYOUT.md");
const HEADER: &str = include_str!("../../include/stopblocker.h");
const CRATE: &str = include_str!("../src/layout.rs");

/// Numbers by the header's names without `SB_`: `PART_CLOCK`.
type Names = BTreeMap<String, u64>;

fn put(names: &mut Names, name: String, number: u64) {
    assert_eq!(names.insert(name.clone(), number), None, "{name} stands twice");
}

/// A number as the page, the header and the crate write it.
fn number(text: &str) -> u64 {
    let digits = text.replace([',', '_'], "");
    match digits.strip_prefix("0x") {
        Some(hex) => u64::from_str_radix(hex, 16),
        None => digits.parse(),
    }
    .unwrap_or_else(|_| panic!("{text} is no number"))
}

/// The rows of the page's tables with a column `name`. "Part, offsets in the part:" stands before the table of a part.
fn of_page(page: &str) -> Names {
    let mut names = Names::new();
    let (mut thing, mut has_names) = (String::new(), false);
    for line in page.lines() {
        let cells: Vec<&str> = line.split('|').map(str::trim).collect();
        if let Some((_, word)) = line.split_once(", offsets in the ") {
            thing = format!("{}_", word.trim_end_matches(':').to_uppercase());
        } else if line.starts_with("## ") {
            thing.clear();
        } else if cells.len() > 3 && cells[2] == "name" {
            has_names = true;
        } else if cells.len() <= 3 {
            has_names = false;
        } else if has_names && !cells[1].starts_with('-') {
            for name in cells[2].split(", ") {
                // of several offsets, the first
                let at = cells[1].split(", ").next().expect("a cell");
                put(&mut names, format!("{thing}{}", name.trim_matches('`')), number(at));
            }
        }
    }
    names
}

/// Every `SB_NAME = NUMBER` of the header.
fn of_header(header: &str) -> Names {
    let mut names = Names::new();
    for (at, _) in header.match_indices("SB_") {
        let name: String = header[at..].chars().take_while(|c| c.is_ascii_alphanumeric() || *c == '_').collect();
        if let Some(rest) = header[at + name.len()..].strip_prefix(" = ") {
            let text: String = rest.chars().take_while(|c| c.is_ascii_alphanumeric()).collect();
            put(&mut names, name["SB_".len()..].to_string(), number(&text));
        }
    }
    names
}

/// Every `pub const NAME: TYPE = NUMBER;` of the crate, with its module's name before it.
fn of_crate(text: &str) -> Names {
    let mut names = Names::new();
    let mut module = String::new();
    for line in text.lines() {
        if let Some(rest) = line.strip_prefix("pub mod ") {
            module = format!("{}_", rest.trim_end_matches(" {").to_uppercase());
        } else if line == "}" {
            module.clear();
        } else if let Some(rest) = line.trim().strip_prefix("pub const ") {
            if let (Some((name, _)), Some((_, value))) = (rest.split_once(':'), rest.split_once(" = ")) {
                // made of two other constants
                if name != "MARK" || !module.is_empty() {
                    put(&mut names, format!("{module}{name}"), number(value.trim_end_matches(';')));
                }
            }
        }
    }
    names
}

/// The header has attributes, methods and refusals beside the layout.
fn beside_the_layout() -> Names {
    let mut names = Names::new();
    for (k, attribute) in ["USED", "PROMISED", "STATE"].into_iter().enumerate() {
        put(&mut names, attribute.to_string(), k as u64);
    }
    let capitals = |name: String| {
        let apart = |c: char| if c.is_uppercase() { format!("_{c}") } else { c.to_uppercase().to_string() };
        name.chars().map(apart).collect::<String>()[1..].to_string()
    };
    for method in Method::ALL {
        put(&mut names, capitals(format!("{method:?}")), method.number().into());
    }
    let refusals = "LENGTH RECORD DISK OPEN CLOSED UNSOUND CLOCK METHOD FIELD OWN_ERROR NO_TICKET FULL TICKET";
    for (refusal, name) in Refusal::ALL.into_iter().zip(refusals.split(' ')) {
        put(&mut names, format!("REFUSED_{name}"), refusal.number().into());
    }
    names
}

#[test]
fn the_crate_is_the_page() {
    assert_eq!(of_crate(CRATE), of_page(PAGE));
}

#[test]
fn the_header_is_the_page() {
    let mut expected = of_page(PAGE);
    expected.extend(beside_the_layout());
    assert_eq!(of_header(HEADER), expected);
}

/// The tests see a number that is another, and a name that is missing, in each of the three.
#[test]
fn a_change_is_seen() {
    assert!(of_page(PAGE).len() > 70, "{}", of_page(PAGE).len());
    assert_ne!(of_page(&PAGE.replace("| 416 |", "| 412 |")), of_page(PAGE));
    assert_ne!(of_page(&PAGE.replace("| 28 | `TOLD` |", "| 28 | told |")), of_page(PAGE));
    assert_ne!(of_header(&HEADER.replace("SB_SLOT_TOLD = 28", "SB_SLOT_TOLD = 32")), of_header(HEADER));
    assert_ne!(of_header(&HEADER.replace("SB_PART_ZERO = 56,", "")), of_header(HEADER));
    assert_ne!(of_crate(&CRATE.replace("TOLD: usize = 28", "TOLD: usize = 32")), of_crate(CRATE));
    assert_ne!(of_crate(&CRATE.replace("    pub const WAITING: usize = 416;\n", "")), of_crate(CRATE));
}

/// What follows from other numbers does.
#[test]
fn the_sizes_fit() {
    let names = of_page(PAGE);
    let n = |name: &str| names[name];
    assert_eq!(n("BOARD_BYTES"), n("HEAD_BYTES") + n("PART_BYTES") * n("DISKS"));
    assert_eq!(n("OPEN_BYTES") * 8, n("DISKS"));
    assert_eq!(n("PART_WAITING"), n("PART_ACTIVE") + n("SLOT_BYTES") * n("CLAIMS"));
    assert_eq!(n("PART_BYTES"), n("PART_WAITING") + n("SLOT_BYTES") * n("CLAIMS"));
    assert_eq!(n("ANSWER_BYTES"), n("ITEM_BYTES") * n("ITEMS"));
    assert_eq!((n("SLOT_ZERO") + 8, n("ITEM_AMOUNT") + 4), (n("SLOT_BYTES"), n("ITEM_BYTES")));
}
