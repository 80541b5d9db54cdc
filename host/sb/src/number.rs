//! Numbers as people write them: 40000, 40_000 or 40,000, with a sign where one is wanted.

/// The number that a word says.
///
/// A comma must stand before exactly three digits, so that 1,5 is never read as 15.
pub fn read(word: &str) -> Option<i64> {
    let (negative, digits) = match word.strip_prefix('-') {
        Some(digits) => (true, digits),
        None => (false, word.strip_prefix('+').unwrap_or(word)),
    };
    let size: i64 = if digits.contains(',') { by_commas(digits)? } else { by_lines(digits)? }.parse().ok()?;
    Some(if negative { -size } else { size })
}

/// Whether a word is meant as a number, well written or not.
pub fn is_meant(word: &str) -> bool {
    word.trim_start_matches(&['-', '+'][..]).starts_with(|c: char| c.is_ascii_digit())
}

/// The number with a comma before every three digits.
pub fn grouped(number: i64) -> String {
    let digits = number.unsigned_abs().to_string();
    let mut text = if number < 0 { "-".to_string() } else { String::new() };
    for (k, digit) in digits.chars().enumerate() {
        if k > 0 && (digits.len() - k) % 3 == 0 {
            text.push(',');
        }
        text.push(digit);
    }
    text
}

fn by_commas(digits: &str) -> Option<String> {
    let mut groups = digits.split(',');
    let first = groups.next().filter(|group| group.len() <= 3 && is_digits(group))?;
    groups.try_fold(first.to_string(), |all, group| (group.len() == 3 && is_digits(group)).then(|| all + group))
}

fn by_lines(digits: &str) -> Option<String> {
    digits.split('_').all(is_digits).then(|| digits.replace('_', ""))
}

fn is_digits(text: &str) -> bool {
    !text.is_empty() && text.bytes().all(|byte| byte.is_ascii_digit())
}

#[cfg(test)]
mod tests {
    use super::*;

    #[test]
    fn as_people_write_them() {
        for (word, number) in [
            ("0", 0),
            ("40000", 40_000),
            ("40_000", 40_000),
            ("4_0000", 40_000),
            ("40,000", 40_000),
            ("1,000,000,000", 1_000_000_000),
            ("-300", -300),
            ("+300", 300),
            ("-2,147,483,648", -2_147_483_648),
            ("007", 7),
        ] {
            assert_eq!(read(word), Some(number), "{word}");
        }
    }

    #[test]
    fn no_numbers() {
        let words =
            "- + -- 1.5 1,5 1,50 1,5000 ,500 500, 1,,000 1000,000 _1 1_ 1__0 1_0,000 0x10 ten -+1 99999999999999999999";
        for word in words.split(' ').chain([""]) {
            assert_eq!(read(word), None, "{word}");
        }
    }

    #[test]
    fn grouped_reads_back() {
        for (number, text) in [(0, "0"), (999, "999"), (1_000, "1,000"), (-300, "-300"), (-40_600, "-40,600")] {
            assert_eq!(grouped(number), text);
        }
        for number in [i64::from(i32::MIN), -1_000_000, -999_999, 12_345_678, i64::from(u32::MAX)] {
            assert_eq!(read(&grouped(number)), Some(number));
        }
    }
}
