//! Filters, for bash, that make the program's output wrong: the trial must detect each of them.

/// A filter that alters one line alters line 1,234, the first line with "+", or the last line.
pub const FILTERS: &[(&str, &str)] = &[
    ("exit-status", "{ cat; exit 3; }"),
    ("number-altered", "awk 'NR == 1234 { sub(/^[+]?[0-9]+/, \"&0\") } 1'"),
    ("disk-altered", "awk 'NR == 1234 { $2 += 1 } 1'"),
    ("code-altered", "awk 'NR == 1234 { $3 = 1 - $3 } 1'"),
    ("ticket-altered", "awk 'NR == 1234 { $4 += 1 } 1'"),
    ("told-unsigned", "awk '$5 < 0 { $5 = sprintf(\"%.0f\", $5 + 4294967296) } 1'"),
    ("amount-altered", "awk 'NR == 1234 { $6 += 1 } 1'"),
    ("plus-lost", "awk '/^[+]/ && !lost { sub(/^[+]/, \"\"); lost = 1 } 1'"),
    ("space-added", "sed '1234s/$/ /'"),
    ("line-lost", "sed 1234d"),
    ("line-twice", "sed 1234p"),
    ("lines-swapped", "sed '1234{h;d};1235{p;x}'"),
    ("last-line-lost", "sed '$d'"),
    ("last-newline-lost", "head -c -1"),
    ("line-at-the-end", "{ cat; echo 1 0 10 0 0 0; }"),
];
