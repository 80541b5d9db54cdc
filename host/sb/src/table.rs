//! Cells in columns.

/// Cells under a heading; each column is as wide as its widest cell.
pub struct Table {
    columns: Vec<Column>,
    rows: Vec<Vec<String>>,
}

#[derive(Clone, Copy)]
pub struct Column {
    pub heading: &'static str,
    /// Words stand at the left of their column, numbers at the right.
    pub words: bool,
}

pub const fn words(heading: &'static str) -> Column {
    Column { heading, words: true }
}

pub const fn numbers(heading: &'static str) -> Column {
    Column { heading, words: false }
}

impl Table {
    pub fn new(columns: &[Column]) -> Table {
        Table { columns: columns.to_vec(), rows: Vec::new() }
    }

    /// A row, with a cell for each column.
    pub fn add(&mut self, cells: Vec<String>) {
        assert_eq!(cells.len(), self.columns.len(), "a cell for each column");
        self.rows.push(cells);
    }

    /// How wide its lines are, with `gap` spaces between columns.
    pub fn width(&self, gap: usize) -> usize {
        self.widths().iter().sum::<usize>() + gap * (self.columns.len() - 1)
    }

    fn widths(&self) -> Vec<usize> {
        let wide = |text: &str| text.chars().count();
        (0..self.columns.len())
            .map(|k| self.rows.iter().map(|row| wide(&row[k])).fold(wide(self.columns[k].heading), usize::max))
            .collect()
    }

    /// The heading and the rows as lines, with `gap` spaces between columns and none at the end.
    pub fn lines(&self, gap: usize) -> Vec<String> {
        let widths = self.widths();
        let headings: Vec<String> = self.columns.iter().map(|column| column.heading.to_string()).collect();
        std::iter::once(&headings)
            .chain(&self.rows)
            .map(|row| {
                let cells: Vec<String> = (0..row.len()).map(|k| self.padded(&row[k], k, widths[k])).collect();
                cells.join(&" ".repeat(gap)).trim_end().to_string()
            })
            .collect()
    }

    fn padded(&self, cell: &str, column: usize, width: usize) -> String {
        if self.columns[column].words {
            format!("{cell:<width$}")
        } else {
            format!("{cell:>width$}")
        }
    }
}
