//! Bars: the length shows the figure, to the right of zero, or to the left if it is negative.

use crate::style::Style;

pub struct Bars {
    /// The size that fills a bar.
    full: u32,
    /// Whether there is room to the left of zero.
    negative: bool,
    width: usize,
    ascii: bool,
}

/// A bar is drawn in halves of a character, in ASCII in whole ones.
struct Marks {
    steps: u32,
    whole: char,
    left_half: char,
    right_half: char,
    rest: char,
    zero: char,
}

const BLOCKS: Marks = Marks { steps: 2, whole: '█', left_half: '▌', right_half: '▐', rest: '░', zero: '│' };
const ASCII: Marks = Marks { steps: 1, whole: '#', left_half: '#', right_half: '#', rest: '.', zero: '|' };

impl Bars {
    /// Bars for all these figures on one scale: the largest fills its side.
    pub fn of(values: &[i32], width: usize, style: &Style) -> Bars {
        Bars {
            full: values.iter().map(|value| value.unsigned_abs()).max().unwrap_or(0),
            negative: values.iter().any(|&value| value < 0),
            width,
            ascii: style.ascii,
        }
    }

    /// What fills a bar.
    pub fn full(&self) -> u32 {
        self.full
    }

    /// The bar of a figure, as wide as asked for, or one narrower so that both sides of zero are equal.
    pub fn draw(&self, value: i32) -> String {
        let marks = if self.ascii { ASCII } else { BLOCKS };
        if !self.negative {
            return marks.to_right(self.steps(value, self.width, &marks), self.width);
        }
        let side = (self.width - 1) / 2;
        let steps = self.steps(value, side, &marks);
        let (left, right) = if value < 0 { (steps, 0) } else { (0, steps) };
        format!("{}{}{}", marks.to_left(left, side), marks.zero, marks.to_right(right, side))
    }

    /// The nearest length, but at least one step for a figure that is not zero.
    fn steps(&self, value: i32, cells: usize, marks: &Marks) -> usize {
        if value == 0 {
            return 0;
        }
        let most = cells as u64 * u64::from(marks.steps);
        let (size, full) = (u64::from(value.unsigned_abs()), u64::from(self.full));
        ((2 * size * most + full) / (2 * full)).max(1) as usize
    }
}

impl Marks {
    fn parts(&self, steps: usize, cells: usize) -> (String, bool, String) {
        let whole = steps / self.steps as usize;
        let half = steps % self.steps as usize != 0;
        let rest = cells - whole - usize::from(half);
        (self.whole.to_string().repeat(whole), half, self.rest.to_string().repeat(rest))
    }

    fn to_right(&self, steps: usize, cells: usize) -> String {
        let (whole, half, rest) = self.parts(steps, cells);
        whole + &String::from_iter(half.then_some(self.left_half)) + &rest
    }

    fn to_left(&self, steps: usize, cells: usize) -> String {
        let (whole, half, rest) = self.parts(steps, cells);
        rest + &String::from_iter(half.then_some(self.right_half)) + &whole
    }
}

#[cfg(test)]
mod tests {
    use super::*;

    fn drawn(values: &[i32], width: usize, ascii: bool) -> Vec<String> {
        let bars = Bars::of(values, width, &Style { width: 100, ascii, colour: false });
        values.iter().map(|&value| bars.draw(value)).collect()
    }

    #[test]
    fn one_side() {
        assert_eq!(drawn(&[0, 1, 25, 50, 90, 100], 4, false), ["░░░░", "▌░░░", "█░░░", "██░░", "███▌", "████"]);
        assert_eq!(drawn(&[0, 1, 25, 50, 90, 100], 4, true), ["....", "#...", "#...", "##..", "####", "####"]);
        assert_eq!(drawn(&[0, 0], 3, false), ["░░░", "░░░"]);
    }

    #[test]
    fn both_sides() {
        assert_eq!(drawn(&[-300, 0, 100], 7, false), ["███│░░░", "░░░│░░░", "░░░│█░░"]);
        assert_eq!(drawn(&[-50, 300, -1], 8, false), ["░░▐│░░░", "░░░│███", "░░▐│░░░"]);
        assert_eq!(drawn(&[-300, -100, 200], 7, true), ["###|...", "..#|...", "...|##."]);
        assert_eq!(drawn(&[i32::MIN, i32::MAX], 5, true), ["##|..", "..|##"]);
    }
}
