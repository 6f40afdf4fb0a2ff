//! A weight by its rule in 32-bit floats, and the conditions on its operations.

/// The numbers of one use.
#[derive(Clone, Copy, PartialEq, Debug)]
pub struct Term {
    pub cost: f32,
    /// The scale of the value's remat kind, if it has one.
    pub scale: Option<f32>,
    pub frequency: f32,
}

/// All that a weight is made of: the uses in order, the live instructions, and k.
#[derive(Clone, Debug)]
pub struct Weighing {
    pub terms: Vec<Term>,
    pub insts: u32,
    pub adjust: u32,
}

/// What operations gave, and whether each of them was fine: normal, or zero where zero is exact.
#[derive(Clone, Copy, Debug)]
pub struct Rounded {
    pub value: f32,
    pub fine: bool,
}

impl Weighing {
    pub fn divisor(&self) -> u32 {
        self.insts + self.adjust
    }

    pub fn sum(&self) -> Rounded {
        self.terms.iter().fold(Rounded::of(0.0), Rounded::with)
    }

    pub fn weight(&self) -> Rounded {
        self.sum().over(self.divisor())
    }

    /// The patterns of each use, then instructions and k.
    pub fn text(&self) -> String {
        let terms: Vec<String> = self.terms.iter().map(Term::text).collect();
        format!("{} over {} + {}", terms.join(", "), self.insts, self.adjust)
    }
}

impl Term {
    fn text(&self) -> String {
        let scale = self.scale.map_or("-".to_string(), hex);
        format!("{} {scale} {}", hex(self.cost), hex(self.frequency))
    }
}

fn hex(float: f32) -> String {
    format!("{:08x}", float.to_bits())
}

impl Rounded {
    pub fn of(value: f32) -> Self {
        Self { value, fine: true }
    }

    /// Adds a use to the sum; one whose scaled cost is zero is skipped.
    pub fn with(self, term: &Term) -> Self {
        let cost = Self::of(term.cost);
        let cost = term.scale.map_or(cost, |scale| cost.times(scale));
        if cost.value == 0.0 {
            let fine = self.fine && cost.fine;
            return Self { fine, ..self };
        }
        self.plus(cost.times(term.frequency))
    }

    fn times(self, factor: f32) -> Self {
        let zero = self.value == 0.0 || factor == 0.0;
        Self::after(self.fine, self.value * factor, zero)
    }

    fn plus(self, other: Self) -> Self {
        let zero = self.value == 0.0 && other.value == 0.0;
        Self::after(self.fine && other.fine, self.value + other.value, zero)
    }

    pub fn over(self, divisor: u32) -> Self {
        let quotient = self.value / divisor as f32;
        let rounded = Self::after(self.fine, quotient, self.value == 0.0);
        let value = quotient.min(f32::MAX);
        Self { value, ..rounded }
    }

    /// `zero`: whether the operation's exact value is zero.
    fn after(fine: bool, value: f32, zero: bool) -> Self {
        let fine = fine && (value.is_normal() || zero);
        Self { value, fine }
    }
}

#[cfg(test)]
mod tests {
    use super::*;

    const LEAST: f32 = f32::MIN_POSITIVE;

    fn of(terms: &[(f32, Option<f32>, f32)], divisor: u32) -> Rounded {
        let term = |&(cost, scale, frequency)| Term {
            cost,
            scale,
            frequency,
        };
        let terms = terms.iter().map(term).collect();
        let (insts, adjust) = (divisor, 0);
        let weighing = Weighing {
            terms,
            insts,
            adjust,
        };
        weighing.weight()
    }

    fn is_fine(terms: &[(f32, Option<f32>, f32)], divisor: u32) -> bool {
        of(terms, divisor).fine
    }

    #[test]
    fn the_rule_adds_in_order_and_divides() {
        let terms = [(1.0, None, 3.0), (0.5, Some(4.0), 2.0), (0.5, None, 0.5)];
        assert_eq!(of(&terms, 5).value, 1.45);
        let (huge, one) = ((1.0, None, 16_777_216.0), (1.0, None, 1.0));
        assert_eq!(of(&[huge, one, one], 1).value, 16_777_216.0);
        assert_eq!(of(&[one, one, huge], 1).value, 16_777_218.0);
    }

    #[test]
    fn the_rule_ends_at_the_greatest_float() {
        let found = of(&[(2.0, None, f32::MAX)], 1);
        assert_eq!((found.value, found.fine), (f32::MAX, false));
    }

    #[test]
    fn zeros_are_fine_where_they_are_exact() {
        assert!(is_fine(&[], 1));
        assert!(is_fine(&[(0.0, None, 1.0)], 1));
        assert!(is_fine(&[(0.0, Some(1.0), 1.0), (1.0, None, 1.0)], 1));
        assert!(is_fine(&[(1.0, Some(0.0), 1.0)], 1));
        assert!(is_fine(&[(1.0, None, 0.0), (1.0, None, 2.0)], 1));
        assert!(!is_fine(&[(LEAST, Some(LEAST), 1.0)], 1));
        assert!(!is_fine(&[(LEAST, None, LEAST)], 1));
    }

    #[test]
    fn what_is_subnormal_or_infinite_is_not_fine() {
        assert!(is_fine(&[(1.0, None, LEAST)], 1));
        assert!(!is_fine(&[(0.5, None, LEAST)], 1));
        assert!(!is_fine(&[(0.5, Some(LEAST), 8.0)], 1));
        assert!(!is_fine(&[(1.0, None, LEAST)], 2));
        assert!(is_fine(&[(2.0, None, LEAST / 2.0)], 1));
        assert!(is_fine(&[(1.0, None, f32::MAX)], 1));
        let huge = (1.0, None, f32::MAX);
        assert!(!is_fine(&[huge, huge], 4096));
    }
}
