//! Small sheets, all of them: each family is counted, and a number picks one by its digits.

use oracle::sheet::{Component, Progressions, Range, Sheet};

/// A family of sheets and how many it has.
pub struct Family {
    pub name: &'static str,
    pub count: u64,
    pub sheet: fn(u64) -> Sheet,
}

pub const FAMILIES: [Family; 3] = [
    Family { name: "one component", count: 45 * 15 * 3 * 3 * (9 + 27) * 5 * 2, sheet: one_component },
    Family { name: "two components", count: 21 * 3 * 9 * 2 * 256 * 4 * 5, sheet: two_components },
    Family { name: "two progressions", count: 6 * 25 * 16 * 16 * 9, sheet: two_progressions },
];

/// The digits of a number, each with a base of its own.
struct Digits(u64);

impl Digits {
    fn take(&mut self, base: u64) -> u32 {
        let digit = self.0 % base;
        self.0 /= base;
        digit as u32
    }

    fn one_of<T: Copy>(&mut self, choices: &[T]) -> T {
        choices[self.take(choices.len() as u64) as usize]
    }

    /// The pairs a <= b <= last, of which there are (last + 1)(last + 2)/2.
    fn interval(&mut self, last: u32) -> (u32, u32) {
        let pairs: Vec<(u32, u32)> = (0..=last).flat_map(|b| (0..=b).map(move |a| (a, b))).collect();
        self.one_of(&pairs)
    }
}

fn one_component(number: u64) -> Sheet {
    let mut digits = Digits(number);
    let (tx0, tx1) = digits.interval(8);
    let (ty0, ty1) = digits.interval(4);
    let (dx, dy) = (1 + digits.take(3), 1 + digits.take(3));
    let prg = digits.take(5) as i32;
    let layers = 1 + digits.take(2);
    // Either one resolution with all exponents 0 to 2, or two with all such exponents on x.
    let which = digits.take(9 + 27);
    let resolutions = if which < 9 {
        vec![(which % 3, which / 3)]
    } else {
        let which = which - 9;
        vec![(which % 3, which / 9), (which / 3 % 3, which % 2)]
    };
    let components = vec![Component { dx, dy, resolutions }];
    Sheet { tx0, ty0, tx1, ty1, layers, components, progressions: Progressions::WholeTile(prg) }
}

fn two_components(number: u64) -> Sheet {
    let mut digits = Digits(number);
    let (tx0, tx1) = digits.interval(5);
    let (ty0, ty1) = digits.one_of(&[(0, 1), (1, 3), (0, 4)]);
    let subsampling = [(1, 1), (2, 1), (4, 2)];
    let [first, second] = [digits.one_of(&subsampling), digits.one_of(&subsampling)];
    let layers = 1 + digits.take(2);
    let exponents: [(u32, u32); 4] = std::array::from_fn(|_| (digits.take(2), digits.take(2)));
    let counts = digits.take(4);
    let prg = digits.take(5) as i32;
    let component = |(dx, dy): (u32, u32), exponents: &[(u32, u32)], two: bool| Component {
        dx,
        dy,
        resolutions: exponents[..1 + two as usize].to_vec(),
    };
    let components = vec![
        component(first, &exponents[..2], counts & 1 != 0),
        component(second, &exponents[2..], counts & 2 != 0),
    ];
    Sheet { tx0, ty0, tx1, ty1, layers, components, progressions: Progressions::WholeTile(prg) }
}

fn two_progressions(number: u64) -> Sheet {
    let mut digits = Digits(number);
    let (tx0, tx1) = digits.one_of(&[(0, 0), (0, 3), (1, 2), (1, 4), (2, 5), (3, 3)]);
    let orders = [digits.take(5) as i32, digits.take(5) as i32];
    let bounds: [u32; 8] = std::array::from_fn(|_| digits.take(2));
    let ends = [digits.take(3), digits.take(3)];
    let range = |prg: i32, bounds: &[u32], end: u32| Range {
        prg,
        resno0: bounds[0],
        compno0: bounds[1],
        layno1: 1 + bounds[2],
        resno1: 1 + bounds[3],
        compno1: 1 + end,
        mixed: false,
    };
    let ranges = vec![range(orders[0], &bounds[..4], ends[0]), range(orders[1], &bounds[4..], ends[1])];
    let components = vec![
        Component { dx: 1, dy: 1, resolutions: vec![(0, 1), (1, 0)] },
        Component { dx: 2, dy: 1, resolutions: vec![(0, 1)] },
    ];
    let progressions = Progressions::Ranges(ranges);
    Sheet { tx0, ty0: 1, tx1, ty1: 3, layers: 2, components, progressions }
}
