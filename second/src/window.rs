//! A replay counter: the greatest number opened in a priority, and those not far below it that were opened too, so that frames may come late.

use crate::frame::MAX_NUMBER;

/// How many numbers a window reaches over, its greatest among them.
pub const SIZES: [u8; 2] = [1, 16];

#[derive(Clone, Debug, Default, PartialEq, Eq)]
pub struct Window {
    /// 0 where none was opened.
    pub greatest: u64,
    /// The numbers opened that are less than the size below the greatest, in ascending order. A window that isn't sound may hold 0 or less too.
    pub opened: Vec<i128>,
}

impl Window {
    /// With this greatest number alone.
    pub fn at(greatest: u64) -> Self {
        let opened = if greatest > 0 { vec![greatest.into()] } else { Vec::new() };
        Window { greatest, opened }
    }

    /// What is opened is in the window's reach, and its greatest is there.
    pub(crate) fn is_sound(&self, size: u8) -> bool {
        let greatest = i128::from(self.greatest);
        let in_reach = |&least: &i128| least > 0 && greatest - least < size.into();
        let has_greatest = self.opened.last().copied().unwrap_or_default() == greatest;
        self.greatest <= MAX_NUMBER && has_greatest && self.opened.first().is_none_or(in_reach)
    }

    /// Whether a frame with this number is no replay.
    pub(crate) fn takes(&self, number: u64, size: u8) -> bool {
        let in_reach = || number > 0 && self.greatest - number < size.into();
        number > self.greatest || in_reach() && !self.opened.contains(&number.into())
    }

    /// Holds a number that it takes. What is out of reach then falls out.
    pub(crate) fn hold(&mut self, number: u64, size: u8) {
        self.greatest = self.greatest.max(number);
        let (number, out_of_reach) = (i128::from(number), i128::from(self.greatest) - i128::from(size));
        let place = self.opened.partition_point(|&other| other < number);
        self.opened.insert(place, number);
        let gone = self.opened.partition_point(|&other| other <= out_of_reach);
        self.opened.drain(..gone);
    }
}

#[cfg(test)]
mod tests {
    use super::*;
    use crate::sample::Random;

    fn window(greatest: u64, opened: &[i128]) -> Window {
        Window { greatest, opened: opened.to_vec() }
    }

    /// The window after these numbers, each of which it has to take.
    fn after(size: u8, numbers: &[u64]) -> Window {
        let mut window = Window::default();
        for &number in numbers {
            assert!(window.takes(number, size) && window.is_sound(size));
            window.hold(number, size);
        }
        assert!(window.is_sound(size));
        window
    }

    #[test]
    fn distances() {
        for greatest in [17, 100, MAX_NUMBER] {
            let window = Window::at(greatest);
            let takes = |size: u8| [0, 1, 2, 14, 15, 16, 17].map(|below| window.takes(greatest - below, size));
            assert_eq!(takes(16), [false, true, true, true, true, false, false]);
            assert_eq!(takes(1), [false; 7]);
            assert!([1, 16].iter().all(|&size| window.takes(greatest + 1, size)));
        }
    }

    #[test]
    fn jumps() {
        let before: [u64; 16] = std::array::from_fn(|number| 1 + number as u64);
        let held = |to: u64| after(16, &[&before[..], &[to]].concat()).opened;
        assert_eq!(held(17), (2..=17).collect::<Vec<_>>());
        assert_eq!(held(31), [16, 31]);
        for to in [32, 33, MAX_NUMBER] {
            assert_eq!(held(to), [i128::from(to)]);
        }
        for to in [17, 31, 32, 33, MAX_NUMBER] {
            assert_eq!(after(1, &[&before[..], &[to]].concat()), Window::at(to));
        }
    }

    // The old ones are out of reach, and those passed over can still come.
    #[test]
    fn late_after_a_jump() {
        let mut window = after(16, &[1, 3, 18]);
        assert_eq!(window.opened, [3, 18]);
        let takes = |window: &Window| (1..=19).filter(|&number| window.takes(number, 16)).collect::<Vec<_>>();
        assert_eq!(takes(&window), [4, 5, 6, 7, 8, 9, 10, 11, 12, 13, 14, 15, 16, 17, 19]);
        window.hold(10, 16);
        assert_eq!(window, self::window(18, &[3, 10, 18]));
        window.hold(33, 16);
        assert_eq!(window, self::window(33, &[18, 33]));
        assert_eq!(takes(&window), [19]);
    }

    #[test]
    fn number_0() {
        for (greatest, size) in (0..=17).flat_map(|greatest| SIZES.map(|size| (greatest, size))) {
            let taken = (0..=greatest).filter(|&number| Window::at(greatest).takes(number, size));
            let lowest = if size == 1 { greatest } else { greatest.saturating_sub(15).max(1) };
            assert_eq!(taken.collect::<Vec<_>>(), (lowest..greatest).collect::<Vec<_>>());
        }
    }

    #[test]
    fn windows_that_are_not_sound() {
        let sound = |greatest: u64, opened: &[i128]| SIZES.map(|size| window(greatest, opened).is_sound(size));
        assert_eq!([sound(0, &[]), sound(1, &[1]), sound(MAX_NUMBER, &[MAX_NUMBER.into()])], [[true; 2]; 3]);
        // More than the greatest, or the greatest missing.
        assert_eq!([sound(2, &[1, 2]), sound(16, &[1, 16]), sound(20, &[5, 20])], [[false, true]; 3]);
        assert_eq!([sound(1, &[]), sound(2, &[1]), sound(20, &[5, 19]), sound(MAX_NUMBER, &[])], [[false; 2]; 4]);
        // 0 or less.
        assert_eq!([sound(0, &[0]), sound(0, &[-15]), sound(1, &[0, 1]), sound(1, &[-14, 1]), sound(15, &[0, 15])], [[false; 2]; 5]);
        // Beyond the packet numbers, and what no record holds: a number out of reach or above the greatest.
        assert_eq!([sound(MAX_NUMBER + 1, &[1 << 48]), sound(u64::MAX, &[u64::MAX.into()])], [[false; 2]; 2]);
        assert_eq!([sound(20, &[4, 20]), sound(0, &[1]), sound(20, &[20, 21])], [[false; 2]; 3]);
    }

    // Beside a list of all numbers opened so far.
    #[test]
    fn nothing_is_forgotten() {
        let mut random = Random(1);
        for size in SIZES {
            for _ in 0..200 {
                let (mut window, mut opened, mut late) = (Window::default(), Vec::new(), 0);
                for step in 0..100 {
                    let number = (step + random.draw() % 40).saturating_sub(20);
                    let greatest = opened.iter().copied().max().unwrap_or(0);
                    let takes = number > greatest || greatest - number < size.into() && number != 0 && !opened.contains(&number);
                    assert_eq!(window.takes(number, size), takes);
                    if takes {
                        late += usize::from(number < greatest);
                        opened.push(number);
                        window.hold(number, size);
                    }
                    let greatest = greatest.max(if takes { number } else { 0 });
                    let mut held: Vec<i128> = opened.iter().filter(|&&number| greatest - number < size.into()).map(|&number| number.into()).collect();
                    held.sort();
                    assert_eq!(window, self::window(greatest, &held));
                    assert!(window.is_sound(size));
                }
                assert_eq!(late > 0, size > 1);
            }
        }
    }
}
