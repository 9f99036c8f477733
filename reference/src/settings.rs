//! "Settings": which are accepted, and the sizes that follow from them. A window may be shorter
//! than the T that was set (document 02 §5): `delay` is T as set, and `t()` the delay of formulas.

/// W, T, B, N and L as they are set, in this order.
#[derive(Clone, Copy, Debug, PartialEq, Eq)]
pub struct Settings {
    pub window: u8,
    pub delay: u8,
    pub burst: u8,
    pub scattered: u8,
    pub lanes: u8,
}

impl Settings {
    /// The settings in a state of zeros, which are not accepted.
    pub const ZEROS: Settings = Settings { window: 0, delay: 0, burst: 0, scattered: 0, lanes: 0 };

    /// The settings of a code alone: one lane, and the narrowest window that leaves T as it is.
    pub fn of_code(delay: u8, burst: u8, scattered: u8) -> Settings {
        Settings { window: delay.saturating_add(1), delay, burst, scattered, lanes: 1 }
    }

    pub fn accepted(&self) -> bool {
        // 1 ≤ N ≤ B ≤ delay comes first: without it k and n have no meaning.
        1 <= self.scattered
            && self.scattered <= self.burst
            && usize::from(self.burst) <= self.t()
            && self.n() <= 16
            && 1 <= self.lanes
            && self.lanes <= 64
    }

    /// The delay: the smaller of T as set and W − 1, and 0 where W is 0. Every T in a formula.
    pub fn t(&self) -> usize {
        usize::from(self.delay.min(self.window.saturating_sub(1)))
    }

    /// Source symbols in a word, T − N + 1.
    pub fn k(&self) -> usize {
        self.t() + 1 - self.scattered as usize
    }

    /// Symbols in a word, k + B.
    pub fn n(&self) -> usize {
        self.k() + self.burst as usize
    }

    /// Rows and positions of the block of α, B − N + 1.
    pub fn d(&self) -> usize {
        self.burst as usize - self.scattered as usize + 1
    }
}

/// Every accepted (T, B, N), T being the delay, by rising T, then B, then N.
pub fn every_code() -> Vec<Settings> {
    let mut codes = Vec::new();
    // N ≤ B makes n at least the delay + 1, so the delay is at most 15.
    for delay in 1..=15 {
        for burst in 1..=delay {
            for scattered in 1..=burst {
                codes.push(Settings::of_code(delay, burst, scattered));
            }
        }
    }
    codes.retain(Settings::accepted);
    codes
}

#[cfg(test)]
mod tests {
    use super::*;

    fn accepted(delay: u8, burst: u8, scattered: u8) -> bool {
        Settings::of_code(delay, burst, scattered).accepted()
    }

    #[test]
    fn the_listed_codes_are_accepted_or_refused() {
        assert!(accepted(15, 1, 1) && accepted(15, 15, 15));
        assert!(accepted(8, 8, 1) && accepted(1, 1, 1));
        for refused in [Settings::of_code(15, 2, 1), Settings::of_code(9, 8, 1)] {
            assert_eq!((refused.n(), refused.accepted()), (17, false));
        }
        assert!(!accepted(3, 2, 0), "N = 0");
        assert!(!accepted(3, 4, 2), "B above the delay");
        assert!(!accepted(0, 0, 0) && !accepted(0, 255, 255) && !accepted(255, 255, 255));
        assert_eq!(every_code().len(), 372);
    }

    #[test]
    fn window_and_lanes_have_their_bounds() {
        let code = Settings::of_code(3, 2, 2);
        let with = |window, lanes| Settings { window, lanes, ..code }.accepted();
        assert!(with(4, 1) && with(255, 1) && with(4, 64));
        assert!(!with(4, 0) && !with(4, 65));
        assert!(with(3, 1), "W = T");
        assert!(!with(2, 1) && !with(1, 1) && !with(0, 1), "the delay is below B");
    }

    #[test]
    fn a_window_may_make_the_delay() {
        // W and then T, B, N: the delay, n, and whether they are accepted.
        let with = |window, delay, burst, scattered| {
            let s = Settings { window, ..Settings::of_code(delay, burst, scattered) };
            (s.t(), s.n(), s.accepted())
        };
        // Document 02's example, and n = 17, which a window narrower by one makes 16.
        assert_eq!(with(3, 9, 2, 1), (2, 4, true));
        assert_eq!([with(10, 9, 8, 1), with(9, 9, 8, 1)], [(9, 17, false), (8, 16, true)]);
        assert_eq!([with(16, 15, 2, 1), with(15, 15, 2, 1)], [(15, 17, false), (14, 16, true)]);
        // Where B is T, W = T makes the delay less than B.
        assert_eq!([with(4, 3, 3, 2), with(3, 3, 3, 2)], [(3, 5, true), (2, 4, false)]);
        // Any T may be set; a window of 1 or of none leaves no delay.
        assert_eq!([with(2, 255, 1, 1), with(16, 255, 15, 15)], [(1, 2, true), (15, 16, true)]);
        assert_eq!([with(1, 255, 1, 1), with(0, 255, 1, 1)], [(0, 1, false), (0, 1, false)]);
    }

    #[test]
    fn the_delay_is_t_as_set_or_one_less_than_the_window() {
        for (window, delay) in every_window_and_delay() {
            let t = Settings { window, delay, ..Settings::ZEROS }.t();
            let expected = if delay < window { delay } else { window.max(1) - 1 };
            assert_eq!(t, usize::from(expected), "{window} {delay}");
        }
    }

    /// Every W and T.
    fn every_window_and_delay() -> impl Iterator<Item = (u8, u8)> {
        (0..=255).flat_map(|window| (0..=255).map(move |delay| (window, delay)))
    }

    /// The rule written out, over whole numbers.
    fn rule([w, t, b, n, l]: [i32; 5]) -> bool {
        let delay = if t < w { t } else { w - 1 };
        1 <= n && n <= b && b <= delay && delay - n + 1 + b <= 16 && (1..=64).contains(&l)
    }

    /// Every W, T, B, N and L, as far as B and N matter and L has its bounds.
    fn every_settings() -> impl Iterator<Item = Settings> {
        let losses = (0..=17).flat_map(|burst| (0..=17).map(move |scattered| (burst, scattered)));
        every_window_and_delay().flat_map(move |(window, delay)| {
            losses.clone().flat_map(move |(burst, scattered)| {
                [0, 1, 64, 65].map(|lanes| Settings { window, delay, burst, scattered, lanes })
            })
        })
    }

    #[test]
    fn settings_are_accepted_exactly_by_the_rule() {
        let (mut all, mut by_01) = (0, 0);
        for s in every_settings() {
            let numbers = [s.window, s.delay, s.burst, s.scattered, s.lanes].map(i32::from);
            assert_eq!(s.accepted(), rule(numbers), "{s:?}");
            all += usize::from(s.accepted());
            by_01 += usize::from(s.accepted() && s.delay < s.window);
        }
        // A delay t is T itself with 255 − t windows, and W − 1 with as many higher T.
        let windows: usize = every_code().iter().map(|code| 255 - code.t()).sum();
        assert_eq!((by_01, all), (2 * windows, 4 * windows));
    }
}
