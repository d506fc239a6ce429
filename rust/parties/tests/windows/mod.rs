//! Durations at the edges of their windows.

/// Each window is a step, the fewest and the most ticks that the rules let it have; `with_duration` says what is found
/// once the step has that duration.
pub fn are_held(
    windows: &[(usize, u16, u16)],
    with_duration: impl Fn(usize, u16) -> Result<(), String>,
) {
    for &(place, least, most) in windows {
        for kept in [least, least + 1, most - 1, most] {
            assert_eq!(with_duration(place, kept), Ok(()), "step {place}: {kept}");
        }
        for broken in [least - 1, most.wrapping_add(1)] {
            let said = with_duration(place, broken);
            assert!(said.is_err(), "step {place}: {broken}");
        }
    }
}
