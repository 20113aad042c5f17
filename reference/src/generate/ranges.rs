//! Ranges of classes: their steps and values, and ranges that stand in some relation to another.

use super::random::Random;
use crate::language::{Class, Language};
use std::num::NonZeroU16;

/// The number as a step; 0 is made 1.
fn as_step(number: u16) -> NonZeroU16 {
    NonZeroU16::new(number).unwrap_or(NonZeroU16::MIN)
}

/// A divisor of a number, often a large one.
fn divisor(random: &mut Random, number: u16) -> u16 {
    let most = random.within(1..=usize::from(number).max(1)) as u16;
    (1..=most).rev().find(|&divisor| number.is_multiple_of(divisor)).unwrap_or(1)
}

/// A step for a range: mostly 1, else one that divides it, one that does not, or one that leaves
/// a single value.
pub fn step(random: &mut Random, low: u16, high: u16) -> NonZeroU16 {
    let span = high - low;
    as_step(match random.below(20) {
        0 => span,
        1 => span.saturating_add(1),
        2 => u16::MAX,
        3 => random.bits() as u16,
        4 => divisor(random, span),
        5 => divisor(random, span).saturating_add(1),
        6 | 7 => random.within(2..=10) as u16,
        _ => 1,
    })
}

/// The number of the highest legal value, counted from 0.
fn last_number(class: &Class) -> usize {
    usize::from((class.last() - class.low) / class.step)
}

/// The legal value with a number, counted from 0.
fn numbered(class: &Class, number: usize) -> u16 {
    class.low + class.step.get() * number as u16
}

/// A legal value of a class, often the lowest or highest.
pub fn legal_value(random: &mut Random, class: &Class) -> u16 {
    match random.below(3) {
        0 => class.low,
        1 => class.last(),
        _ => numbered(class, random.within(0..=last_number(class))),
    }
}

/// A legal value between two legal values of a class.
pub fn value_between(random: &mut Random, class: &Class, least: u16, greatest: u16) -> u16 {
    let number = |value: u16| usize::from((value - class.low) / class.step);
    numbered(class, random.within(number(least)..=number(greatest)))
}

/// A value at an edge of a class, mostly one past it: at the ends, or off the steps.
pub fn edge_value(random: &mut Random, class: &Class) -> u16 {
    let (below, above) = (class.low.wrapping_sub(1), class.high.wrapping_add(1));
    let (last, step) = (class.last(), class.step.get());
    let (off, next) = (class.low.wrapping_add(1), last.wrapping_add(step));
    random.pick(&[below, above, below, above, last.wrapping_add(1), next, off, class.high])
}

/// The class of the legal values of another from one number to another, or of some of them; its
/// highest value need not be legal.
fn part(random: &mut Random, class: &Class, first: usize, end: usize, every: usize) -> Class {
    let low = numbered(class, first);
    let last = numbered(class, first + (end - first) / every * every);
    let single = low == last && random.percent(50);
    let step = usize::from(class.step.get()) * every;
    let step = if single { random.bits() as u16 } else { step.min(usize::from(u16::MAX)) as u16 };
    let step = as_step(step);
    let slack = (step.get() - 1).min(u16::MAX - last);
    let any = random.within(0..=usize::from(slack)) as u16;
    let more = random.pick(&[0, 0, 0, slack, any]);
    Class { kind: class.kind, low, high: last + more, step }
}

/// A range with the same legal values as a class; its highest value and step may be others.
pub fn alike(random: &mut Random, class: &Class) -> Class {
    part(random, class, 0, last_number(class), 1)
}

/// A range inside that of a class: equal, sharing an end, or inside at both ends.
pub fn inside(random: &mut Random, class: &Class) -> Class {
    let last = last_number(class);
    let between = usize::from(last > 1);
    let any = random.within(0..=last);
    let (first, end) = match random.below(6) {
        0 => return *class,
        1 => (0, any),
        2 => (any, last),
        3 => (between, last - between),
        4 => (0, last),
        _ => (any, random.within(any..=last)),
    };
    let every = if random.percent(70) { 1 } else { random.within(1..=4) };
    part(random, class, first, end, every)
}

/// A range around that of a class: equal, sharing an end, or wider at both ends, by the same step
/// or one that divides it.
pub fn around(random: &mut Random, class: &Class) -> Class {
    let step = class.step.get();
    let step = if random.percent(70) { step } else { divisor(random, step) };
    let (steps, room) = (class.low / step, u16::MAX - class.high);
    let below = random.pick(&[0, 1, 1, steps / 2, steps]).min(steps) * step;
    let above = random.pick(&[0, 1, 1, room / 2, room]).min(room);
    let wider = Class { step: as_step(step), ..*class };
    match random.below(5) {
        0 => *class,
        1 => Class { low: class.low - below, ..wider },
        2 => Class { high: class.high + above, ..wider },
        3 => Class { high: class.last(), ..wider },
        _ => Class { low: class.low - below, high: class.high + above, ..wider },
    }
}

/// A range with a value that is not legal in a class: one past it at either end, apart from it,
/// or off its steps; the class itself if there is none.
pub fn outside(random: &mut Random, class: &Class) -> Class {
    let (low, high, step) = (class.low, class.high, class.step.get());
    let mut ranges = Vec::new();
    if let Some(before) = low.checked_sub(1) {
        let apart = random.within(0..=usize::from(before)) as u16;
        ranges.push(Class { low: before, ..*class });
        ranges.push(Class { low: before, high: low, step: NonZeroU16::MIN, ..*class });
        ranges.push(Class { low: apart, high: before, ..*class });
    }
    if let Some(behind) = high.checked_add(1) {
        ranges.push(Class { low: behind, high: behind.max(random.bits() as u16), ..*class });
    }
    if let Some(next) = class.last().checked_add(step) {
        ranges.push(Class { high: next, ..*class });
        ranges.push(Class { low: class.last(), high: next, ..*class });
    }
    if step > 1 && low < high {
        ranges.push(Class { low: low + 1, ..*class });
        ranges.push(Class { step: NonZeroU16::MIN, ..*class });
    }
    if step > 1 && high - low > step {
        ranges.push(Class { step: as_step(step + 1), ..*class });
    }
    if ranges.is_empty() {
        return *class;
    }
    random.pick(&ranges)
}

/// A range in any of these relations to that of a class.
pub fn related(random: &mut Random, class: &Class) -> Class {
    match random.below(5) {
        0 => inside(random, class),
        1 => around(random, class),
        2 => outside(random, class),
        3 => alike(random, class),
        _ => *class,
    }
}

/// Gives each class of a language another range.
pub fn with_ranges(
    random: &mut Random,
    language: &Language,
    range: fn(&mut Random, &Class) -> Class,
) -> Language {
    let mut changed = language.clone();
    changed.classes.iter_mut().for_each(|class| *class = range(random, class));
    changed
}

/// Gives one class of a language, if it has any, another range.
pub fn with_one_range(
    random: &mut Random,
    language: &mut Language,
    range: fn(&mut Random, &Class) -> Class,
) {
    if !language.classes.is_empty() {
        let place = random.below(language.classes.len());
        language.classes[place] = range(random, &language.classes[place]);
    }
}

#[cfg(test)]
mod tests {
    use super::*;

    /// Classes at the lowest and the highest value, narrow and wide, with and without steps.
    const CLASSES: [(u16, u16, u16); 17] = [
        (0, 0, 1),
        (0, 65_535, 1),
        (65_535, 65_535, 1),
        (5, 5, 1),
        (5, 6, 1),
        (1, 240, 1),
        (65_000, 65_534, 1),
        (100, 200, 5),
        (100, 203, 5),
        (100, 104, 5),
        (5, 5, 9),
        (0, 65_535, 65_535),
        (1, 65_535, 65_535),
        (0, 65_535, 2),
        (0, 65_534, 4),
        (65_000, 65_530, 6),
        (65_535, 65_535, 65_535),
    ];

    /// For each class so many ranges by a function, with the class.
    fn ranges(range: fn(&mut Random, &Class) -> Class) -> Vec<(Class, Class)> {
        let mut random = Random::new(1);
        let classes = CLASSES
            .map(|(low, high, step)| Class { step: as_step(step), ..Class::plain(3, low, high) });
        let each = classes.iter().flat_map(|class| [*class; 500]);
        each.map(|class| (class, range(&mut random, &class))).collect()
    }

    #[test]
    fn ranges_lie_as_they_say() {
        for (class, range) in ranges(inside) {
            assert!(class.contains(&range) && range.low <= range.high, "{class:?} {range:?}");
        }
        for (class, range) in ranges(around) {
            assert!(range.contains(&class) && range.low <= range.high, "{class:?} {range:?}");
        }
        for (class, range) in ranges(alike) {
            assert!(range.contains(&class) && class.contains(&range), "{class:?} {range:?}");
        }
        for (class, range) in ranges(outside) {
            let whole = class == Class::plain(3, 0, u16::MAX);
            assert_eq!(class.contains(&range), whole, "{class:?} {range:?}");
            assert!(range.low <= range.high, "{class:?} {range:?}");
        }
    }

    /// Whether two ranges have equal ends and different steps.
    fn other_step(class: &Class, range: &Class) -> bool {
        (class.low, class.high) == (range.low, range.high) && class.step != range.step
    }

    #[test]
    fn each_relation_is_reached() {
        let related = ranges(related);
        let count = |test: fn(&Class, &Class) -> bool| {
            related.iter().filter(|(class, range)| test(class, range)).count()
        };
        assert!(count(|class, range| class == range) > 50);
        assert!(count(|class, range| class.low < range.low && range.high < class.high) > 50);
        assert!(count(|class, range| class.low == range.low && range.high < class.high) > 50);
        assert!(count(|class, range| class.low < range.low && range.high == class.high) > 50);
        assert!(count(|class, range| range.low < class.low && class.high < range.high) > 50);
        assert!(count(|class, range| range.low.checked_add(1) == Some(class.low)) > 50);
        assert!(count(|class, range| class.high.checked_add(1) == Some(range.high)) > 50);
        assert!(count(|class, range| class.high < range.low) > 50);
        assert!(count(|class, range| range.high < class.low) > 50);
        assert!(count(|class, range| class != range && class.contains(range)) > 50);
        assert!(count(|class, range| range.high > class.high && class.contains(range)) > 50);
        assert!(count(|class, range| range.step < class.step && class.contains(range)) > 50);
        assert!(count(|class, range| range.step > class.step && class.contains(range)) > 50);
        assert!(count(|class, range| other_step(class, range) && class.contains(range)) > 50);
        assert!(count(|class, range| other_step(class, range) && !class.contains(range)) > 50);
    }

    #[test]
    fn values_are_legal_or_at_an_edge() {
        let mut random = Random::new(3);
        let (mut legal, mut illegal) = (0, 0);
        for (class, _) in ranges(inside) {
            assert!(class.has(legal_value(&mut random, &class)), "{class:?}");
            match class.has(edge_value(&mut random, &class)) {
                true => legal += 1,
                false => illegal += 1,
            }
        }
        assert!(legal > 500 && illegal > 2 * legal, "{legal} {illegal}");
    }

    #[test]
    fn steps_divide_or_not_and_leave_a_single_value_or_many() {
        let mut random = Random::new(2);
        let mut counts = [0; 5];
        for _ in 0..5000 {
            let low = random.bits() as u16;
            let high = low.max(random.bits() as u16);
            let class = Class { step: step(&mut random, low, high), ..Class::plain(0, low, high) };
            counts[0] += usize::from(class.step.get() == 1);
            counts[1] += usize::from(class.step.get() > 1 && class.last() == high);
            counts[2] += usize::from(class.step.get() > 1 && class.last() < high);
            counts[3] += usize::from(class.step.get() > 1 && class.last() == low);
            counts[4] += usize::from(class.step.get() == u16::MAX);
        }
        assert!(counts.iter().all(|&count| count > 200), "{counts:?}");
    }
}
