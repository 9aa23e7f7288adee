//! The class sheet, which the Rust has not: weights counted into a map, and lines of
//! formatted text.

use std::collections::HashMap;

use crate::bench::{call, Call, Timed};
use crate::function::{Function, Outputs};
use crate::inputs::lent_sheets::SheetInput;
use crate::port;
use crate::tests::{addresses, length, limit};

/// Characters of a line, its line feed among them.
pub const LINE: usize = 46;

/// Classes of a page, before which a line with its number stands.
pub const PAGE: usize = 40;

/// Characters of the sheet of so many classes.
pub fn places(classes: usize) -> usize {
    LINE * (classes + classes.div_ceil(PAGE))
}

/// A class: its number, its weight, its triplet.
type Row = [i64; 5];

/// The numbers of the classes: those that stand at their own place, rising.
fn numbers(class_map: &[i64]) -> Vec<i64> {
    let places = (0..).zip(class_map);
    let own = places.filter(|(place, number)| place == *number);
    own.map(|(place, _)| place).collect()
}

/// How many points bear each number.
fn weights(class_map: &[i64]) -> HashMap<i64, i64> {
    let mut weights = HashMap::new();
    for &number in class_map {
        *weights.entry(number).or_default() += 1;
    }
    weights
}

/// The classes in their order. A triplet that is missing has none.
fn rows(class_map: &[i64], triplets: &[i64]) -> Vec<Row> {
    let weights = weights(class_map);
    let triplets = triplets.as_chunks().0;
    let rows = numbers(class_map).into_iter().zip(triplets);
    rows.map(|(number, &[x, y, z])| [number, weights[&number], x, y, z])
        .collect()
}

/// The lines of the classes. One with a number that is wider than its field is longer
/// than the others.
fn text(rows: &[Row]) -> String {
    let mut text = String::with_capacity(places(rows.len()));
    for (k, [number, weight, x, y, z]) in rows.iter().enumerate() {
        if k % PAGE == 0 {
            text += &format!("{:>45}\n", k / PAGE + 1);
        }
        text += &format!("{number:>6}{weight:>6}{x:>11}{y:>11}{z:>11}\n");
    }
    text
}

/// One code a place, as far as the slice goes.
fn put(sheet: &mut [i64], text: &str) {
    for (place, code) in sheet.iter_mut().zip(text.bytes()) {
        *place = code.into();
    }
}

/// A line of the vectors: the slices class_map and triplets, each as its length and its
/// items; the answer; the sheet as its length and its places, or its length and a sum if
/// it has over 432.
pub struct ClassSheet;

impl Function for ClassSheet {
    const VECTORS: usize = 96;

    const HELD: &'static [usize] = &[4_096];

    type Input = SheetInput;

    fn outputs(input: &SheetInput) -> Outputs {
        Outputs::slices(&[input.places], 0)
    }

    fn port(input: &SheetInput, outputs: &mut Outputs) -> i64 {
        port::answer(zone::class_sheet(
            &input.class_map,
            &input.triplets,
            &mut outputs.slices[0],
        ))
    }

    fn oracle(input: &SheetInput, outputs: &mut Outputs) -> i64 {
        outputs.answer(|slices, _| {
            let classes = numbers(&input.class_map).len();
            length(addresses(&input.triplets)?.len() == classes)?;
            length(slices[0].len() == places(classes))?;
            let text = text(&rows(&input.class_map, &input.triplets));
            limit(text.lines().all(|line| line.len() + 1 == LINE))?;
            put(&mut slices[0], &text);
            Ok(())
        })
    }
}

impl Timed for ClassSheet {
    const INPUTS: usize = 4;

    /// The Rust has no such call: its side is the plain sheet, without tests.
    fn bare(input: &SheetInput) -> Call<'_> {
        call(input, |input, outputs| {
            let rows = rows(&input.class_map, &input.triplets);
            put(&mut outputs.slices[0], &text(&rows));
        })
    }
}

#[cfg(test)]
mod tests {
    use phonors::common::IDENTITY;
    use phonors::triplet_grid::ir_triplets_at_q;

    use super::*;
    use crate::function::Input;
    use crate::inputs::lent_sheets::{LEAST, MOST};
    use crate::random::Random;
    use crate::{compare, vectors};

    /// The answer, and the sheet.
    fn asked(input: &SheetInput) -> (i64, Vec<i64>) {
        let mut outputs = ClassSheet::outputs(input).unlike();
        let answer = ClassSheet::oracle(input, &mut outputs);
        (answer, outputs.slices.swap_remove(0))
    }

    fn accepted(class_map: &[i64], triplets: &[i64]) -> String {
        let (answer, sheet) = asked(&SheetInput::new(class_map, triplets));
        assert_eq!(answer, 0);
        let codes = sheet
            .iter()
            .map(|&code| u8::try_from(code).expect("a code"));
        String::from_utf8(codes.collect()).expect("a text")
    }

    /// The rows of a sheet, by columns: full fields touch.
    fn read(sheet: &[i64]) -> Vec<Row> {
        let lines = sheet.chunks(LINE).enumerate();
        let of_classes = lines.filter(|(k, _)| k % (PAGE + 1) != 0);
        let row = |(_, mut line): (usize, &[i64])| {
            [6, 6, 11, 11, 11].map(|width| {
                let (field, rest) = line.split_at(width);
                line = rest;
                let text: String = field.iter().map(|&code| code as u8 as char).collect();
                text.trim_start().parse().expect("a number")
            })
        };
        of_classes.map(row).collect()
    }

    /// The classes of the paper's job, whose points 0 and 2 only swapping joins.
    const MAP_TRIPLETS: [i64; 3] = [0, 1, 0];
    const MAP_Q: [i64; 3] = [0, 1, 2];

    #[test]
    fn the_job_of_the_paper() {
        let maps = ir_triplets_at_q(1, [1, 1, 3], &[IDENTITY], true, true).expect("accepted");
        assert_eq!(
            (&maps.map_triplets[..], &maps.map_q[..]),
            (&MAP_TRIPLETS[..], &MAP_Q[..])
        );
        let text = accepted(&MAP_TRIPLETS, &[1, 0, 2, 1, 1, 1]);
        let expected = "                                            1
     0     2          1          0          2
     1     1          1          1          1
";
        assert_eq!(text, expected);
        assert_eq!(text.len(), 138);
    }

    #[test]
    fn pages() {
        for (classes, lines) in [(0, 0), (1, 2), (40, 41), (41, 43), (80, 82), (81, 84)] {
            let class_map: Vec<i64> = (0..classes).collect();
            let text = accepted(&class_map, &vec![7; 3 * classes as usize]);
            assert_eq!(text.lines().count(), lines);
            let pages = text.lines().step_by(PAGE + 1);
            assert!((1..)
                .zip(pages)
                .all(|(k, line)| *line == format!("{k:>45}")));
        }
        assert_eq!(places(65_536), 3_090_050);
    }

    /// Numbers that nobody bears at their own place are no class, whatever they are.
    #[test]
    fn any_class_map() {
        let map = [3, 1, i64::MIN, 3, -1, 1, 6, 3, 8, i64::MAX, 1];
        let (answer, sheet) = asked(&SheetInput::new(&map, &[0; 12]));
        let weights: Vec<[i64; 2]> = read(&sheet).iter().map(|row| [row[0], row[1]]).collect();
        assert_eq!((answer, weights), (0, vec![[1, 3], [3, 3], [6, 1], [8, 1]]));
    }

    /// The widest numbers, and those one wider, in each field; a class and a weight of
    /// seven digits.
    #[test]
    fn widths() {
        for place in 0..3 {
            for (number, answer) in [
                (MOST, 0),
                (MOST + 1, 3),
                (LEAST, 0),
                (LEAST - 1, 3),
                (-1, 0),
                (i64::MIN, 3),
                (i64::MAX, 3),
            ] {
                let mut triplet = [0; 3];
                triplet[place] = number;
                let input = SheetInput::new(&[0], &triplet);
                let refused = vec![-1; 92];
                let (told, sheet) = asked(&input);
                assert_eq!(told, answer, "{number}");
                assert!((sheet == refused) == (answer == 3));
            }
        }
        let widest = accepted(&[0], &[MOST, LEAST, MOST]);
        assert!(widest.ends_with("99999999999-999999999999999999999\n"));
        for points in [999_999, 1_000_000] {
            let answer = if points == 999_999 { 0 } else { 3 };
            let (told, sheet) = asked(&SheetInput::new(&vec![0; points], &[0; 3]));
            assert_eq!((told, sheet[57] == 57), (answer, answer == 0));
            let mut map = vec![-1; points + 1];
            map[points] = points as i64;
            let (told, sheet) = asked(&SheetInput::new(&map, &[0; 3]));
            assert_eq!((told, sheet[46] == 57), (answer, answer == 0));
        }
    }

    /// 13 for either length, before 3.
    #[test]
    fn the_order_of_the_refusals() {
        let right = SheetInput::new(&[0, 1], &[MOST + 1; 6]);
        assert_eq!(asked(&right), (3, vec![-1; 138]));
        for triplets in [0, 3, 5, 7, 9] {
            let mut input = right.clone();
            input.triplets.resize(triplets, 0);
            assert_eq!(asked(&input), (13, vec![-1; 138]));
        }
        for places in [0, 92, 137, 139, 184] {
            let input = SheetInput {
                places,
                ..right.clone()
            };
            assert_eq!(asked(&input), (13, vec![-1; places]));
        }
    }

    /// An accepted sheet, read by columns, gives each class with its weight, counted
    /// point by point, and its triplet.
    #[test]
    fn read_back() {
        let mut random = Random::new(1);
        for _ in 0..1_000 {
            let input = SheetInput::random(&mut random);
            let (answer, sheet) = asked(&input);
            if answer != 0 {
                continue;
            }
            let mut triplets = input.triplets.chunks(3);
            let mut rows = Vec::new();
            for (place, &class) in (0..).zip(&input.class_map) {
                if class == place {
                    let bears = |number: &&i64| **number == class;
                    let weight = input.class_map.iter().filter(bears).count() as i64;
                    let triplet = triplets.next().expect("a triplet");
                    rows.push([class, weight, triplet[0], triplet[1], triplet[2]]);
                }
            }
            assert_eq!(read(&sheet), rows);
        }
    }

    #[test]
    fn every_answer_is_met() {
        let mut random = Random::new(1);
        let mut met = Vec::new();
        for _ in 0..2_000 {
            let input = SheetInput::random(&mut random);
            let (answer, sheet) = asked(&input);
            met.push((answer, sheet.len().div_ceil(LINE * (PAGE + 1))));
        }
        let count = |answer, pages: std::ops::RangeInclusive<usize>| {
            let met = met.iter().filter(|met| met.0 == answer);
            met.filter(|met| pages.contains(&met.1)).count()
        };
        for (answer, pages, least) in [
            (0, 0..=0, 20),
            (0, 1..=1, 500),
            (0, 2..=2, 150),
            (0, 3..=30, 150),
            (3, 1..=30, 100),
            (13, 0..=30, 100),
        ] {
            let count = count(answer, pages.clone());
            assert!(count > least, "{answer} {pages:?}: {count}");
        }
    }

    /// A port that is right but for the rows that it lays out.
    fn laid(input: &SheetInput, outputs: &mut Outputs, text: impl Fn(Vec<Row>) -> String) -> i64 {
        let answer = ClassSheet::oracle(input, outputs);
        if answer == 0 {
            let text = text(rows(&input.class_map, &input.triplets));
            put(&mut outputs.slices[0], &text);
        }
        answer
    }

    macro_rules! wrong {
        ($name:ident, |$input:ident, $outputs:ident| $port:expr) => {
            impl Function for $name {
                type Input = SheetInput;

                fn outputs(input: &SheetInput) -> Outputs {
                    ClassSheet::outputs(input)
                }

                fn port($input: &SheetInput, $outputs: &mut Outputs) -> i64 {
                    $port
                }

                fn oracle(input: &SheetInput, outputs: &mut Outputs) -> i64 {
                    ClassSheet::oracle(input, outputs)
                }
            }
        };
    }

    /// A page of 41 classes.
    struct Longer;

    wrong!(Longer, |input, outputs| laid(input, outputs, |rows| {
        let page = |(k, rows): (usize, &[Row])| format!("{:>45}\n{}", k + 1, &text(rows)[LINE..]);
        rows.chunks(PAGE + 1).enumerate().map(page).collect()
    }));

    /// Pages that are numbered from 0.
    struct FromZero;

    wrong!(FromZero, |input, outputs| laid(input, outputs, |rows| {
        let page = |(k, rows): (usize, &[Row])| format!("{k:>45}\n{}", &text(rows)[LINE..]);
        rows.chunks(PAGE).enumerate().map(page).collect()
    }));

    /// Weights of the points that stand at their own place.
    struct OwnPoints;

    wrong!(OwnPoints, |input, outputs| laid(
        input,
        outputs,
        |mut rows| {
            rows.iter_mut().for_each(|row| row[1] = 1);
            text(&rows)
        }
    ));

    /// Weights counted in `map_q`, of the paper's job.
    struct InMapQ;

    wrong!(InMapQ, |input, outputs| laid(input, outputs, |mut rows| {
        if input.class_map == MAP_TRIPLETS {
            let weights = weights(&MAP_Q);
            rows.iter_mut().for_each(|row| row[1] = weights[&row[0]]);
        }
        text(&rows)
    }));

    /// Blanks after the numbers.
    struct OnTheLeft;

    wrong!(OnTheLeft, |input, outputs| laid(input, outputs, |rows| {
        let fields = |row: &Row| {
            let [number, weight, x, y, z] = row;
            format!("{number:<6}{weight:<6}{x:<11}{y:<11}{z:<11}\n")
        };
        let page = |(k, rows): (usize, &[Row])| {
            let lines: String = rows.iter().map(fields).collect();
            format!("{:>45}\n{lines}", k + 1)
        };
        rows.chunks(PAGE).enumerate().map(page).collect()
    }));

    /// 3 before 13.
    struct LimitsFirst;

    wrong!(LimitsFirst, |input, outputs| {
        let fits = |index: &i64| (LEAST..=MOST).contains(index);
        if input.triplets.iter().all(fits) {
            ClassSheet::oracle(input, outputs)
        } else {
            outputs.answer(|_, _| limit(false))
        }
    });

    /// Digits counted without the minus sign.
    struct Unsigned;

    wrong!(Unsigned, |input, outputs| {
        let digits = |index: &i64| index.unsigned_abs().to_string().len();
        let fits = |index: &i64| digits(index) <= 11;
        let answer = ClassSheet::oracle(input, outputs);
        if answer == 3 && input.triplets.iter().all(fits) {
            let rows = rows(&input.class_map, &input.triplets);
            put(&mut outputs.slices[0], &text(&rows));
            return 0;
        }
        answer
    });

    /// No number but -1 is negative, in a finished list.
    struct NoSign;

    wrong!(NoSign, |input, outputs| {
        let fits = |index: &i64| *index >= 0;
        let answer = ClassSheet::oracle(input, outputs);
        if answer == 0 && !input.triplets.iter().all(fits) {
            return outputs.answer(|_, _| limit(false));
        }
        answer
    });

    #[test]
    fn wrong_ports_are_told() {
        let cases = SheetInput::at_limits().len() as u64;
        let differences = [
            compare::run::<Longer>(cases, 1),
            compare::run::<FromZero>(cases, 1),
            compare::run::<OwnPoints>(cases, 1),
            compare::run::<InMapQ>(cases, 1),
            compare::run::<OnTheLeft>(cases, 1),
            compare::run::<LimitsFirst>(cases, 1),
            compare::run::<Unsigned>(cases, 1),
            compare::run::<NoSign>(cases, 1),
        ];
        assert!(
            differences.iter().all(|&count| count > 0),
            "{differences:?}"
        );
    }

    /// What the bench takes is accepted; the large one is the largest sheet.
    #[test]
    fn typical_sheets() {
        let mut random = Random::new(1);
        for _ in 0..8 {
            let input = SheetInput::typical(&mut random);
            assert_eq!((asked(&input).0, input.class_map.len()), (0, 4_096));
        }
        let (answer, sheet) = asked(&SheetInput::full(&mut random));
        assert_eq!((answer, sheet.len()), (0, 3_090_050));
    }

    #[test]
    fn vectors_of_every_answer() {
        let lines = vectors::lines::<ClassSheet>(1);
        vectors::text(1, &lines);
        let inputs = SheetInput::at_limits();
        assert!(lines.len() > inputs.len());
        let met: Vec<i64> = inputs.iter().map(|input| asked(input).0).collect();
        for (answer, least) in [(0, 30), (3, 12), (13, 20)] {
            let count = met.iter().filter(|&&met| met == answer).count();
            assert!(count >= least, "{answer}: {count}");
        }
    }
}
