use super::*;
use crate::compare;
use crate::function::Input;
use crate::refusals::{ACCEPTED, REFUSED_PLACE, WRONG_LENGTH};

/// A port that is wrong.
type Called = fn(&ConvertInput, &mut Outputs) -> i64;

fn rust(input: &ConvertInput, outputs: &mut Outputs) -> i64 {
    ConvertBzGrid::oracle(input, outputs)
}

fn refused(outputs: &mut Outputs, number: i64) -> i64 {
    outputs.answer(|_, _| Err(number))
}

/// The same with other ins.
fn with(
    input: &ConvertInput,
    outputs: &mut Outputs,
    change: impl FnOnce(&mut ConvertInput),
) -> i64 {
    let mut input = ConvertInput {
        made: None,
        ..input.clone()
    };
    change(&mut input);
    rust(&input, outputs)
}

/// Takes each mark of an empty place for one; places the first image of a point last; tells the
/// type that was given; asks nothing of the shift; reads as many images as the largest count;
/// wants slices of the told lengths; tests the room before 19; takes a point modulo N; asks of
/// the doubled mesh in 19 alone whether it can be read; leaves the last number of the map out.
const WRONG: [Called; 10] = [
    |input, outputs| {
        let answer = rust(input, outputs);
        let marked = |given: Given| {
            let mark = 8 * given.points();
            given.bz_grid_type == SPARSE
                && given.addresses.get(mark).is_some_and(|address| {
                    let doubled = given.d.map(|number| 2 * number);
                    let place = grid_index_from_address(*address, doubled) as usize;
                    given.map[place] == mark as i64
                })
        };
        match answer {
            ACCEPTED if Given::of(input).is_ok_and(marked) => refused(outputs, COULD_NOT_STAND),
            _ => answer,
        }
    },
    |input, outputs| {
        let answer = rust(input, outputs);
        let Ok(given) = Given::of(input) else {
            return answer;
        };
        if answer != ACCEPTED {
            return answer;
        }
        let mut lists = given.lists();
        lists.iter_mut().for_each(|list| list.rotate_left(1));
        let tables = laid_out(other_type(given.bz_grid_type), given.d, &lists);
        outputs.answer(|slices, told| tables.leave(given.record(), slices, told))
    },
    |input, outputs| {
        let answer = rust(input, outputs);
        if answer == ACCEPTED {
            outputs.told[9] = input.table[6];
        }
        answer
    },
    |input, outputs| {
        if input.table.len() != 7 {
            return rust(input, outputs);
        }
        let answer = with(input, outputs, |input| input.table[3..6].fill(0));
        if answer == ACCEPTED {
            outputs.told[6..9].copy_from_slice(&input.table[3..6]);
        }
        answer
    },
    |input, outputs| match Given::of(input) {
        Ok(given) if !given.counts().is_sorted() => refused(outputs, BAD_INDEX),
        _ => rust(input, outputs),
    },
    |input, outputs| match Given::of(input) {
        Ok(given) if given.map.len() < input.map.len() => refused(outputs, WRONG_LENGTH),
        _ => rust(input, outputs),
    },
    |input, outputs| match Given::of(input) {
        Ok(given) if outputs.slices[2].len() < given.grg.len() => refused(outputs, WRONG_LENGTH),
        _ => rust(input, outputs),
    },
    |input, outputs| {
        let Ok(points) = Given::of(input).map(|given| given.points() as i64) else {
            return rust(input, outputs);
        };
        with(input, outputs, |input| {
            input
                .grg
                .iter_mut()
                .for_each(|point| *point = point.rem_euclid(points))
        })
    },
    |input, outputs| {
        let answer = rust(input, outputs);
        if answer != BAD_INDEX || input.table[6] != SPARSE {
            return answer;
        }
        let mut other = input.clone();
        let points: i64 = input.table[..3].iter().product();
        other
            .map
            .iter_mut()
            .take(8 * points as usize)
            .for_each(|value| *value = 0);
        match Given::of(&other) {
            Ok(_) => refused(outputs, COULD_NOT_STAND),
            Err(_) => answer,
        }
    },
    |input, outputs| {
        let answer = rust(input, outputs);
        if answer == ACCEPTED {
            let last = outputs.told[1] as usize - 1;
            outputs.slices[1][last] = REFUSED_PLACE;
        }
        answer
    },
];

struct Wrong<const PORT: usize>;

impl<const PORT: usize> Function for Wrong<PORT> {
    type Input = ConvertInput;

    fn outputs(input: &ConvertInput) -> Outputs {
        ConvertBzGrid::outputs(input)
    }

    fn port(input: &ConvertInput, outputs: &mut Outputs) -> i64 {
        WRONG[PORT](input, outputs)
    }

    fn oracle(input: &ConvertInput, outputs: &mut Outputs) -> i64 {
        rust(input, outputs)
    }
}

/// By the cases at the limits alone.
#[test]
fn wrong_ports_are_told() {
    let cases = ConvertInput::at_limits().len() as u64;
    let differences = [
        compare::run::<Wrong<0>>(cases, 1),
        compare::run::<Wrong<1>>(cases, 1),
        compare::run::<Wrong<2>>(cases, 1),
        compare::run::<Wrong<3>>(cases, 1),
        compare::run::<Wrong<4>>(cases, 1),
        compare::run::<Wrong<5>>(cases, 1),
        compare::run::<Wrong<6>>(cases, 1),
        compare::run::<Wrong<7>>(cases, 1),
        compare::run::<Wrong<8>>(cases, 1),
        compare::run::<Wrong<9>>(cases, 1),
    ];
    assert!(
        differences.iter().all(|&count| count > 0),
        "{differences:?}"
    );
}
