//! The job file: document 01's section of that name, with the Rust's own calls and
//! document 02's test of the list.

use std::fmt::Write;

use phonors::common::{MatD, MatI};

use crate::bz_grid_addresses::BzGridAddresses;
use crate::bz_triplets_at_q::BzTripletsAtQ;
use crate::chain::{Rust, Steps};
use crate::function::{Function, Input, Line, Outputs};
use crate::inputs::groups::flat;
use crate::inputs::images::{Images, DENSE};
use crate::inputs::jobs::JobInput;
use crate::inputs::jobs_at_limits;
use crate::inputs::lent_classes::ClassesInput;
use crate::inputs::lent_images::ImagesInput;
use crate::inputs::lent_transforms::TransformInput;
use crate::inputs::lent_triplets::TripletsInput;
use crate::inputs::tables::LentTables;
use crate::ir_triplets_at_q::IrTripletsAtQ;
use crate::limits::{JOB_BYTES, JOB_HEADER_BYTES, JOB_IMAGES, JOB_POINTS, ROTATIONS};
use crate::port;
use crate::reciprocal_group::{GroupInput, ReciprocalGroup};
use crate::refusals::{ACCEPTED, WRONG_HEADER};
use crate::snf3x3::{MatrixInput, Snf3x3};
use crate::tests::{fixed, length, matrices, matrix};
use crate::transform_rotations::TransformRotations;
use crate::vectors::{self, FILE_BYTES};

/// Cases of the vectors, as far as there is room.
const VECTORS: usize = 512;

/// Places of the doubled mesh and the counts, for the most points.
const JOB_MAP: usize = 9 * JOB_POINTS + 1;

#[derive(Debug)]
struct Job {
    a: MatI,
    rotations: Vec<MatI>,
    lattice: MatD,
    time_reversal: bool,
    swappable: bool,
    bz_grid_type: i64,
    q0: i64,
}

fn header(holds: bool) -> Result<(), i64> {
    holds.then_some(()).ok_or(WRONG_HEADER)
}

impl Job {
    fn read(job: &[u8]) -> Result<Job, i64> {
        header((JOB_HEADER_BYTES..=JOB_BYTES).contains(&job.len()))?;
        let (words, _) = job[..JOB_HEADER_BYTES].as_chunks();
        let words: Vec<u32> = words.iter().map(|&word| u32::from_le_bytes(word)).collect();
        let [total, count, matrix, list, lattice, flags, bz_grid_type, q0] = words[..] else {
            panic!("eight words");
        };
        header(total as usize == job.len())?;
        header(count as usize <= ROTATIONS)?;
        header(flags <= 3)?;
        let section = |offset: u32, bytes: usize| {
            let start = offset as usize;
            let inside = start >= JOB_HEADER_BYTES && start + bytes <= job.len();
            header(inside).map(|()| &job[start..start + bytes])
        };
        let matrix = section(matrix, 36)?;
        let list = section(list, 36 * count as usize)?;
        let lattice = section(lattice, 72)?;
        let signed = |bytes: &[u8]| {
            let (words, _) = bytes.as_chunks();
            let numbers = words.iter().map(|&word| i32::from_le_bytes(word).into());
            matrices(&numbers.collect::<Vec<i64>>())
        };
        let (floats, _) = lattice.as_chunks();
        let float = |place: usize| f64::from_le_bytes(floats[place]);
        Ok(Job {
            a: signed(matrix)?[0],
            rotations: signed(list)?,
            lattice: [0, 3, 6].map(|row| [0, 1, 2].map(|column| float(row + column))),
            time_reversal: flags & 1 != 0,
            swappable: flags & 2 != 0,
            bz_grid_type: bz_grid_type.into(),
            q0: q0.into(),
        })
    }

    /// Every call in its turn; the first refusal is the job's.
    fn list(&self) -> Result<String, i64> {
        let mut steps = Steps::default();
        let a = flat(&[self.a]);
        let diagonal = steps.make::<Rust, Snf3x3>(&MatrixInput { a })?;
        let (d, q) = (fixed(&diagonal.slices[0])?, matrix(&diagonal.slices[2])?);
        let list = steps.make::<Rust, ReciprocalGroup>(&GroupInput {
            rotations: flat(&self.rotations),
            time_reversal: self.time_reversal,
        })?;
        let list = matrices(&list.slices[0][..9 * list.told[0] as usize])?;
        let transform = TransformInput::new(&list, d, q);
        let transformed = steps.make::<Rust, TransformRotations>(&transform)?;
        let points: i64 = d.iter().product();
        length(points as usize <= JOB_POINTS)?;

        let given = Images {
            d,
            q,
            ps: [0; 3],
            lattice: self.lattice,
            bz_grid_type: self.bz_grid_type,
        };
        let lent = ImagesInput::with(&given, [3 * JOB_IMAGES, JOB_MAP, JOB_IMAGES]);
        let Outputs { slices, told } = steps.make::<Rust, BzGridAddresses>(&lent)?;
        let [addresses, map] = [0, 1].map(|k| &slices[k][..told[k] as usize]);
        let (addresses, _) = addresses.as_chunks();
        let tables = LentTables::new(addresses, map, d, self.bz_grid_type);

        let rotations = matrices(&transformed.slices[0])?;
        let flags = [self.time_reversal, self.swappable];
        let classes = ClassesInput::new(self.q0, d, &rotations, flags);
        let classes = steps.make::<Rust, IrTripletsAtQ>(&classes)?;
        let q0 = match self.bz_grid_type {
            DENSE => map[self.q0 as usize],
            _ => self.q0,
        };
        let class_map = &classes.slices[0];
        let mut last = TripletsInput::new(q0, &tables, class_map, q, self.lattice);
        last.table = told[3..].to_vec();
        let triplets = steps.make::<Rust, BzTripletsAtQ>(&last)?;

        let mut text = line("grid", &d);
        text += &line("map", class_map);
        text += &line("ir", &classes.told);
        for triplet in triplets.slices[0].chunks(3) {
            text += &line("triplet", triplet);
        }
        Ok(text)
    }
}

/// A word and numbers, a blank before each.
fn line(word: &str, numbers: &[i64]) -> String {
    let mut line = word.to_string();
    for number in numbers {
        write!(line, " {number}").expect("a string takes any text");
    }
    line + "\n"
}

/// What a job lists, or the number of its refusal.
pub fn listing(job: &[u8]) -> Result<String, i64> {
    Job::read(job)?.list()
}

/// Lines of jobs, with what the program `zonelist` answers and prints.
pub fn vectors(seed: u64) -> Vec<String> {
    let at_limits = jobs_at_limits::inputs();
    vectors::filled(
        seed,
        VECTORS,
        FILE_BYTES,
        &at_limits,
        JobInput::random,
        vector,
    )
}

/// A line of the vectors: the job as runs, the answer, and the text as its length and
/// its bytes, or its length and a sum if it has over 432.
fn vector(input: &JobInput) -> Option<String> {
    let (answer, text) = match listing(&input.job) {
        Ok(text) => (ACCEPTED, text),
        Err(refusal) => (refusal, line("refused", &[refusal])),
    };
    let bytes: Vec<i64> = text.bytes().map(i64::from).collect();
    let mut line = Line::default();
    input.write(&mut line);
    line.number(answer);
    vectors::write(&mut line, bytes.len(), &bytes);
    vectors::line_held(line)
}

/// The text stands in the outputs a byte a place. A refusal leaves 0 in it.
pub struct ZoneList;

impl Function for ZoneList {
    type Input = JobInput;

    fn outputs(input: &JobInput) -> Outputs {
        Outputs::slices(&[input.room], 1)
    }

    fn port(input: &JobInput, outputs: &mut Outputs) -> i64 {
        let Outputs { slices, told } = outputs;
        let mut text: Vec<u8> = slices[0].iter().map(|&byte| byte as u8).collect();
        let answer = port::answer(zone::list(&input.job, &mut text, told));
        slices[0] = text.into_iter().map(i64::from).collect();
        answer
    }

    fn oracle(input: &JobInput, outputs: &mut Outputs) -> i64 {
        let answer = outputs.answer(|slices, told| {
            length(told.len() == 1)?;
            let text = listing(&input.job)?;
            length(text.len() <= slices[0].len())?;
            slices[0].fill(0);
            for (place, byte) in slices[0].iter_mut().zip(text.bytes()) {
                *place = byte.into();
            }
            told[0] = text.len() as i64;
            Ok(())
        });
        if answer != ACCEPTED {
            outputs.slices[0].fill(0);
        }
        answer
    }
}

#[cfg(test)]
mod tests {
    use phonors::common::IDENTITY;

    use super::*;
    use crate::compare;
    use crate::inputs::groups::failures;
    use crate::inputs::images::TYPES;
    use crate::inputs::jobs::{paper, set_word, word, Request, TOTAL, TYPE};
    use crate::inputs::lent_transforms::EXCHANGE;
    use crate::inputs::matrices::diag;
    use crate::inputs::walks::SMALLEST;
    use crate::random::Random;

    const LISTING: &str = "grid 1 1 3\nmap 0 1 0\nir 2\ntriplet 1 0 2\ntriplet 1 1 1\n";

    #[test]
    fn the_job_of_the_paper() {
        let job = paper().plain();
        assert_eq!(
            (job.len(), word(&job, 2), word(&job, 3), word(&job, 4)),
            (176, 32, 68, 104)
        );
        assert_eq!(listing(&job), Ok(LISTING.into()));
        let moved = paper().file([2, 0, 1], [1, 0, 5]);
        assert_eq!(listing(&moved), Ok(LISTING.into()));
        for room in [LISTING.len() - 1, LISTING.len(), 100] {
            let input = JobInput {
                job: job.clone(),
                room,
            };
            let mut outputs = ZoneList::outputs(&input).unlike();
            let answer = ZoneList::oracle(&input, &mut outputs);
            if room < LISTING.len() {
                assert_eq!((answer, outputs.told), (13, vec![-1]));
                assert!(outputs.slices[0].iter().all(|&byte| byte == 0));
            } else {
                assert_eq!((answer, outputs.told), (0, vec![LISTING.len() as i64]));
                assert_eq!(
                    outputs.slices[0].iter().filter(|&&byte| byte != 0).count(),
                    LISTING.len()
                );
            }
        }
    }

    fn refusal(request: Request) -> i64 {
        listing(&request.plain()).expect_err("refused")
    }

    /// The order of reading 15: d over 256, then the points, then the images' own.
    #[test]
    fn the_order_of_the_refusals() {
        let with = |a| Request { a, ..paper() };
        assert_eq!(refusal(with(diag([17, 16, 1]))), 3);
        assert_eq!(refusal(with(diag([17, 17, 1]))), 13);
        let bad = |a| Request {
            lattice: [[f64::NAN; 3]; 3],
            bz_grid_type: 7,
            q0: 1_000,
            ..with(a)
        };
        assert_eq!(refusal(bad(diag([17, 17, 1]))), 13);
        assert_eq!(refusal(bad(diag([3, 1, 1]))), 3);
        let lattice = paper().lattice;
        let bad = |a| Request { lattice, ..bad(a) };
        assert_eq!(refusal(bad(diag([3, 1, 1]))), 9);
        let bad = |a| Request {
            bz_grid_type: 2,
            ..bad(a)
        };
        assert_eq!(refusal(bad(diag([3, 1, 1]))), 3);
        assert_eq!(refusal(with(diag([0, 1, 1]))), 1);
    }

    /// The list is tested after diagonalising and its own limits, before transforming
    /// and the points.
    #[test]
    fn the_list_in_the_order() {
        let with = |a, rotations: &[MatI]| Request {
            a,
            rotations: rotations.to_vec(),
            ..paper()
        };
        let long = |entry| [[1, 0, 0], [0, 1, 0], [entry, 0, 1]];
        let [plain, many] = [paper().a, diag([17, 17, 1])];
        for list in failures() {
            assert_eq!(refusal(with(plain, &list)), 18);
            assert_eq!(refusal(with(many, &list)), 18);
            assert_eq!(refusal(with(diag([0, 1, 1]), &list)), 1);
            assert_eq!(refusal(with(SMALLEST[0], &list)), 4);
        }
        assert_eq!(refusal(with(plain, &[IDENTITY, long(101)])), 18);
        assert_eq!(refusal(with(plain, &[IDENTITY, long(100_001)])), 3);
        assert_eq!(refusal(with(diag([2, 1, 1]), &[EXCHANGE])), 18);
        assert_eq!(refusal(with(diag([2, 1, 1]), &[IDENTITY, EXCHANGE])), 6);
    }

    #[test]
    fn headers() {
        let plain = paper().plain();
        assert_eq!(listing(&plain[..175]), Err(15));
        assert_eq!(listing(&[]), Err(15));
        let mut wrong = plain.clone();
        set_word(&mut wrong, TOTAL, 175);
        assert_eq!(listing(&wrong), Err(15));
        let mut other = plain;
        set_word(&mut other, TYPE, 1);
        assert_eq!(listing(&other), Ok(LISTING.into()));
    }

    #[test]
    fn every_kind_is_met() {
        let mut random = Random::new(1);
        let mut met = Vec::new();
        for _ in 0..4_000 {
            let input = JobInput::random(&mut random);
            let mut outputs = ZoneList::outputs(&input);
            let answer = ZoneList::oracle(&input, &mut outputs);
            let bz_grid_type = match answer {
                0 => word(&input.job, TYPE).into(),
                _ => 0,
            };
            met.push((answer, bz_grid_type));
        }
        for bz_grid_type in TYPES {
            assert!(met.iter().filter(|&&met| met == (0, bz_grid_type)).count() > 500);
        }
        for answer in [1, 3, 4, 6, 9, 11, 12, 13, 15, 18] {
            assert!(met.contains(&(answer, 0)), "{answer}");
        }
        assert!(met.iter().filter(|met| met.0 == 15).count() > 300);
    }

    /// The job of the paper first, and every number that a job can meet among those at
    /// the limits.
    #[test]
    fn vectors_of_every_answer() {
        let lines = super::vectors(1);
        vectors::text(1, &lines);
        let texts = LISTING.bytes().map(|byte| format!(" {byte}"));
        let listing = texts.collect::<String>();
        assert!(lines[0].starts_with("36 1 176 3 0 1 1 3 0 1 32 3 0 1 68 3 0 "));
        assert!(lines[0].ends_with(&format!(" 1 240 1 63 0 54{listing}")));
        assert!(lines.contains(&"0 15 11 114 101 102 117 115 101 100 32 49 53 10".into()));
        let inputs = jobs_at_limits::inputs();
        assert!(lines.len() > inputs.len());
        let answers = inputs.iter().map(|input| super::listing(&input.job).err());
        let met: Vec<i64> = answers.map(|refusal| refusal.unwrap_or(0)).collect();
        for answer in 0..=18 {
            let count = met.iter().filter(|&&met| met == answer).count();
            let least = match answer {
                2 | 5 | 7 | 8 | 10 | 14 | 16 | 17 => 0,
                1 | 4 | 6 => 1,
                9 | 11 | 12 | 13 => 2,
                _ => 20,
            };
            assert!(count >= least && (count == 0) == (least == 0), "{answer}");
        }
    }

    /// Reads the words the other way round.
    struct BigEndian;

    impl Function for BigEndian {
        type Input = JobInput;

        fn outputs(input: &JobInput) -> Outputs {
            ZoneList::outputs(input)
        }

        fn port(input: &JobInput, outputs: &mut Outputs) -> i64 {
            let (words, _) = input.job.as_chunks::<4>();
            let turned = words.iter().flat_map(|[a, b, c, d]| [*d, *c, *b, *a]);
            let input = JobInput {
                job: turned.collect(),
                ..*input
            };
            ZoneList::oracle(&input, outputs)
        }

        fn oracle(input: &JobInput, outputs: &mut Outputs) -> i64 {
            ZoneList::oracle(input, outputs)
        }
    }

    #[test]
    fn the_bytes_are_compared() {
        assert!(compare::run::<BigEndian>(1_000, 1) > 300);
    }
}
