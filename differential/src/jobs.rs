//! What is tried, cut into jobs that don't depend on each other and have random numbers of their own,
//! so that the threads' turns change nothing.

use std::fs;
use std::panic::{self, catch_unwind, AssertUnwindSafe};
use std::sync::atomic::{AtomicBool, AtomicUsize, Ordering};
use std::sync::Mutex;
use std::thread;
use std::time::{Duration, Instant};

use differential::damage::{self, changed, cut_and_lengthened, miscounted, other_skip_lengths};
use differential::images::{odd_image, Style};
use differential::lists::{all_lists, documents, smallest, Form, List, Rng, Shape, FORMS};
use differential::oracle::{self, Opener, TERMINATED};
use differential::reader::Image;

#[cfg(feature = "linked")]
use crate::writing;
use crate::{damaged, self_check, sound, Outcome, Tally};

/// How long a smallest input is looked for.
const SEARCH: Duration = Duration::from_secs(20);

#[derive(Clone, Copy)]
enum Job {
    Worked,
    /// Every short list: written and read.
    Short(Form),
    /// Every short list of calls.
    ShortCalls(Form),
    /// Lists of this count, written; then spoiled at every place.
    Write(Form, usize),
    /// Lists of this count, read, with calls.
    Read(Form, usize),
    /// Every small change of a small image.
    Change(Form, usize),
    /// Images that are spoiled, or random from the start.
    Spoil,
}

const KINDS: [&str; 5] =
    ["short lists", "short lists of calls", "damaged images", "reading and calls", "writing"];

impl Job {
    fn kind(self) -> &'static str {
        KINDS[match self {
            Job::Worked | Job::Short(_) => 0,
            Job::ShortCalls(_) => 1,
            Job::Change(..) | Job::Spoil => 2,
            Job::Read(..) => 3,
            Job::Write(..) => 4,
        }]
    }
}

/// What finds most in the least time comes first.
fn jobs(long: bool) -> Vec<Job> {
    let mut jobs = vec![Job::Worked];
    for form in FORMS {
        jobs.extend([Job::Short(form), Job::ShortCalls(form)]);
        for count in [0, 1, 2, 3, 4, 9, 127, 128, 129, 130, 256, 258] {
            jobs.push(Job::Change(form, count));
        }
    }
    jobs.extend([Job::Spoil; 100]);
    // Close to a multiple of 128, and the first ones, with more effort than the others.
    let close = |count: usize| count <= 260 || (count + 2) % 128 <= 4 || count == 1100;
    let of_each_count = |jobs: &mut Vec<Job>, job: &dyn Fn(Form, usize) -> Option<Job>| {
        for count in 0..=1100 {
            jobs.extend(FORMS.iter().filter_map(|form| job(*form, count)));
        }
    };
    of_each_count(&mut jobs, &|form, count| {
        (long || close(count)).then_some(Job::Read(form, count))
    });
    of_each_count(&mut jobs, &|form, count| {
        (long || close(count) || count <= 520).then_some(Job::Write(form, count))
    });
    jobs
}

/// All jobs, by as many threads as there are processors. The difference, if any, of the first job
/// that found one.
pub fn run(seed: u64, long: bool) -> (Tally, Outcome) {
    let jobs = jobs(long);
    let next = AtomicUsize::new(0);
    let stop = AtomicBool::new(false);
    let all = Mutex::new((Tally::default(), Vec::new(), Vec::new()));
    let work = || {
        while !stop.load(Ordering::Relaxed) {
            let at = next.fetch_add(1, Ordering::Relaxed);
            let Some(&job) = jobs.get(at) else { return };
            let start = time_of_this_thread();
            let rng = Rng::new(seed.wrapping_mul(0x9E37_79B9_7F4A_7C15) ^ (at as u64 + 1) << 20);
            let mut run = Run { long, rng, tally: Tally::default() };
            let outcome = run.job(job);
            let mut all = all.lock().unwrap();
            all.0.add(&run.tally);
            all.1.push((job.kind(), time_of_this_thread() - start));
            if let Err(difference) = outcome {
                stop.store(true, Ordering::Relaxed);
                all.2.push((at, difference));
            }
        }
    };
    thread::scope(|scope| {
        for _ in 0..thread::available_parallelism().map_or(1, usize::from) {
            scope.spawn(work);
        }
    });
    let (tally, times, differences) = all.into_inner().unwrap();
    println!("seconds on a processor:");
    for kind in KINDS {
        let of_kind = times.iter().filter(|(other, _)| *other == kind);
        let time: Duration = of_kind.map(|(_, time)| *time).sum();
        println!("  {:.1} for {kind}", time.as_secs_f64());
    }
    match differences.into_iter().min() {
        None => (tally, Ok(())),
        Some((_, difference)) => (tally, Err(difference)),
    }
}

/// On a processor, so that other work on the machine doesn't count.
fn time_of_this_thread() -> Duration {
    let numbers = fs::read_to_string("/proc/thread-self/schedstat").unwrap_or_default();
    Duration::from_nanos(numbers.split(' ').next().map_or(0, |first| first.parse().unwrap_or(0)))
}

struct Run {
    long: bool,
    rng: Rng,
    tally: Tally,
}

impl Run {
    fn job(&mut self, job: Job) -> Outcome {
        match job {
            Job::Worked => self.worked(),
            Job::Short(form) => self.short(form),
            Job::ShortCalls(form) => self.short_calls(form),
            Job::Write(form, count) => self.write(form, count),
            Job::Read(form, count) => self.read(form, count),
            Job::Change(form, count) => self.change(form, count),
            Job::Spoil => self.spoil(),
        }
    }

    fn worked(&mut self) -> Outcome {
        self_check::worked_lists()?;
        self_check::worked_refusals()?;
        self_check::worked_too_large()?;
        self_check::worked_hits()?;
        #[cfg(feature = "linked")]
        writing::check_beginning()?;
        Ok(())
    }

    fn short(&mut self, form: Form) -> Outcome {
        let above = |list: &List| list.ids.last().map_or(0, |last| last + 1);
        for list in all_lists(form, |list| documents(above(list)..6, &[1, 2, 3])) {
            self.accepted(&list)?;
            self.sound(&list)?;
        }
        #[cfg(feature = "linked")]
        for list in writing::short_lists(form) {
            self.list(&list, |list, _| writing::check(list, true))?;
        }
        Ok(())
    }

    /// All lists of three calls over all lists of ids below five, and of four calls around the borders
    /// of two or three blocks and a tail.
    fn short_calls(&mut self, form: Form) -> Outcome {
        let seek = |target: u32| 1 << 32 | u64::from(target);
        let above = |list: &List| list.ids.last().map_or(0, |last| last + 1);
        let next = |list: &List| documents(above(list)..5, &[1 + list.ids.len() as u32]);
        let mut calls: Vec<u64> = (0..=5).map(seek).collect();
        calls.extend([0, seek(TERMINATED), seek(TERMINATED + 1)]);
        for list in all_lists(form, next) {
            self.all_calls(&list, &calls, 3)?;
        }
        for count in [256, 257, 385] {
            let freqs = (0..count).map(|i| 1 + i % 7).collect();
            let ids = (0..count).map(|i| 2 * i).collect();
            let list = List { mode: form.0, record: form.1, ids, freqs };
            let mut calls: Vec<u64> = [0, 253, 254, 255, 256, 510, 511, 512].map(seek).to_vec();
            calls.extend([0, seek(TERMINATED), seek(TERMINATED + 1)]);
            self.all_calls(&list, &calls, if self.long { 5 } else { 4 })?;
        }
        Ok(())
    }

    fn all_calls(&mut self, list: &List, calls: &[u64], longest: u32) -> Outcome {
        let image = odd_image(list, Style::any(&mut self.rng), &mut self.rng);
        let opener = Opener::new(&image);
        for requested in 0..3 {
            let documents = sound::documents(list, requested);
            let several = calls.len() as u64;
            for number in 0..several.pow(longest) {
                // The digits of the number, the last ones first, are the calls. One in two is lent.
                let digit = |place| number / several.pow(place) % several;
                let lent = |_| 2 * self.rng.below(2) << 32;
                let lent: Vec<u64> = (0..longest).map(lent).collect();
                let calls: Vec<u64> = (0..longest)
                    .map(|place| calls[digit(place) as usize] | lent[place as usize])
                    .collect();
                sound::check_calls(&image, &opener, requested, &documents, &calls, &mut self.tally)
                    .map_err(|difference| format!("{difference}\n  of {list}\n  in {image}"))?;
            }
        }
        Ok(())
    }

    #[cfg_attr(not(feature = "linked"), allow(unused_variables))]
    fn write(&mut self, form: Form, count: usize) -> Outcome {
        let shapes = Shape::several(&mut self.rng);
        for shape in &shapes {
            let list = shape.list(&mut self.rng, form, count);
            self.accepted(&list)?;
        }
        #[cfg(feature = "linked")]
        for place in 0..count {
            let shape = shapes[place % shapes.len()];
            let list = shape.list(&mut self.rng, form, count);
            for (way, list) in writing::spoiled(&list, place).iter().enumerate() {
                // Single documents in one way at each place, where the lists are longer.
                let single = self.long || count <= 130 || way == place % 5;
                self.list(list, |list, _| writing::check(list, single))?;
            }
        }
        Ok(())
    }

    fn read(&mut self, form: Form, count: usize) -> Outcome {
        let times = if self.long { 4 } else { 1 };
        for _ in 0..times {
            for shape in Shape::several(&mut self.rng).into_iter().take(7) {
                let list = shape.list(&mut self.rng, form, count);
                self.sound(&list)?;
            }
        }
        Ok(())
    }

    fn change(&mut self, form: Form, count: usize) -> Outcome {
        let shapes = [(2, 2), (8, 1), (0, 0), (31, 32)];
        let mut images = Vec::new();
        for (gap_bits, freq_bits) in shapes {
            let shape = Shape { gap_bits, freq_bits, to_the_end: gap_bits == 31 };
            let list = shape.list(&mut self.rng, form, count);
            images.push(odd_image(&list, Style::NON_STRICT, &mut self.rng));
            let bytes = oracle::write(list.mode, list.record, &list.ids, &list.freqs);
            images.push(Image { mode: form.0, count: count as u32, bytes });
        }
        for image in &images {
            let mut others = changed(image, self.long || image.bytes.len() <= 24);
            others.extend(cut_and_lengthened(image));
            others.extend(miscounted(image));
            others.extend(other_skip_lengths(image));
            for other in others {
                self.damaged(&other)?;
            }
        }
        Ok(())
    }

    fn spoil(&mut self) -> Outcome {
        for turn in 0..if self.long { 60_000 } else { 6_000 } {
            let form = FORMS[turn % 4];
            let rng = &mut self.rng;
            let image = if turn % 3 == 0 {
                damage::random(rng)
            } else {
                let tail = [0, 1, 2, 5, 30, 127][rng.below(6) as usize];
                let count = 128 * rng.below(4) as usize + tail;
                let shapes = Shape::several(rng);
                let list = shapes[rng.below(10) as usize].list(rng, form, count);
                let faults = 1 + rng.below(3);
                damage::spoiled(&list, faults, rng)
            };
            self.damaged(&image)?;
        }
        Ok(())
    }

    /// An accepted list, written by the Rust and by the library.
    fn accepted(&mut self, list: &List) -> Outcome {
        self.list(list, |list, _| {
            self_check::two_terms(list)?;
            #[cfg(feature = "linked")]
            writing::check(list, true)?;
            Ok(())
        })
    }

    fn sound(&mut self, list: &List) -> Outcome {
        let seed = self.rng.draw();
        self.check(
            list,
            |list, tally| sound::check(list, &mut Rng::new(seed), tally),
            |list, fails| smallest(list, fails),
        )
    }

    fn list(&mut self, list: &List, check: impl Fn(&List, &mut Tally) -> Outcome) -> Outcome {
        self.tally.written += 1;
        self.check(list, check, |list, fails| smallest(list, fails))
    }

    fn damaged(&mut self, image: &Image) -> Outcome {
        let seed = self.rng.draw();
        self.check(
            image,
            |image, tally| damaged::check(image, &mut Rng::new(seed), tally),
            |image, fails| damage::smallest(image, fails),
        )
    }

    /// A difference is told of the smallest input that can be found from this one.
    fn check<T: Clone + std::fmt::Display>(
        &mut self,
        input: &T,
        check: impl Fn(&T, &mut Tally) -> Outcome,
        smallest: impl Fn(T, &dyn Fn(&T) -> bool) -> T,
    ) -> Outcome {
        // A panic is a difference as well.
        let check = |input: &T, tally: &mut Tally| {
            catch_unwind(AssertUnwindSafe(|| check(input, tally)))
                .unwrap_or_else(|_| Err("panic".into()))
        };
        if check(input, &mut self.tally).is_ok() {
            return Ok(());
        }
        // Where it panicked has been told; those of smaller inputs need not be.
        panic::set_hook(Box::new(|_| {}));
        let end = Instant::now() + SEARCH;
        let fails =
            |input: &T| Instant::now() < end && check(input, &mut Tally::default()).is_err();
        let input = smallest(input.clone(), &fails);
        check(&input, &mut Tally::default())
            .map_err(|difference| format!("{difference}\n  of {input}"))
    }
}
