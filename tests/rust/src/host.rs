//! The host entries: declarations as in `include/ringlist.h`, safe wrappers, and
//! calls compared with the model.

use std::collections::BTreeMap;

use crate::guard::Guarded;
use crate::model::carry::{self, Form};
use crate::model::host::{self, Resumed};
use crate::model::list::{Lists, Task};
use crate::model::mark::MARK_ROOM;
use crate::model::Record;
use crate::rng::Rng;
use crate::sample;

mod c {
    extern "C" {
        pub fn ringlist_resume(
            sheet: *const u8,
            sheet_len: usize,
            mark: *const u8,
            mark_len: usize,
            budget: u64,
            rings: *mut u8,
            rings_len: usize,
            next_mark: *mut u8,
            next_mark_len: usize,
        ) -> u32;
        pub fn ringlist_start(
            sheet: *const u8,
            sheet_len: usize,
            kind: u64,
            s: u64,
            t: u64,
            next_mark: *mut u8,
            next_mark_len: usize,
        ) -> u32;
        pub fn ringlist_count_shortest(
            sheet: *const u8,
            sheet_len: usize,
            s: u64,
            t: u64,
            count: *mut u64,
        ) -> u32;
        pub fn ringlist_carry_over(
            sheet: *const u8,
            sheet_len: usize,
            old_mark: *const u8,
            old_mark_len: usize,
            mark: *mut u8,
            mark_len: usize,
            length: *mut usize,
        ) -> u32;
        pub fn ringlist_carry_back(
            sheet: *const u8,
            sheet_len: usize,
            mark: *const u8,
            mark_len: usize,
            old_mark: *mut u8,
            old_mark_len: usize,
            length: *mut usize,
        ) -> u32;
        pub fn ringlist_molfile(
            molfile: *const u8,
            molfile_len: usize,
            sheet: *mut u8,
            sheet_len: usize,
            length: *mut usize,
        ) -> u32;
        pub fn ringlist_mark_length(mark: *const u8, mark_len: usize) -> usize;
        pub fn ringlist_listed(mark: *const u8, mark_len: usize) -> u64;
    }
}

pub fn resume(
    sheet: &[u8],
    mark: &[u8],
    budget: u64,
    rings: &mut [u8],
    next_mark: &mut [u8],
) -> u32 {
    // SAFETY: the pointers come with the lengths of live slices, and only
    // those borrowed mutably are written.
    unsafe {
        c::ringlist_resume(
            sheet.as_ptr(),
            sheet.len(),
            mark.as_ptr(),
            mark.len(),
            budget,
            rings.as_mut_ptr(),
            rings.len(),
            next_mark.as_mut_ptr(),
            next_mark.len(),
        )
    }
}

pub fn start(sheet: &[u8], [kind, s, t]: [u64; 3], next_mark: &mut [u8]) -> u32 {
    // SAFETY: the pointers come with the lengths of live slices, and only
    // the one borrowed mutably is written.
    unsafe {
        c::ringlist_start(
            sheet.as_ptr(),
            sheet.len(),
            kind,
            s,
            t,
            next_mark.as_mut_ptr(),
            next_mark.len(),
        )
    }
}

pub fn count_shortest(sheet: &[u8], (s, t): (u64, u64), count: &mut u64) -> u32 {
    // SAFETY: the first pointer comes with the length of a live slice, only
    // read, and the second is that of a number borrowed mutably.
    unsafe { c::ringlist_count_shortest(sheet.as_ptr(), sheet.len(), s, t, count) }
}

pub fn carry_over(sheet: &[u8], old_mark: &[u8], mark: &mut [u8], length: &mut usize) -> u32 {
    // SAFETY: the pointers come with the lengths of live slices, and only the
    // one borrowed mutably and the length are written.
    unsafe {
        c::ringlist_carry_over(
            sheet.as_ptr(),
            sheet.len(),
            old_mark.as_ptr(),
            old_mark.len(),
            mark.as_mut_ptr(),
            mark.len(),
            length,
        )
    }
}

pub fn carry_back(sheet: &[u8], mark: &[u8], old_mark: &mut [u8], length: &mut usize) -> u32 {
    // SAFETY: as for `carry_over`.
    unsafe {
        c::ringlist_carry_back(
            sheet.as_ptr(),
            sheet.len(),
            mark.as_ptr(),
            mark.len(),
            old_mark.as_mut_ptr(),
            old_mark.len(),
            length,
        )
    }
}

pub fn molfile(molfile: &[u8], sheet: &mut [u8], length: &mut usize) -> u32 {
    // SAFETY: the pointers come with the lengths of live slices, and only the
    // one borrowed mutably and the length are written.
    unsafe {
        c::ringlist_molfile(
            molfile.as_ptr(),
            molfile.len(),
            sheet.as_mut_ptr(),
            sheet.len(),
            length,
        )
    }
}

/// The fresh mark of a task that the sheet allows.
pub fn fresh_mark(sheet: &[u8], task: Task) -> Vec<u8> {
    let mut mark = [b'x'; MARK_ROOM];
    assert_eq!(start(sheet, task.numbers(), &mut mark), 0, "{task:?}");
    mark[..mark_length(&mark)].to_vec()
}

pub fn mark_length(mark: &[u8]) -> usize {
    // SAFETY: the pointer comes with the length of a live slice, only read.
    unsafe { c::ringlist_mark_length(mark.as_ptr(), mark.len()) }
}

pub fn listed(mark: &[u8]) -> u64 {
    // SAFETY: the pointer comes with the length of a live slice, only read.
    unsafe { c::ringlist_listed(mark.as_ptr(), mark.len()) }
}

/// A sheet, and what the model reads in it.
pub type Sheet<'a> = (&'a [u8], Result<&'a dyn Lists, u32>);

/// Compares calls of the entry, and counts its answers.
pub struct Entry {
    seeds: Rng,
    answers: BTreeMap<u32, u64>,
}

impl Entry {
    pub fn new(seed: u64) -> Entry {
        Entry {
            seeds: Rng::new(seed),
            answers: BTreeMap::new(),
        }
    }

    pub fn calls(&self) -> u64 {
        self.answers.values().sum()
    }

    pub fn print(&self) {
        println!("{} calls; answers {:?}", self.calls(), self.answers);
    }

    /// Each answer was given often enough. Of a sample a quarter of its share
    /// will do, as small numbers of cases vary.
    pub fn at_least(&self, count: u64, answers: &[u32]) {
        let count = match sample() {
            1 => count,
            divisor => count / (4 * divisor),
        };
        for answer in answers {
            let given = self.answers.get(answer).copied().unwrap_or(0);
            assert!(given >= count, "{answer} only {given} times");
        }
    }

    /// One call: the answer, every byte of both outputs with the margins around
    /// them, and the two inputs, which stay as they are.
    pub fn resume(
        &mut self,
        (sheet, read): Sheet,
        mark: &[u8],
        budget: u64,
        (room, mark_room): (usize, usize),
    ) -> Result<Resumed, u32> {
        // Copies of exactly their length, so that valgrind sees a read past
        // the end.
        let (given_sheet, given_mark): (Box<[u8]>, Box<[u8]>) = (sheet.into(), mark.into());
        let seed = self.seeds.next();
        let mut rings = Guarded::new(room, seed);
        let mut next = Guarded::new(mark_room, seed.rotate_left(32));
        let answer = resume(
            &given_sheet,
            &given_mark,
            budget,
            rings.buffer(),
            next.buffer(),
        );
        let expected = host::resume(read, mark, budget, room, mark_room);
        let (code, parts) = match &expected {
            Ok(resumed) => (
                resumed.stop as u32,
                [rings.begins(&resumed.records), next.begins(&resumed.mark)],
            ),
            Err(rule) => (*rule, [rings.is_untouched(), next.is_untouched()]),
        };
        let call = || {
            format!(
                "budget {budget}, {room} and {mark_room} bytes\nsheet {}\nmark {}\nexpected {expected:?}",
                sheet.escape_ascii(),
                mark.escape_ascii()
            )
        };
        assert_eq!(answer, code, "answer; {}", call());
        assert!(parts[0], "rings ({answer}); {}", call());
        assert!(parts[1], "next mark ({answer}); {}", call());
        assert!(*given_sheet == *sheet, "the sheet was written; {}", call());
        assert!(*given_mark == *mark, "the mark was written; {}", call());
        if let Ok(resumed) = &expected {
            assert_eq!(mark_length(next.buffer()), resumed.mark.len());
            assert_eq!(listed(next.buffer()), resumed.search.listed);
        }
        *self.answers.entry(answer).or_default() += 1;
        expected
    }

    /// A start, compared in the same way. It counts as a call, and its mark
    /// written as the answer 0.
    pub fn start(
        &mut self,
        (sheet, read): Sheet,
        numbers: [u64; 3],
        mark_room: usize,
    ) -> Result<Vec<u8>, u32> {
        let given: Box<[u8]> = sheet.into();
        let mut next = Guarded::new(mark_room, self.seeds.next());
        let answer = start(&given, numbers, next.buffer());
        let expected = host::start(read, numbers, mark_room);
        let (code, written) = match &expected {
            Ok(mark) => (0, next.begins(mark)),
            Err(rule) => (*rule, next.is_untouched()),
        };
        let call = || {
            let sheet = sheet.escape_ascii();
            format!(
                "kind, s, t {numbers:?}, {mark_room} bytes\nsheet {sheet}\nexpected {expected:?}"
            )
        };
        assert_eq!(answer, code, "answer; {}", call());
        assert!(written, "next mark ({answer}); {}", call());
        assert!(*given == *sheet, "the sheet was written; {}", call());
        if let Ok(mark) = &expected {
            assert_eq!(mark_length(next.buffer()), mark.len());
            assert_eq!(listed(next.buffer()), 0);
        }
        *self.answers.entry(answer).or_default() += 1;
        expected
    }
}

impl Entry {
    /// The number of shortest paths, compared in the same way: it holds anything
    /// before the call, and stands between others that are kept. An answer counts
    /// as a call.
    pub fn count_shortest(
        &mut self,
        (sheet, read): (&[u8], Result<&Record, u32>),
        s: u64,
        t: u64,
    ) -> Result<u64, u32> {
        let given: Box<[u8]> = sheet.into();
        let mut number = Guarded::numbers(1, self.seeds.next());
        let answer = count_shortest(&given, (s, t), &mut number.buffer()[0]);
        let expected = host::count_shortest(read, s, t);
        let (code, right) = match expected {
            Ok(count) => (0, number.holds(&[count])),
            Err(rule) => (rule, number.is_untouched()),
        };
        let now = number.buffer()[0];
        let call = || {
            let sheet = sheet.escape_ascii();
            format!("{s} to {t}, now {now}, expected {expected:?}\nsheet {sheet}")
        };
        assert_eq!(answer, code, "answer; {}", call());
        assert!(right, "count ({answer}); {}", call());
        assert!(*given == *sheet, "the sheet was written; {}", call());
        *self.answers.entry(answer).or_default() += 1;
        expected
    }
}

impl Entry {
    /// A molfile that reads as `read` says, with `room` bytes for its sheet,
    /// compared in the same way: the length holds anything before the call, and
    /// stands between others that are kept. A sheet written counts as the answer 0.
    pub fn molfile(
        &mut self,
        (file, read): (&[u8], Result<&Record, u32>),
        room: usize,
    ) -> Result<Vec<u8>, u32> {
        let given: Box<[u8]> = file.into();
        let seed = self.seeds.next();
        let mut sheet = Guarded::new(room, seed);
        let mut length = Guarded::lengths(1, seed);
        let answer = molfile(&given, sheet.buffer(), &mut length.buffer()[0]);
        let expected = host::molfile(read, room);
        let (code, parts) = match &expected {
            Ok(made) => (0, [sheet.begins(made), length.holds(&[made.len()])]),
            Err(rule) => (*rule, [sheet.is_untouched(), length.is_untouched()]),
        };
        let call = || {
            let made = expected
                .as_ref()
                .map(|made| made.escape_ascii().to_string());
            let file = file.escape_ascii();
            format!("{room} bytes, expected {made:?}\nmolfile {file}")
        };
        assert_eq!(answer, code, "answer; {}", call());
        assert!(parts[0], "sheet ({answer}); {}", call());
        assert!(parts[1], "length ({answer}); {}", call());
        assert!(*given == *file, "the molfile was written; {}", call());
        *self.answers.entry(answer).or_default() += 1;
        expected
    }
}

/// A wrapper of an entry that carries marks: sheet, mark, output and length.
type Carry = fn(&[u8], &[u8], &mut [u8], &mut usize) -> u32;

/// Compares calls of the two entries that carry marks, and counts the answers of
/// each.
pub struct Carrier {
    over: Entry,
    back: Entry,
}

impl Carrier {
    pub fn new(seed: u64) -> Carrier {
        Carrier {
            over: Entry::new(seed),
            back: Entry::new(!seed),
        }
    }

    pub fn calls(&self) -> u64 {
        self.over.calls() + self.back.calls()
    }

    pub fn print(&self) {
        let (over, back) = (&self.over.answers, &self.back.answers);
        println!("{} calls; over {over:?}; back {back:?}", self.calls());
    }

    /// Each of the two gave each answer often enough.
    pub fn at_least(&self, count: u64, answers: &[u32]) {
        self.over.at_least(count, answers);
        self.back.at_least(count, answers);
    }

    /// One call, of the entry that takes marks of this form, with an output of
    /// `room` bytes: the answer, every byte of the output and the length, which
    /// holds anything before the call, with the margins around them, and the two
    /// inputs. A mark written counts as the answer 0.
    pub fn carry(
        &mut self,
        from: Form,
        (sheet, read): Sheet,
        mark: &[u8],
        room: usize,
    ) -> Result<Vec<u8>, u32> {
        let (entry, function): (_, Carry) = match from {
            Form::Old => (&mut self.over, carry_over),
            Form::New => (&mut self.back, carry_back),
        };
        let (given_sheet, given_mark): (Box<[u8]>, Box<[u8]>) = (sheet.into(), mark.into());
        let seed = entry.seeds.next();
        let mut out = Guarded::new(room, seed);
        let mut length = Guarded::lengths(1, seed);
        let place = &mut length.buffer()[0];
        let answer = function(&given_sheet, &given_mark, out.buffer(), place);
        let expected = carry::carry(from, read, mark, room);
        let (code, parts) = match &expected {
            Ok(carried) => (0, [out.begins(carried), length.holds(&[carried.len()])]),
            Err(rule) => (*rule, [out.is_untouched(), length.is_untouched()]),
        };
        let call = || describe((sheet, mark), from, room, &expected);
        assert_eq!(answer, code, "answer; {}", call());
        assert!(parts[0], "output ({answer}); {}", call());
        assert!(parts[1], "length ({answer}); {}", call());
        assert!(*given_sheet == *sheet, "the sheet was written; {}", call());
        assert!(*given_mark == *mark, "the mark was written; {}", call());
        *entry.answers.entry(answer).or_default() += 1;
        expected
    }
}

/// A call that carries a mark, for messages.
fn describe(
    (sheet, mark): (&[u8], &[u8]),
    from: Form,
    room: usize,
    expected: &Result<Vec<u8>, u32>,
) -> String {
    let [sheet, mark] = [sheet, mark].map(|bytes| bytes.escape_ascii().to_string());
    let expected = expected
        .as_ref()
        .map(|carried| carried.escape_ascii().to_string());
    format!("from {from:?}, {room} bytes\nsheet {sheet}\nmark {mark}\nexpected {expected:?}")
}

/// A whole listing through the entry.
pub struct Whole {
    /// The records of all calls joined.
    pub sheet: Vec<u8>,
    pub calls: u64,
    /// 101 or 102.
    pub stop: u32,
    /// The last mark.
    pub mark: Vec<u8>,
}

impl Whole {
    /// Trials, extensions, listed, from the last mark.
    pub fn counts(&self) -> [u64; 3] {
        [29, 49, 69].map(|at| {
            let text = std::str::from_utf8(&self.mark[at..at + 20]).expect("a mark is text");
            text.trim_start().parse().expect("a count")
        })
    }
}

/// Calls the entry again and again, from `mark`, each time with the mark that
/// the call before wrote, until done or limit. `next` gives the budget and the
/// bytes for rings of each call. Bytes past the records and the mark, which are
/// filled anew before every call, keep their values.
pub fn list(sheet: &[u8], mark: &[u8], mut next: impl FnMut() -> (u64, usize)) -> Whole {
    let mut whole = Whole {
        sheet: Vec::new(),
        calls: 0,
        stop: 0,
        mark: mark.to_vec(),
    };
    while whole.stop != 101 && whole.stop != 102 {
        let (budget, room) = next();
        let fill = (whole.calls % 251) as u8;
        let mut rings = vec![fill; room];
        let mut saved = [!fill; MARK_ROOM + 41];
        whole.stop = resume(sheet, &whole.mark, budget, &mut rings, &mut saved);
        assert!(whole.stop > 100, "refused {}", whole.stop);
        let mut used = 0;
        for _ in listed(&whole.mark)..listed(&saved) {
            used += 1 + usize::from(rings[used]);
        }
        let len = mark_length(&saved);
        assert!(rings[used..] == vec![fill; room - used]);
        assert!(saved[len..] == [!fill; MARK_ROOM + 41][len..]);
        whole.sheet.extend_from_slice(&rings[..used]);
        whole.mark = saved[..len].to_vec();
        whole.calls += 1;
    }
    whole
}
