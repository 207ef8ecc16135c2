//! The owner of the memory that the calls work in.

use crate::answer::{PairRefusal, Refusal, told, told_pair};
use crate::raw::{self, WORK_WORDS};

/// Room for a plan at the start. Most plans are no longer than their sheets.
const PLAN_BYTES: usize = 65_536;

/// The work slices for one sheet.
struct Work([Box<[u32]>; 4]);

impl Work {
    fn new() -> Self {
        Work(std::array::from_fn(|_| vec![0; WORK_WORDS].into_boxed_slice()))
    }

    fn lent(&mut self) -> [&mut [u32]; 4] {
        self.0.each_mut().map(|words| &mut words[..])
    }
}

/// Lowers sheets, one after another, in memory that it keeps. What an earlier
/// sheet left there has no bearing on a later one.
pub struct Planner {
    /// For a sheet by itself, and for the left one of a pair.
    work: Work,
    /// For the right one of a pair. Whoever lowers no pairs does without it.
    right: Option<Work>,
    plan: Vec<u8>,
}

impl Default for Planner {
    fn default() -> Self {
        Self::new()
    }
}

impl Planner {
    /// Takes 256 KiB for the work slices and 64 KiB for plans. The first pair
    /// takes 256 KiB more, for the work slices of its right sheet.
    pub fn new() -> Self {
        Planner { work: Work::new(), right: None, plan: vec![0; PLAN_BYTES] }
    }

    /// The sizing call: checks a sheet without lowering it. Accepted, it gives
    /// a figure that is at least the operator count of the plan and at most
    /// four times the record count.
    pub fn size(&mut self, sheet: &[u8]) -> Result<usize, Refusal> {
        let mut answer = [0; 6];
        let written = raw::size(sheet, self.work.lent(), &mut answer);
        assert!(written, "six words have room for an answer");
        told(answer)
    }

    /// The plan sheet of a statement sheet. Never refused with
    /// [`Refusal::NoRoom`]: for a plan that does not fit, room is made.
    pub fn plan(&mut self, sheet: &[u8]) -> Result<&[u8], Refusal> {
        self.with_room(|planner, plan| planner.lower(sheet, plan))
    }

    /// The plan sheet of two statement sheets, which gives the rows of both as
    /// one list: as UNION does, or with `all` as UNION ALL. Never refused with
    /// [`Refusal::NoRoom`].
    ///
    /// The same variable id in both sheets is two variables. The `v` lines at
    /// the plan's end are the right sheet's alone.
    ///
    /// ```
    /// use dresserhawk::{PairRefusal, Planner, Refusal, Side};
    ///
    /// let mut planner = Planner::new();
    /// let (books, none) = (b"stmt\t1\t0\nunwind\t7\t0\t9\nparam\tbooks\n", b"stmt\t0\t0\n");
    /// let plan = planner.plan_pair(none, books, true).expect("accepted");
    /// assert_eq!(
    ///     std::str::from_utf8(plan).unwrap().replace('\t', " "),
    ///     "plan 4 1\nsource 0 0\nunwind 0 0\nparam books\nsource 1 0\nunion 2 1 1\nv 0 7\n"
    /// );
    ///
    /// let refused = planner.plan_pair(none, b"stmt\t1\t0\nwrite\t0\t9\n", true);
    /// let due = PairRefusal { side: Some(Side::Right), refusal: Refusal::WriteClause { line: 2 } };
    /// assert_eq!(refused, Err(due));
    /// assert_eq!(due.to_string(), "right sheet: line 2: a clause that writes");
    /// ```
    pub fn plan_pair(
        &mut self,
        left: &[u8],
        right: &[u8],
        all: bool,
    ) -> Result<&[u8], PairRefusal> {
        self.with_room(|planner, plan| planner.lower_pair(left, right, all, plan))
    }

    /// The lowering call, with the plan into a slice of the caller's: its
    /// length. Refused, the slice is as it was; accepted, so is what stands
    /// behind the plan.
    pub fn lower(&mut self, sheet: &[u8], plan: &mut [u8]) -> Result<usize, Refusal> {
        let mut answer = [0; 6];
        let written = raw::lower(sheet, self.work.lent(), plan, &mut answer);
        assert!(written, "six words have room for an answer");
        told(answer)
    }

    /// The call that [`plan_pair`](Planner::plan_pair) makes, with the plan into
    /// a slice of the caller's as by [`lower`](Planner::lower).
    pub fn lower_pair(
        &mut self,
        left: &[u8],
        right: &[u8],
        all: bool,
        plan: &mut [u8],
    ) -> Result<usize, PairRefusal> {
        let mut answer = [0; 6];
        let right_work = self.right.get_or_insert_with(Work::new).lent();
        let written =
            raw::lower_pair(left, right, all, self.work.lent(), right_work, plan, &mut answer);
        assert!(written, "six words have room for an answer");
        told_pair(answer)
    }

    /// The plan that a call writes into the planner's own slice. As long as the
    /// call has no room, the slice is made longer and the call made again.
    fn with_room<E: Copy + Into<Refusal>>(
        &mut self,
        call: impl Fn(&mut Self, &mut [u8]) -> Result<usize, E>,
    ) -> Result<&[u8], E> {
        loop {
            let mut plan = std::mem::take(&mut self.plan);
            let length = call(self, &mut plan);
            self.plan = plan;
            match length {
                Ok(length) => return Ok(&self.plan[..length]),
                Err(refused) if refused.into() == Refusal::NoRoom => {
                    self.plan.resize(2 * self.plan.len(), 0);
                }
                Err(refused) => return Err(refused),
            }
        }
    }
}
