//! Random well-formed sheets of a wanted number of records.

use crate::line;
use crate::lines::Bits;
use crate::rng::Rng;

/// The deepest record that a sheet may have.
const DEEPEST: usize = 64;

/// What a sheet is made of, chosen once for the sheet.
#[derive(Clone)]
struct Taste {
    /// Longest name, and whether numbers may be long too: a sheet of many
    /// records has no bytes to spare.
    name_len: usize,
    /// How many ids there are, and the first of them.
    ids: usize,
    first_id: u32,
    /// Out of a thousand expressions, how many are patterns.
    patterns: usize,
    /// Out of a thousand splits, how many give nearly all to one child.
    lopsided: usize,
    /// Out of a thousand places, how many get what the check refuses.
    faults: usize,
    /// Out of a thousand clauses, how many write.
    writes: usize,
    /// Names that are not UTF-8.
    raw: bool,
    arms: bool,
}

impl Taste {
    fn new(rng: &mut Rng, records: usize) -> Self {
        let name_len = match records {
            0..=60 => rng.pick(&[1, 3, 8, 30]),
            61..=600 => rng.pick(&[1, 2, 6]),
            _ => rng.pick(&[0, 1, 2]),
        };
        Taste {
            name_len,
            ids: rng.pick(&[1, 3, 10, 100, 5000]),
            first_id: if records < 600 { rng.pick(&[0, 0, 7, u32::MAX - 5000]) } else { 0 },
            patterns: rng.pick(&[0, 30, 150, 400, 800]),
            lopsided: rng.pick(&[0, 200, 600, 950]),
            faults: if rng.chance(150) { rng.pick(&[3, 20, 200]) } else { 0 },
            writes: if rng.chance(40) { rng.pick(&[50, 500]) } else { 0 },
            raw: rng.chance(20),
            arms: rng.chance(250),
        }
    }
}

/// A well-formed sheet of about so many records: exactly so many unless the
/// depth left no room.
pub fn sheet(rng: &mut Rng, records: usize) -> Vec<u8> {
    let taste = Taste::new(rng, records);
    made(rng, taste, records)
}

/// Two sheets of the same taste, so that their ids and names are often the same.
pub fn two_sheets(rng: &mut Rng, records: [usize; 2]) -> [Vec<u8>; 2] {
    let taste = Taste::new(rng, records[0].max(records[1]));
    records.map(|records| made(rng, taste.clone(), records))
}

fn made(rng: &mut Rng, taste: Taste, records: usize) -> Vec<u8> {
    let mut maker = Maker { rng, taste, out: Vec::new() };
    maker.statement(records.max(1));
    maker.out
}

struct Maker<'r> {
    rng: &'r mut Rng,
    taste: Taste,
    out: Vec<u8>,
}

/// The kinds of expression with children that can be asked for a number of
/// records.
const COMPOSITES: [&str; 11] =
    ["prop", "index", "slice", "list", "map", "fn", "bin", "un", "case", "isnull", "in"];

const WORDS: [&str; 12] =
    ["a", "Book", "title", "x y", "-", "=", "0", "é", "漢字", "|*", "\u{0}\r\u{7f}", "🦅"];

const FUNCTIONS: [&str; 16] = [
    "count",
    "Sum",
    "AVG",
    "min",
    "mAx",
    "collect",
    "stDev",
    "stdevp",
    "percentileCont",
    "PERCENTILEDISC",
    "counts",
    "coun",
    "",
    "size",
    "toUpper",
    "st_dev",
];

impl Maker<'_> {
    // ── shares ──

    /// Shares `records` out to children that need at least so many each. What
    /// they need must not be more than there is.
    fn shares(&mut self, least: &[usize], records: usize) -> Vec<usize> {
        let mut shares = least.to_vec();
        let mut spare = records.saturating_sub(least.iter().sum());
        if shares.is_empty() {
            return shares;
        }
        if self.rng.chance(self.taste.lopsided) {
            let heavy = self.rng.below(shares.len());
            shares[heavy] += spare;
            return shares;
        }
        // Steps of a random size, so that the shares are neither all alike nor
        // dealt out one by one.
        while spare > 0 {
            let step = self.rng.from(1, (spare / shares.len()).max(1) * 2).min(spare);
            let place = self.rng.below(shares.len());
            shares[place] += step;
            spare -= step;
        }
        shares
    }

    /// How many children of at least `least` records: few, rarely many.
    fn count(&mut self, least: usize, records: usize) -> usize {
        let most = records / least;
        match most {
            0 => 0,
            _ if self.rng.chance(150) => self.rng.from(1, most),
            _ => self.rng.from(1, most.min(4)),
        }
    }

    // ── fields ──

    fn name(&mut self) -> Vec<u8> {
        let mut name = Vec::new();
        let len = self.rng.from(0, self.taste.name_len);
        while name.len() < len {
            match self.rng.below(12) {
                0 if self.taste.raw => name.push(self.rng.from(128, 255) as u8),
                1 => name.extend(self.rng.pick(&[b"\\t", b"\\n", b"\\\\"])),
                2 | 3 => name.extend(self.rng.pick(&WORDS).as_bytes()),
                _ => name.push(self.rng.from(b'a' as usize, b'z' as usize) as u8),
            }
        }
        name
    }

    fn function(&mut self) -> Vec<u8> {
        if self.taste.name_len > 0 && self.rng.chance(700) {
            self.rng.pick(&FUNCTIONS).as_bytes().to_vec()
        } else {
            self.name()
        }
    }

    fn id(&mut self) -> u32 {
        self.taste.first_id + self.rng.below(self.taste.ids) as u32
    }

    fn maybe_id(&mut self) -> Option<u32> {
        self.rng.flag().then(|| self.id())
    }

    fn span(&mut self) -> (u32, u32) {
        let top = match self.taste.name_len {
            0..=2 => 9,
            _ => self.rng.pick(&[9, 99, 100_000, u32::MAX]),
        };
        let mut place = || self.rng.below(top as usize + 1) as u32;
        let (one, other) = (place(), place());
        (one.min(other), one.max(other))
    }

    fn bound(&mut self) -> Option<u64> {
        match self.rng.below(4) {
            0 => None,
            1 => Some(self.rng.pick(&[u64::MAX, 1 << 32, 0])),
            _ => Some(self.rng.below(20) as u64),
        }
    }

    // ── statement and clauses ──

    fn statement(&mut self, records: usize) {
        let left = records - 1;
        let arms = if self.taste.arms && left > 0 { self.count(1, left).min(5) } else { 0 };
        let head = if arms > 0 && self.rng.chance(200) { 0 } else { left };
        let clauses = if head > arms { self.clause_count(head - arms) } else { 0 };
        line!(&mut self.out, "stmt", clauses, arms);
        let shares = self.shares(&vec![1; clauses + arms], left);
        for (place, share) in shares.into_iter().enumerate() {
            if place < clauses {
                self.clause(share, 2);
            } else {
                let clauses = self.clause_count(share - 1);
                let all = self.rng.flag();
                line!(&mut self.out, "arm", all, clauses);
                for share in self.shares(&vec![1; clauses], share - 1) {
                    self.clause(share, 3);
                }
            }
        }
    }

    fn clause_count(&mut self, records: usize) -> usize {
        self.count(1, records)
    }

    fn clause(&mut self, records: usize, depth: usize) {
        if records == 1 && self.rng.chance(self.taste.writes) {
            let (s, e) = self.span();
            return line!(&mut self.out, "write", s, e);
        }
        let kinds = ["match", "match", "with", "return", "return", "call", "where", "unwind"];
        let kind = if records == 1 {
            self.rng.pick(&kinds[..6])
        } else if self.taste.patterns > 0 || self.rng.flag() {
            self.rng.pick(&kinds)
        } else {
            self.rng.pick(&kinds[2..])
        };
        let (s, e) = self.span();
        let left = records - 1;
        match kind {
            "match" => {
                let parts = self.count(2, left);
                let optional = self.rng.flag();
                line!(&mut self.out, "match", optional, parts, s, e);
                self.parts(parts, left, depth + 1);
            }
            "where" => {
                line!(&mut self.out, "where", s, e);
                self.expr(left, depth + 1);
            }
            "unwind" => {
                let var = self.id();
                line!(&mut self.out, "unwind", var, s, e);
                self.expr(left, depth + 1);
            }
            "call" => self.call(left, depth, (s, e)),
            _ => self.projection(kind, left, depth, (s, e)),
        }
    }

    fn call(&mut self, records: usize, depth: usize, (s, e): (u32, u32)) {
        let yields = self.rng.below(4).min(records);
        let args = self.count(1, records - yields);
        // What no argument takes, more yields do.
        let yields = if args == 0 { records } else { yields };
        let (name, optional) = (self.name(), self.rng.flag());
        line!(&mut self.out, "call", &name[..], args, yields, optional, s, e);
        for share in self.shares(&vec![1; args], records - yields) {
            self.expr(share, depth + 1);
        }
        for _ in 0..yields {
            let (name, var) = (self.name(), self.id());
            line!(&mut self.out, "yield", &name[..], var);
        }
    }

    /// A with or a return.
    fn projection(&mut self, kind: &str, records: usize, depth: usize, (s, e): (u32, u32)) {
        let mut left = records;
        let mut take = |times: usize, need: usize, rng: &mut Rng| {
            let taken = left >= need && rng.chance(times);
            left -= if taken { need } else { 0 };
            taken
        };
        let filter = kind == "with" && take(400, 1, self.rng);
        let skip = take(250, 1, self.rng);
        let limit = take(250, 1, self.rng);
        let key = take(300, 2, self.rng);
        let items = self.count(2, left);
        // One record cannot be an item: it goes where anything can.
        let skip = skip || (items == 0 && left > 0);
        let keys =
            if key { 1 + self.rng.below(2).min((left - 2 * items.min(left / 2)) / 2) } else { 0 };
        let distinct = kind == "return" && self.rng.flag();
        let second = if kind == "with" { filter } else { distinct };
        line!(&mut self.out, kind, items, second, keys, skip, limit, s, e);
        let mut least = vec![2; items];
        least.extend(vec![1; filter as usize]);
        least.extend(vec![2; keys]);
        least.extend(vec![1; skip as usize + limit as usize]);
        let shares = self.shares(&least, records);
        for (place, share) in shares.into_iter().enumerate() {
            if place < items {
                self.item(share, depth + 1);
            } else if (items + filter as usize..items + filter as usize + keys).contains(&place) {
                let descending = self.rng.flag();
                line!(&mut self.out, "key", descending);
                self.expr(share - 1, depth + 2);
            } else {
                self.expr(share, depth + 1);
            }
        }
    }

    fn item(&mut self, records: usize, depth: usize) {
        if self.rng.flag() {
            line!(&mut self.out, "item", "-");
        } else {
            let mut alias = vec![b'='];
            alias.extend(self.name());
            line!(&mut self.out, "item", &alias[..]);
        }
        if self.rng.chance(250) {
            self.call_of(records - 1, depth + 1);
        } else {
            self.expr(records - 1, depth + 1);
        }
    }

    // ── patterns ──

    fn parts(&mut self, count: usize, records: usize, depth: usize) {
        for share in self.shares(&vec![2; count], records) {
            self.part(share, depth);
        }
    }

    fn part(&mut self, records: usize, depth: usize) {
        let left = records - 1;
        let named = self.rng.chance(400).then(|| self.id());
        let shortest = if self.rng.chance(300) { self.rng.from(1, 2) } else { 0 };
        if self.rng.chance(self.taste.faults) {
            return line!(&mut self.out, "part", named, shortest, 0u32);
        }
        let elements = match shortest {
            0 => self.count(1, left),
            _ if left >= 3 && self.rng.chance(700) => 3,
            _ => self.count(1, left),
        };
        line!(&mut self.out, "part", named, shortest, elements);
        let mut rel = self.rng.chance(self.taste.faults);
        for share in self.shares(&vec![1; elements], left) {
            self.element(rel, share, depth + 1);
            // Nodes and rels take turns, mostly.
            rel = if self.rng.chance(850) { !rel } else { rel };
        }
    }

    fn element(&mut self, rel: bool, records: usize, depth: usize) {
        let left = records - 1;
        let props = left > 0 && (left > 3 || self.rng.flag());
        let names = if props { self.rng.below(left.min(4)) } else { left };
        let (var, (s, e)) = (self.maybe_id(), self.span());
        if rel {
            let dir = self.rng.below(3);
            if self.rng.flag() {
                line!(&mut self.out, "rel", var, names, dir, "one", "-", "-", props, s, e);
            } else {
                let (min, max) = (self.bound(), self.bound());
                line!(&mut self.out, "rel", var, names, dir, "var", min, max, props, s, e);
            }
        } else {
            line!(&mut self.out, "node", var, names, props, s, e);
        }
        for _ in 0..names {
            let name = self.name();
            line!(&mut self.out, "name", &name[..]);
        }
        if props {
            self.expr(left - names, depth + 1);
        }
    }

    // ── expressions ──

    fn leaf(&mut self) {
        if self.rng.chance(self.taste.faults) {
            if self.rng.flag() {
                let name = self.name();
                return line!(&mut self.out, "unres", &name[..]);
            }
            let kind = self.rng.below(4);
            return line!(&mut self.out, "undes", kind);
        }
        match self.rng.below(12) {
            0 => line!(&mut self.out, "null"),
            1 => line!(&mut self.out, "bool", self.rng.flag()),
            2 => {
                let int = self.int();
                line!(&mut self.out, "int", int);
            }
            3 if self.taste.name_len > 0 => {
                let bits = {
                    let any = self.rng.next();
                    self.rng.pick(&[0, 1 << 63, 0x7ff8_0000_0000_0001, any])
                };
                line!(&mut self.out, "float", Bits(bits));
            }
            4 => {
                let text = self.name();
                line!(&mut self.out, "str", &text[..]);
            }
            5 => {
                let name = self.name();
                line!(&mut self.out, "param", &name[..]);
            }
            6 => line!(&mut self.out, "list", 0u32),
            7 if self.rng.flag() => line!(&mut self.out, "map", 0u32),
            7 => line!(&mut self.out, "case", false, 0u32, false),
            8 => {
                let (name, distinct) = (self.function(), self.rng.flag());
                line!(&mut self.out, "fn", &name[..], 0u32, distinct);
            }
            9 if self.rng.chance(self.taste.patterns) => line!(&mut self.out, "pat", 0u32),
            _ => {
                let id = self.id();
                line!(&mut self.out, "var", id);
            }
        }
    }

    fn int(&mut self) -> i64 {
        if self.taste.name_len == 0 {
            return self.rng.below(10) as i64;
        }
        match self.rng.below(6) {
            0 => i64::MIN,
            1 => i64::MAX,
            2 => self.rng.next() as i64,
            _ => self.rng.below(200) as i64 - 100,
        }
    }

    /// An expression of so many records, at this depth.
    fn expr(&mut self, records: usize, depth: usize) {
        let left = records - 1;
        if left == 0 || depth >= DEEPEST {
            return self.leaf();
        }
        // A pattern with props needs four levels more.
        if depth + 4 <= DEEPEST && left >= 2 && self.rng.chance(self.taste.patterns) {
            let parts = self.count(2, left);
            line!(&mut self.out, "pat", parts);
            return self.parts(parts, left, depth + 1);
        }
        if self.rng.chance(90) {
            return self.listp(left, depth);
        }
        // Near the bottom only a list takes any number of records.
        let kind =
            if depth + 1 == DEEPEST && left > 3 { "list" } else { self.rng.pick(&COMPOSITES) };
        match kind {
            "prop" => {
                let name = self.name();
                line!(&mut self.out, "prop", &name[..]);
                self.expr(left, depth + 1);
            }
            "un" => {
                line!(&mut self.out, "un", self.rng.flag());
                self.expr(left, depth + 1);
            }
            "isnull" => {
                line!(&mut self.out, "isnull", self.rng.flag());
                self.expr(left, depth + 1);
            }
            "index" | "in" | "bin" if left >= 2 => {
                if kind == "bin" {
                    let op = self.rng.below(20);
                    line!(&mut self.out, "bin", op);
                } else {
                    line!(&mut self.out, kind);
                }
                self.exprs(2, left, depth + 1);
            }
            "slice" => {
                let (start, end) = (left > 1 && self.rng.flag(), left > 2 && self.rng.flag());
                line!(&mut self.out, "slice", start, end);
                self.exprs(1 + start as usize + end as usize, left, depth + 1);
            }
            "map" if left >= 2 => self.map(left, depth),
            "fn" => self.call_of(records, depth),
            "case" => self.case(left, depth),
            _ => {
                let n = if depth + 1 == DEEPEST { left } else { self.count(1, left) };
                line!(&mut self.out, "list", n);
                self.exprs(n, left, depth + 1);
            }
        }
    }

    fn exprs(&mut self, count: usize, records: usize, depth: usize) {
        for share in self.shares(&vec![1; count], records) {
            self.expr(share, depth);
        }
    }

    fn call_of(&mut self, records: usize, depth: usize) {
        let left = records - 1;
        let (name, distinct) = (self.function(), self.rng.flag());
        let args = if depth >= DEEPEST { 0 } else { self.count(1, left) };
        line!(&mut self.out, "fn", &name[..], args, distinct);
        if args > 0 {
            self.exprs(args, left, depth + 1);
        }
    }

    fn map(&mut self, records: usize, depth: usize) {
        let entries = self.count(2, records);
        line!(&mut self.out, "map", entries);
        for share in self.shares(&vec![2; entries], records) {
            let name = self.name();
            line!(&mut self.out, "name", &name[..]);
            self.expr(share - 1, depth + 1);
        }
    }

    fn case(&mut self, records: usize, depth: usize) {
        let (first, last) = match records {
            1 => (true, false),
            2 => (false, false),
            _ => (self.rng.flag(), self.rng.flag()),
        };
        let ends = first as usize + last as usize;
        let arms = if records > ends + 1 { self.count(2, records - ends) } else { 0 };
        // Records that no arm takes need an end to go to.
        let first = first || (ends == 0 && arms == 0);
        line!(&mut self.out, "case", first, arms, last);
        self.exprs(first as usize + last as usize + 2 * arms, records, depth + 1);
    }

    fn listp(&mut self, records: usize, depth: usize) {
        let (kind, var) = (self.rng.below(4), self.id());
        let pred = records >= 2 && self.rng.flag();
        line!(&mut self.out, "listp", kind, var, pred);
        self.exprs(1 + pred as usize, records, depth + 1);
    }
}
