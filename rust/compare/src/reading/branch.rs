//! The branches of the lowering, counted so that a run can show that it took
//! every one.

macro_rules! branches {
    ($($name:ident: $what:literal,)+) => {
        #[derive(Debug, Clone, Copy)]
        pub enum Branch { $($name,)+ }

        /// What each branch is, in the enum's order.
        pub const WHAT: &[&str] = &[$($what,)+];
    };
}

branches! {
    VariableAgain: "a variable met again",
    Unnamed: "an unnamed element or path",
    SourceAll: "a source-all",
    UnionLeftMissing: "a union without a left side",
    UnionRightMissing: "a union without a right side",
    CallFirst: "a call with no input",
    CallOn: "a call with an input",
    Distinct: "a distinct return",
    OptionalFirst: "an optional match first",
    OptionalOn: "an optional match with an operator before it",
    MatchDropsInput: "a match that leaves the previous operator unread",
    WithFilter: "a with and its filter",
    Aggregate: "a return of aggregates only",
    AggregateKeys: "a return of aggregates and others",
    AliasOfVariable: "a missing alias: variable",
    AliasOfProperty: "a missing alias: property",
    AliasOfFunction: "a missing alias: function",
    AliasOfOther: "a missing alias: other",
    NoParts: "a pattern with no parts",
    PartsUnread: "a pattern with parts left unread",
    Shortest: "a shortest path",
    AllShortest: "all shortest paths",
    ShortestAsChain: "a shortest part that is a chain",
    ShortestEndVanishes: "a shortest part's end with labels or props",
    SourceFilter: "a source's filter",
    TwoRels: "two rels running",
    RelAtEnd: "a rel at the end",
    NodeAfterNode: "a node with no rel pending",
    NamedPath: "a named chain",
}

/// The operators of a plan.
pub const OPERATORS: [&str; 16] = [
    "source", "expand", "filter", "project", "agg", "order", "skip", "limit", "distinct", "unwind",
    "union", "with", "optional", "short", "path", "call",
];

/// How many times each branch was taken and each operator pushed.
#[derive(Clone)]
pub struct Branches {
    pub taken: [u64; WHAT.len()],
    pub pushed: [u64; OPERATORS.len()],
}

impl Default for Branches {
    fn default() -> Self {
        Branches { taken: [0; WHAT.len()], pushed: [0; OPERATORS.len()] }
    }
}

impl Branches {
    pub fn meet(&mut self, branch: Branch) {
        self.taken[branch as usize] += 1;
    }

    pub fn meet_if(&mut self, taken: bool, branch: Branch) {
        if taken {
            self.meet(branch);
        }
    }

    /// Counts an operator by its first line's keyword.
    pub fn operator(&mut self, lines: &[u8]) {
        let end = lines.iter().position(|&b| b == b'\t').unwrap_or(lines.len());
        let known = OPERATORS.iter().position(|word| word.as_bytes() == &lines[..end]);
        self.pushed[known.expect("an operator of the list")] += 1;
    }
}
