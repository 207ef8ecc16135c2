//! The check of the tree: refusals 6 to 8.

use super::Answer;
use super::sheet::{Form, Record, Span};

/// The first fault of the walk. Clauses, then arms, then children, all in sheet order, and a
/// part's head before what hangs below it: each record is met before its descendants.
pub fn first_fault(records: &[Record]) -> Option<Answer> {
    // Every record that can be at fault stands in a clause, so the outermost span is never told.
    walk(records, 0, records.len(), (0, 0))
}

/// Walks the records that are siblings between two places, with the span around them.
fn walk(records: &[Record], from: usize, to: usize, around: Span) -> Option<Answer> {
    let mut at = from;
    while at < to {
        let Record { form, end } = records[at];
        let inside = own_span(form).unwrap_or(around);
        let found = fault(records, at, around).or_else(|| walk(records, at + 1, end, inside));
        if found.is_some() {
            return found;
        }
        at = end;
    }
    None
}

/// The span that a record puts around its descendants: a clause's, and an element's for its
/// props. A pattern has none, and so keeps the one around it.
fn own_span(form: Form) -> Option<Span> {
    match form {
        Form::Match { span, .. }
        | Form::Where { span }
        | Form::Write { span }
        | Form::With { span, .. }
        | Form::Return { span, .. }
        | Form::Unwind { span, .. }
        | Form::Call { span, .. }
        | Form::Node { span, .. }
        | Form::Rel { span, .. } => Some(span),
        _ => None,
    }
}

/// The refusal that a record gives by itself.
fn fault(records: &[Record], at: usize, (start, end): Span) -> Option<Answer> {
    let (number, kind) = match records[at].form {
        Form::Unres(_) => (6, 0),
        Form::Undes(kind) => (7, kind as usize),
        Form::Part { elements: 0, .. } => (8, 0),
        // The first element stands right behind its part.
        Form::Part { .. } if matches!(records[at + 1].form, Form::Rel { .. }) => (8, 0),
        _ => return None,
    };
    Some([number, at + 1, start as usize, end as usize, kind, 0])
}

#[cfg(test)]
mod by_hand {
    use super::*;
    use crate::reading::sheet::by_hand::sheet;
    use crate::reading::sheet::read;

    fn check(lines: &str) -> Option<Answer> {
        let bytes = sheet(lines);
        first_fault(&read(&bytes).unwrap_or_else(|fault| panic!("{lines}: {fault:?}")))
    }

    const MATCH: &str = "stmt 1 0|match 0 1 2 8|part - 0";
    const REL: &str = "rel - 0 0 one - - 0 4 5";
    const NODE: &str = "node - 0 0 6 7";

    #[test]
    fn nothing_to_find() {
        assert_eq!(check("stmt 0 0"), None);
        assert_eq!(check("stmt 1 0|match 0 0 0 0"), None);
        assert_eq!(check("stmt 1 0|where 0 0|pat 0"), None);
        assert_eq!(first_fault(&[]), None);
    }

    #[test]
    fn m9_by_walk_and_not_by_kind() {
        let list = "stmt 1 0|return 1 0 0 0 0 3 9|item -|list 2";
        assert_eq!(check(&format!("{list}|unres a|undes 0")), Some([6, 5, 3, 9, 0, 0]));
        assert_eq!(check(&format!("{list}|undes 0|unres a")), Some([7, 5, 3, 9, 0, 0]));
        for kind in 0..4 {
            let lines = format!("{list}|null|undes {kind}");
            assert_eq!(check(&lines), Some([7, 6, 3, 9, kind, 0]));
        }
    }

    #[test]
    fn heads_of_parts() {
        assert_eq!(check(&format!("{MATCH} 0")), Some([8, 3, 2, 8, 0, 0]));
        assert_eq!(check(&format!("{MATCH} 1|{REL}")), Some([8, 3, 2, 8, 0, 0]));
        assert_eq!(check(&format!("{MATCH} 2|{REL}|{NODE}")), Some([8, 3, 2, 8, 0, 0]));
        assert_eq!(check(&format!("{MATCH} 1|{NODE}")), None);
        assert_eq!(check(&format!("{MATCH} 3|{NODE}|{REL}|{REL}")), None);
        assert_eq!(check(&format!("{MATCH} 3|{NODE}|{NODE}|{REL}")), None);
    }

    #[test]
    fn a_head_before_its_props_and_the_next_head_after() {
        let rel = "rel - 0 0 one - - 1 4 5|unres a";
        assert_eq!(check(&format!("{MATCH} 1|{rel}")), Some([8, 3, 2, 8, 0, 0]));
        let parts = "stmt 1 0|match 0 2 2 8|part - 0 1|node - 1 1 4 5|name a";
        let undes = format!("{parts}|undes 1|part - 0 0");
        assert_eq!(check(&undes), Some([7, 6, 4, 5, 1, 0]));
        // Behind the node its span holds no longer.
        assert_eq!(check(&format!("{parts}|null|part - 0 0")), Some([8, 7, 2, 8, 0, 0]));
    }

    #[test]
    fn props_have_their_elements_span() {
        let rel = "rel - 1 0 one - - 1 4 5|name a|list 1|unres a";
        assert_eq!(check(&format!("{MATCH} 2|{NODE}|{rel}")), Some([6, 8, 4, 5, 0, 0]));
        let node = "node - 0 1 6 7|un 0|undes 2";
        assert_eq!(check(&format!("{MATCH} 2|{NODE}|{node}")), Some([7, 7, 6, 7, 2, 0]));
    }

    #[test]
    fn a_pattern_in_an_expression_keeps_the_span_around_it() {
        assert_eq!(check("stmt 1 0|where 3 9|pat 1|part - 0 0"), Some([8, 4, 3, 9, 0, 0]));
        let outer = format!("{MATCH} 1|node - 0 1 10 20|pat 2|part - 0 1|node - 0 1 11 12");
        let below = format!("{outer}|unres a|part - 0 0");
        assert_eq!(check(&below), Some([6, 8, 11, 12, 0, 0]));
        let behind = format!("{outer}|null|part - 0 0");
        assert_eq!(check(&behind), Some([8, 9, 10, 20, 0, 0]));
    }

    /// Puts `unres` for the nulls from each one on: the first of them is found, with the span.
    fn each_null(lines: &str, start: usize, end: usize) {
        let all: Vec<&str> = lines.split('|').collect();
        assert_eq!(check(lines), None);
        for at in (0..all.len()).filter(|&at| all[at] == "null") {
            let mut changed = all.clone();
            changed[at..].iter_mut().filter(|line| **line == "null").for_each(|l| *l = "unres a");
            assert_eq!(check(&changed.join("|")), Some([6, at + 1, start, end, 0, 0]), "{lines}");
        }
    }

    #[test]
    fn every_expression_is_met_in_sheet_order() {
        each_null("stmt 1 0|where 3 9|null", 3, 9);
        each_null("stmt 1 0|with 1 1 1 1 1 3 9|item -|null|null|key 0|null|null|null", 3, 9);
        each_null("stmt 1 0|return 1 0 1 1 1 3 9|item =a|null|key 0|null|null|null", 3, 9);
        each_null("stmt 1 0|unwind 1 3 9|null", 3, 9);
        each_null("stmt 1 0|call a 2 1 0 3 9|null|null|yield a 1", 3, 9);
        each_null("stmt 0 1|arm 0 1|where 3 9|null", 3, 9);
        for expression in [
            "prop a|null",
            "index|null|null",
            "slice 1 1|null|null|null",
            "list 2|null|null",
            "map 2|name a|null|name b|null",
            "fn a 2 0|null|null",
            "bin 0|null|null",
            "un 0|null",
            "case 1 1 1|null|null|null|null",
            "isnull 0|null",
            "in|null|null",
            "listp 0 0 1|null|null",
        ] {
            each_null(&format!("stmt 1 0|where 3 9|{expression}"), 3, 9);
        }
        each_null(&format!("{MATCH} 1|node - 0 1 4 5|null"), 4, 5);
    }

    #[test]
    fn clauses_in_order_then_arms() {
        let lines = |a: &str, b: &str, c: &str| {
            format!("stmt 2 1|where 1 2|{a}|where 3 4|{b}|arm 0 1|where 5 6|{c}")
        };
        assert_eq!(check(&lines("unres a", "undes 1", "pat 0")), Some([6, 3, 1, 2, 0, 0]));
        assert_eq!(check(&lines("null", "undes 1", "unres a")), Some([7, 5, 3, 4, 1, 0]));
        assert_eq!(check(&lines("null", "null", "undes 3")), Some([7, 8, 5, 6, 3, 0]));
    }
}
