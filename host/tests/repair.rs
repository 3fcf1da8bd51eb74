//! Repair against a run of the new text, and what it says it did.

use feel_lexer::{Flags, Item, Record, Repaired, Scope, Text, TokenType, Workspace};

fn run(rule: &str, flags: Flags, scope: &Scope, work: &mut Workspace) -> Record {
    let text: Text = rule.parse().unwrap();
    Record::run(text, TokenType::StartExpression, flags, scope, work).unwrap()
}

fn scope_of(names: &[&str]) -> Scope {
    let mut scope = Scope::new();
    for name in names {
        scope.set_entry_name(name).unwrap();
    }
    scope
}

/// An item moved by an edit that makes the text longer by `more` (shorter where it is negative).
fn moved(item: Item<'_>, more: isize) -> Item<'_> {
    Item {
        from: item.from.wrapping_add_signed(more),
        position: item.position.wrapping_add_signed(more),
        reach: item.reach.wrapping_add_signed(more),
        ..item
    }
}

/// What a repair says holds: the items kept are the old ones, those moved the old ones moved.
fn told_truly(old: &Record, new: &Record, repaired: Repaired) {
    let Repaired {
        kept,
        fresh,
        moved: tail,
    } = repaired;
    assert_eq!(kept + fresh + tail, new.len());
    for i in 0..kept {
        assert_eq!(old.item(i), new.item(i));
    }
    let more = new.text().len() as isize - old.text().len() as isize;
    for (old, new) in old.items().rev().zip(new.items().rev()).take(tail) {
        // A refusal's place moves with it.
        if old.read.is_ok() {
            assert_eq!(moved(old, more), new);
        }
    }
}

/// Random numbers, the same each time.
struct Random(u64);

impl Random {
    fn below(&mut self, n: usize) -> usize {
        self.0 = self.0.wrapping_mul(6364136223846793005).wrapping_add(1);
        (self.0 >> 33) as usize % n
    }

    fn text(&mut self, most: usize) -> String {
        const PIECES: [&str; 28] = [
            "row",
            "width",
            "gutter",
            "-",
            " ",
            " ",
            "  ",
            "+",
            "..",
            ".5",
            "12",
            "1e",
            "\"",
            "\"a\"",
            "\"\\uD83D\\uDE4F\"",
            "\\u",
            "if ",
            "in ",
            "and ",
            "item",
            "//",
            "\n",
            "/*",
            "*/",
            "é",
            ":",
            "(",
            "#",
        ];
        let pieces = self.below(most + 1);
        (0..pieces)
            .map(|_| PIECES[self.below(PIECES.len())])
            .collect()
    }
}

#[test]
fn repair_is_a_run_of_the_new_text() {
    let mut random = Random(1);
    let mut work = Workspace::new();
    let scopes = [
        scope_of(&[]),
        scope_of(&["row width"]),
        scope_of(&["row", "row width", "row width-gutter", "é"]),
    ];
    let till_in = Flags {
        till_in: true,
        between: true,
        ..Flags::default()
    };
    for round in 0..300 {
        let scope = &scopes[round % 3];
        let flags = if round % 4 == 0 {
            till_in
        } else {
            Flags::default()
        };
        let mut record = run(&random.text(40), flags, scope, &mut work);
        for _ in 0..10 {
            let old = record.clone();
            let (a, b) = (
                random.below(old.text().len() + 1),
                random.below(old.text().len() + 1),
            );
            let range = a.min(b)..a.max(b).min(a.min(b) + 6);
            let replacement = random.text(3);
            let repaired = record
                .repair(range.clone(), &replacement, scope, &mut work)
                .unwrap();
            let new: String = {
                let chars: Vec<char> = old.text().characters().chars().collect();
                let (front, back) = (&chars[..range.start], &chars[range.end..]);
                front
                    .iter()
                    .copied()
                    .chain(replacement.chars())
                    .chain(back.iter().copied())
                    .collect()
            };
            assert_eq!(record, run(&new, flags, scope, &mut work));
            told_truly(&old, &record, repaired);
        }
    }
}

#[test]
fn an_edit_in_the_middle_keeps_and_moves() {
    let (scope, mut work) = (scope_of(&["row width"]), Workspace::new());
    let rule = "if row width-gutter > 10 then \"wide\" else \"narrow\"";
    let mut record = run(rule, Flags::default(), &scope, &mut work);
    let repaired = record.repair(22..24, "12", &scope, &mut work).unwrap();
    let expected = Repaired {
        kept: 3,
        fresh: 4,
        moved: 5,
    };
    assert_eq!(repaired, expected);
}

#[test]
fn an_edit_at_the_end_moves_nothing() {
    let (scope, mut work) = (Scope::new(), Workspace::new());
    let mut record = run("[1, 2, 3, 4, 5, 6]", Flags::default(), &scope, &mut work);
    let repaired = record.repair(18..18, " ", &scope, &mut work).unwrap();
    let expected = Repaired {
        kept: 6,
        fresh: 9,
        moved: 0,
    };
    assert_eq!(repaired, expected);
}

#[test]
fn a_deletion_at_the_front_moves_the_rest() {
    let (scope, mut work) = (Scope::new(), Workspace::new());
    let mut record = run("1 + 2 + 3", Flags::default(), &scope, &mut work);
    let repaired = record.repair(0..3, "", &scope, &mut work).unwrap();
    assert_eq!(
        repaired,
        Repaired {
            kept: 1,
            fresh: 0,
            moved: 4
        }
    );
    assert_eq!(record, run(" 2 + 3", Flags::default(), &scope, &mut work));
}

#[test]
fn another_scope_means_another_run() {
    let mut scope = scope_of(&["row width"]);
    let mut work = Workspace::new();
    let rule = "row width-gutter + 1 + 2 + 3";
    let mut record = run(rule, Flags::default(), &scope, &mut work);
    // The same names, copied: repaired.
    let copy = scope.clone();
    let repaired = record.repair(27..28, "4", &copy, &mut work).unwrap();
    assert!(repaired.kept > 0);
    // A name more: run again, as the first name is another now.
    scope.set_entry_name("row width-gutter").unwrap();
    let repaired = record.repair(27..28, "5", &scope, &mut work).unwrap();
    assert_eq!(
        repaired,
        Repaired {
            kept: 0,
            fresh: record.len(),
            moved: 0
        }
    );
    let new = "row width-gutter + 1 + 2 + 5";
    assert_eq!(record, run(new, Flags::default(), &scope, &mut work));
    assert_eq!(record.item(1).unwrap().text().unwrap(), "row width-gutter");
    // Refused, the scope is what it was, and so is the record.
    assert!(scope.set_entry_name(&"x".repeat(129)).is_err());
    let repaired = record.repair(27..28, "6", &scope, &mut work).unwrap();
    assert!(repaired.kept > 0);
}

#[test]
fn one_workspace_serves_records_of_all_sizes() {
    let (scope, mut work) = (Scope::new(), Workspace::new());
    let mut long = run(&"1 + ".repeat(4_000), Flags::default(), &scope, &mut work);
    let mut short = run("1", Flags::default(), &scope, &mut work);
    for digit in ["2", "3", "4"] {
        short.repair(0..1, digit, &scope, &mut work).unwrap();
        long.repair(8_000..8_001, digit, &scope, &mut work).unwrap();
        short.rerun(&scope, &mut work).unwrap();
        long.rerun(&scope, &mut work).unwrap();
    }
    assert_eq!(short, run("4", Flags::default(), &scope, &mut work));
    let text = "1 + ".repeat(2_000) + "4 + " + &"1 + ".repeat(1_999);
    assert_eq!(long, run(&text, Flags::default(), &scope, &mut work));
}
