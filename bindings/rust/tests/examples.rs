//! The setups and logs in examples/, whole, in pieces and by single calls.

use calvin::{Fault, LineFault, Outcome, Reply, Session, Settings, Setup, Value};
use std::fs;
use std::path::PathBuf;

const CUT: &[u8] = br#"["cut"]"#;

fn examples() -> PathBuf {
    PathBuf::from(env!("CARGO_MANIFEST_DIR")).join("../../examples")
}

fn example(file: &str) -> Vec<u8> {
    fs::read(examples().join(file)).expect(file)
}

fn bank() -> Session {
    Session::open(&example("bank.json"), Settings::default()).expect("the setup is right")
}

#[test]
fn reports_are_the_stored_ones() {
    let mut count = 0;
    for entry in fs::read_dir(examples()).expect("there are examples") {
        let path = entry.expect("an entry").path();
        if path.extension().is_some_and(|ending| ending == "report") {
            let stem = path.file_stem().expect("a name").to_string_lossy();
            for size in [1, 7, usize::MAX] {
                let setup = example(&format!("{stem}.json"));
                let mut session = Session::open(&setup, Settings::default()).expect("the setup is right");
                let mut report = Vec::new();
                for bytes in example(&format!("{stem}.log")).chunks(size) {
                    session.feed(bytes).expect("the log is right");
                    report.extend(session.report());
                }
                session.end().expect("the log is whole");
                report.extend(session.report());
                assert_eq!(report, fs::read(&path).expect("a report"), "{stem} in pieces of {size}");
            }
            count += 1;
        }
    }
    assert!(count > 0);
}

#[test]
fn calls_are_numbered() {
    let mut session = bank();
    let line = br#"["call","pay",[1,2,30]]"#;
    assert_eq!(session.call(line), Ok(0));
    assert_eq!(session.call(line), Ok(1));
    session.cut().expect("the batch runs");
    assert_eq!(session.call(line), Ok(2));
    let report = String::from_utf8(session.report()).expect("a report is text");
    assert!(report.starts_with("0 ") || report.contains("batch 1 "), "{report}");
}

#[test]
fn lines_that_are_no_calls_change_nothing() {
    let mut session = bank();
    let wanted: [(&[u8], LineFault); 6] = [
        (b"[", LineFault::NotJson),
        (CUT, LineFault::NotCall),
        (br#"["call",1]"#, LineFault::NotCall),
        (b"[\"call\",\n\"pay\",[1,2,3]]", LineFault::NotCall),
        (br#"["call","none",[]]"#, LineFault::NoProcedure),
        (br#"["call","pay",[]]"#, LineFault::Arguments),
    ];
    for (line, fault) in wanted {
        assert_eq!(session.test(line), Err(Fault::Line(fault)));
        assert_eq!(session.call(line), Err(Fault::Line(fault)));
    }
    session.end().expect("the log is empty");
    assert!(session.report().starts_with(b"end 0 "));
}

#[test]
fn a_batch_has_4096_calls() {
    let mut session = bank();
    let line = br#"["call","pay",[1,2,30]]"#;
    for number in 0..4096 {
        assert_eq!(session.call(line), Ok(number));
    }
    assert_eq!(session.call(line), Err(Fault::Line(LineFault::BatchFull)));
    session.cut().expect("the batch runs");
    assert_eq!(session.call(line), Ok(4096));
}

#[test]
fn a_fault_of_the_log_stays() {
    let mut session = bank();
    let fault = Fault::Log { number: 32, line: 2 };
    assert_eq!(session.feed(b"[\"cut\"]\n[1]\n"), Err(fault.clone()));
    assert_eq!(session.feed(b"\n"), Err(fault.clone()));
    assert_eq!(session.cut(), Err(fault));
    assert!(session.report().starts_with(b"batch 1 "));
}

#[test]
fn misuse_is_told() {
    let settings = Settings { arena: 0, ..Settings::default() };
    assert_eq!(Session::open(&example("bank.json"), settings).err(), Some(Fault::Misused));
    assert_eq!(Setup::new(&example("bank.json")).with_settings(settings).open().err(), Some(Fault::Misused));
    let mut session = bank();
    session.feed(b"[\"cu").expect("a piece");
    assert_eq!(session.call(b"1"), Err(Fault::Misused));
    assert_eq!(session.cut(), Err(Fault::Misused));
    session.feed(b"t\"]\n").expect("the rest");
    session.end().expect("the log is whole");
    assert_eq!(session.end(), Err(Fault::Misused));
}

#[test]
fn faults_are_said() {
    assert_eq!(Fault::Log { number: 31, line: 7 }.to_string(), "fault 31 line 7");
    assert_eq!(Fault::Line(LineFault::NoProcedure).to_string(), "no procedure has that name");
}

/// The examples with a report.
fn stems() -> Vec<String> {
    let entries = fs::read_dir(examples()).expect("there are examples");
    let paths = entries.map(|entry| entry.expect("an entry").path());
    let reports = paths.filter(|path| path.extension().is_some_and(|ending| ending == "report"));
    reports.map(|path| path.file_stem().expect("a name").to_string_lossy().into_owned()).collect()
}

#[test]
fn replies_are_the_lines_of_the_report() {
    for stem in stems() {
        let mut session = Session::open(&example(&format!("{stem}.json")), Settings::default()).expect("the setup is right");
        session.keep_replies();
        session.feed(&example(&format!("{stem}.log"))).expect("the log is right");
        session.end().expect("the log is whole");
        let report = String::from_utf8(example(&format!("{stem}.report"))).expect("a report is text");
        let wanted: Vec<&str> = report.lines().filter(|line| line.starts_with(|digit: char| digit.is_ascii_digit())).collect();
        let told: Vec<String> = session.replies().map(|reply| reply.to_string()).collect();
        assert_eq!(told, wanted, "{stem}");
        assert_eq!(session.next_reply(), None);
    }
}

#[test]
fn a_reply_is_taken_once_and_after_its_cut() {
    let mut session = bank();
    session.keep_replies();
    session.call(br#"["call","pay",[1,2,30]]"#).expect("a call");
    session.call(br#"["call","pay",[1,2,500]]"#).expect("a call");
    assert_eq!(session.next_reply(), None);
    session.cut().expect("the batch runs");
    let first = Reply { number: 0, first: 0, outcome: Outcome::Commit(vec![Value::Int(70)]) };
    assert_eq!(session.next_reply(), Some(first));
    assert_eq!(session.next_reply(), Some(Reply { number: 1, first: 1, outcome: Outcome::Abort(100) }));
    assert_eq!(session.next_reply(), None);
}

#[test]
fn no_reply_is_kept_where_none_is_asked_for() {
    let mut session = bank();
    session.feed(&example("two-batches.log")).expect("the log is right");
    assert_eq!(session.next_reply(), None);
}

#[test]
fn rows_are_found_by_their_keys() {
    let mut session = bank();
    session.call(br#"["call","pay",[1,2,30]]"#).expect("a call");
    assert_eq!(session.row("acct", 1), Ok(Some(vec![Value::Int(100)])));
    session.cut().expect("the batch runs");
    assert_eq!(session.row("acct", 1), Ok(Some(vec![Value::Int(70)])));
    for key in [0, 3, i64::MAX as u64, 1 << 63, u64::MAX] {
        assert_eq!(session.row("acct", key), Ok(None));
    }
    assert_eq!(session.row("accts", 1), Err(Fault::NoTable));
    assert_eq!(Fault::NoTable.to_string(), "the setup has no such table");
}

#[test]
fn rows_come_by_ascending_keys() {
    let session = bank();
    let rows: Result<Vec<_>, Fault> = session.rows("acct").collect();
    assert_eq!(rows, Ok(vec![(1, vec![Value::Int(100)]), (2, vec![Value::Int(100)])]));
    assert_eq!(session.next_row("acct", Some(1)), Ok(Some((2, vec![Value::Int(100)]))));
    assert_eq!(session.next_row("acct", Some(2)), Ok(None));
    assert_eq!(session.next_row("acct", Some(u64::MAX)), Ok(None));
    assert_eq!(session.next_row("accts", Some(u64::MAX)), Err(Fault::NoTable));
    assert_eq!(session.rows("none").collect::<Vec<_>>(), [Err(Fault::NoTable)]);
}

#[test]
fn texts_are_values() {
    let session = Session::open(&example("inventory.json"), Settings::default()).expect("the setup is right");
    let (_, values) = session.next_row("item", None).expect("a table").expect("a row");
    assert!(values.iter().any(|value| matches!(value, Value::Text(text) if !text.is_empty())), "{values:?}");
    assert_eq!(Value::Text("hi".to_owned()).to_string(), "x6869");
}

#[test]
fn digests_are_those_of_the_report() {
    for stem in stems() {
        let mut session = Session::open(&example(&format!("{stem}.json")), Settings::default()).expect("the setup is right");
        session.feed(&example(&format!("{stem}.log"))).expect("the log is right");
        session.end().expect("the log is whole");
        let report = String::from_utf8(example(&format!("{stem}.report"))).expect("a report is text");
        let wanted = report.split_whitespace().rev().nth(2).expect("an end line");
        assert_eq!(session.digest().as_deref(), Ok(wanted), "{stem}");
    }
}

#[test]
fn another_session_starts_from_the_rows() {
    let (mut first, line) = (bank(), br#"["call","pay",[1,2,30]]"#);
    first.call(line).expect("a call");
    first.cut().expect("the batch runs");
    let rows = first.rows_document().expect("the rows");
    assert_eq!(rows, b"[\"rows\",1,[\n[\"acct\",1,[70]],\n[\"acct\",2,[130]],\n[\"ref\",1,[2]]\n]]\n");
    let mut second = Setup::new(&example("bank.json")).with_rows(&rows).open().expect("the rows are right");
    for session in [&mut first, &mut second] {
        session.call(line).expect("a call");
        session.cut().expect("the batch runs");
    }
    assert_eq!(first.digest(), second.digest());
    assert_eq!(first.rows_document(), second.rows_document());
}

#[test]
fn calls_that_are_carried_are_counted() {
    let mut session = Setup::new(&example("tried-again.json")).open().expect("the setup is right");
    session.feed(&example("tried-again.log")).expect("the log is right");
    assert_eq!(session.carried(), Ok(0));
    session.cut().expect("the batch runs");
    assert_eq!(session.carried(), Ok(1));
    session.cut().expect("the batch runs");
    assert_eq!(session.carried(), Ok(0));
    let fault = session.feed(b"[]\n").expect_err("that is no line of a log");
    assert_eq!(session.carried(), Err(fault));
}

#[test]
fn rows_with_a_fault_are_refused() {
    let wanted: [(&[u8], &str); 3] =
        [(b"[", "fault 41"), (br#"["rows",2,[]]"#, "fault 42"), (br#"["rows",1,[["none",1,[1]]]]"#, "fault 43")];
    for (rows, fault) in wanted {
        match Setup::new(&example("bank.json")).with_rows(rows).open() {
            Err(Fault::Setup(line)) => assert!(line.starts_with(fault), "{line}"),
            _ => panic!("the rows are taken"),
        }
    }
}
