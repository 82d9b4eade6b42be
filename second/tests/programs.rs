//! The programs that print cases: their lines can be read back and say what the library says.

use second::calls::Call;
use second::hex::decode;
use second::tally;
use std::collections::BTreeSet;
use std::process::Command;

fn lines(program: &str, arguments: &[&str]) -> Vec<String> {
    let output = Command::new(program).args(arguments).output().unwrap();
    assert!(output.status.success());
    let text = String::from_utf8(output.stdout).unwrap();
    assert!(text.ends_with('\n'));
    text.lines().map(str::to_string).collect()
}

#[test]
fn vectors() {
    let program = env!("CARGO_BIN_EXE_vectors");
    let printed = lines(program, &["3", "240"]);
    assert_eq!(printed.len(), 240);
    assert_eq!(printed, lines(program, &["3", "240"]));
    assert_ne!(printed, lines(program, &["4", "240"]));
    let mut seen = BTreeSet::new();
    for line in &printed {
        let parts: Vec<&str> = line.split(' ').collect();
        assert_eq!(parts.len(), 7);
        let call = Call::ALL.into_iter().find(|call| call.name() == parts[0]);
        let call = call.unwrap();
        let mut book = decode(parts[1]).unwrap();
        let input = decode(parts[2]).unwrap();
        let mut answer = decode(parts[3]).unwrap();
        assert!(book.len() <= 26 * 64);
        let status = call.run(&mut book, &input, &mut answer);
        assert_eq!(status, parts[4].parse().unwrap());
        assert_eq!(answer, decode(parts[5]).unwrap());
        assert_eq!(book, decode(parts[6]).unwrap());
        seen.insert((call, status));
    }
    for call in Call::ALL {
        for status in call.statuses() {
            assert!(seen.contains(&(call, *status)), "{} {status}", call.name());
        }
    }
}

fn cases_of(arguments: &[&str]) -> Vec<u8> {
    let program = env!("CARGO_BIN_EXE_cases");
    let output = Command::new(program).args(arguments).output().unwrap();
    assert!(output.status.success());
    output.stdout
}

/// The next part of these bytes, of so many.
fn take<'a>(bytes: &mut &'a [u8], count: usize) -> &'a [u8] {
    let (part, rest) = bytes.split_at(count);
    *bytes = rest;
    part
}

#[test]
fn cases() {
    let all = cases_of(&["3", "1", "150", "order", "result", "feed", "lookup"]);
    let mut rest = &all[..];
    let mut seen = BTreeSet::new();
    for number in 1..=150 {
        for call in Call::ALL {
            let start = rest;
            let mut four = || u32::from_le_bytes(take(&mut rest, 4).try_into().unwrap());
            assert_eq!(four(), u32::from(call.kind()));
            assert_eq!(four(), number);
            let [book, input, answer] = [(); 3].map(|()| four() as usize);
            let status = four() as i32;
            let mut found_book = take(&mut rest, book).to_vec();
            let input = take(&mut rest, input);
            let mut found_answer = take(&mut rest, answer).to_vec();
            let found = call.run(&mut found_book, input, &mut found_answer);
            assert_eq!(found, status);
            assert_eq!(found_book, take(&mut rest, book));
            assert_eq!(found_answer, take(&mut rest, answer));
            seen.insert((call, status));
            if number == 77 {
                let alone = cases_of(&["3", "77", "77", call.name()]);
                assert_eq!(alone, start[..start.len() - rest.len()]);
            }
        }
    }
    assert!(rest.is_empty());
    for call in Call::ALL {
        let statuses = seen.iter().filter(|(of, _)| *of == call).count();
        assert!(statuses >= call.statuses().len() - 2, "{}", call.name());
    }
}

#[test]
fn sentences() {
    let program = env!("CARGO_BIN_EXE_sentences");
    let list = lines(program, &["list"]);
    let number = |line: &String| line.split(' ').next().unwrap().parse::<usize>().unwrap();
    assert!(list.iter().map(number).eq(0..list.len()));
    assert!(!lines(program, &["implied"]).is_empty());
    let output = Command::new(program).arg("cases").output().unwrap();
    let mut rest = &output.stdout[..];
    let mut count = 0;
    while !rest.is_empty() {
        let mut four = || u32::from_le_bytes(take(&mut rest, 4).try_into().unwrap()) as usize;
        let (_, number) = (four(), four());
        let [book, input, answer] = [(); 3].map(|()| four());
        let status = four() as i32;
        let said = list[number].split(' ').nth(1).unwrap().parse::<i32>();
        assert!(said == Ok(status) || said == Ok(0) && status != -102 && status != -103);
        take(&mut rest, 2 * (book + answer) + input);
        count += 1;
    }
    assert_eq!(lines(program, &["count"]), [count.to_string()]);
}

#[test]
fn books() {
    let program = env!("CARGO_BIN_EXE_books");
    let printed = lines(program, &["3", "128"]);
    assert_eq!(printed.len(), 128);
    let mut seen = [0; 3];
    for line in &printed {
        let (book, text) = line.split_once(' ').unwrap();
        let book = decode(book).unwrap();
        assert!(book.len() <= 1_030 * 64);
        let text = text.replace("\\n", "\n");
        assert_eq!(text, tally::text(&book));
        match text.as_str() {
            "refused -101\n" => seen[0] += 1,
            "refused -102\n" => seen[1] += 1,
            _ => seen[2] += 1,
        }
    }
    assert!(seen.iter().all(|count| *count >= 10), "{seen:?}");
}

#[test]
fn counts() {
    let program = env!("CARGO_BIN_EXE_counts");
    let printed = lines(program, &["3", "50", "30"]);
    for call in Call::ALL {
        assert!(printed.iter().any(|line| line == call.name()));
    }
}
