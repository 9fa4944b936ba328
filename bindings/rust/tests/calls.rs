//! Tests of the safe functions. `GRAPHQL_AST_CASES` and `GRAPHQL_AST_VECTORS` name files of cases, which ../cases.py writes: of golden/data, and of
//! ../vectors.jsonl.

use graphql_ast::{check, normalize, print, print_value, version, Error, Layout, Unknown};

const QUERY: &str = r#"{"kind":"Document","definitions":[{"kind":"OperationDefinition","operation":"query","selectionSet":{"kind":"SelectionSet","selections":[{"kind":"Field","name":{"kind":"Name","value":"a"}}]}}]}"#;
const EMPTY: &str = r#"{"kind":"Document","definitions":[]}"#;

struct Case {
    numbers: Vec<usize>,
    json: String,
    prefix: String,
    text: String,
}

/// The cases of the file that a variable names: a line of eight numbers, and then three texts whose lengths they tell.
fn cases(variable: &str) -> Vec<Case> {
    let bytes = std::fs::read(std::env::var(variable).unwrap()).unwrap();
    let mut rest = &bytes[..];
    let mut found = Vec::new();
    while !rest.is_empty() {
        let end = rest.iter().position(|byte| *byte == b'\n').unwrap();
        let numbers: Vec<usize> = std::str::from_utf8(&rest[..end]).unwrap().split(' ').map(|it| it.parse().unwrap()).collect();
        rest = &rest[end + 1..];
        let mut text = |length| {
            let (front, behind) = rest.split_at(length);
            rest = behind;
            String::from_utf8(front.to_vec()).unwrap()
        };
        let (json, prefix, wanted) = (text(numbers[4]), text(numbers[5]), text(numbers[6]));
        assert_eq!(text(1), "\n");
        found.push(Case { numbers, json, prefix, text: wanted });
    }
    found
}

fn status(answer: &Result<String, Error>) -> usize {
    match answer {
        Ok(_) => 0,
        Err(Error::NotJson(_)) => 2,
        Err(Error::NoTree(_)) => 3,
        Err(Error::IllFormed(_)) => 4,
        Err(Error::LevelOverflow(_)) => 5,
        Err(Error::OutOfMemory(_)) => 6,
        Err(_) => 7,
    }
}

fn check_cases(cases: &[Case]) {
    for case in cases {
        let layout = match case.numbers[2] {
            0 if case.numbers[1] != 5 => Layout::OneLine,
            0 => continue, // a level that overflows on one line, which a layout cannot ask for
            _ => Layout::Lines { prefix: &case.prefix, level: case.numbers[7] },
        };
        let unknown = if case.numbers[3] == 0 { Unknown::Refuse } else { Unknown::PassOver };
        let answer = (if case.numbers[0] == 0 { print } else { print_value })(&case.json, layout, unknown);
        assert_eq!(status(&answer), case.numbers[1], "{answer:?} of {}", case.json);
        if !case.text.is_empty() {
            assert_eq!(answer.as_deref().unwrap_or_else(Error::message), case.text, "of {}", case.json);
        }
    }
}

#[test]
fn stored_cases_are_answered() {
    let cases = cases("GRAPHQL_AST_CASES");
    check_cases(&cases);
    assert!(cases.len() > 800);
    println!("{} cases", cases.len());
}

#[test]
fn stored_vectors_are_answered() {
    let vectors = cases("GRAPHQL_AST_VECTORS");
    check_cases(&vectors);
    assert_eq!(vectors.len(), 12);
}

#[test]
fn two_threads_share_nothing() {
    let cases = cases("GRAPHQL_AST_CASES");
    std::thread::scope(|scope| {
        for _ in 0..2 {
            scope.spawn(|| check_cases(&cases));
        }
    });
}

#[test]
fn each_status_has_an_error() {
    assert_eq!(print(QUERY, Layout::default(), Unknown::Refuse).unwrap(), "{\n  a\n}\n");
    assert_eq!(print(QUERY, Layout::OneLine, Unknown::Refuse).unwrap(), "{ a }");
    assert!(matches!(print("", Layout::OneLine, Unknown::Refuse), Err(Error::NotJson(_))));
    assert_eq!(
        print("7", Layout::OneLine, Unknown::Refuse).unwrap_err().to_string(),
        "at the root: found a number where an object was wanted"
    );
    assert_eq!(print(EMPTY, Layout::OneLine, Unknown::Refuse), Err(Error::IllFormed("at the root: a document without a definition".into())));
    let deep = Layout::Lines { prefix: "", level: usize::MAX };
    assert!(matches!(print(QUERY, deep, Unknown::Refuse), Err(Error::LevelOverflow(_))));
    let wrong = Layout::Lines { prefix: "\u{a0}", level: 0 };
    assert!(matches!(print(QUERY, wrong, Unknown::Refuse), Err(Error::WrongPrefix(_))));
    assert_eq!(check(QUERY, Unknown::Refuse), Ok(()));
    assert!(matches!(check(EMPTY, Unknown::Refuse), Err(Error::IllFormed(_))));
    let normal = normalize(QUERY, Unknown::Refuse).unwrap();
    assert_eq!(normalize(&normal, Unknown::Refuse).unwrap(), normal);
    assert_eq!(version(), 1);
}

#[test]
fn nul_ends_no_text() {
    let string = r#"{"kind":"StringValue","value":"a\u0000b"}"#;
    assert_eq!(print_value(string, Layout::OneLine, Unknown::Refuse).unwrap(), r#""a\u0000b""#);
    let name = r#"{"kind":"EnumValue","value":"a\u0000b"}"#;
    assert!(matches!(print_value(name, Layout::OneLine, Unknown::Refuse), Err(Error::NoTree(_))));
    for json in ["\0".to_string(), format!("{QUERY}\0"), QUERY.replace("\"a\"", "\"a\0\"")] {
        assert!(matches!(print(&json, Layout::OneLine, Unknown::Refuse), Err(Error::NotJson(_))));
    }
    let wrong = Layout::Lines { prefix: " \0", level: 0 };
    assert!(matches!(print(QUERY, wrong, Unknown::Refuse), Err(Error::WrongPrefix(_))));
}

#[test]
fn long_texts_are_answered() {
    let prefix = " ".repeat(1 << 20);
    let text = print(QUERY, Layout::Lines { prefix: &prefix, level: 1 }, Unknown::Refuse).unwrap();
    assert_eq!(text, format!("{prefix}query {{\n{prefix}{prefix}a\n{prefix}}}\n"));
    let item = r#"{"kind":"ScalarTypeDefinition","name":{"kind":"Name","value":"Abcdefg"}}"#;
    let count = 10_000_000 / item.len() + 1;
    let json = format!(r#"{{"kind":"Document","definitions":[{}]}}"#, vec![item; count].join(","));
    let text = print(&json, Layout::default(), Unknown::Refuse).unwrap();
    assert_eq!(text, "scalar Abcdefg\n".repeat(count).replace("g\ns", "g\n\ns"));
}
