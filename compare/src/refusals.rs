//! The rows of examples/refusals.tsv: recipe texts, and what the program `recipe` prints for each. The tests of the Rust package
//! in bindings/ take this file too.

pub struct Row {
    pub name: String,
    pub text: Vec<u8>,
    pub printed: Vec<u8>,
}

/// A field with its escapes resolved: \t \n \r \0 \\ and \xHH.
fn plain(field: &str) -> Option<Vec<u8>> {
    let mut bytes = field.bytes();
    let mut found = vec![];
    while let Some(byte) = bytes.next() {
        found.push(match byte {
            b'\\' => match bytes.next()? {
                b't' => b'\t',
                b'n' => b'\n',
                b'r' => b'\r',
                b'0' => 0,
                b'\\' => b'\\',
                b'x' => {
                    let digits = [bytes.next()?, bytes.next()?];
                    u8::from_str_radix(str::from_utf8(&digits).ok()?, 16).ok()?
                }
                _ => return None,
            },
            byte => byte,
        });
    }
    Some(found)
}

fn row(line: &str) -> Option<Row> {
    let [name, text, printed] = line.split('\t').collect::<Vec<_>>().try_into().ok()?;
    Some(Row { name: name.into(), text: plain(text)?, printed: plain(printed)? })
}

/// All rows of the file at that path. One that doesn't read, or a file that isn't there or has none, is a fault of the tests' own.
pub fn rows(path: &str) -> Vec<Row> {
    let file = std::fs::read_to_string(path).unwrap_or_else(|error| panic!("{path}: {error}"));
    let lines = file.lines().filter(|line| !line.starts_with('#'));
    let rows: Vec<Row> =
        lines.map(|line| row(line).unwrap_or_else(|| panic!("{path}: no row: {line}"))).collect();
    assert!(!rows.is_empty(), "{path}: no row");
    rows
}
