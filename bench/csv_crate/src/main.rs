//! What a Rust programmer would write with the crate csv in an hour: the facts file as NDJSON, one record at a time.
//!
//! usage: csv_crate q1|q2|q3|q4|q5|q6 FACTS DIMS OUT
//!
//! q1: all rows; q2: id and name of the rows whose v is above 900; q6: the rows whose g the dims have, with its label; q3, q4, q5: the sum of v
//! and the number of rows by g, by name, and by label
use std::collections::HashMap;
use std::error::Error;
use std::fs::File;
use std::io::{BufWriter, Write};
use std::{env, str};

/// Writes the text as a JSON string, what needs no escape in runs.
fn put_text(out: &mut impl Write, text: &str) -> std::io::Result<()> {
    let mut rest = text.as_bytes();
    out.write_all(b"\"")?;
    while let Some(at) = rest.iter().position(|&b| b < 32 || b == b'"' || b == b'\\') {
        out.write_all(&rest[..at])?;
        match rest[at] {
            b'"' => out.write_all(b"\\\"")?,
            b'\\' => out.write_all(b"\\\\")?,
            b'\n' => out.write_all(b"\\n")?,
            b'\r' => out.write_all(b"\\r")?,
            b'\t' => out.write_all(b"\\t")?,
            8 => out.write_all(b"\\b")?,
            12 => out.write_all(b"\\f")?,
            b => write!(out, "\\u{b:04x}")?,
        }
        rest = &rest[at + 1..];
    }
    out.write_all(rest)?;
    out.write_all(b"\"")
}

/// The labels of the dims by their g.
fn labels_of(dims: &str) -> Result<HashMap<i64, String>, Box<dyn Error>> {
    let mut labels = HashMap::new();
    for record in csv::Reader::from_path(dims)?.records() {
        let record = record?;
        labels.insert(record[0].parse()?, record[1].to_string());
    }
    Ok(labels)
}

/// The sum of v and the number of rows of each key.
type Groups = HashMap<String, (i64, u64)>;

/// Counts a row of a key.
fn put_row(groups: &mut Groups, key: &str, v: Option<i64>) -> Result<(), Box<dyn Error>> {
    let (sum, rows) = match groups.get_mut(key) {
        Some(group) => group,
        None => groups.entry(key.to_string()).or_default(),
    };
    *sum = sum.checked_add(v.unwrap_or(0)).ok_or("the sum is too large")?;
    *rows += 1;
    Ok(())
}

/// Writes a row for each key, which is a number or a text.
fn put_groups(out: &mut impl Write, groups: &Groups, by: &str) -> std::io::Result<()> {
    for (key, (sum, rows)) in groups {
        write!(out, "{{\"{by}\":")?;
        if by == "g" {
            out.write_all(key.as_bytes())?;
        } else {
            put_text(out, key)?;
        }
        writeln!(out, ",\"s\":{sum},\"n\":{rows}}}")?;
    }
    Ok(())
}

fn main() -> Result<(), Box<dyn Error>> {
    let words: Vec<String> = env::args().collect();
    let [_, query, facts, dims, to] = words.as_slice() else {
        return Err("usage: csv_crate q1|q2|q3|q4|q5|q6 FACTS DIMS OUT".into());
    };
    let is_all = query != "q2";
    let by = match query.as_str() {
        "q3" => Some("g"),
        "q4" => Some("name"),
        "q5" => Some("label"),
        _ => None,
    };
    let labels = if query == "q5" || query == "q6" { Some(labels_of(dims)?) } else { None };
    let mut groups = Groups::new();
    let mut reader = csv::Reader::from_path(facts)?;
    let mut out = BufWriter::with_capacity(1 << 16, File::create(to)?);
    let mut record = csv::ByteRecord::new();
    while reader.read_byte_record(&mut record)? {
        let text = |at: usize| str::from_utf8(&record[at]);
        let (id, g): (i64, i64) = (text(0)?.parse()?, text(1)?.parse()?);
        let v: Option<i64> = match text(2)? {
            "" => None,
            v => Some(v.parse()?),
        };
        if !is_all && v.is_none_or(|v| v <= 900) {
            continue;
        }
        let label = labels.as_ref().map(|labels| labels.get(&g));
        if label == Some(None) {
            continue;
        }
        match (by, label) {
            (Some("g"), _) => {
                put_row(&mut groups, text(1)?, v)?;
                continue;
            }
            (Some(_), Some(Some(label))) => {
                put_row(&mut groups, label, v)?;
                continue;
            }
            (Some(_), _) => {
                put_row(&mut groups, text(3)?, v)?;
                continue;
            }
            (None, _) => {}
        }
        write!(out, "{{\"id\":{id}")?;
        if is_all {
            write!(out, ",\"g\":{g},\"v\":")?;
            match v {
                None => out.write_all(b"null")?,
                Some(v) => write!(out, "{v}")?,
            }
        }
        out.write_all(b",\"name\":")?;
        put_text(&mut out, text(3)?)?;
        if let Some(Some(label)) = label {
            out.write_all(b",\"label\":")?;
            put_text(&mut out, label)?;
        }
        out.write_all(b"}\n")?;
    }
    if let Some(by) = by {
        put_groups(&mut out, &groups, by)?;
    }
    out.flush()?;
    Ok(())
}
