//! What one would write by hand in Rust, over quick-xml, for the queries of bench/query: by_hand NAME DOCUMENT.
//! Writes as it reads, holds no more than it must, and escapes as the answers of `gcx run` do.
use quick_xml::escape::partial_escape;
use quick_xml::events::{BytesStart, Event};
use quick_xml::Reader;
use std::error::Error;
use std::fs::File;
use std::io::{stdout, BufReader, Write};

const PIECE: usize = 1 << 16;

/// What decides whether a row, a child of the root, is wanted.
#[derive(Clone, Copy, PartialEq)]
enum Test {
    Nothing,
    Price,
    Mail,
    Age,
}

/// A query, the elements that it copies, the depth at which they stand (0: any), and its test.
const QUERIES: [(&str, &[u8], usize, Test); 5] = [
    ("price", b"note", 3, Test::Price),
    ("items", b"item", 2, Test::Nothing),
    ("notes", b"note", 0, Test::Nothing),
    ("mail", b"name", 3, Test::Mail),
    ("age", b"name", 3, Test::Age),
];

/// Where we are: the open elements, the depth of the copied one (0: none); and whether the open row is wanted.
#[derive(Default)]
struct Run {
    out: Vec<u8>,
    held: Vec<u8>,
    price: Option<String>,
    depth: usize,
    copying: usize,
    wanted: bool,
}

fn number(text: &str) -> f64 {
    text.trim().parse().unwrap_or(f64::NAN)
}

fn tag(to: &mut Vec<u8>, front: &[u8], name: &[u8]) {
    to.extend_from_slice(front);
    to.extend_from_slice(name);
    to.push(b'>');
}

impl Run {
    /// What is copied waits in `held` while it isn't known whether the row is wanted.
    fn copy(&mut self, test: Test) -> &mut Vec<u8> {
        if test == Test::Nothing {
            &mut self.out
        } else {
            &mut self.held
        }
    }

    fn begins(&mut self, start: &BytesStart, copied: &[u8], level: usize, test: Test) -> Result<(), Box<dyn Error>> {
        let name = start.name();
        self.depth += 1;
        if self.depth == 2 {
            let age = if test == Test::Age { start.try_get_attribute("age")? } else { None };
            self.wanted = age.is_some_and(|age| number(&age.unescape_value().unwrap_or_default()) >= 60.0);
        } else if self.depth == 3 {
            self.wanted |= test == Test::Mail && name.as_ref() == b"mail";
            self.price = (test == Test::Price && name.as_ref() == b"price").then(String::new);
        }
        if self.copying == 0 && name.as_ref() == copied && (level == 0 || level == self.depth) {
            self.copying = self.depth;
        }
        if self.copying > 0 {
            tag(self.copy(test), b"<", name.as_ref());
        }
        Ok(())
    }

    fn text(&mut self, text: &str, test: Test) {
        if let Some(price) = &mut self.price {
            price.push_str(text);
        }
        if self.copying > 0 {
            self.copy(test).extend_from_slice(partial_escape(text).as_bytes());
        }
    }

    fn ends(&mut self, name: &[u8], test: Test) {
        if self.copying > 0 {
            tag(self.copy(test), b"</", name);
        }
        if self.copying == self.depth {
            self.copying = 0;
        }
        if self.depth == 3 {
            self.wanted |= self.price.take().is_some_and(|price| number(&price) >= 50.0);
        } else if self.depth == 2 && self.wanted {
            self.out.append(&mut self.held);
        }
        if self.depth == 2 {
            self.held.clear();
        }
        self.depth -= 1;
    }
}

fn main() -> Result<(), Box<dyn Error>> {
    let words: Vec<String> = std::env::args().collect();
    let [_, query, document] = words.as_slice() else { return Err("by_hand NAME DOCUMENT".into()) };
    let &(_, copied, level, test) = QUERIES.iter().find(|row| row.0 == query).ok_or("no such query")?;
    let mut reader = Reader::from_reader(BufReader::with_capacity(PIECE, File::open(document)?));
    reader.expand_empty_elements(true);
    let (mut run, mut piece, mut stdout) = (Run::default(), Vec::new(), stdout().lock());
    if test == Test::Price {
        tag(&mut run.out, b"<", b"r");
    }
    loop {
        match reader.read_event_into(&mut piece)? {
            Event::Start(start) => run.begins(&start, copied, level, test)?,
            Event::End(end) => run.ends(end.name().as_ref(), test),
            Event::Text(text) => run.text(&text.unescape()?, test),
            Event::CData(text) => run.text(std::str::from_utf8(&text)?, test),
            Event::Eof => break,
            _ => (),
        }
        piece.clear();
        if run.out.len() >= PIECE {
            stdout.write_all(&run.out)?;
            run.out.clear();
        }
    }
    if test == Test::Price {
        tag(&mut run.out, b"</", b"r");
    }
    stdout.write_all(&run.out)?;
    Ok(())
}
