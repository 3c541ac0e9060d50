//! A call, and what it gives.

use oracle::{number, Book, Lamps, Refusal, Settings, LOG_PLACES};

/// The longest log that a call of these streams lends. Who compares keeps one
/// log of this length and lends its first `log_places` places; the document
/// lets no call touch those from 16,384 on.
pub const MOST_LOG_PLACES: usize = LOG_PLACES + 16;

/// The output that the text of a listing needs. The document has the program
/// kerblist alone; the call that it makes is in docs/CONTRACTS.md.
pub const LISTING_BYTES: usize = 20_480;

/// A call. Cells of links are in the unit's numbers, those of questions in the
/// lorry's. The streams keep bad cells below 65,536 and bad n and mounting
/// below 256, so that they fit the widths of a link file.
#[derive(Clone, Debug, PartialEq, Eq)]
pub enum Call {
    Opening {
        settings: Settings,
        log_places: usize,
    },
    Link {
        tick: u32,
        a: u32,
        b: u32,
        log_places: usize,
    },
    Clock {
        tick: u32,
        log_places: usize,
    },
    Joined {
        first: u32,
        second: u32,
    },
    Chain {
        first: u32,
        second: u32,
        log_places: usize,
        chain_places: usize,
    },
    /// The lamps. The mask is in the lorry's numbers.
    Lamps {
        log_places: usize,
        mask: Vec<u8>,
    },
    /// The reader of link files.
    Read {
        file: Vec<u8>,
    },
    /// The writer of link files.
    Write {
        settings: Settings,
        records: Vec<u8>,
        output_bytes: usize,
    },
    /// What the program kerblist prints.
    List {
        file: Vec<u8>,
        output_bytes: usize,
    },
    /// A text into a link file.
    TextIn {
        settings: Settings,
        text: Vec<u8>,
        output_bytes: usize,
    },
    /// A link file put out as text.
    TextOut {
        file: Vec<u8>,
        output_bytes: usize,
    },
}

impl Call {
    /// Whether it asks a book and leaves it as it was.
    pub fn is_question(&self) -> bool {
        matches!(
            self,
            Call::Joined { .. } | Call::Chain { .. } | Call::Lamps { .. }
        )
    }
}

/// What a call gave, all result fields and the lent buffer as it is afterwards
/// (the log aside, whose layout the document leaves open).
#[derive(Clone, Debug, PartialEq, Eq)]
pub enum Answer {
    /// Opening, link and clock.
    Number {
        number: u32,
    },
    Joined {
        number: u32,
        joined: bool,
        steps: u32,
    },
    Chain {
        number: u32,
        l: u64,
        hold: u32,
        cells: u32,
        lent: Vec<u16>,
    },
    /// A dark lamp's cell is 0.
    Lamps {
        number: u32,
        left: bool,
        right: bool,
        left_cell: u32,
        right_cell: u32,
    },
    Read {
        number: u32,
        settings: Settings,
        m: u32,
    },
    Write {
        number: u32,
        output: Vec<u8>,
    },
    /// The text is the front of the output; its number is 0 or 6.
    List {
        number: u32,
        length: usize,
        output: Vec<u8>,
    },
    TextIn {
        number: u32,
        length: usize,
        line: u64,
        output: Vec<u8>,
    },
    TextOut {
        number: u32,
        length: usize,
        output: Vec<u8>,
    },
}

/// A chain buffer as it is lent: no place holds a cell's number, and
/// neighbouring places differ.
pub fn lent_places(places: usize) -> Vec<u16> {
    (0..places).map(|i| 0x8000 | i as u16).collect()
}

/// An output buffer as it is lent.
pub fn lent_bytes(bytes: usize) -> Vec<u8> {
    (0..bytes).map(|i| 0x80 | i as u8).collect()
}

impl Answer {
    /// The number of the table; for a listing 6 or, in its text, 0 or the number
    /// that is printed.
    pub fn number(&self) -> u32 {
        match self {
            Answer::Number { number }
            | Answer::Joined { number, .. }
            | Answer::Chain { number, .. }
            | Answer::Lamps { number, .. }
            | Answer::Read { number, .. }
            | Answer::Write { number, .. }
            | Answer::TextIn { number, .. }
            | Answer::TextOut { number, .. } => *number,
            Answer::List {
                number: 0,
                length,
                output,
            } => number_in_listing(&output[..*length]),
            Answer::List { number, .. } => *number,
        }
    }
}

/// 0 where the text is no refusal with a number.
fn number_in_listing(text: &[u8]) -> u32 {
    let text = String::from_utf8_lossy(text);
    let mut words = text.split_whitespace();
    match (words.next(), words.next()) {
        (Some("refused"), Some(number)) => number.parse().unwrap_or(0),
        _ => 0,
    }
}

/// Puts a call to the oracle.
pub fn ask(book: &mut Book, call: &Call) -> Answer {
    match call {
        Call::Opening {
            settings,
            log_places,
        } => Answer::Number {
            number: number(&book.opening(*settings, *log_places)),
        },
        Call::Link {
            tick,
            a,
            b,
            log_places,
        } => Answer::Number {
            number: number(&book.link(*tick, *a, *b, *log_places)),
        },
        Call::Clock { tick, log_places } => Answer::Number {
            number: number(&book.clock(*tick, *log_places)),
        },
        Call::Joined { first, second } => ask_joined(book, *first, *second),
        Call::Chain {
            first,
            second,
            log_places,
            chain_places,
        } => ask_chain(book, *first, *second, *log_places, *chain_places),
        Call::Lamps { log_places, mask } => lamps_answer(book.lamps(*log_places, mask)),
        Call::Read { file } => ask_read(file),
        Call::Write {
            settings,
            records,
            output_bytes,
        } => ask_write(*settings, records, *output_bytes),
        Call::List { file, output_bytes } => ask_list(file, *output_bytes),
        Call::TextIn {
            settings,
            text,
            output_bytes,
        } => ask_text_in(*settings, text, *output_bytes),
        Call::TextOut { file, output_bytes } => ask_text_out(file, *output_bytes),
    }
}

fn ask_joined(book: &Book, first: u32, second: u32) -> Answer {
    let answer = book.joined(first, second);
    let fields = answer.unwrap_or_default();
    Answer::Joined {
        number: number(&answer),
        joined: fields.joined,
        steps: fields.steps,
    }
}

fn ask_chain(
    book: &Book,
    first: u32,
    second: u32,
    log_places: usize,
    chain_places: usize,
) -> Answer {
    let mut lent = lent_places(chain_places);
    let answer = book.chain(first, second, log_places, &mut lent);
    let fields = answer.unwrap_or_default();
    Answer::Chain {
        number: number(&answer),
        l: fields.l,
        hold: fields.hold,
        cells: fields.cells,
        lent,
    }
}

/// What a lamps call gives, field by field.
pub fn lamps_answer(answer: Result<Lamps, Refusal>) -> Answer {
    let Lamps { left, right } = answer.unwrap_or_default();
    Answer::Lamps {
        number: number(&answer),
        left: left.is_some(),
        right: right.is_some(),
        left_cell: left.unwrap_or(0),
        right_cell: right.unwrap_or(0),
    }
}

fn ask_read(file: &[u8]) -> Answer {
    let answer = oracle::read(file);
    let fields = answer.unwrap_or_default();
    Answer::Read {
        number: number(&answer),
        settings: fields.settings,
        m: fields.m,
    }
}

fn ask_write(settings: Settings, records: &[u8], bytes: usize) -> Answer {
    let mut output = lent_bytes(bytes);
    let number = number(&oracle::write(settings, records, &mut output));
    Answer::Write { number, output }
}

fn ask_list(file: &[u8], bytes: usize) -> Answer {
    let mut output = lent_bytes(bytes);
    if bytes < LISTING_BYTES {
        return Answer::List {
            number: Refusal::Buffer.number(),
            length: 0,
            output,
        };
    }
    let text = oracle::listing(file);
    output[..text.len()].copy_from_slice(text.as_bytes());
    Answer::List {
        number: 0,
        length: text.len(),
        output,
    }
}

fn ask_text_in(settings: Settings, text: &[u8], bytes: usize) -> Answer {
    let mut output = lent_bytes(bytes);
    let answer = oracle::text_in(settings, text, &mut output);
    let (number, line) = match answer {
        Ok(_) => (0, 0),
        Err(refused) => (refused.refusal.number(), refused.line),
    };
    Answer::TextIn {
        number,
        length: answer.unwrap_or_default(),
        line,
        output,
    }
}

fn ask_text_out(file: &[u8], bytes: usize) -> Answer {
    let mut output = lent_bytes(bytes);
    let answer = oracle::text_out(file, &mut output);
    Answer::TextOut {
        number: number(&answer),
        length: answer.unwrap_or_default(),
        output,
    }
}
