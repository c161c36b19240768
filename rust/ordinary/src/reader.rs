use crate::bits::BitReader;
use crate::event::Event;
use crate::grammar::{Grammars, Production, Symbol, Terminal};
use crate::names::{is_comment, is_instruction_text, is_ncname, is_target};
use crate::refusal::Refusal;
use crate::settings::Options;
use crate::sizes::{CELLS_PER_EVENT, MAX_EVENTS, MAX_STORE, MAX_STREAM, MAX_STRING};
use crate::tables::{NameId, StringTable, UriId, INITIAL_TEXT};
use crate::text::{is_char, Span};
use crate::Failure;

/// How many events are complete, and how many code points the store has with their literals.
#[derive(Clone, Copy)]
pub struct Complete {
    pub events: usize,
    pub code_points: usize,
}

/// Reads a stream. Cells and store past what the answer counts may hold anything.
pub fn read(
    options: Options,
    stream: &[u8],
    events: &mut [u32],
    text: &mut [u32],
) -> Result<Complete, Failure> {
    let (complete, answer) = run(options, stream, events, text);
    match answer {
        Ok(()) => Ok(complete),
        Err(refusal) => Err((refusal, complete.events)),
    }
}

/// Reads what there is of a stream: octets that end are no refusal yet.
pub fn read_so_far(
    options: Options,
    octets: &[u8],
    events: &mut [u32],
    text: &mut [u32],
) -> Result<Complete, Failure> {
    let (complete, answer) = run(options, octets, events, text);
    match answer {
        Ok(()) | Err(Refusal::Ended) => Ok(complete),
        Err(refusal) => Err((refusal, complete.events)),
    }
}

fn run(
    options: Options,
    stream: &[u8],
    events: &mut [u32],
    text: &mut [u32],
) -> (Complete, Result<(), Refusal>) {
    text[..INITIAL_TEXT.len()].copy_from_slice(&INITIAL_TEXT);
    let complete = Complete {
        events: 0,
        code_points: INITIAL_TEXT.len(),
    };
    if stream.len() > MAX_STREAM {
        return (complete, Err(Refusal::Long));
    }
    let mut reader = Reader {
        bits: BitReader::new(stream, options.alignment),
        strings: StringTable::new(options.values),
        grammars: Grammars::new(&options),
        events,
        complete,
        text,
        text_length: complete.code_points,
    };
    let answer = reader.document(&options);
    (reader.complete, answer)
}

struct Reader<'a> {
    bits: BitReader<'a>,
    strings: StringTable,
    grammars: Grammars,
    events: &'a mut [u32],
    complete: Complete,
    text: &'a mut [u32],
    text_length: usize,
}

impl Reader<'_> {
    fn document(&mut self, options: &Options) -> Result<(), Refusal> {
        for &expected in options.header() {
            if self.bits.octet()? != expected {
                return Err(Refusal::Header);
            }
        }
        while !self.grammars.is_finished() {
            if self.complete.events == MAX_EVENTS {
                return Err(Refusal::Limit);
            }
            let event = self.event()?;
            let start = self.complete.events * CELLS_PER_EVENT;
            self.events[start..start + CELLS_PER_EVENT].copy_from_slice(&event.to_cells());
            self.complete.events += 1;
            self.complete.code_points = self.text_length;
        }
        self.bits.finish()
    }

    fn event(&mut self) -> Result<Event, Refusal> {
        let (mut symbol, production) = self.grammars.decode(|m| self.bits.choice(m))?;
        let event = match symbol.terminal {
            Terminal::StartDocument => Event::StartDocument,
            Terminal::EndDocument => Event::EndDocument,
            Terminal::EndElement => Event::EndElement,
            Terminal::StartElement => {
                let name = self.qname(&mut symbol)?;
                let (uri, name) = self.strings.name_texts(name);
                Event::StartElement { uri, name }
            }
            Terminal::Attribute => {
                let owner = self.qname(&mut symbol)?;
                let value = self.value(owner)?;
                self.grammars.note_attribute(owner)?;
                let (uri, name) = self.strings.name_texts(owner);
                Event::Attribute { uri, name, value }
            }
            Terminal::Characters => {
                let owner = self.grammars.open_element().ok_or(Refusal::Code)?;
                Event::Characters(self.value(owner)?)
            }
            Terminal::Comment => {
                let text = self.string()?;
                if !is_comment(text.of(self.text)) {
                    return Err(Refusal::Character);
                }
                Event::Comment(text)
            }
            Terminal::ProcessingInstruction => {
                let target = self.string()?;
                if !is_target(target.of(self.text)) {
                    return Err(Refusal::Name);
                }
                let text = self.string()?;
                if !is_instruction_text(text.of(self.text)) {
                    return Err(Refusal::Character);
                }
                Event::ProcessingInstruction { target, text }
            }
        };
        if production == Production::Teaching && self.grammars.has_learned(symbol) {
            return Err(Refusal::Loose);
        }
        self.grammars.advance(symbol, production)?;
        Ok(event)
    }

    /// The name of an element or attribute, from the stream unless the production carries it.
    fn qname(&mut self, symbol: &mut Symbol) -> Result<NameId, Refusal> {
        if let Some(name) = symbol.name {
            return Ok(name);
        }
        let uri = self.uri()?;
        let name = self.local_name(uri, symbol.terminal)?;
        symbol.name = Some(name);
        Ok(name)
    }

    fn uri(&mut self) -> Result<UriId, Refusal> {
        match self.bits.choice(self.strings.uri_count() + 1)? {
            0 => {
                let text = self.string()?;
                let known = self.strings.find_uri(self.text, text.of(self.text));
                if known.is_some() {
                    return Err(Refusal::Loose);
                }
                self.strings.add_uri(text)
            }
            hit => self.strings.uri(hit - 1).ok_or(Refusal::Reference),
        }
    }

    fn local_name(&mut self, uri: UriId, terminal: Terminal) -> Result<NameId, Refusal> {
        match self.bits.unsigned()? {
            0 => {
                let hit = self.bits.choice(self.strings.local_name_count(uri))?;
                let name = self.strings.local_name(uri, hit);
                let name = name.ok_or(Refusal::Reference)?;
                if terminal == Terminal::Attribute && name.is_reserved_attribute() {
                    return Err(Refusal::Name);
                }
                Ok(name)
            }
            length => {
                let text = self.literal(length - 1)?;
                let name = text.of(self.text);
                match self.strings.find_name(self.text, uri, name) {
                    Ok(_) => Err(Refusal::Loose),
                    Err(_) if !is_ncname(name) => Err(Refusal::Name),
                    Err(hash) => self.strings.add_name(uri, text, hash),
                }
            }
        }
    }

    fn value(&mut self, owner: NameId) -> Result<Span, Refusal> {
        match self.bits.unsigned()? {
            0 => {
                let local = self.strings.local_values(owner);
                let hit = self.bits.choice(local.len())?;
                let id = *local.get(hit).ok_or(Refusal::Reference)?;
                let value = self.strings.values().get(usize::from(id));
                Ok(value.ok_or(Refusal::Reference)?.text)
            }
            1 => {
                let global = self.strings.values();
                let hit = self.bits.choice(global.len())?;
                let value = global.get(hit).ok_or(Refusal::Reference)?;
                if value.owner == owner {
                    return Err(Refusal::Loose);
                }
                Ok(value.text)
            }
            length => {
                let text = self.literal(length - 2)?;
                if self.strings.takes_value(text.length as usize) {
                    match self.strings.find_value(self.text, text.of(self.text)) {
                        Ok(_) => return Err(Refusal::Loose),
                        Err(hash) => self.strings.add_value(owner, text, hash)?,
                    }
                }
                Ok(text)
            }
        }
    }

    fn string(&mut self) -> Result<Span, Refusal> {
        let length = self.bits.unsigned()?;
        self.literal(length)
    }

    /// Reads code points to the end of the text store.
    fn literal(&mut self, length: u32) -> Result<Span, Refusal> {
        let length = length as usize;
        let place = self.text_length;
        if length > MAX_STRING || place + length > MAX_STORE {
            return Err(Refusal::Limit);
        }
        for cell in &mut self.text[place..place + length] {
            let code_point = self.bits.unsigned()?;
            if !is_char(code_point) {
                return Err(Refusal::Character);
            }
            *cell = code_point;
        }
        self.text_length += length;
        Ok(Span::new(place, length))
    }
}
