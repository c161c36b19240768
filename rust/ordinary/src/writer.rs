use crate::bits::BitWriter;
use crate::event::Event;
use crate::grammar::{Grammars, Place, Production, Symbol, Terminal};
use crate::names::{is_comment, is_instruction_text, is_ncname, is_target};
use crate::refusal::Refusal;
use crate::settings::Options;
use crate::sizes::{CELLS_PER_EVENT, MAX_EVENTS, MAX_STORE, MAX_STREAM, MAX_STRING};
use crate::tables::{NameId, StringTable, UriId, INITIAL_TEXT};
use crate::text::{is_char, Span};
use crate::Failure;

/// Writes a list in strict form. Gives the number of octets.
pub fn write(
    options: Options,
    octets: &mut [u8],
    events: &[u32],
    text: &[u32],
) -> Result<usize, Failure> {
    let mut store = Vec::with_capacity(256);
    store.extend_from_slice(&INITIAL_TEXT);
    let mut writer = Writer {
        bits: BitWriter::new(octets, options.alignment),
        strings: StringTable::new(options.values),
        grammars: Grammars::new(&options),
        text,
        store,
    };

    for &octet in options.header() {
        writer.bits.octet(octet);
    }
    let mut count = 0;
    for cells in events.chunks(CELLS_PER_EVENT) {
        if count == MAX_EVENTS {
            return Err((Refusal::Limit, count));
        }
        writer.event(cells).map_err(|refusal| (refusal, count))?;
        count += 1;
    }
    if !writer.grammars.is_finished() {
        return Err((Refusal::Shape, count));
    }
    match writer.bits.finish() {
        length if length > MAX_STREAM => Err((Refusal::Long, 0)),
        length => Ok(length),
    }
}

struct Writer<'a> {
    bits: BitWriter<'a>,
    strings: StringTable,
    grammars: Grammars,
    /// The text store of the list.
    text: &'a [u32],
    /// The text store that a reader of the stream will have.
    store: Vec<u32>,
}

impl<'a> Writer<'a> {
    fn event(&mut self, cells: &[u32]) -> Result<(), Refusal> {
        let event = Event::from_cells(cells).ok_or(Refusal::Shape)?;
        let terminal = terminal(event);
        let place = self.grammars.place(terminal).ok_or(Refusal::Shape)?;

        let mut symbol = Symbol::from(terminal);
        let production = match event {
            Event::StartDocument | Event::EndDocument | Event::EndElement => {
                self.code(symbol, place)
            }
            Event::StartElement { uri, name } => {
                let [uri, name] = self.texts([uri, name])?;
                let (name, production) = self.qname(terminal, place, uri, name)?;
                symbol.name = Some(name);
                production
            }
            Event::Attribute { uri, name, value } => {
                let [uri, name, value] = self.texts([uri, name, value])?;
                let (name, production) = self.qname(terminal, place, uri, name)?;
                symbol.name = Some(name);
                self.value(name, value)?;
                self.grammars.note_attribute(name)?;
                production
            }
            Event::Characters(text) => {
                let [text] = self.texts([text])?;
                let owner = self.grammars.open_element().ok_or(Refusal::Shape)?;
                let production = self.code(symbol, place);
                self.value(owner, text)?;
                production
            }
            Event::Comment(text) => {
                let [text] = self.texts([text])?;
                let production = self.code(symbol, place);
                self.literal(text, 0)?;
                if !is_comment(text) {
                    return Err(Refusal::Character);
                }
                production
            }
            Event::ProcessingInstruction { target, text } => {
                let [target, text] = self.texts([target, text])?;
                let production = self.code(symbol, place);
                self.literal(target, 0)?;
                if !is_target(target) {
                    return Err(Refusal::Name);
                }
                self.literal(text, 0)?;
                if !is_instruction_text(text) {
                    return Err(Refusal::Character);
                }
                production
            }
        };
        self.grammars.advance(symbol, production)
    }

    /// The texts of all strings of an event.
    fn texts<const N: usize>(&self, spans: [Span; N]) -> Result<[&'a [u32]; N], Refusal> {
        let mut texts: [&[u32]; N] = [&[]; N];
        for (text, span) in texts.iter_mut().zip(spans) {
            *text = span.get(self.text).ok_or(Refusal::Place)?;
        }
        Ok(texts)
    }

    fn code(&mut self, symbol: Symbol, place: &Place) -> Production {
        self.grammars
            .encode(symbol, place, |value, m| self.bits.choice(value, m))
    }

    /// Writes the event code of an element or attribute, and its name unless a learned production
    /// carries it.
    fn qname(
        &mut self,
        terminal: Terminal,
        place: &Place,
        uri: &[u32],
        name: &[u32],
    ) -> Result<(NameId, Production), Refusal> {
        let known_uri = self.strings.find_uri(&self.store, uri);
        let known_name = known_uri.map(|id| self.strings.find_name(&self.store, id, name));

        let symbol = Symbol {
            terminal,
            name: known_name.and_then(Result::ok),
        };
        let production = self.code(symbol, place);
        if let (Some(Ok(name)), Production::Learned) = (known_name, production) {
            return Ok((name, production));
        }

        let uri = self.uri(known_uri, uri)?;
        let known_name =
            known_name.unwrap_or_else(|| self.strings.find_name(&self.store, uri, name));
        let name = self.local_name(known_name, uri, name)?;
        if terminal == Terminal::Attribute && name.is_reserved_attribute() {
            return Err(Refusal::Name);
        }
        Ok((name, production))
    }

    fn uri(&mut self, known: Option<UriId>, text: &[u32]) -> Result<UriId, Refusal> {
        let choices = self.strings.uri_count() + 1;
        match known {
            Some(uri) => {
                self.bits.choice(uri.index() + 1, choices);
                Ok(uri)
            }
            None => {
                self.bits.choice(0, choices);
                let text = self.literal(text, 0)?;
                self.strings.add_uri(text)
            }
        }
    }

    fn local_name(
        &mut self,
        known: Result<NameId, u32>,
        uri: UriId,
        text: &[u32],
    ) -> Result<NameId, Refusal> {
        match known {
            Ok(name) => {
                self.bits.unsigned(0);
                let choices = self.strings.local_name_count(uri);
                self.bits.choice(self.strings.local_name_id(name), choices);
                Ok(name)
            }
            Err(hash) => {
                let span = self.literal(text, 1)?;
                if !is_ncname(text) {
                    return Err(Refusal::Name);
                }
                self.strings.add_name(uri, span, hash)
            }
        }
    }

    fn value(&mut self, owner: NameId, text: &[u32]) -> Result<(), Refusal> {
        if !self.strings.takes_value(text.len()) {
            return self.value_outside_the_tables(text);
        }
        match self.strings.find_value(&self.store, text) {
            Ok(id) => {
                let global = self.strings.values();
                let value = global[id];
                if value.owner == owner {
                    self.bits.unsigned(0);
                    let choices = self.strings.local_values(owner).len();
                    self.bits.choice(value.local_id, choices);
                } else {
                    self.bits.unsigned(1);
                    self.bits.choice(id, global.len());
                }
                Ok(())
            }
            Err(hash) => {
                let text = self.literal(text, 2)?;
                self.strings.add_value(owner, text, hash)
            }
        }
    }

    #[inline(never)]
    fn value_outside_the_tables(&mut self, text: &[u32]) -> Result<(), Refusal> {
        if text.is_empty() {
            self.bits.unsigned(2);
            return Ok(());
        }
        self.literal(text, 2).map(|_| ())
    }

    /// Writes a text, its length raised by `raise`, and lays it at the end of the store.
    fn literal(&mut self, text: &[u32], raise: u32) -> Result<Span, Refusal> {
        let place = self.store.len();
        if text.len() > MAX_STRING || place + text.len() > MAX_STORE {
            return Err(Refusal::Limit);
        }
        if !text.iter().all(|&code_point| is_char(code_point)) {
            return Err(Refusal::Character);
        }
        self.bits.unsigned(text.len() as u32 + raise);
        for &code_point in text {
            self.bits.unsigned(code_point);
        }
        self.store.extend_from_slice(text);
        Ok(Span::new(place, text.len()))
    }
}

fn terminal(event: Event) -> Terminal {
    match event {
        Event::StartDocument => Terminal::StartDocument,
        Event::EndDocument => Terminal::EndDocument,
        Event::StartElement { .. } => Terminal::StartElement,
        Event::Attribute { .. } => Terminal::Attribute,
        Event::EndElement => Terminal::EndElement,
        Event::Characters(_) => Terminal::Characters,
        Event::Comment(_) => Terminal::Comment,
        Event::ProcessingInstruction { .. } => Terminal::ProcessingInstruction,
    }
}
