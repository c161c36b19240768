//! The strict form of a well-formed list, laid out field by field from the scope's words; no size
//! is limited here, and equal attributes are laid out like others.
//!
//! In place of some of the strict form's choices others may be taken that stand for the same text
//! or event: a stream that is LOOSE.

use std::collections::HashMap;

use crate::event::{text, Event, Text, XML_URI, XSI_URI};
use crate::lent::Settings;

/// What a field stands for.
#[derive(Clone, Copy, Debug, PartialEq, Eq)]
pub enum Role {
    Header,
    Code,
    Uri,
    UriLength,
    Name,
    NameLength,
    LocalValue,
    GlobalValue,
    ValueLength,
    TargetLength,
    TextLength,
    CodePoint,
}

#[derive(Clone, Debug, PartialEq, Eq)]
pub enum Shape {
    /// One of a number of choices.
    Choice { value: usize, among: usize },
    /// An Unsigned Integer.
    Unsigned(u32),
    /// Octets as they are, 8 bits each.
    Octets(Vec<u8>),
}

#[derive(Clone, Debug)]
pub struct Field {
    /// How many events come before the one that the field belongs to.
    pub event: usize,
    pub role: Role,
    pub shape: Shape,
    /// For a length: the numbers in its place that would ask for an entry of an empty table.
    pub empty_tables: Vec<u32>,
    /// For a local number: those that were taken away.
    pub taken_numbers: Vec<usize>,
}

/// Where the strict form has one choice and another would stand for the same.
#[derive(Clone, Copy, Debug, PartialEq, Eq, Hash, PartialOrd, Ord)]
pub enum Loose {
    UriLiteral,
    NameLiteral,
    /// A literal value where a local entry exists.
    ValueLiteralLocal,
    /// A literal value where a global entry exists.
    ValueLiteralGlobal,
    /// A global number where a local entry exists.
    ValueGlobal,
    StartElementProduction,
    /// In fragment content.
    TopElementProduction,
    AttributeProduction,
    EndElementProduction,
    CharactersProduction,
}

impl Loose {
    pub const ALL: [Loose; 10] = [
        Loose::UriLiteral,
        Loose::NameLiteral,
        Loose::ValueLiteralLocal,
        Loose::ValueLiteralGlobal,
        Loose::ValueGlobal,
        Loose::StartElementProduction,
        Loose::TopElementProduction,
        Loose::AttributeProduction,
        Loose::EndElementProduction,
        Loose::CharactersProduction,
    ];
}

/// A form that a strict stream has taken, for counting what the streams of a run contain.
#[derive(Clone, Copy, Debug, PartialEq, Eq, Hash, PartialOrd, Ord)]
pub enum Form {
    UriHit,
    UriMiss,
    NameHit,
    NameMiss,
    LocalHit,
    GlobalHit,
    ValueMiss,
    EmptyValue,
    /// A value that joins no table, by its length or because none does.
    ValueOutside,
    /// A literal that replaces an entry.
    Replacing,
    /// A literal whose text was an entry and has been replaced.
    ReplacedAgain,
    /// A local number of a name that has lost some.
    LocalHitBesideTaken,
    LearnedStartElement,
    LearnedAttribute,
    LearnedEndElement,
    LearnedCharacters,
    AnyElement,
    AnyAttribute,
    TwoPartEndElement,
    OnePartEndElement,
    TwoPartCharacters,
    CommentInDocument,
    CommentInStartTag,
    CommentInContent,
    CommentAfterRoot,
    InstructionInDocument,
    InstructionInStartTag,
    InstructionInContent,
    InstructionAfterRoot,
    LearnedTopElement,
    AnyTopElement,
    CommentInFragment,
    InstructionInFragment,
    /// A fragment without elements.
    NoElement,
    /// A choice of two octets when byte-aligned.
    WideChoice,
}

impl Form {
    pub const ALL: [Form; 35] = [
        Form::UriHit,
        Form::UriMiss,
        Form::NameHit,
        Form::NameMiss,
        Form::LocalHit,
        Form::GlobalHit,
        Form::ValueMiss,
        Form::EmptyValue,
        Form::ValueOutside,
        Form::Replacing,
        Form::ReplacedAgain,
        Form::LocalHitBesideTaken,
        Form::LearnedStartElement,
        Form::LearnedAttribute,
        Form::LearnedEndElement,
        Form::LearnedCharacters,
        Form::AnyElement,
        Form::AnyAttribute,
        Form::TwoPartEndElement,
        Form::OnePartEndElement,
        Form::TwoPartCharacters,
        Form::CommentInDocument,
        Form::CommentInStartTag,
        Form::CommentInContent,
        Form::CommentAfterRoot,
        Form::InstructionInDocument,
        Form::InstructionInStartTag,
        Form::InstructionInContent,
        Form::InstructionAfterRoot,
        Form::LearnedTopElement,
        Form::AnyTopElement,
        Form::CommentInFragment,
        Form::InstructionInFragment,
        Form::NoElement,
        Form::WideChoice,
    ];
}

/// The fields of a stream.
#[derive(Clone, Debug)]
pub struct Encoded {
    pub settings: Settings,
    pub fields: Vec<Field>,
    /// The events of the list.
    pub events: usize,
    /// Each place where a loose form could have been taken, with the index of its event.
    pub loose: Vec<(Loose, usize)>,
    /// Those where it was.
    pub taken: Vec<usize>,
    pub forms: Vec<Form>,
    pub counts: Counts,
}

/// What the strict form's tables, grammars and literals come to.
#[derive(Clone, Copy, Debug, Default, PartialEq, Eq)]
pub struct Counts {
    pub open: usize,
    pub uris: usize,
    pub names: usize,
    pub values: usize,
    pub grammars: usize,
    pub productions: usize,
    pub code_points: usize,
}

/// The strict form of a well-formed list.
pub fn encode(settings: Settings, events: &[Event]) -> Encoded {
    encode_loosely(settings, events, &[])
}

/// The strict form but for the loose forms at these places of [`Encoded::loose`]. Behind a place
/// that is taken there may be others than in the strict form.
pub fn encode_loosely(settings: Settings, events: &[Event], taken: &[usize]) -> Encoded {
    let mut encoder = Encoder::new(settings, taken.to_vec());
    for event in events {
        encoder.event(event);
        encoder.index += 1;
    }
    encoder.counts.uris = encoder.uris.len();
    encoder.counts.names = encoder.names.len();
    encoder.counts.values = encoder.values.len() - encoder.first_present();
    encoder.counts.grammars = encoder.grammars.len();
    Encoded {
        settings,
        fields: encoder.fields,
        events: events.len(),
        loose: encoder.loose,
        taken: encoder.taken,
        forms: encoder.forms,
        counts: encoder.counts,
    }
}

#[derive(Clone, Copy, PartialEq, Eq, Hash)]
enum State {
    Document,
    StartTag,
    Content,
    AfterRoot,
    Fragment,
}

#[derive(Clone, Copy, PartialEq, Eq)]
enum Production {
    StartElement(usize),
    Attribute(usize),
    EndElement,
    Characters,
}

struct Encoder {
    settings: Settings,
    index: usize,
    fields: Vec<Field>,
    uris: Vec<Text>,
    /// A URI's number, and a local name.
    names: Vec<(usize, Text)>,
    /// A name's number, and a value: all that ever joined. Present are the newest, as many as the
    /// capacity allows.
    values: Vec<(usize, Text)>,
    /// By element name: learned productions of the start tag and of the content, the newest last.
    grammars: HashMap<usize, [Vec<Production>; 2]>,
    /// Learned productions of fragment content, the newest last.
    fragment: Vec<Production>,
    state: State,
    open: Vec<usize>,
    taken: Vec<usize>,
    loose: Vec<(Loose, usize)>,
    forms: Vec<Form>,
    counts: Counts,
}

impl Encoder {
    fn new(settings: Settings, taken: Vec<usize>) -> Encoder {
        let mut encoder = Encoder {
            settings,
            index: 0,
            fields: Vec::new(),
            uris: vec![text(""), text(XML_URI), text(XSI_URI)],
            names: Vec::new(),
            values: Vec::new(),
            grammars: HashMap::new(),
            fragment: Vec::new(),
            state: match settings.fragment {
                0 => State::Document,
                _ => State::Fragment,
            },
            open: Vec::new(),
            taken,
            loose: Vec::new(),
            forms: Vec::new(),
            counts: Counts {
                code_points: 99,
                ..Counts::default()
            },
        };
        for (uri, name) in [
            (1, "base"),
            (1, "id"),
            (1, "lang"),
            (1, "space"),
            (2, "nil"),
            (2, "type"),
        ] {
            encoder.names.push((uri, text(name)));
        }
        let header: &[u8] = if settings.cookie == 1 {
            &[0x24, 0x45, 0x58, 0x49, 0x80]
        } else {
            &[0x80]
        };
        for &octet in header {
            encoder.field(Role::Header, Shape::Octets(vec![octet]));
        }
        encoder
    }

    fn field(&mut self, role: Role, shape: Shape) {
        self.fields.push(Field {
            event: self.index,
            role,
            shape,
            empty_tables: Vec::new(),
            taken_numbers: Vec::new(),
        });
    }

    fn choice(&mut self, role: Role, value: usize, among: usize) {
        if among > 256 {
            self.forms.push(Form::WideChoice);
        }
        self.field(role, Shape::Choice { value, among });
    }

    fn unsigned(&mut self, role: Role, value: usize) {
        self.field(role, Shape::Unsigned(value as u32));
    }

    fn length(&mut self, role: Role, value: usize, empty_tables: Vec<u32>) {
        self.unsigned(role, value);
        if let Some(field) = self.fields.last_mut() {
            field.empty_tables = empty_tables;
        }
    }

    fn code_points(&mut self, string: &[u32]) {
        self.counts.code_points += string.len();
        for &code_point in string {
            self.field(Role::CodePoint, Shape::Unsigned(code_point));
        }
    }

    /// Notes that a loose form could stand here; true if it is to be taken.
    fn loosely(&mut self, form: Loose) -> bool {
        self.loose.push((form, self.index));
        self.taken.contains(&(self.loose.len() - 1))
    }

    fn event(&mut self, event: &Event) {
        match event {
            Event::StartDocument => {}
            Event::EndDocument if self.state == State::Fragment => {
                if self.grammars.is_empty() {
                    self.forms.push(Form::NoElement);
                }
                self.fragment_part(1);
            }
            Event::EndDocument => self.document_part(0),
            Event::StartElement { uri, name } => self.start_element(uri, name),
            Event::Attribute { uri, name, value } => {
                let known = self.known_name(uri, name);
                let production = known.map(Production::Attribute);
                if self.learned(production, Loose::AttributeProduction) {
                    self.forms.push(Form::LearnedAttribute);
                    let name = known.expect("a learned name is known");
                    self.value(name, value);
                } else {
                    self.forms.push(Form::AnyAttribute);
                    self.start_tag_part(1);
                    let name = self.name(uri, name);
                    self.value(name, value);
                    self.learn(Production::Attribute(name));
                }
            }
            Event::EndElement => {
                let production = Production::EndElement;
                if self.state == State::Content {
                    self.forms.push(Form::OnePartEndElement);
                    let learned = self.learned_count();
                    self.choice(Role::Code, learned, learned + 2);
                } else if self.learned(Some(production), Loose::EndElementProduction) {
                    self.forms.push(Form::LearnedEndElement);
                } else {
                    self.forms.push(Form::TwoPartEndElement);
                    self.start_tag_part(0);
                    self.learn(production);
                }
                self.open.pop();
                self.state = if !self.open.is_empty() {
                    State::Content
                } else if self.settings.fragment == 0 {
                    State::AfterRoot
                } else {
                    State::Fragment
                };
            }
            Event::Characters(value) => {
                let production = Production::Characters;
                let name = self.element();
                if self.learned(Some(production), Loose::CharactersProduction) {
                    self.forms.push(Form::LearnedCharacters);
                    self.value(name, value);
                } else {
                    self.forms.push(Form::TwoPartCharacters);
                    if self.state == State::StartTag {
                        self.start_tag_part(3);
                    } else {
                        self.content_part(1);
                    }
                    self.value(name, value);
                    self.learn(production);
                }
                self.state = State::Content;
            }
            Event::Comment(comment) => {
                self.forms.push(match self.state {
                    State::Document => Form::CommentInDocument,
                    State::StartTag => Form::CommentInStartTag,
                    State::Content => Form::CommentInContent,
                    State::AfterRoot => Form::CommentAfterRoot,
                    State::Fragment => Form::CommentInFragment,
                });
                self.kept_part(0);
                self.string(Role::TextLength, comment);
            }
            Event::Instruction { target, text } => {
                self.forms.push(match self.state {
                    State::Document => Form::InstructionInDocument,
                    State::StartTag => Form::InstructionInStartTag,
                    State::Content => Form::InstructionInContent,
                    State::AfterRoot => Form::InstructionAfterRoot,
                    State::Fragment => Form::InstructionInFragment,
                });
                self.kept_part(self.settings.comments as usize);
                self.string(Role::TargetLength, target);
                self.string(Role::TextLength, text);
            }
        }
    }

    fn start_element(&mut self, uri: &[u32], name: &[u32]) {
        let number = if self.state == State::Document {
            self.document_part(0);
            self.name(uri, name)
        } else {
            let known = self.known_name(uri, name);
            let production = known.map(Production::StartElement);
            let is_top = self.state == State::Fragment;
            let (loose, learned, any) = if is_top {
                (
                    Loose::TopElementProduction,
                    Form::LearnedTopElement,
                    Form::AnyTopElement,
                )
            } else {
                (
                    Loose::StartElementProduction,
                    Form::LearnedStartElement,
                    Form::AnyElement,
                )
            };
            if self.learned(production, loose) {
                self.forms.push(learned);
                known.expect("a learned name is known")
            } else {
                self.forms.push(any);
                match self.state {
                    State::Fragment => self.fragment_part(0),
                    State::StartTag => self.start_tag_part(2),
                    _ => self.content_part(0),
                }
                let number = self.name(uri, name);
                self.learn(Production::StartElement(number));
                number
            }
        };
        self.open.push(number);
        self.counts.open = self.counts.open.max(self.open.len());
        self.grammars.entry(number).or_default();
        self.state = State::StartTag;
    }

    /// SE(*) of document content or ED after the root as 0, all that is kept as 1.
    fn document_part(&mut self, value: usize) {
        let among = if self.settings.kept() > 0 { 2 } else { 1 };
        self.choice(Role::Code, value, among);
    }

    /// SE(*) of fragment content as 0, ED as 1, all that is kept as 2, behind what was learned.
    fn fragment_part(&mut self, value: usize) {
        let (learned, among) = (self.learned_count(), self.codes());
        self.choice(Role::Code, learned + value, among);
    }

    fn start_tag_part(&mut self, value: usize) {
        let learned = self.learned_count();
        self.choice(Role::Code, learned, learned + 1);
        let among = if self.settings.kept() > 0 { 5 } else { 4 };
        self.choice(Role::Code, value, among);
    }

    fn content_part(&mut self, value: usize) {
        let learned = self.learned_count();
        self.choice(Role::Code, learned + 1, learned + 2);
        let among = if self.settings.kept() > 0 { 3 } else { 2 };
        self.choice(Role::Code, value, among);
    }

    fn kept_part(&mut self, value: usize) {
        match self.state {
            State::Document | State::AfterRoot => self.document_part(1),
            State::Fragment => self.fragment_part(2),
            State::StartTag => {
                self.start_tag_part(4);
                self.state = State::Content;
            }
            State::Content => self.content_part(2),
        }
        self.choice(Role::Code, value, self.settings.kept());
    }

    fn element(&self) -> usize {
        *self.open.last().expect("an open element")
    }

    fn productions(&mut self) -> &mut Vec<Production> {
        if self.state == State::Fragment {
            return &mut self.fragment;
        }
        let element = self.element();
        let state = usize::from(self.state == State::Content);
        &mut self.grammars.entry(element).or_default()[state]
    }

    fn learned_count(&mut self) -> usize {
        self.productions().len()
    }

    /// How many values the first part of a code has in a state that learns.
    fn codes(&mut self) -> usize {
        let others = match self.state {
            State::Fragment => 2 + usize::from(self.settings.kept() > 0),
            State::Content => 2,
            _ => 1,
        };
        self.learned_count() + others
    }

    /// Writes the code of a learned production if there is one and it is to be used.
    fn learned(&mut self, production: Option<Production>, loose: Loose) -> bool {
        let Some(production) = production else {
            return false;
        };
        let productions = self.productions();
        let count = productions.len();
        let Some(at) = productions.iter().rposition(|p| *p == production) else {
            return false;
        };
        if self.loosely(loose) {
            return false;
        }
        let among = self.codes();
        self.choice(Role::Code, count - 1 - at, among);
        true
    }

    fn learn(&mut self, production: Production) {
        self.productions().push(production);
        self.counts.productions += 1;
    }

    fn known_name(&self, uri: &[u32], name: &[u32]) -> Option<usize> {
        let uri = self.uris.iter().position(|known| known == uri)?;
        self.names
            .iter()
            .position(|(of, known)| *of == uri && known == name)
    }

    fn string(&mut self, role: Role, string: &[u32]) {
        self.unsigned(role, string.len());
        self.code_points(string);
    }

    /// URI and local name; the name's number.
    fn name(&mut self, uri: &[u32], name: &[u32]) -> usize {
        let uri = self.uri(uri);
        let partition: Vec<usize> = (0..self.names.len())
            .filter(|&k| self.names[k].0 == uri)
            .collect();
        let hit = partition.iter().position(|&k| self.names[k].1 == name);
        let empty = if partition.is_empty() {
            vec![0]
        } else {
            vec![]
        };
        if let Some(at) = hit {
            if !self.loosely(Loose::NameLiteral) {
                self.forms.push(Form::NameHit);
                self.length(Role::NameLength, 0, empty);
                self.choice(Role::Name, at, partition.len());
                return partition[at];
            }
        }
        self.forms.push(Form::NameMiss);
        self.length(Role::NameLength, name.len() + 1, empty);
        self.code_points(name);
        self.names.push((uri, name.to_vec()));
        self.names.len() - 1
    }

    fn uri(&mut self, uri: &[u32]) -> usize {
        let count = self.uris.len();
        let hit = self.uris.iter().position(|known| known == uri);
        if let Some(at) = hit {
            if !self.loosely(Loose::UriLiteral) {
                self.forms.push(Form::UriHit);
                self.choice(Role::Uri, at + 1, count + 1);
                return at;
            }
        }
        self.forms.push(Form::UriMiss);
        self.choice(Role::Uri, 0, count + 1);
        self.string(Role::UriLength, uri);
        self.uris.push(uri.to_vec());
        count
    }

    /// The most values that are present at once.
    fn capacity(&self) -> usize {
        let bound = self.settings.value_capacity.checked_sub(1);
        bound.map_or(usize::MAX, |capacity| capacity as usize)
    }

    /// The place of the oldest value that is present.
    fn first_present(&self) -> usize {
        self.values.len().saturating_sub(self.capacity())
    }

    /// Whether a value joins the tables.
    fn joins(&self, value: &[u32]) -> bool {
        let bound = self.settings.value_length.checked_sub(1);
        let longest = bound.map_or(usize::MAX, |length| length as usize);
        !value.is_empty() && self.capacity() > 0 && value.len() <= longest
    }

    fn value(&mut self, name: usize, value: &[u32]) {
        let first = self.first_present();
        let present = self.values.len() - first;
        let local: Vec<usize> = (0..self.values.len())
            .filter(|&k| self.values[k].0 == name)
            .collect();
        let taken: Vec<usize> = (0..local.len()).filter(|&n| local[n] < first).collect();
        let has_text = |k: usize| k >= first && self.values[k].1 == value;
        let local_hit = local.iter().position(|&k| has_text(k));
        let global_hit = (first..self.values.len()).find(|&k| has_text(k));
        let mut empty = Vec::new();
        if local.is_empty() {
            empty.push(0);
        }
        if present == 0 {
            empty.push(1);
        }
        let mut literal = false;
        let mut global = false;
        if local_hit.is_some() {
            literal = self.loosely(Loose::ValueLiteralLocal);
            global = self.loosely(Loose::ValueGlobal);
        } else if global_hit.is_some() {
            literal = self.loosely(Loose::ValueLiteralGlobal);
        }
        match (local_hit, global_hit) {
            (Some(at), _) if !literal && !global => {
                self.forms.push(Form::LocalHit);
                if !taken.is_empty() {
                    self.forms.push(Form::LocalHitBesideTaken);
                }
                self.length(Role::ValueLength, 0, empty);
                self.choice(Role::LocalValue, at, local.len());
                if let Some(field) = self.fields.last_mut() {
                    field.taken_numbers = taken;
                }
            }
            (_, Some(at)) if !literal => {
                self.forms.push(Form::GlobalHit);
                self.length(Role::ValueLength, 1, empty);
                self.choice(Role::GlobalValue, at % self.capacity(), present);
            }
            _ => self.literal_value(name, value, empty),
        }
    }

    fn literal_value(&mut self, name: usize, value: &[u32], empty_tables: Vec<u32>) {
        let joins = self.joins(value);
        let first = self.first_present();
        self.forms.push(match (value.is_empty(), joins) {
            (true, _) => Form::EmptyValue,
            (false, false) => Form::ValueOutside,
            (false, true) => Form::ValueMiss,
        });
        self.length(Role::ValueLength, value.len() + 2, empty_tables);
        self.code_points(value);
        if !joins {
            return;
        }
        if self.values.len() - first == self.capacity() {
            self.forms.push(Form::Replacing);
        }
        if self.values[..first].iter().any(|(_, known)| known == value) {
            self.forms.push(Form::ReplacedAgain);
        }
        self.values.push((name, value.to_vec()));
    }
}

/// How many bits tell apart `among` choices.
pub fn width(among: usize) -> u32 {
    match among {
        0 | 1 => 0,
        _ => usize::BITS - (among - 1).leading_zeros(),
    }
}

/// An Unsigned Integer in fewest octets.
pub fn unsigned_octets(value: u32) -> Vec<u8> {
    let mut octets = Vec::new();
    let mut rest = value;
    while rest >= 128 {
        octets.push(rest as u8 | 0x80);
        rest >>= 7;
    }
    octets.push(rest as u8);
    octets
}

/// Bits from the most significant one of the first octet on.
#[derive(Default)]
struct Bits {
    octets: Vec<u8>,
    count: usize,
}

impl Bits {
    fn push(&mut self, value: usize, width: u32) {
        if width == 8 && self.count == 8 * self.octets.len() {
            self.octets.push(value as u8);
            self.count += 8;
            return;
        }
        for k in (0..width).rev() {
            if self.count == 8 * self.octets.len() {
                self.octets.push(0);
            }
            let bit = (value >> k) as u8 & 1;
            if let Some(last) = self.octets.last_mut() {
                *last |= bit << (7 - self.count % 8);
            }
            self.count += 1;
        }
    }
}

impl Field {
    fn lay(&self, settings: Settings, bits: &mut Bits) {
        match &self.shape {
            Shape::Choice { value, among } => {
                if settings.byte_aligned() {
                    for k in 0..width(*among).div_ceil(8) {
                        bits.push(value >> (8 * k) & 255, 8);
                    }
                } else {
                    bits.push(*value, width(*among));
                }
            }
            Shape::Unsigned(value) => {
                for octet in unsigned_octets(*value) {
                    bits.push(usize::from(octet), 8);
                }
            }
            Shape::Octets(octets) => {
                for octet in octets {
                    bits.push(usize::from(*octet), 8);
                }
            }
        }
    }
}

impl Encoded {
    pub fn octets(&self) -> Vec<u8> {
        let mut bits = Bits::default();
        for field in &self.fields {
            field.lay(self.settings, &mut bits);
        }
        bits.octets
    }

    /// The octets, and the number of bits of all fields.
    pub fn octets_and_bits(&self) -> (Vec<u8>, usize) {
        let mut bits = Bits::default();
        for field in &self.fields {
            field.lay(self.settings, &mut bits);
        }
        (bits.octets, bits.count)
    }

    /// The number of bits of the fields of all events before this one.
    pub fn bits_before(&self, event: usize) -> usize {
        let mut bits = Bits::default();
        for field in self.fields.iter().take_while(|field| field.event < event) {
            field.lay(self.settings, &mut bits);
        }
        bits.count
    }

    /// The index of the event in which the first `octets` octets of the stream end, where they are
    /// not all.
    pub fn event_at(&self, octets: usize) -> usize {
        let mut bits = Bits::default();
        for field in &self.fields {
            field.lay(self.settings, &mut bits);
            if bits.count > 8 * octets {
                return field.event;
            }
        }
        self.events
    }
}

#[cfg(test)]
mod tests {
    use super::*;

    #[test]
    fn widths() {
        let widths: Vec<u32> = [0, 1, 2, 3, 4, 5, 8, 9, 16, 17, 256, 257, 512, 513]
            .into_iter()
            .map(width)
            .collect();
        assert_eq!(widths, [0, 0, 1, 2, 2, 3, 3, 4, 4, 5, 8, 9, 9, 10]);
    }

    #[test]
    fn unsigned_integers() {
        assert_eq!(unsigned_octets(0), [0]);
        assert_eq!(unsigned_octets(127), [0x7F]);
        assert_eq!(unsigned_octets(128), [0x80, 0x01]);
        assert_eq!(unsigned_octets(16_383), [0xFF, 0x7F]);
        assert_eq!(unsigned_octets(16_384), [0x80, 0x80, 0x01]);
        assert_eq!(unsigned_octets(0x7FFF_FFFF), [0xFF, 0xFF, 0xFF, 0xFF, 0x07]);
    }
}
