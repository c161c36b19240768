//! The built-in document grammar, the built-in fragment grammar and the built-in element grammars;
//! the last two learn (EXI 8.4.1 to 8.4.3).

use crate::buckets::{Buckets, Link};
use crate::refusal::Refusal;
use crate::settings::Options;
use crate::sizes::{MAX_GRAMMARS, MAX_LEARNED, MAX_NAMES, MAX_OPEN};
use crate::tables::NameId;

#[derive(Clone, Copy, Debug, PartialEq, Eq)]
pub enum Terminal {
    StartDocument,
    EndDocument,
    StartElement,
    Attribute,
    EndElement,
    Characters,
    Comment,
    ProcessingInstruction,
}

/// A terminal symbol. Without a name, SE and AT are SE(*) and AT(*).
#[derive(Clone, Copy, Debug, PartialEq, Eq)]
pub struct Symbol {
    pub terminal: Terminal,
    pub name: Option<NameId>,
}

impl Symbol {
    /// A number of its own for each symbol in each of the states that learn.
    fn key(self, site: usize) -> u32 {
        let name = self.name.map_or(0, |name| name.index() + 1);
        ((site << 8 | name) << 3 | self.terminal as usize) as u32
    }
}

/// Spreads keys over buckets.
fn hash(key: u32) -> u32 {
    key.wrapping_mul(0x9E37_79B1) >> 16
}

impl From<Terminal> for Symbol {
    fn from(terminal: Terminal) -> Self {
        Symbol {
            terminal,
            name: None,
        }
    }
}

/// Whether an event uses a production that was learned, or one that the grammar began with.
#[derive(Clone, Copy, Debug, PartialEq, Eq)]
pub enum Production {
    Learned,
    /// One that puts a learned one before all others of its state.
    Teaching,
    Initial,
}

/// Where an initial production of the current state stands: how many parts its event code has but
/// one, and the value of the last; and whether one is learned from it.
#[derive(Clone, Copy)]
pub struct Place {
    depth: usize,
    value: usize,
    production: Production,
}

#[derive(Clone, Copy, PartialEq, Eq)]
enum State {
    Document,
    DocContent,
    StartTagContent,
    ElementContent,
    DocEnd,
    Finished,
    FragmentContent,
}

/// How many states there are.
const STATES: usize = 7;

/// The initial productions of a state.
#[derive(Clone, Copy)]
struct Initial {
    /// By the number of parts in their event codes.
    levels: [&'static [Terminal]; 3],
    /// By terminal.
    places: [Option<Place>; 8],
    /// How many values they give to each part of an event code.
    choices: [usize; 3],
}

const fn has(terminals: &[Terminal], terminal: Terminal) -> bool {
    let mut k = 0;
    while k < terminals.len() {
        if terminals[k] as usize == terminal as usize {
            return true;
        }
        k += 1;
    }
    false
}

impl Initial {
    /// Productions with these terminals teach.
    const fn new(levels: [&'static [Terminal]; 3], teaching: &[Terminal]) -> Initial {
        let mut places = [None; 8];
        let mut choices = [0; 3];
        let mut depth = 0;
        while depth < 3 {
            let level = levels[depth];
            let mut value = 0;
            while value < level.len() {
                places[level[value] as usize] = Some(Place {
                    depth,
                    value,
                    production: if has(teaching, level[value]) {
                        Production::Teaching
                    } else {
                        Production::Initial
                    },
                });
                value += 1;
            }
            let deeper = depth < 2 && !levels[depth + 1].is_empty();
            choices[depth] = level.len() + deeper as usize;
            depth += 1;
        }
        Initial {
            levels,
            places,
            choices,
        }
    }

    fn production(&self, terminal: Terminal) -> Production {
        match self.places[terminal as usize] {
            Some(place) => place.production,
            None => Production::Initial,
        }
    }

    /// All states, by their numbers, with these of comments and instructions kept. An element
    /// learns from all that have two parts, a fragment's content from SE(*).
    const fn all(kept: &'static [Terminal]) -> [Initial; STATES] {
        use Terminal::*;
        let in_tag = &[EndElement, Attribute, StartElement, Characters];
        let in_content = &[StartElement, Characters];
        let in_fragment = &[StartElement, EndDocument];
        [
            Initial::new([&[StartDocument], &[], &[]], &[]),
            Initial::new([&[StartElement], kept, &[]], &[]),
            Initial::new([&[], in_tag, kept], in_tag),
            Initial::new([&[EndElement], in_content, kept], in_content),
            Initial::new([&[EndDocument], kept, &[]], &[]),
            Initial::new([&[], &[], &[]], &[]),
            Initial::new([in_fragment, kept, &[]], &[StartElement]),
        ]
    }
}

static NOTHING_KEPT: [Initial; STATES] = Initial::all(&[]);
static COMMENTS: [Initial; STATES] = Initial::all(&[Terminal::Comment]);
static INSTRUCTIONS: [Initial; STATES] = Initial::all(&[Terminal::ProcessingInstruction]);
static BOTH: [Initial; STATES] =
    Initial::all(&[Terminal::Comment, Terminal::ProcessingInstruction]);

/// What has been learned for one element name, in the start tag and in the content, oldest first.
/// The newest has event code 0. A fragment's content has one, too, which is never left.
#[derive(Default)]
struct ElementGrammar {
    element: Option<NameId>,
    learned: [Vec<Symbol>; 2],
}

/// A learned production, by its symbol's key.
struct Learned {
    key: u32,
    /// How many older ones its state has.
    older: u16,
    next_in_bucket: Link,
}

pub struct Grammars {
    state: State,
    /// The initial productions, by state.
    initial: &'static [Initial; STATES],
    /// The states before and behind an element that is in no other.
    outside: (State, State),
    /// How many grammars are open outside of all elements: a fragment's content.
    around: usize,
    elements: Vec<ElementGrammar>,
    /// Indices into `elements`.
    by_name: [Option<u8>; MAX_NAMES],
    /// Indices into `elements`, innermost last: so many of these.
    open: [u8; MAX_OPEN + 1],
    depth: usize,
    /// The attributes that the newest start tag has had: a bit for each name.
    attributes: u128,
    learned: Vec<Learned>,
    learned_by_symbol: Buckets<512>,
}

impl Grammars {
    pub fn new(options: &Options) -> Self {
        let mut elements = Vec::with_capacity(4);
        let mut outside = (State::DocContent, State::DocEnd);
        if options.fragment {
            elements.push(ElementGrammar::default());
            outside = (State::FragmentContent, State::FragmentContent);
        }
        let around = elements.len();
        Grammars {
            state: State::Document,
            initial: match (options.comments, options.instructions) {
                (false, false) => &NOTHING_KEPT,
                (true, false) => &COMMENTS,
                (false, true) => &INSTRUCTIONS,
                (true, true) => &BOTH,
            },
            outside,
            around,
            elements,
            by_name: [None; MAX_NAMES],
            open: [0; MAX_OPEN + 1],
            depth: around,
            attributes: 0,
            learned: Vec::with_capacity(8),
            learned_by_symbol: Buckets::new(),
        }
    }

    /// The initial productions of the current state.
    fn initial(&self) -> &'static Initial {
        &self.initial[self.state as usize]
    }

    /// The index of the innermost open element's grammar.
    fn innermost(&self) -> Option<usize> {
        self.open[..self.depth].last().copied().map(usize::from)
    }

    /// The learned productions of the current state.
    fn learned(&self) -> &[Symbol] {
        match self.innermost() {
            Some(grammar) => &self.elements[grammar].learned[self.in_content()],
            None => &[],
        }
    }

    /// Inside an element, 1 behind its start tag, else 0.
    fn in_content(&self) -> usize {
        usize::from(self.state == State::ElementContent)
    }

    /// The learned production of the current state with this symbol: how many older ones there are.
    fn find_learned(&self, symbol: Symbol) -> Option<usize> {
        let key = symbol.key(2 * self.innermost()? + self.in_content());
        let found = self.learned_by_symbol.find(
            hash(key),
            |i| self.learned[i].next_in_bucket,
            |i| self.learned[i].key == key,
        )?;
        Some(usize::from(self.learned[found].older))
    }

    /// Whether the whole document has been seen.
    pub fn is_finished(&self) -> bool {
        self.state == State::Finished
    }

    /// The place of the initial production for events of this kind, if one can come next.
    pub fn place(&self, terminal: Terminal) -> Option<&'static Place> {
        self.initial().places[terminal as usize].as_ref()
    }

    /// The innermost open element.
    pub fn open_element(&self) -> Option<NameId> {
        self.elements[self.innermost()?].element
    }

    /// Notes an attribute of the start tag, which must not have had one of this name.
    pub fn note_attribute(&mut self, name: NameId) -> Result<(), Refusal> {
        const { assert!(MAX_NAMES <= u128::BITS as usize) }
        let bit = 1 << name.index();
        if self.attributes & bit != 0 {
            return Err(Refusal::Shape);
        }
        self.attributes |= bit;
        Ok(())
    }

    /// Whether a learned production fits.
    pub fn has_learned(&self, symbol: Symbol) -> bool {
        self.find_learned(symbol).is_some()
    }

    /// Reads an event code; `read_part` reads a choice among the number given to it.
    pub fn decode(
        &self,
        mut read_part: impl FnMut(usize) -> Result<usize, Refusal>,
    ) -> Result<(Symbol, Production), Refusal> {
        let initial = self.initial();
        let mut learned = self.learned();
        for (depth, level) in initial.levels.iter().enumerate() {
            let choices = learned.len() + initial.choices[depth];
            let part = read_part(choices)?;
            if part >= choices {
                return Err(Refusal::Code);
            }
            if part < learned.len() {
                let symbol = learned[learned.len() - 1 - part];
                return Ok((symbol, Production::Learned));
            }
            if let Some(&terminal) = level.get(part - learned.len()) {
                return Ok((terminal.into(), initial.production(terminal)));
            }
            learned = &[];
        }
        Err(Refusal::Code)
    }

    /// Writes the event code of a symbol whose initial production has this place; `write_part`
    /// takes a value and the number of choices.
    pub fn encode(
        &self,
        symbol: Symbol,
        place: &Place,
        mut write_part: impl FnMut(usize, usize),
    ) -> Production {
        let initial = self.initial();
        let production = place.production;
        let mut learned = self.learned().len();
        if production == Production::Teaching && learned > 0 {
            if let Some(older) = self.find_learned(symbol) {
                write_part(learned - 1 - older, learned + initial.choices[0]);
                return Production::Learned;
            }
        }
        for depth in 0..place.depth {
            let deeper = learned + initial.levels[depth].len();
            write_part(deeper, learned + initial.choices[depth]);
            learned = 0;
        }
        write_part(
            learned + place.value,
            learned + initial.choices[place.depth],
        );
        production
    }

    /// Moves past an event and learns from it.
    pub fn advance(&mut self, symbol: Symbol, production: Production) -> Result<(), Refusal> {
        let entered = match symbol {
            Symbol {
                terminal: Terminal::StartElement,
                name: Some(name),
            } => {
                if self.depth == MAX_OPEN + self.around {
                    return Err(Refusal::Limit);
                }
                Some(self.element_grammar(name)?)
            }
            _ => None,
        };
        if production == Production::Teaching {
            self.learn(symbol)?;
        }

        match symbol.terminal {
            Terminal::StartDocument => self.state = self.outside.0,
            Terminal::EndDocument => self.state = State::Finished,
            Terminal::StartElement => {
                if let Some(grammar) = entered {
                    self.open[self.depth] = grammar;
                    self.depth += 1;
                }
                self.state = State::StartTagContent;
                self.attributes = 0;
            }
            Terminal::Attribute => {}
            Terminal::EndElement => {
                self.depth = self.depth.saturating_sub(1);
                self.state = if self.depth == self.around {
                    self.outside.1
                } else {
                    State::ElementContent
                };
            }
            Terminal::Characters | Terminal::Comment | Terminal::ProcessingInstruction => {
                if self.state == State::StartTagContent {
                    self.state = State::ElementContent;
                }
            }
        }
        Ok(())
    }

    /// The grammar for elements of this name, made when the first of them comes.
    fn element_grammar(&mut self, element: NameId) -> Result<u8, Refusal> {
        if let Some(grammar) = self.by_name[element.index()] {
            return Ok(grammar);
        }
        if self.elements.len() == MAX_GRAMMARS + self.around {
            return Err(Refusal::Limit);
        }
        let grammar = self.elements.len() as u8;
        self.elements.push(ElementGrammar {
            element: Some(element),
            learned: [Vec::new(), Vec::new()],
        });
        self.by_name[element.index()] = Some(grammar);
        Ok(grammar)
    }

    /// Puts a production for this symbol before all others of the current state.
    fn learn(&mut self, symbol: Symbol) -> Result<(), Refusal> {
        let Some(grammar) = self.innermost() else {
            return Ok(());
        };
        let count = self.learned.len();
        if count == MAX_LEARNED {
            return Err(Refusal::Limit);
        }
        let in_content = self.in_content();
        let key = symbol.key(2 * grammar + in_content);
        let here = &mut self.elements[grammar].learned[in_content];
        self.learned.push(Learned {
            key,
            older: here.len() as u16,
            next_in_bucket: self.learned_by_symbol.add(hash(key), count),
        });
        here.push(symbol);
        Ok(())
    }
}
