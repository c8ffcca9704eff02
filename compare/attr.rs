//! `attr.rs` of the documents. The Rust asks its validator at a bare brace outside verbatim, and at no
//! other time; behind a mark that closes it asks twice, from there and again at the brace. Where a
//! validator first reaches its done state an attribute block stands: the brace at which it began is
//! the place of a refusal with `BRACE`, so it is noted while a sheet is read. Nothing behind it
//! matters then, and the Rust is told that no block stands there, nor at any later brace.

use std::cell::{Cell, RefCell};

mod source {
    include!(env!("ATTR_RS"));

    impl Validator {
        /// The number of its state, in the order of `State`.
        pub fn number(&self) -> u32 {
            self.state as u32
        }

        /// Whether it is done or invalid.
        pub fn is_decided(&self) -> bool {
            matches!(self.state, State::Done | State::Invalid)
        }
    }
}
pub use source::Attributes;
pub(crate) use source::Parser;

/// The validator as it stands.
pub type Plain = source::Validator;

/// Whether braces are noted, and the address of the first at which a block stands.
#[derive(Clone, Copy)]
enum Noted {
    Off,
    None,
    At(usize),
}

thread_local! {
    static NOTED: Cell<Noted> = const { Cell::new(Noted::Off) };
    /// The addresses of the braces at which the Rust asked, to that one, each once.
    static ASKED: RefCell<Vec<usize>> = const { RefCell::new(Vec::new()) };
}

/// Begins to note braces.
pub fn note() {
    NOTED.set(Noted::None);
    ASKED.with_borrow_mut(Vec::clear);
}

/// Ends it.
pub fn forget() {
    NOTED.set(Noted::Off);
}

/// The address of the first brace at which a block stands.
pub fn noted() -> Option<usize> {
    match NOTED.get() {
        Noted::At(address) => Some(address),
        _ => None,
    }
}

/// The braces at which the Rust asked.
pub fn asked<R>(of: impl FnOnce(&[usize]) -> R) -> R {
    ASKED.with_borrow(|asked| of(asked))
}

/// The validator that the Rust asks, and the address of the brace at which it began.
#[derive(Clone)]
pub struct Validator {
    plain: Plain,
    brace: Option<usize>,
}

impl Validator {
    pub fn new() -> Self {
        Validator { plain: Plain::new(), brace: None }
    }

    pub fn restart(&mut self) {
        *self = Validator::new();
    }

    /// The brace at which it began, noted once.
    fn begun(&mut self, input: &str) -> usize {
        *self.brace.get_or_insert_with(|| {
            let address = input.as_ptr() as usize;
            ASKED.with_borrow_mut(|asked| {
                if asked.last() != Some(&address) {
                    asked.push(address);
                }
            });
            address
        })
    }

    pub fn parse(&mut self, input: &str) -> Option<usize> {
        match NOTED.get() {
            Noted::Off => return self.plain.parse(input),
            Noted::At(_) => return Some(0),
            Noted::None => (),
        }
        let brace = self.begun(input);
        match self.plain.parse(input) {
            Some(1..) => {
                NOTED.set(Noted::At(brace));
                Some(0)
            }
            none => none,
        }
    }
}
