//! The published compiler and what it needs around it, as one crate that is built twice: `plain`, and `counted` with
//! a `Vec` that counts code bytes. The files of `published/` are copied there at build time and are not edited; only
//! `types`, `vm::vecmap` and `syntax::parse` are ours, what looks into a chunk and into the compiler from beside them,
//! and the reader and the image writer at the end.

mod image;
mod names;
mod reader;

#[cfg(feature = "counting")]
mod counting;

#[cfg(not(feature = "counting"))]
mod counting {
    /// Counts nothing and has no limit.
    pub fn within<T>(_limit: usize, compile: impl FnOnce() -> T) -> (Option<T>, usize) {
        (Some(compile()), 0)
    }
}

/// The function that was open when the last compiler's work ended.
mod open {
    use std::cell::Cell;

    thread_local! {
        static LAST: Cell<(&'static str, usize)> = const { Cell::new(("", 0)) };
    }

    /// Its name, which lives as long as the collector does, and how many are open around it.
    pub fn note(name: &'static str, around: usize) {
        LAST.set((name, around));
    }

    pub fn last() -> (&'static str, usize) {
        LAST.get()
    }
}

#[allow(dead_code)]
mod error {
    include!("published/error.rs");
}

mod types {
    pub type Span = std::ops::Range<usize>;
    pub type Spanned<T> = (T, Span);
}

mod syntax {
    use std::cell::RefCell;

    use crate::error::{ErrorS, Result};

    #[allow(dead_code)]
    pub mod ast {
        include!("published/syntax/ast.rs");
    }

    thread_local! {
        static TREE: RefCell<Option<ast::Program>> = const { RefCell::new(None) };
    }

    /// Lays down the tree that the next call of `parse` hands over.
    pub fn lay_down(tree: ast::Program) {
        TREE.set(Some(tree));
    }

    /// In place of the parser, so that `Compiler::compile` is called as it is.
    pub fn parse(_source: &str, _offset: usize) -> Result<ast::Program, Vec<ErrorS>> {
        Ok(TREE.take().expect("a tree is laid down before each call"))
    }
}

#[allow(dead_code)]
mod vm {
    pub mod chunk {
        // Shadows the prelude's `Vec` in the text that is included next.
        #[cfg(feature = "counting")]
        use crate::counting::Vec;

        include!("published/vm/chunk.rs");

        /// The runs as they stand; their fields are private to this module.
        pub fn runs(chunk: &Chunk) -> impl ExactSizeIterator<Item = (&Span, u8)> {
            chunk.spans.values.iter().map(|run| (&run.value, run.count))
        }
    }

    pub mod compiler {
        include!("published/vm/compiler.rs");

        /// A compiler is dropped where its work ends, also by an error and while unwinding: then its context is still the one
        /// that stood there. Only this module sees it.
        impl Drop for Compiler {
            fn drop(&mut self) {
                let around = std::iter::successors(self.ctx.parent.as_deref(), |ctx| ctx.parent.as_deref()).count();
                crate::open::note(unsafe { (*(*self.ctx.function).name).value }, around);
            }
        }
    }

    pub mod gc {
        include!("published/vm/gc.rs");
    }

    pub mod object {
        include!("published/vm/object.rs");
    }

    pub mod op {
        include!("published/vm/op.rs");
    }

    pub mod util {
        include!("published/vm/util.rs");
    }

    pub mod value {
        include!("published/vm/value.rs");
    }

    pub mod vecmap {
        use std::hash::BuildHasherDefault;

        use rustc_hash::FxHasher;

        // Classes and instances have such maps; compiling makes neither.
        pub type FxVecMap<K, V> = hashbrown::HashMap<K, V, BuildHasherDefault<FxHasher>>;
    }
}

use error::{Error, ErrorS, NameError, OverflowError, SyntaxError};
use names::Names;
use vm::compiler::Compiler;
use vm::gc::Gc;

/// A refusal: number, at, end, name, function, around.
pub type Refusal = [u32; 6];

/// What one run gives, and the most code bytes that were open at once (0 in the crate that does not count).
pub struct Run {
    pub image: Result<Vec<u8>, Refusal>,
    pub peak: usize,
}

/// Reads a tree file only, and gives the marks of its records in order.
pub fn read(tree: &[u8]) -> Result<Vec<[u8; 2]>, Refusal> {
    reader::read::<true>(tree).map(|file| file.marks)
}

/// What the compiler compiles: a tree of ast.rs, and its names.
pub struct Decoded(#[allow(dead_code)] reader::File);

/// Reads a tree file into what the compiler compiles.
pub fn decode(tree: &[u8]) -> Result<Decoded, Refusal> {
    reader::read::<false>(tree).map(Decoded)
}

/// What one run gives, with what the compiler allocated for it: a clock can be stopped before that is dropped.
pub struct Kept {
    pub run: Run,
    #[allow(dead_code)]
    owned: Option<(Gc, Names)>,
}

/// Reads a tree file and compiles it. `limit` is the code limit; the crate that does not count takes no notice of it.
pub fn run(tree: &[u8], limit: usize) -> Run {
    run_kept(tree, limit).run
}

/// The same, with nothing dropped that the caller could drop later.
pub fn run_kept(tree: &[u8], limit: usize) -> Kept {
    let file = match reader::read::<false>(tree) {
        Ok(file) => file,
        Err(refusal) => return Kept { run: Run { image: Err(refusal), peak: 0 }, owned: None },
    };
    syntax::lay_down(file.program);
    // Outlives an unwinding call: it owns what the compiler allocates.
    let mut gc = Gc::default();
    let (result, peak) = counting::within(limit, || Compiler::compile("", 0, &mut gc));
    let image = match result {
        Some(Ok(script)) => Ok(image::write(script, &file.names)),
        Some(Err(errors)) => Err(within(refusal(&errors[0], &file.names), &file.names)),
        None => Err(within([30, 0, 0, 0], &file.names)),
    };
    Kept { run: Run { image, peak }, owned: Some((gc, file.names)) }
}

/// A refusal of the compiler, with the function that was open when it ended. The collector must still be alive.
fn within([number, at, end, name]: [u32; 4], names: &Names) -> Refusal {
    let (function, around) = open::last();
    [number, at, end, name, names.number(function).into(), around as u32]
}

/// The number, span and name of one of the Rust's errors.
fn refusal((error, span): &ErrorS, names: &Names) -> [u32; 4] {
    let (number, name) = match error {
        Error::NameError(NameError::AlreadyDefined { name }) => (10, names.number(name)),
        Error::NameError(NameError::AccessInsideInitializer { name }) => (11, names.number(name)),
        Error::NameError(NameError::ClassInheritFromSelf { name }) => (12, names.number(name)),
        Error::OverflowError(OverflowError::JumpTooLarge) => (13, 0),
        Error::OverflowError(OverflowError::TooManyArgs) => (14, 0),
        Error::OverflowError(OverflowError::TooManyConstants) => (15, 0),
        Error::OverflowError(OverflowError::TooManyLocals) => (16, 0),
        Error::OverflowError(OverflowError::TooManyParams) => (17, 0),
        Error::OverflowError(OverflowError::TooManyUpvalues) => (18, 0),
        Error::SyntaxError(SyntaxError::ReturnInInitializer) => (19, 0),
        Error::SyntaxError(SyntaxError::ReturnOutsideFunction) => (20, 0),
        Error::SyntaxError(SyntaxError::SuperOutsideClass) => (21, 0),
        Error::SyntaxError(SyntaxError::SuperWithoutSuperclass) => (22, 0),
        Error::SyntaxError(SyntaxError::ThisOutsideClass) => (23, 0),
        other => panic!("the compiler gives no such error: {other}"),
    };
    [number, span.start as u32, span.end as u32, name.into()]
}
