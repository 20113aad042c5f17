//! All source trees of a translation within some levels, each with its run, in byte order: what a
//! search is to find by its definition. Only for small languages.

use crate::code::Symbol;
use crate::language::{Class, Production, KINDS};
use crate::translation::{read_translation, Translation};

/// A source tree with its run, if that is not longer than what is looked for.
#[derive(Clone, Debug)]
pub struct Listed {
    pub tree: Vec<u8>,
    pub run: Option<Vec<u8>>,
}

/// The trees of one kind in byte order; `None` if they are too many.
type List = Option<Vec<Listed>>;

/// Lists the trees of a translation's source.
struct Lister<'a> {
    translation: &'a Translation,
    /// Runs are kept up to this length.
    longest: usize,
    /// No list has more trees.
    most: usize,
}

impl Lister<'_> {
    /// The trees of each kind within so many levels.
    fn lists(&self, levels: usize) -> Vec<List> {
        (0..levels).fold(self.level(None), |below, _| self.level(Some(&below)))
    }

    /// The trees of each kind with one level more than those below; tokens alone if there are none.
    fn level(&self, below: Option<&[List]>) -> Vec<List> {
        (0..KINDS as u8).map(|kind| self.list(kind, below)).collect()
    }

    /// All trees of a kind in byte order whose arguments are among those below.
    fn list(&self, kind: u8, below: Option<&[List]>) -> List {
        let classes = &self.translation.source.classes;
        if let Some(class) = classes.iter().find(|class| class.kind == kind) {
            return self.tokens(class);
        }
        let mut list = Vec::new();
        let productions = self.translation.source.productions.iter().enumerate();
        for (place, production) in productions.filter(|(_, of)| of.result == kind) {
            if let Some(below) = below {
                list.extend(self.of_production(place, production, below)?);
            }
        }
        (list.len() <= self.most).then_some(list)
    }

    /// All tokens of a class, if there are not too many; each runs to itself.
    fn tokens(&self, class: &Class) -> List {
        let values = (class.low..=class.high).step_by(class.step.get().into());
        let listed = |value: u16| Listed {
            tree: value.to_be_bytes().to_vec(),
            run: (self.longest >= 2).then(|| value.to_be_bytes().to_vec()),
        };
        let tokens: Vec<Listed> = values.take(self.most + 1).map(listed).collect();
        (tokens.len() <= self.most).then_some(tokens)
    }

    /// All trees of a production in byte order whose arguments are among those below, if there are
    /// not too many.
    fn of_production(&self, place: usize, production: &Production, below: &[List]) -> List {
        let mut rows: Vec<Vec<Listed>> = vec![vec![]];
        for &argument in production.arguments() {
            let trees = below[argument as usize].as_ref()?;
            if trees.len() * rows.len() > self.most {
                return None;
            }
            let with =
                |row: &Vec<Listed>, tree: &Listed| [&row[..], std::slice::from_ref(tree)].concat();
            let wider = rows.iter().flat_map(|row| trees.iter().map(move |tree| with(row, tree)));
            rows = wider.collect();
        }
        let clause = self.translation.body.clauses.iter().nth(place)?;
        let listed = |row: Vec<Listed>| {
            let trees = row.iter().flat_map(|listed| listed.tree.iter().copied());
            let tree = [production.name].into_iter().chain(trees).collect();
            Listed { tree, run: self.run(clause.code, &row) }
        };
        Some(rows.into_iter().map(listed).collect())
    }

    /// The code with each use of an argument replaced by the argument's run, if it is not too long.
    fn run(&self, code: &[u8], arguments: &[Listed]) -> Option<Vec<u8>> {
        let (mut run, mut rest) = (Vec::new(), code);
        while let Some((symbol, behind)) = Symbol::split(rest) {
            match symbol {
                Symbol::Production(name) => run.push(name),
                Symbol::Token(value) => run.extend(value.to_be_bytes()),
                Symbol::Argument(number, _) => {
                    run.extend_from_slice(arguments[usize::from(number)].run.as_ref()?);
                }
            }
            rest = behind;
        }
        (run.len() <= self.longest).then_some(run)
    }
}

/// All source trees of a kind within so many levels in byte order, with runs up to a length, if no
/// list of them has more than so many; the translation must be accepted.
pub fn source_trees(
    translation: &[u8],
    kind: u32,
    levels: u32,
    longest: usize,
    most: usize,
) -> Option<Vec<Listed>> {
    let translation = &read_translation(translation).expect("an accepted translation");
    Lister { translation, longest, most }.lists(levels as usize).swap_remove(kind as usize)
}

/// The first source tree that runs to a tree, by going through all; `None` if they are too many.
pub fn first_source(
    translation: &[u8],
    kind: u32,
    tree: &[u8],
    levels: u32,
    most: usize,
) -> Option<Option<Vec<u8>>> {
    let trees = source_trees(translation, kind, levels, tree.len(), most)?;
    let found = trees.into_iter().find(|listed| listed.run.as_deref() == Some(tree));
    Some(found.map(|listed| listed.tree))
}
