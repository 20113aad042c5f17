//! A translation as an XSLT 1.0 sheet: applied to the export of a tree, it gives the export of the
//! tree's run by number 0. Each other number is a mode of the templates.

use crate::code::{nodes, Node, Symbol};
use crate::grammar::Grammar;
use crate::language::{Class, Production};
use crate::translation::{read_translation, Translation};
use crate::Refusal;

/// What stands before the templates, and what behind them.
const HEAD: &str = concat!(
    "<?xml version=\"1.0\"?>\n",
    "<xsl:stylesheet version=\"1.0\" xmlns:xsl=\"http://www.w3.org/1999/XSL/Transform\">\n",
    "<xsl:output method=\"xml\" omit-xml-declaration=\"yes\" indent=\"no\"/>\n",
);
const TAIL: &str = "</xsl:stylesheet>\n";
/// What puts out the text of the token that a template is for.
const VALUE: &str = "<xsl:value-of select=\".\"/>";

/// An element with its contents.
fn element(name: &str, contents: &str) -> String {
    format!("<{name}>{contents}</{name}>")
}

/// The attribute for a number: none for 0, a mode for others.
fn mode(number: u8) -> String {
    if number == 0 {
        return String::new();
    }
    format!(" mode=\"n{number}\"")
}

/// A template for the elements of a name, by a number.
fn template(name: &str, number: u8, contents: &str) -> String {
    format!("<xsl:template match=\"{name}\"{}>{contents}</xsl:template>\n", mode(number))
}

/// The name of the element of a token.
fn token_name(kind: u8) -> String {
    format!("t{kind}")
}

/// The name of the element of a production.
fn production_name(kind: u8, name: u8) -> String {
    format!("x{kind}.{name}")
}

/// The elements that the code at a place in a list of nodes puts out; where an argument stands, the
/// templates are applied to it.
fn code_elements(nodes: &[Node], place: usize) -> String {
    let node = &nodes[place];
    match node.symbol {
        Symbol::Token(value) => element(&token_name(node.kind), &value.to_string()),
        Symbol::Argument(argument, number) => {
            format!("<xsl:apply-templates select=\"*[{}]\"{}/>", argument + 1, mode(number))
        }
        Symbol::Production(name) => {
            let (mut operands, mut next) = (String::new(), place + 1);
            while next < node.end {
                operands.push_str(&code_elements(nodes, next));
                next = nodes[next].end;
            }
            element(&production_name(node.kind, name), &operands)
        }
    }
}

/// The template of a production by a number: its code, of the kind that its result is mapped to.
fn production_template(
    target: &Grammar,
    (production, number, kind): (&Production, u8, u8),
    code: &[u8],
) -> String {
    let name = production_name(production.result, production.name);
    template(&name, number, &code_elements(&nodes(target, kind, code), 0))
}

/// The templates of a class, one for each of its numbers.
fn class_templates(translation: &Translation, class: &Class) -> String {
    let by = |(number, kind)| {
        template(&token_name(class.kind), number, &element(&token_name(kind), VALUE))
    };
    translation.body.numbers(class.kind).map(by).collect()
}

/// The sheet of a translation: a template for each class and each production of the source, by each
/// number.
pub fn sheet(translation: &[u8]) -> Result<String, Refusal> {
    let translation = read_translation(translation)?;
    let target = Grammar::new(&translation.target);
    let classes = translation.source.classes.iter();
    let classes = classes.map(|class| class_templates(&translation, class));
    let clauses = translation.due_clauses().zip(translation.body.clauses.iter());
    let clauses = clauses.map(|(due, clause)| production_template(&target, due, clause.code));
    let templates: String = classes.chain(clauses).collect();
    Ok([HEAD, &templates, TAIL].concat())
}
