//! Sheets of translations, run by a small interpreter of the part of XSLT that they use.

mod build;
mod parser;

use build::*;
use parser::{parse, Content, Element};
use reference::examples::sum;
use reference::generate::{sheet_case, Random};
use reference::xslt::sheet;

/// The templates of a sheet, by what they match and their mode, if they have one.
struct Sheet {
    templates: Vec<((String, Option<String>), Element)>,
}

impl Sheet {
    /// Reads a sheet: a stylesheet of version 1.0 with an output declaration and templates.
    fn new(text: &str) -> Sheet {
        let root = parse(text).expect("a sheet is well formed");
        assert_eq!(
            (root.name.as_str(), root.attribute("version")),
            ("xsl:stylesheet", Some("1.0"))
        );
        assert_eq!(root.attribute("xmlns:xsl"), Some("http://www.w3.org/1999/XSL/Transform"));
        let children = root.children().into_iter();
        let templates = children.filter(|child| child.name != "xsl:output").map(|child| {
            assert_eq!(child.name, "xsl:template");
            let mode = child.attribute("mode").map(str::to_string);
            ((child.attribute("match").expect("a pattern").to_string(), mode), child.clone())
        });
        Sheet { templates: templates.collect() }
    }

    /// What the templates put out for an element in a mode.
    fn apply(&self, element: &Element, mode: Option<&str>) -> String {
        let wanted = (element.name.as_str(), mode);
        let fits = |((name, mode), _): &&((String, Option<String>), _)| {
            (name.as_str(), mode.as_deref()) == wanted
        };
        let fits: Vec<_> = self.templates.iter().filter(fits).collect();
        assert_eq!(fits.len(), 1, "one template for {}", element.name);
        self.contents(&fits[0].1, element)
    }

    /// What the contents of a template or of an element in it put out.
    fn contents(&self, of: &Element, current: &Element) -> String {
        let one = |content: &Content| match content {
            Content::Text(text) => text.clone(),
            Content::Element(element) => self.instruction(element, current),
        };
        of.contents.iter().map(one).collect()
    }

    /// What one element of a template puts out.
    fn instruction(&self, element: &Element, current: &Element) -> String {
        let select = element.attribute("select").unwrap_or_default();
        match element.name.as_str() {
            "xsl:value-of" => {
                assert_eq!(select, ".");
                current.text()
            }
            "xsl:apply-templates" => {
                let number = select.strip_prefix("*[").and_then(|rest| rest.strip_suffix("]"));
                let number: usize = number.expect("a child by number").parse().expect("a number");
                let mode = element.attribute("mode");
                let child = current.children().into_iter().nth(number - 1);
                child.map_or(String::new(), |child| self.apply(child, mode))
            }
            name => format!("<{name}>{}</{name}>", self.contents(element, current)),
        }
    }
}

#[test]
fn sheets_run_as_translations_do() {
    let mut random = Random::new(5);
    let (mut changed, mut deep) = (0, 0);
    for case in 0..2000 {
        let made = sheet_case(&mut random);
        let text = std::str::from_utf8(&made.source).expect("an export is a text");
        let source = parse(text).expect("an export is well formed");
        let put_out = Sheet::new(&made.sheet).apply(&source, None);
        assert_eq!(put_out.as_bytes(), made.expected, "case {case}: {}", made.sheet);
        changed += usize::from(made.source != made.expected);
        deep += usize::from(made.source.len() > 1000);
    }
    assert!(changed > 500 && deep > 50, "{changed} {deep}");
}

#[test]
fn the_sheet_of_the_sum() {
    let sheet = sheet(&sum()).expect("the sum is accepted");
    let twice = "<xsl:template match=\"x1.4\"><x1.2><xsl:apply-templates select=\"*[1]\"/>\
                 <xsl:apply-templates select=\"*[1]\"/></x1.2></xsl:template>\n";
    assert!(sheet.contains(twice), "{sheet}");
    let minutes =
        "<xsl:template match=\"t2\"><t2><xsl:value-of select=\".\"/></t2></xsl:template>\n";
    assert!(sheet.contains(minutes), "{sheet}");
    assert_eq!(sheet.matches("<xsl:template ").count(), 5);
}

#[test]
fn tokens_take_the_name_of_the_target_and_codes_their_kinds() {
    let source = [class(4, 5, 9), production(1, 0, &[4])].concat();
    let target = [class(2, 5, 9), production(3, 7, &[2, 2])].concat();
    let body = [mapping(1, 3), mapping(4, 2), clause(1, 0, &[1, 7, 3, 1, 2, 0, 8])].concat();
    let sheet = sheet(&translation(&source, &target, &body)).expect("it is accepted");
    let sheet = Sheet::new(&sheet);
    let tree = parse("<x1.0><t4>6</t4></x1.0>").expect("well formed");
    assert_eq!(sheet.apply(&tree, None), "<x3.7><t2>6</t2><t2>8</t2></x3.7>");
}

#[test]
fn a_refused_translation_has_no_sheet() {
    assert_eq!(sheet(&[]).map_err(|reason| reason as u32), Err(2));
    assert_eq!(sheet(&[0; 4097]).map_err(|reason| reason as u32), Err(1));
}
