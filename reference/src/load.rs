//! Loading: from a text to its macros, or to the first fault in it.

use crate::code::{self, CodeLine, Ending};
use crate::number::Number;
use crate::text::{self, Marks, LINE_LIMIT};
use crate::tree::{Tree, PLACEHOLDER_LIMIT};

/// The least length of the lent node row, and the most nodes of a tree.
pub const NODE_LIMIT: usize = 2_048;

const TEXT_LIMIT: usize = 65_536;
const MACRO_LIMIT: usize = 128;
const CODE_LIMIT: usize = 1_024;
const NESTING_LIMIT: usize = 4;

/// A text that loads.
#[derive(Debug)]
pub struct Program<'a> {
    pub marks: Marks,
    pub tree: Tree,
    /// In the text's order, which is the tree's order of templates.
    pub macros: Vec<Macro<'a>>,
    /// Code lines of all bodies, layouts included.
    pub code_lines: usize,
    /// The number of the section's last line.
    pub section_end: u64,
    /// The lines after the section, whole.
    pub input: Vec<&'a [u8]>,
}

/// A macro, without its template, which is in the tree.
#[derive(Debug)]
pub struct Macro<'a> {
    /// The number of the template's line.
    pub line: u64,
    pub body: Vec<CodeLine<'a>>,
}

/// Why a text does not load, and at which line.
#[derive(Clone, Copy, Debug, PartialEq, Eq)]
pub struct Refusal {
    pub number: Number,
    pub line: u64,
}

/// Loads a text. `nodes` is the length of the lent node row.
pub fn load(text: &[u8], nodes: usize) -> Result<Program<'_>, Refusal> {
    let at = |number, line| Refusal { number, line };
    if nodes < NODE_LIMIT {
        return Err(at(Number::Rooms, 0));
    }
    if text.len() > TEXT_LIMIT || text.contains(&0) {
        return Err(at(Number::TextBytes, 0));
    }
    let mut lines = text::lines(text).zip(1..).peekable();
    let flags = lines.next().and_then(|(line, _)| Marks::read(line));
    let mut section = Section::new(flags.ok_or(at(Number::FlagLine, 1))?);
    let mut last = 1;
    while let Some((line, number)) = lines.next() {
        last = number;
        match section.read(line, number) {
            Ok(Progress::Within) => {}
            Ok(Progress::Ended) => return Ok(section.program(number, lines.map(|(line, _)| line).collect())),
            // On the last line the missing end is the lower number.
            Err(Number::CountPassed) if lines.peek().is_none() => break,
            Err(fault) => return Err(at(fault, number)),
        }
    }
    Err(at(Number::SectionNotEnded, last))
}

enum Progress {
    Within,
    Ended,
}

/// What the next line of the section is.
#[derive(Clone, Copy, PartialEq, Eq)]
enum Due {
    Template,
    Code,
    Layout,
}

/// The macros read so far.
struct Section<'a> {
    marks: Marks,
    tree: Tree,
    macros: Vec<Macro<'a>>,
    due: Due,
    /// Code lines of all bodies, layouts included.
    code_lines: usize,
    /// The opening lines of the iterations that are open in the last body.
    open: Vec<usize>,
}

impl<'a> Section<'a> {
    fn new(marks: Marks) -> Section<'a> {
        Section {
            marks,
            tree: Tree::new(),
            macros: Vec::new(),
            due: Due::Template,
            code_lines: 0,
            open: Vec::new(),
        }
    }

    fn program(self, section_end: u64, input: Vec<&'a [u8]>) -> Program<'a> {
        let Section { marks, tree, macros, code_lines, .. } = self;
        Program { marks, tree, macros, code_lines, section_end, input }
    }

    /// Reads the section's next line. Faults are tested by ascending number,
    /// because the lowest on a line is the one reported.
    fn read(&mut self, line: &'a [u8], number: u64) -> Result<Progress, Number> {
        let end = self.marks.code_end;
        if self.due == Due::Template {
            return self.template(text::content(line, self.marks.source_end), number);
        }
        if line.first() == Some(&end) {
            return self.macro_end(line.get(1) == Some(&end));
        }
        let content = text::content(line, end);
        if content.len() > LINE_LIMIT {
            return Err(Number::LongContent);
        }
        if self.due == Due::Layout {
            self.layout(content);
        } else {
            self.code(content)?;
        }
        self.code_lines += 1;
        if self.code_lines > CODE_LIMIT {
            return Err(Number::CountPassed);
        }
        Ok(Progress::Within)
    }

    fn template(&mut self, content: &[u8], line: u64) -> Result<Progress, Number> {
        let placeholder = self.marks.placeholder;
        if content.len() > LINE_LIMIT {
            return Err(Number::LongContent);
        }
        if content.iter().filter(|&&byte| byte == placeholder).count() > PLACEHOLDER_LIMIT {
            return Err(Number::TenPlaceholders);
        }
        if !self.tree.add(content, placeholder) {
            return Err(Number::TemplateMetBefore);
        }
        self.macros.push(Macro { line, body: Vec::new() });
        if self.macros.len() > MACRO_LIMIT || self.tree.size() > NODE_LIMIT {
            return Err(Number::CountPassed);
        }
        self.due = Due::Code;
        Ok(Progress::Within)
    }

    fn macro_end(&mut self, ends_section: bool) -> Result<Progress, Number> {
        if self.due == Due::Layout || !self.open.is_empty() {
            return Err(Number::MalformedCode);
        }
        self.due = Due::Template;
        Ok(if ends_section { Progress::Ended } else { Progress::Within })
    }

    fn code(&mut self, content: &'a [u8]) -> Result<(), Number> {
        let parsed = code::parse(content, &self.marks).map_err(|_| Number::MalformedCode)?;
        let line = self.body().len();
        let inside = self.open.last().copied();
        match parsed.ending {
            Ending::Each { .. } | Ending::Times { .. } => self.open_iteration(line)?,
            Ending::Again => self.close_iteration(line)?,
            _ => {}
        }
        self.body().push(CodeLine { parts: parsed.parts, ending: parsed.ending, inside });
        if parsed.owns_layout {
            self.due = Due::Layout;
        }
        Ok(())
    }

    fn open_iteration(&mut self, line: usize) -> Result<(), Number> {
        if self.open.len() == NESTING_LIMIT {
            return Err(Number::MalformedCode);
        }
        self.open.push(line);
        Ok(())
    }

    fn close_iteration(&mut self, line: usize) -> Result<(), Number> {
        let opening = self.open.pop().ok_or(Number::MalformedCode)?;
        if let Ending::Times { past } = &mut self.body()[opening].ending {
            *past = line + 1;
        }
        Ok(())
    }

    /// Gives the last line of the body its layout.
    fn layout(&mut self, content: &'a [u8]) {
        if let Some(Ending::Write { layout, .. }) = self.body().last_mut().map(|owner| &mut owner.ending) {
            *layout = Some(content);
        }
        self.due = Due::Code;
    }

    /// The body of the macro that is being read.
    fn body(&mut self) -> &mut Vec<CodeLine<'a>> {
        let current = self.macros.last_mut().expect("a template precedes every code line");
        &mut current.body
    }
}
