//! The machine that expands the input lines of a loaded text.

use crate::atoms::Atoms;
use crate::code::{Channel, CodeLine, Comparison, Conversion, Ending, Part};
use crate::load::{Macro, Program};
use crate::number::Number;
use crate::output::Output;
use crate::report::Uses;
use crate::search::{self, Reading};
use crate::store::Store;
use crate::text::{self, LINE_LIMIT};
use crate::tree::PLACEHOLDER_LIMIT;
use crate::utf8;
use crate::value::{value, written, Value};

/// Most calls open at once.
const CALL_LIMIT: usize = 12;

/// What a run leaves behind.
pub struct Outcome {
    pub number: Number,
    /// The last input line read, or the section's last line before any.
    pub line: u64,
    pub events: u64,
    /// Bytes written to the output.
    pub output: usize,
    /// Bytes written to the second output.
    pub second: usize,
    pub store: Store,
    pub uses: Uses,
}

/// Expands all input lines, writing channel 3 to `output` and channel 4 to `second`.
/// Each line that is offered is told to `offered` once its event is counted.
pub fn expand(
    program: &Program,
    fuel: u64,
    output: &mut [u8],
    second: &mut [u8],
    offered: &mut dyn FnMut(&[u8]),
) -> Outcome {
    let mut machine = Machine::new(program, fuel, output, second, offered);
    let number = machine.run();
    Outcome {
        number,
        line: machine.line,
        events: machine.events,
        output: machine.output.length(),
        second: machine.second.length(),
        store: machine.store,
        uses: machine.uses,
    }
}

/// The state between two steps.
struct Machine<'p, 'o> {
    program: &'p Program<'p>,
    fuel: u64,
    events: u64,
    /// Input lines not yet read.
    input: std::slice::Iter<'p, &'p [u8]>,
    line: u64,
    /// Open calls, the innermost last.
    calls: Vec<Call<'p>>,
    /// The last call number given.
    last_call: u64,
    /// The last number that ed2 stored.
    last_number: u64,
    store: Store,
    output: Output<'o>,
    second: Output<'o>,
    uses: Uses,
    /// Who is told of the lines offered.
    offered: &'o mut dyn FnMut(&[u8]),
}

/// An open call.
struct Call<'p> {
    body: &'p [CodeLine<'p>],
    number: u64,
    parameters: [Vec<u8>; PLACEHOLDER_LIMIT],
    /// The delimiter that ended each parameter's piece in its latest pass.
    delimiters: [Option<u8>; PLACEHOLDER_LIMIT],
    /// The next code line; the current or calling line is the one before.
    next: usize,
    /// Open iterations, the innermost last.
    iterations: Vec<Iteration<'p>>,
}

/// An open iteration.
struct Iteration<'p> {
    /// The first line inside it.
    first: usize,
    kind: Kind<'p>,
}

enum Kind<'p> {
    /// Boxed, because it is far larger than the other kind.
    Each(Box<Each<'p>>),
    Times {
        left: Value,
    },
}

/// An iteration over the pieces of a line.
struct Each<'p> {
    parameter: usize,
    /// The parameter's value before the iteration.
    old: Vec<u8>,
    delimiters: &'p [u8],
    line: Vec<u8>,
    atoms: Atoms,
    /// Where the rest of the line begins.
    at: usize,
}

/// What one pass takes.
struct Pass {
    piece: Vec<u8>,
    delimiter: Option<u8>,
}

impl Each<'_> {
    /// Takes the next piece from the rest, and drops the delimiter after it.
    fn pass(&mut self) -> Result<Pass, Number> {
        let start = self.at;
        let end =
            if self.delimiters.is_empty() { self.character_end(start)? } else { self.piece_end(start)? };
        let delimiter = match self.line.get(end) {
            Some(&byte) if !self.delimiters.is_empty() => Some(byte),
            _ => None,
        };
        self.at = end + usize::from(delimiter.is_some());
        Ok(Pass { piece: self.line[start..end].to_vec(), delimiter })
    }

    /// Where the character at `start` ends. At the line's end there is none, and
    /// nothing to be malformed.
    fn character_end(&self, start: usize) -> Result<usize, Number> {
        let rest = &self.line[start..];
        if rest.is_empty() {
            return Ok(start);
        }
        let character = utf8::first(rest).ok_or(Number::MalformedCharacter)?;
        Ok(start + character.length)
    }

    /// The first place from `end` on, atom by atom, where a delimiter stands or
    /// the line ends.
    fn piece_end(&self, mut end: usize) -> Result<usize, Number> {
        while let Some(byte) = self.line.get(end) {
            if self.delimiters.contains(byte) {
                break;
            }
            end = self.atoms.end(end).ok_or(Number::BadBracket)?;
        }
        Ok(end)
    }

    fn is_done(&self) -> bool {
        self.at == self.line.len()
    }
}

impl Call<'_> {
    fn begin_pass(&mut self, parameter: usize, pass: Pass) {
        self.parameters[parameter] = pass.piece;
        self.delimiters[parameter] = pass.delimiter;
    }
}

/// A step that ends the run gives its number, [`Number::Done`] included.
type Step = Result<(), Number>;

impl<'p, 'o> Machine<'p, 'o> {
    fn new(
        program: &'p Program<'p>,
        fuel: u64,
        output: &'o mut [u8],
        second: &'o mut [u8],
        offered: &'o mut dyn FnMut(&[u8]),
    ) -> Machine<'p, 'o> {
        Machine {
            program,
            fuel,
            events: 0,
            input: program.input.iter(),
            line: program.section_end,
            calls: Vec::with_capacity(CALL_LIMIT),
            last_call: 0,
            last_number: 0,
            store: Store::default(),
            output: Output::to(output),
            second: Output::to(second),
            uses: Uses::none(program.macros.len()),
            offered,
        }
    }

    fn run(&mut self) -> Number {
        loop {
            if let Err(number) = self.step() {
                return number;
            }
        }
    }

    fn step(&mut self) -> Step {
        let Some(call) = self.calls.last_mut() else {
            return self.read_input();
        };
        let Some(code) = call.body.get(call.next) else {
            self.calls.pop();
            return Ok(());
        };
        call.next += 1;
        self.spend()?;
        let built = self.build(&code.parts)?;
        self.finish(&code.ending, built)
    }

    /// Counts an event, unless the fuel is used.
    fn spend(&mut self) -> Step {
        if self.events == self.fuel {
            return Err(Number::Spent);
        }
        self.events += 1;
        Ok(())
    }

    fn read_input(&mut self) -> Step {
        let content = self.next_input().ok_or(Number::Done)?;
        measure(content)?;
        self.offer(content)
    }

    /// Reads the next input line, of which only the content counts.
    fn next_input(&mut self) -> Option<&'p [u8]> {
        let line = self.input.next()?;
        self.line += 1;
        Some(text::content(line, self.program.marks.source_end))
    }

    /// Opens a call for the line's first reading, or writes the line. It is counted as
    /// soon as that is decided, whether or not there is room for the call or the line.
    fn offer(&mut self, line: &[u8]) -> Step {
        self.spend()?;
        (self.offered)(line);
        let reading = search::fit(&self.program.tree, line, &self.program.marks).reading;
        self.uses.count(reading.as_ref().map(|reading| reading.template));
        match reading {
            Some(reading) => self.open_call(line, &reading),
            None => self.output.write(line),
        }
    }

    fn open_call(&mut self, line: &[u8], reading: &Reading) -> Step {
        if self.calls.len() == CALL_LIMIT {
            return Err(Number::NestedTooDeep);
        }
        let Macro { body, .. } = &self.program.macros[reading.template];
        self.last_call += 1;
        self.calls.push(Call {
            body,
            number: self.last_call,
            parameters: reading.pieces.map(|piece| line[piece.start..][..piece.length].to_vec()),
            delimiters: Default::default(),
            next: 0,
            iterations: Vec::new(),
        });
        Ok(())
    }

    fn write(&mut self, channel: Channel, line: &[u8]) -> Step {
        match channel {
            Channel::Nowhere => Ok(()),
            Channel::Output => self.output.write(line),
            Channel::Second => self.second.write(line),
        }
    }

    /// Copies input lines until one begins with parameter 1, which is dropped, or
    /// none is left. An empty parameter, with which every line begins, reads none.
    fn copy_input(&mut self, channel: Channel) -> Step {
        let stop = self.parameter(0).to_vec();
        if stop.is_empty() {
            return Ok(());
        }
        while let Some(content) = self.next_input() {
            if content.starts_with(&stop) {
                break;
            }
            // A dropped line isn't measured.
            if channel != Channel::Nowhere {
                measure(content)?;
                self.write(channel, content)?;
            }
        }
        Ok(())
    }

    /// The innermost open call, which exists while a code line is carried out.
    fn call(&mut self) -> &mut Call<'p> {
        self.calls.last_mut().expect("a code line has its call")
    }

    /// A parameter of the innermost open call.
    fn parameter(&self, index: usize) -> &[u8] {
        let call = self.calls.last().expect("a code line has its call");
        &call.parameters[index]
    }

    fn value_of(&self, expression: &[u8]) -> Result<Value, Number> {
        value(expression, &self.program.marks, &self.store)
    }

    fn parameter_value(&self, index: usize) -> Result<Value, Number> {
        self.value_of(self.parameter(index))
    }

    /// Builds a line from the parts of a code line.
    fn build(&mut self, parts: &[Part]) -> Result<Vec<u8>, Number> {
        let mut built = Vec::with_capacity(LINE_LIMIT);
        for part in parts {
            match *part {
                Part::Bytes(bytes) => extend(&mut built, bytes)?,
                Part::CallNumber(k) => {
                    let number = self.call().number * 10 + u64::from(k);
                    extend(&mut built, number.to_string().as_bytes())?;
                }
                Part::Parameter(index, conversion) => self.convert(&mut built, index, conversion)?,
            }
        }
        Ok(built)
    }

    fn convert(&mut self, built: &mut Vec<u8>, index: usize, conversion: Conversion) -> Step {
        match conversion {
            Conversion::Itself => extend(built, self.parameter(index)),
            Conversion::Stored => extend(built, self.stored(index)),
            Conversion::StoredOrNumbered => {
                self.number_if_absent(index)?;
                extend(built, self.stored(index))
            }
            Conversion::Delimiter => match self.call().delimiters[index] {
                Some(delimiter) => extend(built, &[delimiter]),
                None => Ok(()),
            },
            Conversion::Value => {
                let value = self.parameter_value(index)?;
                extend(built, &written(value, &self.program.marks))
            }
            Conversion::Length => {
                let count = self.code_points(index)?.len();
                extend(built, count.to_string().as_bytes())
            }
            Conversion::CodePoint => match self.code_points(index)?[..] {
                [point] => extend(built, point.to_string().as_bytes()),
                _ => Err(Number::NotOneCharacter),
            },
        }
    }

    /// The code points of a parameter, all of which must be well-formed.
    fn code_points(&self, index: usize) -> Result<Vec<u32>, Number> {
        utf8::code_points(self.parameter(index)).ok_or(Number::MalformedCharacter)
    }

    /// The text stored under a parameter, or nothing.
    fn stored(&self, index: usize) -> &[u8] {
        self.store.text(self.parameter(index)).unwrap_or_default()
    }

    /// Stores the next of 1, 2, 3, .. under a parameter that isn't stored.
    fn number_if_absent(&mut self, index: usize) -> Step {
        let name = &self.calls.last().expect("a code line has its call").parameters[index];
        if self.store.text(name).is_some() {
            return Ok(());
        }
        self.last_number += 1;
        self.store.put(name, self.last_number.to_string().as_bytes())
    }

    /// Does what a code line asks for once its line is built.
    fn finish(&mut self, ending: &Ending<'p>, built: Vec<u8>) -> Step {
        match *ending {
            Ending::Offer => self.offer(&built),
            Ending::Assign(parameter) => {
                self.call().parameters[parameter] = built;
                Ok(())
            }
            Ending::Each { parameter, delimiters } => self.begin_each(parameter, delimiters, built),
            Ending::Times { past } => self.begin_times(past, &built),
            Ending::Again => self.next_pass(),
            Ending::Stop => Err(Number::Done),
            Ending::Write { channel, layout: None } => self.write(channel, &built),
            Ending::Write { channel, layout: Some(layout) } => {
                let line = self.laid_out(layout);
                self.write(channel, &line)
            }
            Ending::Copy(channel) => self.copy_input(channel),
            Ending::Store => {
                let parameters = &self.calls.last().expect("a code line has its call").parameters;
                self.store.put(&parameters[0], &parameters[1])
            }
            Ending::Skip => self.skip_by(0),
            Ending::SkipText { equal } => {
                let holds = (self.parameter(0) == self.parameter(1)) == equal;
                self.skip_if(holds)
            }
            Ending::SkipValue(comparison) => {
                let holds = self.compare(comparison)?;
                self.skip_if(holds)
            }
            Ending::Return => {
                self.calls.pop();
                Ok(())
            }
        }
    }

    fn begin_each(&mut self, parameter: usize, delimiters: &'p [u8], line: Vec<u8>) -> Step {
        let atoms = Atoms::of(&line, &self.program.marks);
        let mut each = Each { parameter, old: Vec::new(), delimiters, line, atoms, at: 0 };
        let pass = each.pass()?;
        let call = self.call();
        each.old = std::mem::take(&mut call.parameters[parameter]);
        call.begin_pass(parameter, pass);
        call.iterations.push(Iteration { first: call.next, kind: Kind::Each(Box::new(each)) });
        Ok(())
    }

    fn begin_times(&mut self, past: usize, built: &[u8]) -> Step {
        let passes = self.value_of(built)?;
        let call = self.call();
        if passes <= 0 {
            call.next = past;
        } else {
            let kind = Kind::Times { left: passes - 1 };
            call.iterations.push(Iteration { first: call.next, kind });
        }
        Ok(())
    }

    /// Goes back to the innermost iteration's first line, or leaves it.
    fn next_pass(&mut self) -> Step {
        let call = self.call();
        // Loading matched the lines and skips keep to their iterations.
        let mut iteration = call.iterations.pop().expect("an eF8 has its iteration");
        match &mut iteration.kind {
            Kind::Each(each) if each.is_done() => {
                call.parameters[each.parameter] = std::mem::take(&mut each.old);
                return Ok(());
            }
            Kind::Each(each) => {
                let pass = each.pass()?;
                call.begin_pass(each.parameter, pass);
            }
            Kind::Times { left: 0 } => return Ok(()),
            Kind::Times { left } => *left -= 1,
        }
        call.next = iteration.first;
        call.iterations.push(iteration);
        Ok(())
    }

    /// A layout with its fields filled.
    fn laid_out(&self, layout: &[u8]) -> Vec<u8> {
        let mut line = Vec::with_capacity(layout.len());
        for run in layout.chunk_by(|a, b| a == b) {
            match run[0] {
                digit @ b'1'..=b'9' => {
                    let parameter = self.parameter(usize::from(digit - b'1'));
                    let end = line.len() + run.len();
                    line.extend(parameter.iter().take(run.len()));
                    line.resize(end, self.program.marks.blank);
                }
                _ => line.extend_from_slice(run),
            }
        }
        line
    }

    fn compare(&self, comparison: Comparison) -> Result<bool, Number> {
        let first = self.parameter_value(0)?;
        let second = self.parameter_value(1)?;
        Ok(match comparison {
            Comparison::Equal => first == second,
            Comparison::Unequal => first != second,
            Comparison::Less => first < second,
            Comparison::Greater => first > second,
        })
    }

    /// Skips by parameter 3, which is valued only if the comparison holds.
    fn skip_if(&mut self, holds: bool) -> Step {
        if holds {
            self.skip_by(2)
        } else {
            Ok(())
        }
    }

    fn skip_by(&mut self, parameter: usize) -> Step {
        let lines = self.parameter_value(parameter)?;
        // Every value from 0 on is a usize of 64 bits.
        self.skip(usize::try_from(lines).map_err(|_| Number::BadSkip)?)
    }

    /// Passes over the next `left` code lines, in the callers once a body ends,
    /// and at last in the input.
    fn skip(&mut self, mut left: usize) -> Step {
        while left > 0 {
            let Some(call) = self.calls.last_mut() else {
                return self.drop_input(left);
            };
            let inside = call.body[call.next - 1].inside;
            let landing = call.next + left;
            if let Some(line) = call.body.get(landing) {
                call.next = landing;
                return if line.inside == inside { Ok(()) } else { Err(Number::BadSkip) };
            }
            if inside.is_some() {
                return Err(Number::BadSkip);
            }
            left = landing - call.body.len();
            self.calls.pop();
        }
        Ok(())
    }

    fn drop_input(&mut self, count: usize) -> Step {
        for _ in 0..count {
            if self.next_input().is_none() {
                break;
            }
        }
        Ok(())
    }
}

/// An input line that is offered or copied must not be too long.
fn measure(content: &[u8]) -> Step {
    if content.len() > LINE_LIMIT {
        return Err(Number::LongInput);
    }
    Ok(())
}

/// Adds bytes to a line being built.
fn extend(built: &mut Vec<u8>, bytes: &[u8]) -> Step {
    if built.len() + bytes.len() > LINE_LIMIT {
        return Err(Number::LongBuiltLine);
    }
    built.extend_from_slice(bytes);
    Ok(())
}
