//! How much stack the proved calls take, on texts that nest as deep as 01
//! allows. include/stage2.h says what a caller must have.

mod common;

use std::ffi::c_void;
use std::ptr;

use common::Rows;
use stage2_compare::cases::nested as nested_brackets;
use stage2_compare::{check, fit, run};
use stage2_reference::{self as reference, Rooms, DEAD_ROW, FUEL_LIMIT, NODE_ROW};

/// What the header asks for.
const RUN_STACK: usize = 256 * 1024;
const FIT_STACK: usize = 128 * 1024;

/// A byte that a fresh stack is filled with.
const FRESH: u8 = 0xA5;

/// The bytes of the stack that calls are tried on.
const WHOLE: usize = 4 * 1024 * 1024;

/// `pthread_attr_t`, which has 56 bytes.
#[repr(C, align(16))]
struct Attributes([u8; 64]);

extern "C" {
    fn pthread_attr_init(attributes: *mut Attributes) -> i32;
    fn pthread_attr_setstack(attributes: *mut Attributes, stack: *mut c_void, size: usize) -> i32;
    fn pthread_create(
        thread: *mut u64,
        attributes: *const Attributes,
        start: extern "C" fn(*mut c_void) -> *mut c_void,
        argument: *mut c_void,
    ) -> i32;
    fn pthread_join(thread: u64, result: *mut *mut c_void) -> i32;
}

extern "C" fn start(call: *mut c_void) -> *mut c_void {
    let call = unsafe { &mut *call.cast::<&mut dyn FnMut()>() };
    call();
    ptr::null_mut()
}

/// How many bytes of a fresh stack a call writes to, from the lowest on.
fn stack_of(call: &mut dyn FnMut()) -> usize {
    let mut stack = vec![FRESH; WHOLE + 4096];
    let base = stack.as_mut_ptr() as usize;
    let low = base.next_multiple_of(4096);
    let mut argument: &mut dyn FnMut() = call;
    let (mut attributes, mut thread) = (Attributes([0; 64]), 0);
    unsafe {
        assert_eq!(pthread_attr_init(&mut attributes), 0);
        assert_eq!(pthread_attr_setstack(&mut attributes, low as *mut c_void, WHOLE), 0);
        let argument = ptr::from_mut(&mut argument).cast();
        assert_eq!(pthread_create(&mut thread, &attributes, start, argument), 0);
        assert_eq!(pthread_join(thread, ptr::null_mut()), 0);
    }
    let untouched = stack[low - base..].iter().take_while(|&&byte| byte == FRESH).count();
    assert!(untouched > 0, "a stack of {WHOLE} bytes is too small");
    WHOLE - untouched
}

/// A row of 200 bytes with nine that are `hole`.
fn longest(hole: &str) -> String {
    format!("Z{}Z", (hole.to_string() + &"Z".repeat(21)).repeat(9))
}

/// Twelve calls in one another. The innermost writes to channel 4 and copies lines
/// to it. Then it offers its parameter, which the search may follow to the end of
/// the longest templates, without a placeholder and with nine, or through a piece
/// that grows by an atom at a time behind eight that are empty, and takes its value.
fn nested(parameters: &[&str]) -> String {
    let templates = ["Z".repeat(200), longest("!"), "!Y".to_string(), "!!!!!!!!!Y".to_string()];
    let calls: String =
        ('A'..'L').map(|name| format!("{name}!$\n{}!10\n$\n", (name as u8 + 1) as char)).collect();
    let input: String = parameters.iter().map(|parameter| format!("A{parameter}\n")).collect();
    let section = templates.map(|template| template + "$\n$\n").concat();
    format!("$!$!0 (+-*/)\n{section}{calls}L!$\n!F14\n1\n!F24\nZ!10\n!14!F1\n$$\n{input}")
}

/// Lines that search as deep as can be: by bytes, by atoms, and by both with a
/// placeholder nine times, which is a place for each byte and nine more; each
/// with an end and without.
fn deepest() -> [String; 6] {
    let both = longest("x");
    let failing = both[..199].to_string() + "x";
    ["Z".repeat(200), "Z".repeat(199) + "x", "x".repeat(199) + "Y", "x".repeat(200), both, failing]
}

/// A text with as many macros and nodes as there may be.
fn broad() -> String {
    let macros: Vec<String> = (0..128).map(|at| format!("{at:03}{}!$\n", "y".repeat(11))).collect();
    format!("$!$!0 (+-*/)\n{}$$\n", macros.join("$\n"))
}

#[test]
fn a_run_takes_no_more_than_the_header_says() {
    let brackets = format!("{}1{}", "(".repeat(99), ")".repeat(99));
    // The innermost call puts a Z before its parameter.
    let mut parameters = deepest().map(|line| line[1..].to_string()).to_vec();
    parameters.extend([brackets, "5".to_string()]);
    let mut most = 0;
    for parameter in parameters {
        let text = nested(&[&parameter]) + "copied\n";
        let (mut rows, mut rooms) = (Rows::least(), Rooms::with_outputs(65_536, 65_536));
        let (nodes, dead) = rows.lend(NODE_ROW, DEAD_ROW);
        let mut ran = None;
        let taken = stack_of(&mut || {
            ran = Some(run(text.as_bytes(), FUEL_LIMIT, nodes, dead, &mut rooms));
        });
        println!("{taken} bytes of stack: {ran:?}");
        assert!(ran.unwrap().events > 20, "the calls are not nested: {ran:?}");
        let written = format!("{}\ncopied\n", &parameter[..1]);
        assert!(rooms.second.starts_with(written.as_bytes()), "nothing is written to channel 4: {ran:?}");
        most = most.max(taken);
    }
    assert!(most <= RUN_STACK, "{most} bytes of stack");
}

#[test]
fn a_check_and_a_fit_take_no_more_than_the_header_says() {
    let mut most = 0;
    for text in [nested(&[]), broad()] {
        let mut rows = Rows::least();
        let (nodes, dead) = rows.lend(NODE_ROW, DEAD_ROW);
        let mut checked = None;
        let taken = stack_of(&mut || checked = Some(check(text.as_bytes(), nodes)));
        println!("{taken} bytes of stack: {checked:?}");
        most = most.max(taken);
        for line in deepest().into_iter().chain([String::new(), nested_brackets(100), "(".repeat(99)]) {
            let mut fitted = None;
            let taken = stack_of(&mut || fitted = Some(fit(text.as_bytes(), nodes, dead, line.as_bytes())));
            println!("{taken} bytes of stack: {fitted:?}");
            assert_eq!(fitted.unwrap().number, 0);
            most = most.max(taken);
        }
    }
    assert!(most <= FIT_STACK, "{most} bytes of stack");
}

/// The lines are as deep as they are meant to be: those with an end fit, one of
/// them by a reading with nine pieces of a byte each.
#[test]
fn the_deepest_lines_fit() {
    let text = nested(&[]);
    let fitted = deepest().map(|line| reference::fit(text.as_bytes(), NODE_ROW, DEAD_ROW, line.as_bytes()));
    assert_eq!(fitted.map(|fitted| fitted.line), [2, 0, 8, 0, 4, 0]);
    assert_eq!(fitted[4].length, [1; 9]);
    // The root, a place for each byte, each placeholder's first place and the end.
    assert_eq!(fitted[4].places, 1 + 200 + 9 + 1);
}
