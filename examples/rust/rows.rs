//! `rows GRAMMAR TEXT` prints the nodes of a text as `pegtool parse --rows` does, by the C library.
//!
//! Build it with plain rustc: `rustc -O -L out/lib -l static=peg examples/rust/rows.rs`.
use std::fmt::Write;
use std::{env, fs, process, ptr};

const OK: u32 = 0;
const FAILED: u32 = 1;
const REFUSED: u32 = 2;
const DEFAULT_MEMO: u32 = 4096;

/// A handle of the library: it owns what it points to, and is freed by the library.
#[repr(C)]
struct Handle {
    opaque: *mut u8,
}

impl Handle {
    const fn null() -> Handle {
        Handle {
            opaque: ptr::null_mut(),
        }
    }
}

#[repr(C)]
#[derive(Clone, Copy, Default)]
struct Node {
    rule: u32,
    start: u32,
    end: u32,
    level: u32,
    size: u64,
}

#[repr(C)]
#[derive(Clone, Copy, Default)]
struct FileSpan {
    start: u32,
    end: u32,
}

#[repr(C)]
#[derive(Clone, Copy, Default)]
struct Summary {
    matched: u32,
    consumed: u32,
    furthest: u32,
    nodes: u64,
    expected: u64,
    steps: u64,
}

// The declarations of include/peg.h.
unsafe extern "C" {
    fn peg_grammar_read(file: *const u8, length: usize, out: *mut Handle) -> u32;
    fn peg_grammar_free(grammar: *mut Handle);
    fn peg_grammar_refusal(grammar: *mut Handle, out: *mut u8, length: usize) -> usize;
    fn peg_rule_count(grammar: *mut Handle, out: *mut u32) -> u32;
    fn peg_rule_name(grammar: *mut Handle, rule: u32, out: *mut u8, length: usize) -> usize;
    fn peg_parse(
        grammar: *mut Handle,
        text: *const u8,
        text_length: usize,
        start: *const u8,
        start_length: usize,
        memo: u32,
        steps: u64,
        out: *mut Handle,
    ) -> u32;
    fn peg_match_free(found: *mut Handle);
    fn peg_match_summary(found: *mut Handle, out: *mut Summary) -> u32;
    fn peg_match_nodes(found: *mut Handle, from: usize, out: *mut Node, length: usize) -> usize;
    fn peg_match_expected(
        found: *mut Handle,
        from: usize,
        out: *mut FileSpan,
        length: usize,
    ) -> usize;
}

/// A grammar, or the reason why a file is refused.
struct Grammar(Handle);

impl Drop for Grammar {
    fn drop(&mut self) {
        // SAFETY: the handle was initialised and is used by this value alone.
        unsafe { peg_grammar_free(&mut self.0) }
    }
}

impl Grammar {
    /// Reads a grammar file. Returns the status beside it.
    fn read(file: &[u8]) -> (u32, Grammar) {
        let mut grammar = Grammar(Handle::null());
        // SAFETY: the slice is valid for its length, and the handle is null.
        let status = unsafe { peg_grammar_read(file.as_ptr(), file.len(), &mut grammar.0) };
        (status, grammar)
    }

    fn refusal(&mut self) -> String {
        text_of(|out, length| {
            // SAFETY: the buffer is valid and initialised for its length.
            unsafe { peg_grammar_refusal(&mut self.0, out, length) }
        })
    }

    fn rules(&mut self) -> Vec<String> {
        let mut count = 0;
        // SAFETY: as above.
        unsafe { peg_rule_count(&mut self.0, &mut count) };
        (0..count).map(|rule| self.rule_name(rule)).collect()
    }

    fn rule_name(&mut self, rule: u32) -> String {
        text_of(|out, length| {
            // SAFETY: as above.
            unsafe { peg_rule_name(&mut self.0, rule, out, length) }
        })
    }

    /// Parses a prefix of a text from the first rule. Returns the status beside the answer.
    fn parse(&mut self, text: &[u8]) -> (u32, Answer) {
        let mut answer = Answer(Handle::null());
        let first_rule = b"";
        // SAFETY: the slices are valid, and the two handles are different.
        let status = unsafe {
            peg_parse(
                &mut self.0,
                text.as_ptr(),
                text.len(),
                first_rule.as_ptr(),
                0,
                DEFAULT_MEMO,
                0,
                &mut answer.0,
            )
        };
        (status, answer)
    }
}

/// The answer to a parse.
struct Answer(Handle);

impl Drop for Answer {
    fn drop(&mut self) {
        // SAFETY: as for a grammar.
        unsafe { peg_match_free(&mut self.0) }
    }
}

impl Answer {
    fn summary(&mut self) -> Summary {
        let mut summary = Summary::default();
        // SAFETY: the summary is initialised.
        unsafe { peg_match_summary(&mut self.0, &mut summary) };
        summary
    }

    fn nodes(&mut self, count: u64) -> Vec<Node> {
        let mut nodes = vec![Node::default(); count as usize];
        // SAFETY: the memory is initialised for its length.
        let copied = unsafe { peg_match_nodes(&mut self.0, 0, nodes.as_mut_ptr(), nodes.len()) };
        nodes.truncate(copied);
        nodes
    }

    fn expected(&mut self, count: u64) -> Vec<FileSpan> {
        let mut spans = vec![FileSpan::default(); count as usize];
        // SAFETY: as above.
        let copied = unsafe { peg_match_expected(&mut self.0, 0, spans.as_mut_ptr(), spans.len()) };
        spans.truncate(copied);
        spans
    }
}

/// The text of a call that copies it and returns its length.
fn text_of(mut copy: impl FnMut(*mut u8, usize) -> usize) -> String {
    let mut none = [0];
    let length = copy(none.as_mut_ptr(), 0);
    let mut bytes = vec![0; length];
    copy(bytes.as_mut_ptr(), length);
    String::from_utf8(bytes).expect("the library writes UTF-8")
}

/// The line of `pegtool parse --rows` for an answer.
fn line_of(grammar: &mut Grammar, answer: &mut Answer) -> String {
    let summary = answer.summary();
    let spans: Vec<String> = answer
        .expected(summary.expected)
        .iter()
        .map(|span| format!("[{},{}]", span.start, span.end))
        .collect();
    let mut line = String::from("{");
    if summary.matched == 1 {
        let _ = write!(line, "\"consumed\":{},", summary.consumed);
    }
    let result = if summary.matched == 1 {
        "matched"
    } else {
        "failed"
    };
    let _ = write!(
        line,
        "\"expected\":[{}],\"far\":{},\"result\":\"{result}\"",
        spans.join(","),
        summary.furthest,
    );
    if summary.matched == 1 {
        let names = grammar.rules();
        let rows: Vec<String> = answer
            .nodes(summary.nodes)
            .iter()
            .map(|node| {
                let name = &names[node.rule as usize];
                format!("[{},\"{name}\",{},{}]", node.level, node.start, node.end)
            })
            .collect();
        let _ = write!(line, ",\"rows\":[{}]", rows.join(","));
    }
    line.push('}');
    line
}

fn main() {
    let words: Vec<String> = env::args().skip(1).collect();
    let [grammar_path, text_path] = words.as_slice() else {
        eprintln!("usage: rows GRAMMAR TEXT");
        process::exit(3);
    };
    let (Ok(file), Ok(text)) = (fs::read(grammar_path), fs::read(text_path)) else {
        eprintln!("a file can't be read");
        process::exit(4);
    };
    let (mut status, mut grammar) = Grammar::read(&file);
    if status == REFUSED {
        println!("{}", grammar.refusal());
    } else if status == OK {
        let (result, mut answer) = grammar.parse(&text);
        status = result;
        if status == OK || status == FAILED {
            println!("{}", line_of(&mut grammar, &mut answer));
        }
    }
    drop(grammar);
    process::exit(status as i32);
}
