// The library, called from Rust (tools/check_exports). What is expected is reckoned by hand from documents 01 and 02.
// `wonkpecan` is all that a Rust evaluator needs: slices in, a reply out.

mod wonkpecan {
    #[repr(C)]
    #[derive(Debug, PartialEq, Clone, Copy)]
    pub struct Reply {
        pub number: usize,
        pub line: usize,
        pub count: usize,
    }

    #[repr(C)]
    #[derive(Debug, PartialEq, Clone, Copy)]
    pub struct Table {
        pub number: usize,
        pub line: usize,
        pub count: usize,
        pub centre: usize,
    }

    #[repr(C)]
    #[derive(Debug, PartialEq, Clone, Copy)]
    pub struct Admission {
        pub number: usize,
        pub line: usize,
        pub inputs: usize,
        pub sums: usize,
        pub boots: usize,
        pub sources: usize,
        pub longest: usize,
        pub norm: usize,
        pub outputs: usize,
        pub depth: usize,
        pub centre0: usize,
        pub centre1: usize,
        pub centre2: usize,
    }

    #[repr(C)]
    #[derive(Debug, PartialEq, Clone, Copy)]
    pub struct Sum {
        pub number: usize,
        pub line: usize,
        pub count: usize,
        pub bits: [u8; 11],
    }

    #[repr(C)]
    #[derive(Debug, PartialEq, Clone, Copy)]
    pub struct Values {
        pub number: usize,
        pub line: usize,
        pub count: usize,
        pub least: i32,
    }

    #[repr(C)]
    #[derive(Debug, PartialEq, Clone, Copy)]
    pub struct Run {
        pub number: usize,
        pub line: usize,
        pub count: usize,
        pub ticks: usize,
    }

    #[repr(C)]
    #[derive(Debug, PartialEq, Clone, Copy)]
    pub struct Retuned {
        pub number: usize,
        pub line: usize,
        pub count: usize,
        pub begun: usize,
    }

    #[repr(C)]
    #[derive(Debug, PartialEq, Clone, Copy)]
    pub struct Slot {
        pub number: usize,
        pub line: usize,
        pub slot: usize,
    }

    mod c {
        use super::{Admission, Reply, Retuned, Run, Slot, Sum, Table, Values};

        unsafe extern "C" {
            pub fn fbs_map(text: *const u8, text_length: usize, out: *mut u8, out_length: usize) -> Reply;
            pub fn fbs_retune(
                text: *const u8,
                text_length: usize,
                line: usize,
                state: *mut u8,
                state_length: usize,
                out: *mut u8,
                out_length: usize,
            ) -> Retuned;
            pub fn fbs_admit(text: *const u8, text_length: usize) -> Admission;
            pub fn fbs_convert(text: *const u8, text_length: usize, out: *mut u8, out_length: usize) -> Reply;
            pub fn fbs_build_table(
                p: usize,
                m: usize,
                values: *const i32,
                values_length: usize,
                truths: *const u8,
                truths_length: usize,
                out: *mut u8,
                out_length: usize,
            ) -> Table;
            pub fn fbs_run_circuit(
                text: *const u8,
                text_length: usize,
                bits: *const u8,
                bits_length: usize,
                values: *mut u8,
                values_length: usize,
            ) -> Reply;
            pub fn fbs_run_network(
                text: *const u8,
                text_length: usize,
                bits: *const u8,
                bits_length: usize,
                values: *mut i64,
                values_length: usize,
            ) -> Reply;
            pub fn fbs_sum_reading(text: *const u8, text_length: usize, node: usize, value: i32) -> Sum;
            pub fn fbs_ones(text: *const u8, text_length: usize, counts: *mut u32) -> Reply;
            pub fn fbs_value_counts(text: *const u8, text_length: usize, node: usize, counts: *mut u32) -> Values;
            pub fn fbs_trial(text: *const u8, text_length: usize, workers: usize, ticks: usize, starts: *mut u32) -> Run;
            pub fn fbs_find_slot(p: usize, value: i32, error: i32) -> Slot;
        }
    }

    // SAFETY of all twelve: a slice's pointer and length are what the header asks for, and a `&mut` shares no place with another.

    pub fn map(text: &[u8], out: &mut [u8]) -> Reply {
        unsafe { c::fbs_map(text.as_ptr(), text.len(), out.as_mut_ptr(), out.len()) }
    }

    pub fn retune(text: &[u8], line: usize, state: &mut [u8], out: &mut [u8]) -> Retuned {
        unsafe { c::fbs_retune(text.as_ptr(), text.len(), line, state.as_mut_ptr(), state.len(), out.as_mut_ptr(), out.len()) }
    }

    pub fn admit(text: &[u8]) -> Admission {
        unsafe { c::fbs_admit(text.as_ptr(), text.len()) }
    }

    pub fn convert(text: &[u8], out: &mut [u8]) -> Reply {
        unsafe { c::fbs_convert(text.as_ptr(), text.len(), out.as_mut_ptr(), out.len()) }
    }

    pub fn build_table(p: usize, m: usize, values: &[i32], truths: &[u8], out: &mut [u8]) -> Table {
        unsafe { c::fbs_build_table(p, m, values.as_ptr(), values.len(), truths.as_ptr(), truths.len(), out.as_mut_ptr(), out.len()) }
    }

    pub fn run_circuit(text: &[u8], bits: &[u8], values: &mut [u8]) -> Reply {
        unsafe { c::fbs_run_circuit(text.as_ptr(), text.len(), bits.as_ptr(), bits.len(), values.as_mut_ptr(), values.len()) }
    }

    pub fn run_network(text: &[u8], bits: &[u8], values: &mut [i64]) -> Reply {
        unsafe { c::fbs_run_network(text.as_ptr(), text.len(), bits.as_ptr(), bits.len(), values.as_mut_ptr(), values.len()) }
    }

    pub fn sum_reading(text: &[u8], node: usize, value: i32) -> Sum {
        unsafe { c::fbs_sum_reading(text.as_ptr(), text.len(), node, value) }
    }

    pub fn ones(text: &[u8], counts: &mut [u32; 32]) -> Reply {
        unsafe { c::fbs_ones(text.as_ptr(), text.len(), counts.as_mut_ptr()) }
    }

    pub fn value_counts(text: &[u8], node: usize, counts: &mut [u32; 342]) -> Values {
        unsafe { c::fbs_value_counts(text.as_ptr(), text.len(), node, counts.as_mut_ptr()) }
    }

    pub fn trial(text: &[u8], workers: usize, ticks: usize, starts: &mut [u32; 671]) -> Run {
        unsafe { c::fbs_trial(text.as_ptr(), text.len(), workers, ticks, starts.as_mut_ptr()) }
    }

    pub fn find_slot(p: usize, value: i32, error: i32) -> Slot {
        unsafe { c::fbs_find_slot(p, value, error) }
    }
}

use std::fmt::Debug;
use std::sync::atomic::{AtomicUsize, Ordering};
use wonkpecan::{
    Admission, Reply, Retuned, Run, Slot, Sum, Table, Values, admit, build_table, convert, find_slot, map, ones, retune, run_circuit, run_network,
    sum_reading, trial, value_counts,
};

static CHECKS: AtomicUsize = AtomicUsize::new(0);

fn same<T: Debug + PartialEq>(what: &str, got: T, wanted: T) {
    CHECKS.fetch_add(1, Ordering::Relaxed);
    assert_eq!(got, wanted, "{what}");
}

fn accepted(count: usize) -> Reply {
    Reply { number: 0, line: 0, count }
}

fn refused(number: usize, line: usize) -> Reply {
    Reply { number, line, count: 0 }
}

fn rejected(number: usize, line: usize) -> Admission {
    Admission { number, line, inputs: 0, sums: 0, boots: 0, sources: 0, longest: 0, norm: 0, outputs: 0, depth: 0, centre0: 0, centre1: 0, centre2: 0 }
}

const AND: &[u8] = b"(fbs 4 8 10 none span one)\n(in a)\n(in b)\n(gate g 0001 (n 0) (n 1))\n(out y (n 2))\n";
const NETWORK: &[u8] = b"(net 4 8 none)\n(in a)\n(in b)\n(lin 0 (1 0) (1 1))\n(boot 2 001)\n(out y (n 3))\n";

fn check_sums() {
    let bits = |front: &[u8]| {
        let mut bits = [0; 11];
        bits[..front.len()].copy_from_slice(front);
        bits
    };
    let no = |number, line| Sum { number, line, count: 0, bits: bits(&[]) };
    same("the least sum", sum_reading(NETWORK, 2, 0), Sum { number: 0, line: 0, count: 2, bits: bits(&[0, 0]) });
    same("the first of two", sum_reading(NETWORK, 2, 1), Sum { number: 0, line: 0, count: 2, bits: bits(&[0, 1]) });
    same("the greatest sum", sum_reading(NETWORK, 2, 2), Sum { number: 0, line: 0, count: 2, bits: bits(&[1, 1]) });
    same("103", sum_reading(NETWORK, 2, 3), no(103, 0));
    same("35", sum_reading(NETWORK, 3, 0), no(35, 0));
    same("21, the empty text", sum_reading(&[], 2, 0), no(21, 1));
    let mut places = [7; 32];
    same("one output", ones(NETWORK, &mut places), Reply { number: 0, line: 0, count: 1 });
    same("1 at one of four, later places kept", (places[0], places[1]), (1, 7));
    let mut values = [7; 342];
    same("three sums", value_counts(NETWORK, 2, &mut values), Values { number: 0, line: 0, count: 3, least: 0 });
    same("0, 1 and 2, later places kept", [values[0], values[1], values[2], values[3]], [1, 2, 1, 7]);
    let mut starts = [7; 671];
    same("one boot", trial(NETWORK, 1, 20, &mut starts), Run { number: 0, line: 0, count: 1, ticks: 20 });
    same("from tick 0, later places kept", (starts[0], starts[1]), (0, 7));
    same("41", trial(NETWORK, 33, 1, &mut starts), Run { number: 41, line: 0, count: 0, ticks: 0 });
    same("35, a boot", value_counts(NETWORK, 3, &mut values), Values { number: 35, line: 0, count: 0, least: 0 });
}

fn check_slots() {
    let found = |slot| Slot { number: 0, line: 0, slot };
    let no = |number| Slot { number, line: 0, slot: 0 };
    same("odd, minus half a step", find_slot(16, 1, -67108864), found(0));
    same("odd, plus half a step", find_slot(16, 1, 67108864), found(2));
    same("even, minus half a step", find_slot(16, 2, -67108864), found(2));
    same("even, plus half a step", find_slot(16, 2, 67108864), found(2));
    same("round the circle", find_slot(2, 3, 536870912), found(0));
    same("half of the way round", find_slot(8, 3, i32::MIN), found(11));
    same("36", find_slot(32, -1, 0), no(36));
    same("37", find_slot(16, 32, 0), no(37));
}

fn check_map() {
    let mut out = vec![0xa5; 65536];
    same("AND", map(AND, &mut out), accepted(NETWORK.len()));
    same("its network", &out[..NETWORK.len()], NETWORK);
    same("later bytes kept", out[NETWORK.len()..].iter().all(|b| *b == 0xa5), true);
    for lent in [0, NETWORK.len() - 1] {
        let mut out = vec![0xa5; lent];
        same("11", map(AND, &mut out), refused(11, 0));
        same("11 keeps the buffer", out, vec![0xa5; lent]);
    }
    let mut exact = vec![0xa5; NETWORK.len()];
    same("a buffer of the network's length", map(AND, &mut exact), accepted(NETWORK.len()));
    same("its bytes", exact.as_slice(), NETWORK);
    let mut out = [0xa5; 200];
    same("4, the empty text", map(&[], &mut out), refused(4, 1));
    same("1", map(b"(fbs 4 8 10 none span one)\n(in a)\n(gate g 02 (n 0))\n", &mut out), refused(1, 3));
    same("2", map(b"(fbs 4 9 8 none span one)\n", &mut out), refused(2, 1));
    same("5", map(b"(fbs 4 8 10 none span one)\n(in a)\n(in a)\n", &mut out), refused(5, 3));
    same("6", map(b"(fbs 4 8 10 none span one)\n(gate g 10 (n 0))\n", &mut out), refused(6, 2));
    same("7", map(b"(fbs 4 8 10 none span one)\n(in a)\n(in b)\n(gate g 10 (n 0) (n 1))\n", &mut out), refused(7, 4));
    same("8", map(b"(fbs 4 8 10 0 span one)\n(in a)\n(gate g 10 (n 0))\n", &mut out), refused(8, 3));
    same("9", map(b"(fbs 2 2 10 none span one)\n(in a)\n(in b)\n(gate g 0001 (n 0) (n 1))\n", &mut out), refused(9, 4));
    same("refusals keep the buffer", out, [0xa5; 200]);
}

fn check_retune() {
    let text = |g: &str, h: &str| {
        format!("(fbs 4 8 10 none span one)\n(in a)\n(in b)\n(gate g {g} (n 0) (n 1))\n(gate h {h} (n 2) (n 1))\n(out y (n 3))\n").into_bytes()
    };
    let (mut state, mut out, mut fresh) = (vec![0; 34_704], vec![0xa5; 65_536], vec![0xa5; 65_536]);
    let mut mapped = |text: &[u8], line, state: &mut [u8], begun| {
        let count = map(text, &mut fresh).count;
        same("mapped as afresh", retune(text, line, state, &mut out), Retuned { number: 0, line: 0, count, begun });
        same("the same network", &out[..count], &fresh[..count]);
    };
    mapped(&text("0001", "0110"), 5, &mut state, 2);
    let kept = state.clone();
    same("a state was kept", kept[0] != 0, true);
    mapped(&text("0001", "0111"), 5, &mut state, 1);
    mapped(&text("0001", "1110"), 5, &mut state, 1);
    mapped(&text("0001", "1110"), 0, &mut state, 2);
    mapped(&text("0001", "1110"), 5, &mut [], 2);
    same("it serves again unchanged", state == kept, true);
    mapped(&text("0111", "1110"), 5, &mut state, 2);
    same("another prefix, another state", state == kept, false);
    let mut short = [0xa5; 9];
    same("11", retune(&text("0111", "0110"), 5, &mut state, &mut short), Retuned { number: 11, line: 0, count: 0, begun: 1 });
    same("4, the empty text", retune(&[], 5, &mut state, &mut short), Retuned { number: 4, line: 1, count: 0, begun: 0 });
    same("refusals keep the answer buffer", short, [0xa5; 9]);
}

fn check_admit() {
    let stats = Admission { number: 0, line: 0, inputs: 2, sums: 1, boots: 1, sources: 1, longest: 3, norm: 2, outputs: 1, depth: 1, centre0: 1, centre1: 0, centre2: 0 };
    same("document 01's network", admit(NETWORK), stats);
    same("21, the empty text", admit(&[]), rejected(21, 1));
    same("21", admit(b"(net 4 8 none)\n(in a)\n(lin 0 (0 0))\n"), rejected(21, 3));
    same("22", admit(b"(net 4 8 none)\n(in a)\n(boot 9 01)\n"), rejected(22, 3));
    same("23", admit(b"(net 4 8 none)\n(in a)\n(boot 0 001)\n"), rejected(23, 3));
    same("24", admit(b"(net 2 4 none)\n(in a)\n(in b)\n(lin 0 (1 0) (2 1))\n(boot 2 0001)\n"), rejected(24, 5));
    same("25", admit(b"(net 4 8 1)\n(in a)\n(in b)\n(lin 0 (1 0) (1 1))\n"), rejected(25, 4));
    same("26", admit(b"(net 4 8 none)\n(in a)\n(in b)\n(lin 0 (1 0) (1 1))\n(out y (n 2))\n"), rejected(26, 5));
}

fn check_editions() {
    let plain = b"(net 2 4 none)\n(in a)\n(in b)\n(lin 0 (1 0) (1 1))\n(boot 2 010)\n(boot 0 10)\n(boot 2 001)\n(out y (n 5))\n";
    let second = b"(net2 2 4 none)\n(in a)\n(in b)\n(lin 0 (1 0) (1 1))\n(many 2 (010 0) (001 1))\n(many 0 (10 0))\n(out y (n 4))\n";
    let mut out = vec![0xa5; 200];
    same("to edition 2", convert(plain, &mut out), accepted(second.len()));
    same("its text", &out[..second.len()], &second[..]);
    same("later bytes kept", out[second.len()..].iter().all(|b| *b == 0xa5), true);
    let mut short = vec![0xa5; second.len() - 1];
    same("11", convert(plain, &mut short), refused(11, 0));
    same("11 keeps the buffer", short.iter().all(|b| *b == 0xa5), true);
    same("the same statistics", admit(second), admit(plain));
    same("38", admit(b"(net2 4 8 none)\n(in a)\n(many 0 (10 1))\n"), rejected(38, 3));
    same("39", convert(b"(net2 4 8 none)\n(in a)\n(many 0 (10 0))\n(many 0 (10 0))\n", &mut out), refused(39, 4));
    same("21, a run of edition 2", run_network(second, &[1, 1], &mut [0]), refused(21, 1));
}

fn check_builder() {
    let no = |number| Table { number, line: 0, count: 0, centre: 0 };
    let mut out = [7; 32];
    same("P 3, M 6, values 0, 3, 5", build_table(3, 6, &[0, 3, 5], &[0, 1, 0], &mut out), Table { number: 0, line: 0, count: 6, centre: 1 });
    same("001110", &out[..6], &[0, 0, 1, 1, 1, 0]);
    same("later bytes kept", &out[6..], &[7; 26]);
    same("P 3, M 6, values 0, 5", build_table(3, 6, &[0, 5], &[1, 1], &mut out), Table { number: 0, line: 0, count: 6, centre: 2 });
    same("111111", &out[..6], &[1; 6]);
    same("P bits", build_table(3, 6, &[0, 1, 2], &[1, 1, 1], &mut out), Table { number: 0, line: 0, count: 3, centre: 0 });
    let mut out = [7; 5];
    same("34", build_table(3, 6, &[0, 3, 5], &[0, 1, 0], &mut out), no(34));
    same("2", build_table(1, 2, &[0], &[0], &mut out), no(2));
    same("30", build_table(2, 4, &[], &[], &mut out), no(30));
    same("31", build_table(2, 3, &[0, 3], &[0, 0], &mut out), no(31));
    same("32", build_table(2, 4, &[0, 0], &[0, 1], &mut out), no(32));
    same("33", build_table(2, 4, &[0, 1, 2, 3], &[0, 0, 0, 1], &mut out), no(33));
    same("34, the empty buffer", build_table(2, 4, &[0], &[1], &mut []), no(34));
    same("refusals keep the buffer", out, [7; 5]);
}

fn check_runs() {
    for v in 0..4u8 {
        let bits = [v >> 1, v & 1];
        let (mut bit, mut value) = ([9, 9], [9, 9]);
        same("a run of a circuit", run_circuit(AND, &bits, &mut bit), accepted(1));
        same("a run of a network", run_network(NETWORK, &bits, &mut value), accepted(1));
        same("AND of a circuit", bit, [(v == 3) as u8, 9]);
        same("AND of a network", value, [(v == 3) as i64, 9]);
    }
    let narrow = b"(net 4 8 none)\n(in a)\n(in b)\n(lin 0 (1 0) (1 1))\n(boot 2 01)\n(out y (n 3))\n";
    let (mut bit, mut value) = ([9], [9]);
    same("100 of a circuit", run_circuit(AND, &[], &mut bit), refused(100, 0));
    same("100 of a network", run_network(NETWORK, &[0, 2], &mut value), refused(100, 0));
    same("101 of a circuit", run_circuit(AND, &[0, 0], &mut []), refused(101, 0));
    same("101 of a network", run_network(NETWORK, &[0, 0], &mut []), refused(101, 0));
    same("102", run_network(narrow, &[1, 1], &mut value), refused(102, 0));
    same("4, the empty text", run_circuit(&[], &[], &mut bit), refused(4, 1));
    same("21, the empty text", run_network(&[], &[], &mut value), refused(21, 1));
    same("no run keeps the values", (bit, value), ([9], [9]));
}

fn check_all() {
    check_map();
    check_retune();
    check_sums();
    check_slots();
    check_admit();
    check_editions();
    check_builder();
    check_runs();
}

fn main() {
    check_all();
    let checks = CHECKS.load(Ordering::Relaxed);
    // a panic in one of the two threads ends the scope with a panic
    std::thread::scope(|s| {
        for _ in 0..2 {
            s.spawn(|| (0..50).for_each(|_| check_all()));
        }
    });
    println!("{} checks passed", checks + 2);
}
