//! Counts what the proved decoders cost beside plain ones.
//!
//! `bench KIND proved|plain N` decodes once an input that is made of N plain bytes, for an instruction counter.
//! `bench check` compares the two on many inputs, whole, cut and damaged.
mod encode;
mod plain;
mod proved;

type Decoder = fn(&[u8], &[u8], &mut [u8]) -> usize;

const MARK: &[u8] = b"%%EOF";

/// A kind's decoders, and an input that gives some plain bytes.
struct Bench {
    name: &'static str,
    proved: Decoder,
    plain: Decoder,
    encode: fn(&[u8]) -> Vec<u8>,
}

const BENCHES: [Bench; 6] = [
    Bench { name: "hex", proved: |_, i, o| proved::ascii_hex(i, o), plain: |_, i, o| plain::ascii_hex(i, o), encode: encode::hex },
    Bench { name: "a85", proved: |_, i, o| proved::ascii_85(i, o), plain: |_, i, o| plain::ascii_85(i, o), encode: encode::base85 },
    Bench { name: "sub", proved: proved::subfile, plain: plain::subfile, encode: encode::marked },
    Bench { name: "eexec", proved: |_, i, o| proved::eexec(i, o), plain: |_, i, o| plain::eexec(i, o), encode: encode::eexec_hex },
    Bench { name: "eexec-binary", proved: |_, i, o| proved::eexec(i, o), plain: |_, i, o| plain::eexec(i, o), encode: encode::eexec_binary },
    Bench { name: "four", proved: proved::four_deep, plain: plain::four_deep, encode: encode::four_deep },
];

/// Plain bytes that look like a font's: text with all kinds of bytes between.
fn sample(n: usize) -> Vec<u8> {
    let mut state = 12345u32;
    (0..n)
        .map(|i| {
            state = state.wrapping_mul(1103515245).wrapping_add(12345);
            if i % 3 == 0 { (state >> 16) as u8 } else { b'a' + (state >> 16) as u8 % 26 }
        })
        .collect()
}

fn run(decode: Decoder, input: &[u8], room: usize) -> Vec<u8> {
    let mut output = vec![0xAA; room];
    let n = decode(MARK, input, &mut output);
    output.truncate(n);
    output
}

fn compare(bench: &Bench, input: &[u8], room: usize) {
    let (a, b) = (run(bench.proved, input, room), run(bench.plain, input, room));
    assert!(a == b, "{}: {input:?} gives {a:?} and {b:?}", bench.name);
}

/// Whole inputs, inputs cut at every byte, and inputs with one byte changed.
fn check() {
    let mut count = 0;
    for bench in &BENCHES {
        for n in 0..48 {
            let plain = sample(n);
            let input = (bench.encode)(&plain);
            assert!(run(bench.proved, &input, n + 9) == plain, "{}: {n} bytes do not come back", bench.name);
            for i in 0..=input.len() {
                compare(bench, &input[..i], n + 9);
                compare(bench, &input, i);
                count += 2;
            }
            for i in 0..input.len() {
                for b in [0, b'\n', b'>', b'%', b'z', b'~', b'9', 0xFF] {
                    let mut changed = input.clone();
                    changed[i] = b;
                    compare(bench, &changed, 4 * n + 64);
                    count += 1;
                }
            }
        }
    }
    println!("{count} inputs decode alike");
}

fn main() {
    let words: Vec<String> = std::env::args().collect();
    if words.get(1).is_some_and(|w| w == "check") {
        return check();
    }
    let [_, name, way, n] = &words[..] else { panic!("bench KIND proved|plain N, or bench check") };
    let bench = BENCHES.iter().find(|b| b.name == name).expect("a kind");
    let n = n.parse().expect("a number");
    let input = (bench.encode)(&sample(n));
    let made = run(if way == "plain" { bench.plain } else { bench.proved }, &input, n + 1);
    println!("{} bytes", made.len());
}
