// One text read and planned by the bare original and by our text call, and written back by ours, in one process and by turns: medians of 1,000. `textspeed FILE`.

#[cfg(feature = "ours-text")]
fn main() {
    use oracle::calls::Answer;
    use oracle::ours::{pin_into, text_into, OUTPUT};
    use oracle::resources::bare::Bare;
    use oracle::text::{read_line, Line, TEXT};
    use std::{env, fs, time::Instant};

    // the original's pools and allocators under the line reader, and its answers as lines; nothing is checked on the way
    fn theirs(text: &[u8]) -> String {
        let (mut bare, mut out, mut count) = (Bare::new(), String::new(), 0);
        for line in text.split(|byte| *byte == b'\n').filter(|line| !line.is_empty()) {
            match read_line(line) {
                Some(Line::Add(add)) => assert!(!bare.add(&add).is_refused()),
                Some(Line::Want(request)) => match bare.request(&request) {
                    Answer::Granted(record) => {
                        out.push_str("got");
                        record.iter().for_each(|number| out.push_str(&format!("\t{number}")));
                        out.push('\n');
                        count += 1;
                    }
                    other => panic!("refused: {other:?}"),
                },
                None => panic!("a bad line"),
            }
        }
        out.push_str(&format!("end\t{count}\n"));
        out
    }

    // each of the runs gives something back but 0
    fn medians<const N: usize>(mut runs: [&mut dyn FnMut() -> usize; N]) -> [f64; N] {
        let mut times = [const { Vec::new() }; N];
        for _ in 0..1000 {
            for (run, times) in runs.iter_mut().zip(&mut times) {
                let begun = Instant::now();
                assert!(run() > 0);
                times.push(begun.elapsed().as_secs_f64() * 1e6);
            }
        }
        times.map(|mut times| {
            times.sort_by(f64::total_cmp);
            times[times.len() / 2]
        })
    }

    let file = env::args().nth(1).expect("usage: textspeed FILE");
    let text = fs::read(&file).expect("the text");
    let (mut output, mut pinned, mut answer) = (vec![0; OUTPUT], vec![0; TEXT], [0; 5]);
    let length = pin_into(&text, &mut pinned, &mut answer);
    assert_eq!(answer, [0; 5], "the text is not written back");
    let [original, ours, back] =
        medians([&mut || theirs(&text).len(), &mut || text_into(&text, &mut output), &mut || {
            pin_into(&text, &mut pinned, &mut answer)
        }]);
    println!("{} bytes: original {original:.0} us, ours {ours:.0} us, ratio {:.2}", text.len(), ours / original);
    println!("written back, {length} bytes: {back:.0} us, ratio to reading and planning alone {:.2}", back / ours);
}

#[cfg(not(feature = "ours-text"))]
fn main() {
    eprintln!("built without our library: see ./run");
}
