//! One question asked of the port and of the Rust in turns, over the same inputs. Times are the processor's for this thread, so that other work on
//! the machine is not counted.

/// Asks input i and gives a number made of the answer.
pub type Ask<'a> = Box<dyn FnMut(usize) -> u64 + 'a>;

#[repr(C)]
struct Time {
    seconds: i64,
    nanoseconds: i64,
}

extern "C" {
    fn clock_gettime(clock: i32, time: &mut Time) -> i32;
}

const THREAD_TIME: i32 = 3;

/// The seconds that this thread has had of the processor.
fn spent() -> f64 {
    let mut time = Time { seconds: 0, nanoseconds: 0 };
    assert_eq!(unsafe { clock_gettime(THREAD_TIME, &mut time) }, 0);
    time.seconds as f64 + time.nanoseconds as f64 * 1e-9
}

/// The time of these inputs. Their answers are folded into a number that is read, so that no question is left out.
fn seconds(inputs: std::ops::Range<usize>, ask: &mut Ask) -> f64 {
    let began = spent();
    let all = inputs.fold(0, |all, i| all ^ ask(i));
    unsafe { std::ptr::read_volatile(&all) };
    spent() - began
}

fn median(mut numbers: Vec<f64>) -> f64 {
    numbers.sort_by(f64::total_cmp);
    numbers[numbers.len() / 2]
}

/// The time of one question, port and Rust, and the ratio of the two: medians.
#[derive(Clone, Copy)]
pub struct Timed {
    pub port: f64,
    pub rust: f64,
    pub ratio: f64,
}

/// Rounds over all inputs, the two sides in turns; every second round the other side begins.
pub fn rounds(rounds: usize, inputs: usize, port: &mut Ask, rust: &mut Ask) -> Timed {
    let (mut ports, mut rusts, mut ratios) = (vec![], vec![], vec![]);
    for round in 0..rounds {
        let (a, b) = if round % 2 == 0 {
            let a = seconds(0..inputs, port);
            (a, seconds(0..inputs, rust))
        } else {
            let b = seconds(0..inputs, rust);
            (seconds(0..inputs, port), b)
        };
        ports.push(a / inputs as f64);
        rusts.push(b / inputs as f64);
        ratios.push(a / b);
    }
    Timed { port: median(ports), rust: median(rusts), ratio: median(ratios) }
}

/// Each input once, the two sides in turns: for what the Rust keeps from call to call.
pub fn once(inputs: usize, port: &mut Ask, rust: &mut Ask) -> Timed {
    let (mut ports, mut rusts, mut ratios) = (vec![], vec![], vec![]);
    for i in 0..inputs {
        let a = seconds(i..i + 1, port);
        let b = seconds(i..i + 1, rust);
        ports.push(a);
        rusts.push(b);
        ratios.push(a / b);
    }
    Timed { port: median(ports), rust: median(rusts), ratio: median(ratios) }
}
