//! The nearest point of an ellipse against the original `ellipse_nearest`, with document 01's centre and
//! distance around it.
use crate::library;
use crate::original::boundary;
use crate::random::Random;
use crate::refusals;
use crate::report::{Report, hex_list};
use crate::sample::Sample;
use crate::standins::Hypot;

const KINDS: u64 = 10;

/// 2^low to 2^high.
fn sized(low: i32, high: i32, r: &mut Random) -> f64 {
    r.digits() * 2f64.powi(r.between(low.into(), high.into()) as i32)
}

/// Centre, semi-axes, point.
fn input(kind: u64, r: &mut Random) -> [f64; 6] {
    let (a, b) = (sized(-10, 9, r), sized(-10, 9, r));
    let (dx, dy) = (sized(-20, 12, r), sized(-20, 12, r));
    let (dx, dy) = (r.signed(dx), r.signed(dy));
    let zero = r.signed(0.0);
    match kind {
        0 => [0.0, 0.0, a, b, dx, dy],
        // on an axis
        1 => [0.0, 0.0, a, b, zero, dy],
        2 => [0.0, 0.0, a, b, dx, zero],
        // inside
        3 => [0.0, 0.0, a, b, a * dx.fract(), b * dy.fract()],
        // nearly round, round
        4 => [0.0, 0.0, a, a.next_up(), dx, dy],
        5 => [0.0, 0.0, a, a, dx, dy],
        // close to the ellipse
        6 => {
            let t = r.digits() * 7.0;
            [0.0, 0.0, a, b, a * t.cos(), b * t.sin()]
        }
        // a centre elsewhere
        7 => {
            let (cx, cy) = (sized(-5, 19, r), sized(-5, 19, r));
            [cx, cy, a, b, cx + dx, cy + dy]
        }
        // whole steps of the grid
        8 => {
            let mut step = || r.between(-4096, 4096) as f64 / 1024.0;
            [step(), step(), step().abs(), step().abs(), step(), step()]
        }
        // one number is any bit pattern, or too small
        _ => {
            let mut list = [0.0, 0.0, a, b, dx, dy];
            let any = if r.yes() {
                f64::from_bits(r.bits())
            } else {
                sized(-60, -15, r)
            };
            list[r.below(6) as usize] = any;
            list
        }
    }
}

/// What the Rust gives: the nearest point and its distance.
fn rust([cx, cy, a, b, x, y]: [f64; 6]) -> [f64; 3] {
    let [qx, qy] = boundary::ellipse_nearest(a, b, [x - cx, y - cy]);
    let (qx, qy) = (cx + qx, cy + qy);
    [qx, qy, (x - qx).hypot_standin(y - qy)]
}

/// Equal to the bit; but a zero may have either sign.
fn equal(ours: [f64; 3], rust: [f64; 3]) -> bool {
    (0..3).all(|i| ours[i].to_bits() == rust[i].to_bits() || (ours[i] == 0.0 && rust[i] == 0.0))
}

/// Cases with the Rust's answers.
pub fn sample(out: &mut Sample, seed: u64, count: u64) {
    let mut r = Random::new(seed, "ellipses");
    for i in 0..count {
        let list = input(i % KINDS, &mut r);
        let number = refusals::ellipse(list);
        let answer = if number == 0 { rust(list) } else { [0.0; 3] };
        out.measures("ellipse", &list, &[], number, &answer);
    }
}

pub fn compare(report: &mut Report, seed: u64, cases: u64) {
    report.operation("ellipse_nearest");
    let mut r = Random::new(seed, "ellipse_nearest");
    for i in 0..cases {
        let list = input(i % KINDS, &mut r);
        let mut ours = [f64::NAN; 3];
        let number = library::ellipse_nearest(list, &mut ours);
        let want = refusals::ellipse(list);
        let answer = if want == 0 { rust(list) } else { [0.0; 3] };
        report.numbered(number);
        if number != want || !equal(ours, answer) {
            let (ours, rust) = (hex_list(&ours), hex_list(&answer));
            let inputs = hex_list(&list);
            report.differs(&format!(
                "{inputs}: ours {number} {ours}, Rust {want} {rust}"
            ));
        }
    }
}
