//! Jobs as a program builds them: their texts, and each way in which they can end.

use std::fs;
use std::path::{Path, PathBuf};
use std::thread;

use sakiromuk::{AREA, Axis, Contact, Equation, Fitter, Job, Measure, PointId, REPLY, Radius, Reason, Reply, Side, State, Status, run_in};

fn samples() -> PathBuf {
    Path::new(env!("CARGO_MANIFEST_DIR")).join("../../samples")
}

fn sample(name: &str) -> String {
    fs::read_to_string(samples().join(name)).expect("a sample")
}

/// So many free points in a row.
fn row(points: usize) -> (Job, Vec<PointId>) {
    let mut job = Job::new([0.0, 0.0], 10.0);
    let points = (0..points).map(|k| job.point([k as f64, 0.0], State::Free)).collect();
    (job, points)
}

fn status(job: &Job) -> Status {
    Fitter::new().fit(job).status()
}

/// samples/mouth.job, and its points.
fn mouth() -> (Job, Vec<PointId>) {
    let mut job = Job::new([300.0, -200.0], 1000.0);
    let drawn = [([0.0, 0.0], State::Kept), ([600.0, 8.0], State::Free), ([455.0, -390.0], State::Free), ([140.0, -410.0], State::Free)];
    let p: Vec<_> = drawn.into_iter().map(|(start, state)| job.point(start, state)).collect();
    let l: Vec<_> = (0..4).map(|k| job.line(p[k], p[(k + 1) % 4])).collect();
    let (wide, narrow, deep) = (job.in_size(620.0), job.in_size(300.0), job.in_size(400.0));
    job.equation(Equation::Level(p[0], p[1], Axis::Y));
    job.equation(Equation::Length(l[0], wide));
    job.equation(Equation::Level(p[3], p[2], Axis::Y));
    job.equation(Equation::Length(l[2], narrow));
    job.equation(Equation::Equal(l[1], l[3]));
    job.equation(Equation::PointLine(p[3], l[0], deep, Side::Minus));
    job.measure(Measure::Distance(p[0], p[1]));
    job.measure(Measure::Length(l[1]));
    job.measure(Measure::PointLine(p[2], l[0], Side::Minus));
    (job, p)
}

#[test]
fn every_kind_has_its_text() {
    let mut job = Job::new([0.0, -0.0], 1.0);
    let p: Vec<_> = (0..5).map(|_| job.point([0.0, 1.0], State::Free)).collect();
    let l: Vec<_> = (0..2).map(|k| job.line(p[k], p[k + 1])).collect();
    let equations = [
        (Equation::Coincident(p[0], p[1]), "coincident,0,1"),
        (Equation::Level(p[0], p[1], Axis::X), "level,0,1,x"),
        (Equation::Parallel(l[0], l[1]), "parallel,0,1"),
        (Equation::Perpendicular(l[0], l[1]), "perpendicular,0,1"),
        (Equation::Collinear(l[0], l[1]), "collinear,0,1"),
        (Equation::Equal(l[0], l[1]), "equal,0,1"),
        (Equation::Held, "held"),
        (Equation::Distance(p[0], p[1], 1.0), "distance,0,1,3ff0000000000000"),
        (Equation::AxisDistance(p[0], p[1], Axis::Y, 1.0, Side::Minus), "axisdistance,0,1,y,3ff0000000000000,-"),
        (Equation::Length(l[1], -1.0), "length,1,bff0000000000000"),
        (Equation::PointLine(p[3], l[0], 0.0, Side::Plus), "pointline,3,0,0000000000000000,+"),
        (Equation::ArcEnds(p[0], p[1], p[2]), "arcends,0,1,2"),
        (Equation::Radius(p[0], p[1], 1.0), "radius,0,1,3ff0000000000000"),
        (Equation::LineCircle(l[0], p[3], Radius::Point(p[4]), Side::Plus), "linecircle,0,3,p,4,+"),
        (Equation::CircleCircle(p[0], Radius::Value(1.0), p[1], Radius::Point(p[2]), Contact::Outside), "circlecircle,0,v,3ff0000000000000,1,p,2,o"),
        (Equation::LineArcAt(l[0], p[2], p[1]), "linearcat,0,2,1"),
        (Equation::ArcArcAt(p[0], p[1], p[2]), "arcarcat,0,1,2"),
        (Equation::Midpoint(p[3], l[0]), "midpoint,3,0"),
        (Equation::ArcMidpoint(p[0], p[1], p[2], p[3]), "arcmidpoint,0,1,2,3"),
        (Equation::Symmetric(p[3], p[4], l[0]), "symmetric,3,4,0"),
        (Equation::EqualRadius(p[0], p[1], p[2], p[3]), "equalradius,0,1,2,3"),
    ];
    let measures = [
        (Measure::Distance(p[0], p[1]), "distance,0,1"),
        (Measure::AxisDistance(p[0], p[1], Axis::X, Side::Plus), "axisdistance,0,1,x,+"),
        (Measure::Length(l[0]), "length,0"),
        (Measure::PointLine(p[3], l[0], Side::Minus), "pointline,3,0,-"),
        (Measure::Radius(p[0], p[1]), "radius,0,1"),
    ];
    let mut text = "points=5\nlines=2\nequations=21\nmeasures=5\ncentre=0000000000000000,8000000000000000\nsize=3ff0000000000000\n".to_string();
    text += &"p=0000000000000000,3ff0000000000000,free\n".repeat(5);
    text += "l=0,1\nl=1,2\n";
    for (k, (equation, line)) in equations.into_iter().enumerate() {
        assert_eq!(job.equation(equation).number(), k);
        text += &format!("e={line}\n");
    }
    for (k, (measure, line)) in measures.into_iter().enumerate() {
        assert_eq!(job.measure(measure).number(), k);
        text += &format!("m={line}\n");
    }
    assert_eq!(job.text(), text);
    // The fitter takes it for a job: no point can be in all these places.
    assert_eq!(status(&job), Status::NotConverged);
}

#[test]
fn states_and_contacts_have_their_text() {
    let mut job = Job::new([0.0, 0.0], 1.0);
    let a = job.point([0.0, 0.0], State::Kept);
    let b = job.point([0.0, 0.0], State::Placed([1.0, -1.0]));
    job.equation(Equation::CircleCircle(a, Radius::Value(2.0), b, Radius::Value(1.0), Contact::Inside(Side::Plus)));
    job.equation(Equation::CircleCircle(a, Radius::Value(1.0), b, Radius::Value(2.0), Contact::Inside(Side::Minus)));
    let text = job.text();
    let lines: Vec<_> = text.lines().skip(6).collect();
    assert_eq!(lines[0], "p=0000000000000000,0000000000000000,kept");
    assert_eq!(lines[1], "p=0000000000000000,0000000000000000,at,3ff0000000000000,bff0000000000000");
    assert_eq!(lines[2], "e=circlecircle,0,v,4000000000000000,1,v,3ff0000000000000,+");
    assert_eq!(lines[3], "e=circlecircle,0,v,3ff0000000000000,1,v,4000000000000000,-");
}

#[test]
fn samples_are_answered_and_read_back() {
    let mut fitter = Fitter::default();
    let mut seen = 0;
    for entry in fs::read_dir(samples()).expect("the samples") {
        let path = entry.expect("a file").path();
        if path.extension().is_some_and(|e| e == "job") {
            let (text, want) = (fs::read(&path).expect("a job"), fs::read_to_string(path.with_extension("reply")).expect("a reply"));
            assert_eq!(fitter.run(&text), want.as_bytes(), "{}", path.display());
            want.parse::<Reply>().unwrap_or_else(|e| panic!("{}: {e}", path.display()));
            seen += 1;
        }
    }
    assert!(seen >= 4);
}

#[test]
fn a_reply_is_read_whole() {
    let Reply::Fitted(rails) = sample("rails.reply").parse().expect("a reply") else { panic!("rails.job is fitted") };
    assert_eq!((rails.freedom, rails.groups.len(), rails.points.len()), (4, 2, 7));
    assert_eq!(rails.groups[1].lowest.number(), 4);
    assert_eq!(rails.points[3][1], 102.5);
    let Reply::Failed(quarrel) = sample("quarrel.reply").parse().expect("a reply") else { panic!("quarrel.job is not fitted") };
    assert_eq!((quarrel.lowest.number(), quarrel.iterations, quarrel.tries, quarrel.reason), (0, 14, 39, Reason::NotLess));
    assert_eq!(quarrel.suspects.iter().map(|e| e.number()).collect::<Vec<_>>(), [0, 1, 6]);
    for status in Status::ALL {
        let read = format!("status={}\n", status.number()).parse::<Reply>().ok();
        assert_eq!(read.is_some(), !matches!(status, Status::Fitted | Status::NotConverged), "{status}");
        assert_eq!(Status::from_number(status.number()), Some(status));
    }
    for text in [
        "",
        "status=2",
        "status=2\n\n",
        "status=2\r\n",
        "status=8\n",
        "status=+2\n",
        "status=02\n",
        "status=258\n",
        "status=2\nx=1\n",
        "status=7\ng=0,1\n",
        "status=7\ng=0,1,2,4,0\nc=-1\n",
    ] {
        assert!(text.parse::<Reply>().is_err(), "{text:?}");
    }
    let fitted = sample("mouth.reply");
    for line in fitted.lines() {
        assert!(fitted.replacen(line, "", 1).parse::<Reply>().is_err(), "without what {line} says");
    }
}

/// The reason in a reply whose failing line ends so.
fn reason(end: &str) -> Option<Reason> {
    match format!("status=7\ng=0,1,12{end}\nc=0\n").parse() {
        Ok(Reply::Failed(failed)) => Some(failed.reason),
        Ok(other) => panic!("{other:?}"),
        Err(_) => None,
    }
}

#[test]
fn a_reason_has_its_code_and_column() {
    for (code, read) in [(1, Reason::NothingFree), (3, Reason::NotFinite), (4, Reason::NotLess), (5, Reason::IterationsSpent)] {
        assert_eq!(reason(&format!(",{code},0")), Some(read));
        assert_eq!(reason(&format!(",{code},1")), None, "a column with {read}");
        assert_eq!(read.code(), code);
    }
    for column in [1, 2, 64] {
        assert_eq!(reason(&format!(",2,{column}")), Some(Reason::NoPivot { column }));
        assert_eq!(Reason::NoPivot { column }.code(), 2);
    }
    for end in ["", ",4", ",4,", ",2,0", ",0,0", ",6,0", ",04,0", ",4,00", ",2,01", ",+4,0", ",4,-0", ",2,1,0", ",4,0,", ", 4,0", ",x,0", ",4,0 "] {
        assert_eq!(reason(end), None, "{end:?}");
    }
}

/// Two points, the second drawn at x and free, that are to be so far apart.
fn pair(x: f64, distance: f64) -> (Job, PointId, PointId) {
    let mut job = Job::new([0.0, 0.0], 10.0);
    let (a, b) = (job.point([0.0, 0.0], State::Kept), job.point([x, 0.0], State::Free));
    job.equation(Equation::Distance(a, b, distance));
    (job, a, b)
}

/// Three points that are to be on one line; the first is at the origin, the others are drawn at these places and free.
fn in_line(middle: [f64; 2], last: [f64; 2]) -> (Job, [PointId; 3]) {
    let mut job = Job::new([0.0, 0.0], 1.0);
    let p = [job.point([0.0, 0.0], State::Kept), job.point(middle, State::Free), job.point(last, State::Free)];
    let (first, second) = (job.line(p[0], p[1]), job.line(p[1], p[2]));
    job.equation(Equation::Parallel(first, second));
    (job, p)
}

#[test]
fn a_failed_fit_says_why() {
    let why = |job: &Job| match Fitter::new().fit(job) {
        Reply::Failed(failed) => failed.reason,
        other => panic!("{other:?}"),
    };
    let mut fixed = Job::new([0.0, 0.0], 1.0);
    let (a, b) = (fixed.point([0.0, 0.0], State::Kept), fixed.point([0.0, 0.0], State::Placed([1.0, 0.0])));
    fixed.equation(Equation::Distance(a, b, 2.0));
    assert_eq!(why(&fixed), Reason::NothingFree);
    assert_eq!(why(&in_line([1e-160, 0.0], [1.0, 2.0]).0), Reason::NoPivot { column: 1 });
    assert_eq!(why(&pair(0.0, 0.5).0), Reason::NotFinite);
    let (mut quarrel, a, b) = pair(4.0, 0.5);
    quarrel.equation(Equation::AxisDistance(a, b, Axis::X, 0.6, Side::Plus));
    quarrel.equation(Equation::Level(a, b, Axis::Y));
    assert_eq!(why(&quarrel), Reason::NotLess);
    let (mut slow, p) = in_line([2.0, 0.0], [0.0, 1.0]);
    slow.equation(Equation::Distance(p[0], p[2], 1e6));
    assert_eq!(why(&slow), Reason::IterationsSpent);
}

#[test]
fn a_job_is_fitted() {
    let (mut job, p) = mouth();
    assert_eq!(job.text(), sample("mouth.job"));
    let fit = Fitter::new().fit(&job).fitted().expect("a fit");
    assert_eq!((fit.freedom, fit.points.len(), fit.measures.len()), (0, 4, 3));
    assert!(fit.worst <= 1e-12);
    assert!((fit.point(p[1])[0] - 620.0).abs() < 1e-9);
    // Levelled points agree to the last bit.
    assert_eq!(fit.point(p[2])[1].to_bits(), fit.point(p[3])[1].to_bits());
    // The building leaves 600 from lip to lip: a suspect is known by what `equation` answered.
    let tight = job.equation(Equation::Distance(p[0], p[1], job.in_size(600.0)));
    let Reply::Failed(failed) = Fitter::new().fit(&job) else { panic!("620 and 600 do not go together") };
    assert!(failed.suspects.contains(&tight));
    assert_eq!(failed.lowest, p[0]);
}

#[test]
fn a_job_is_refused_for_what_is_wrong() {
    assert_eq!(status(&row(40).0), Status::Fitted);
    assert_eq!(status(&row(41).0), Status::TooMany);
    let (mut job, p) = row(40);
    for k in 0..32 {
        job.equation(Equation::Coincident(p[k], p[k]));
    }
    assert_eq!(status(&job), Status::Fitted);
    job.equation(Equation::Level(p[0], p[0], Axis::X));
    assert_eq!(status(&job), Status::TooManyRows);
    let (mut job, _) = row(2);
    job.measure(Measure::Distance(p[0], p[2]));
    assert_eq!(status(&job), Status::Missing);
    let (mut job, p) = row(2);
    job.equation(Equation::Distance(p[0], p[1], f64::NAN));
    assert_eq!(status(&job), Status::NumberOutOfBounds);
    assert_eq!(status(&Job::new([0.0, 0.0], 0.0)), Status::NumberOutOfBounds);
    let mut fitter = Fitter::new();
    assert_eq!(fitter.run(b""), b"status=2\n");
    assert_eq!(fitter.run(&[b'0'; 16_385]), b"status=1\n");
}

#[test]
fn the_call_itself_takes_slices_of_any_length() {
    let text = mouth().0.text();
    let (mut reply, mut areas) = (vec![7; REPLY], [vec![f64::NAN; AREA], vec![7.0; AREA + 1], vec![f64::INFINITY; AREA]]);
    let [p, q, r] = &mut areas;
    let n = run_in(text.as_bytes(), &mut reply, p, q, r);
    assert!(reply.starts_with(b"status=0\n") && reply[n - 1] == b'\n' && reply[n] == 7);
    // No room for the reply: nothing of it changes.
    let mut short = vec![7; n - 1];
    assert_eq!(run_in(text.as_bytes(), &mut short, p, q, r), n);
    assert!(short.iter().all(|&b| b == 7));
    assert_eq!(run_in(text.as_bytes(), &mut [], p, q, r), n);
    // An area that is one number too short.
    let n = run_in(text.as_bytes(), &mut reply, p, &mut [0.0; AREA - 1], r);
    assert_eq!(&reply[..n], b"status=9\n");
    assert_eq!(run_in(&[], &mut [], &mut [], &mut [], &mut []), b"status=2\n".len());
}

#[test]
fn threads_do_not_influence_each_other() {
    let (job, _) = mouth();
    let want = Fitter::new().fit(&job);
    let again = || (0..200).all(|_| Fitter::new().fit(&job) == want);
    thread::scope(|s| {
        let threads: Vec<_> = (0..4).map(|_| s.spawn(again)).collect();
        assert!(threads.into_iter().all(|t| t.join().expect("a thread that ends")));
    });
}
