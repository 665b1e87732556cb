use sakiromuk::{Axis, Equation, Fitter, Job, Measure, Reply, State};

fn main() {
    // Two lips drawn roughly, in millimetres: they are to be level and 620 apart.
    let mut job = Job::new([300.0, 0.0], 1000.0);
    let left = job.point([0.0, 0.0], State::Kept);
    let right = job.point([600.0, 20.0], State::Free);
    let width = job.in_size(620.0);
    job.equation(Equation::Level(left, right, Axis::Y));
    job.equation(Equation::Distance(left, right, width));
    let across = job.measure(Measure::Distance(left, right));

    match Fitter::default().fit(&job) {
        Reply::Fitted(fit) => {
            assert_eq!(fit.freedom, 0);
            assert_eq!(fit.point(right)[1], 0.0);
            assert!((fit.measure(across) - 620.0).abs() < 1e-9);
            println!("the right lip is at {:?}", fit.point(right));
        }
        Reply::Failed(failed) => panic!("{}, with the suspects {:?}", failed.reason, failed.suspects),
        Reply::Refused(status) => panic!("refused: {status}"),
    }
}
