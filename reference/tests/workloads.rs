//! Each workload ends as it says and spends what it says, in both modes of
//! this engine.

use reference::calls::{self, open};
use reference::fast;
use reference::refusals::{REPORT_LENGTH, WORK_LENGTH};
use reference::workloads::{self, Call, Ending, Workload};

fn report_of(workload: &Workload) -> (String, usize) {
    let Call::Run(mode) = workload.call else {
        panic!("{} does not run", workload.name);
    };
    let (mut simple, mut quick) = (vec![0; REPORT_LENGTH], vec![0; REPORT_LENGTH]);
    let mut work = vec![0; WORK_LENGTH];
    let (text, second) = (&workload.text, &workload.second);
    let session = open(workload.fuel);
    let answer = calls::run_batch(mode, text, second, session, &mut simple, &mut work);
    let other = fast::run_batch(mode, text, second, session, &mut quick, &mut work);
    assert_eq!((answer, &simple), (other, &quick), "{}", workload.name);
    let refused = match workload.ending {
        Ending::Refused(number) => Some(number),
        _ => None,
    };
    let given = answer.refusal.map(|refusal| refusal.number());
    assert_eq!(given, refused, "{}", workload.name);
    let report = String::from_utf8(simple[..answer.length].to_vec()).unwrap();
    (report, usize::from(workload.fuel - answer.session.fuel))
}

fn assert_ends_as_it_says(workload: &Workload) {
    let name = &workload.name;
    let expected = match workload.ending {
        Ending::Accepted => {
            assert_eq!(workload.call, Call::Check, "{name}");
            assert_eq!(fast::check(&workload.text), calls::check(&workload.text));
            assert!(calls::check(&workload.text).is_ok(), "{name}");
            return;
        }
        Ending::Objects(count) => count,
        Ending::OutOfFuel | Ending::Refused(_) | Ending::Number(_) => 0,
    };
    let (report, spent) = report_of(workload);
    if let Ending::Number(number) = workload.ending {
        assert_eq!(report, format!("09{number:04X}\n"), "{name}");
    }
    let objects = report.lines().filter(|line| line.starts_with("05"));
    assert_eq!(objects.count(), expected, "{name}: {report}");
    let fuel_ran_out = workload.ending == Ending::OutOfFuel;
    assert_eq!(report == "0702\n", fuel_ran_out, "{name}: {report}");
    assert_eq!(spent, workload.spends, "{name}");
}

#[test]
fn every_row_ends_as_it_says() {
    workloads::all().iter().for_each(assert_ends_as_it_says);
}

#[test]
fn names_are_not_used_twice() {
    let rows = workloads::all().into_iter();
    let mut names: Vec<String> = rows.map(|row| row.name).collect();
    let count = names.len();
    names.sort();
    names.dedup();
    assert_eq!(names.len(), count);
}

#[test]
fn growth_rows_end_as_they_say() {
    for fuel in [1_000, 64_000] {
        workloads::by_fuel(fuel)
            .iter()
            .for_each(assert_ends_as_it_says);
    }
    for objects in 1..=32 {
        workloads::by_objects(objects)
            .iter()
            .for_each(assert_ends_as_it_says);
    }
    for objects in 1..=31 {
        workloads::by_objects_of_a_ring(objects)
            .iter()
            .for_each(assert_ends_as_it_says);
    }
}
