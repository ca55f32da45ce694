//! What `check` takes from the environment: alone in its process, which sets it.
use std::panic::{catch_unwind, AssertUnwindSafe};
use std::path::Path;
use velodrome::cell::Var;
use velodrome::{block, Builder};

/// The words of the panic, if there is one.
fn panics(body: impl FnOnce()) -> Option<String> {
    let payload = catch_unwind(AssertUnwindSafe(body)).err()?;
    Some(payload.downcast_ref::<String>().expect("a message").clone())
}

fn too_long(x: &Var<u32>) {
    let _block = block!("long");
    (0..100).for_each(|n| x.set(n));
}

fn lost(x: &Var<u32>) {
    let _block = block!("lost");
    let before = x.get();
    std::thread::scope(|scope| {
        scope.spawn(|| x.set(1));
    });
    x.set(before);
}

#[test]
fn logs_are_kept_and_incomplete_runs_warn_or_fail() {
    let x = Var::named(c"x", 0);
    let folder = Path::new(env!("CARGO_TARGET_TMPDIR")).join("logs/of-this-test");
    let _ = std::fs::remove_dir_all(&folder);
    std::env::set_var("VELODROME_LOGS", &folder);

    let builder = Builder::new().name("bank::lost").max_events(20);
    let words = panics(|| builder.check(|| lost(&x))).expect("an alarm");
    let log = folder.join("bank.lost.vlog");
    assert!(
        words.contains("not atomic: lost (environment.rs:"),
        "{words}"
    );
    assert!(
        words.contains(&format!("velodrome explain {}", log.display())),
        "{words}"
    );
    assert!(std::fs::read_to_string(&log)
        .unwrap()
        .starts_with("vlog 2 "));
    let names = std::fs::read_to_string(folder.join("bank.lost.vlog.names")).unwrap();
    assert!(names.starts_with("variable 0 x\n"), "{names}");

    let words = panics(|| builder.check(|| too_long(&x))).expect("a failure");
    assert!(
        words.contains("too many events while a block was open"),
        "{words}"
    );
    std::env::set_var("VELODROME_INCOMPLETE", "warn");
    assert_eq!(panics(|| builder.check(|| too_long(&x))), None);
    std::env::set_var("VELODROME_EVENTS", "20");
    std::env::remove_var("VELODROME_INCOMPLETE");
    assert!(panics(|| velodrome::check(|| too_long(&x))).is_some());
    assert_eq!(
        panics(|| Builder::new().max_events(1000).check(|| too_long(&x))),
        None
    );
    std::env::set_var("VELODROME_EVENTS", "1e6");
    let words = panics(|| velodrome::check(|| x.set(1))).expect("a failure");
    assert!(words.contains("VELODROME_EVENTS"), "{words}");
    std::env::remove_var("VELODROME_EVENTS");
    let words = panics(|| velodrome::check(|| ())).expect("a failure");
    assert!(words.contains("nothing was recorded"), "{words}");
}
