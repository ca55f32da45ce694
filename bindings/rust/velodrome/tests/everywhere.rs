//! A run that watches threads which it cannot know: alone in its process.
use velodrome::cell::Var;
use velodrome::{block, Builder, Outcome};

#[test]
fn threads_of_other_libraries_are_watched_from_their_first_event_on() {
    let x = Var::named(c"x", 0);
    let together = std::sync::Barrier::new(2);
    let increment = || {
        let _block = block!("increment");
        let before = x.get();
        together.wait();
        x.set(before + 1);
    };
    let run = |builder: Builder| {
        let body = || {
            std::thread::scope(|scope| {
                scope.spawn(increment);
                scope.spawn(increment);
            });
        };
        builder.run(body).1
    };
    assert!(matches!(run(Builder::new()), Outcome::Alarm(_)));
    let own_alone = run(Builder::new().everywhere(false)); // no thread of it told anything
    assert!(
        own_alone.to_string().contains("nothing was recorded"),
        "{own_alone}"
    );
}
