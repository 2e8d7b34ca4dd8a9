//! Every field of every kind of item comes through to a line, each with a value of its own.

mod common;

use common::{list, number, publish, value, with_id};
use std::panic::{Location as Caller, RefUnwindSafe, UnwindSafe};
use taskscope::{Attr, Change, Console, InstrumentExt, Location, Refused, Settings, TaskKind, Value};

fn attrs() -> [Attr; 3] {
    [Attr::new("permits", 7u64), Attr::new("fair", true), Attr::new("lag", -5i64).with_unit("ms")]
}

#[test]
fn what_is_new_comes_through() {
    let console = Console::open(Settings::default());
    let task = console.task("a \"task\"").kind(TaskKind::Blocking).location(Location::new("main.rs", 10, 5)).open();
    let outer = console.resource("Outer").kind("Part").open();
    let [permits, fair, lag] = attrs();
    let (resource, line, column) = {
        let at = Caller::caller();
        (
            console
                .resource("Semaphore")
                .kind("Sync")
                .attr(permits)
                .attr(fair)
                .attr(lag)
                .parent(outer.id())
                .location(at),
            at.line(),
            at.column(),
        )
    };
    let resource = resource.open();
    let first = console.op(&resource, "Semaphore::acquire").open();
    let [permits, ..] = attrs();
    let second = console.op(&resource, "Acquire::poll").attr(permits).parent(first.id()).open();
    let told = publish(&console);
    let (t, r, o) = (task.id().value(), resource.id().value(), second.id().value());
    assert_eq!(
        list(&told, "new_tasks"),
        [format!(r#"{{"id":{t},"kind":"blocking","loc":["main.rs",10,5],"name":"a \"task\""}}"#)]
    );
    assert_eq!(
        with_id(&told, "new_resources", r).expect("the resource"),
        format!(
            r#"{{"attrs":[["permits",null,"u64"],["fair",null,"bool"],["lag","ms","i64"]],"id":{r},"kind":"Sync","loc":["{}",{line},{column}],"parent":{},"type":"Semaphore"}}"#,
            file!(),
            outer.id().value(),
        )
    );
    assert_eq!(
        with_id(&told, "new_ops", o).expect("the operation"),
        format!(
            r#"{{"attrs":[["permits",null,"u64"]],"id":{o},"parent":{},"resource":{r},"source":"Acquire::poll"}}"#,
            first.id().value(),
        )
    );
    assert_eq!(value(with_id(&told, "new_resources", outer.id().value()).expect("the parent"), "parent"), "null");
    assert_eq!((number(&told, "seq"), value(&told, "snapshot")), (1, "false"));
}

#[test]
fn an_item_is_made_where_its_maker_is_called() {
    let console = Console::open(Settings::default());
    let line = line!() + 1;
    let task = console.task("task").open();
    let future = console.instrument("future", async {});
    let call = console.blocking("call", || ());
    let method = async {}.instrument(&console, "by a method of its own");
    let resource = console.resource("Semaphore").kind("Sync").open();
    let told = publish(&console);
    let tasks = [task.id(), future.id(), call.id(), method.id()];
    let made = tasks.map(|id| ("new_tasks", id.value()));
    for (offset, (key, id)) in made.into_iter().chain([("new_resources", resource.id().value())]).enumerate() {
        let place = format!("[\"{}\",{},", file!(), line as usize + offset);
        assert!(with_id(&told, key, id).expect("the item").contains(&place), "{place} in {told}");
    }
}

#[test]
fn calls_on_attributes_are_answered_and_told() {
    let console = Console::open(Settings::default());
    let [permits, fair, lag] = attrs();
    let resource = console.resource("Semaphore").kind("Sync").attr(permits).attr(fair).attr(lag).open();
    let [permits, ..] = attrs();
    let mut op = console.op(&resource, "acquire").attr(permits).open();
    assert_eq!(resource.change("permits", Change::sub(3u64)), Ok(()));
    assert_eq!(resource.change("permits", Change::sub(5u64)), Err(Refused::OutOfRange));
    assert_eq!(resource.change("fair", Change::add(true)), Err(Refused::WrongKind));
    assert_eq!(resource.change("fair", Change::set(false)), Ok(()));
    assert_eq!(resource.change("lag", Change::Add(Value::I64(-1))), Ok(()));
    assert_eq!(resource.change("other", Change::set(1u64)), Err(Refused::NoAttribute));
    assert_eq!(op.change("permits", Change::set(9u64)), Ok(()));
    assert_eq!(op.change("lag", Change::set(9i64)), Err(Refused::NoAttribute));
    let told = publish(&console);
    assert_eq!(list(list(&told, "resource_stats")[0], "attrs"), ["4", "false", "[-6]"]);
    assert_eq!(list(list(&told, "op_stats")[0], "attrs"), ["9"]);
}

#[test]
fn a_seventh_attribute_and_a_second_of_one_name_are_left_out() {
    let console = Console::open(Settings::default());
    let mut seven = console.resource("Many").kind("Sync");
    for name in ["a", "b", "c", "d", "e", "f", "g"] {
        seven = seven.attr(Attr::new(name, 1u64));
    }
    assert_eq!(seven.left_out(), [Attr::new("g", 1u64)]);
    let seven = seven.open();
    // Both names become `?`.
    let twice = console.resource("Twice").kind("Sync").attr(Attr::new("\u{e9}", 1u64)).attr(Attr::new("", true));
    let left_out = twice.left_out();
    assert_eq!((left_out.len(), left_out[0].name(), left_out[0].first()), (1, "?", Value::Bool(true)));
    let twice = twice.open();
    let op = console.op(&seven, "acquire").attr(Attr::new("n", 1u64)).attr(Attr::new("n", 2u64).with_unit("ms"));
    assert_eq!((op.left_out().len(), op.left_out()[0].unit()), (1, Some("ms")));
    drop(op.open());
    assert_eq!(seven.change("f", Change::add(1u64)), Ok(()));
    assert_eq!(seven.change("g", Change::add(1u64)), Err(Refused::NoAttribute));
    assert_eq!(twice.change("\u{e8}", Change::add(4u64)), Ok(()));
    assert_eq!(twice.change("", Change::set(false)), Err(Refused::WrongKind));
    let told = publish(&console);
    let attrs_of = |id| list(with_id(&told, "resource_stats", id).expect("the resource"), "attrs");
    assert_eq!(attrs_of(seven.id().value()), ["1", "1", "1", "1", "1", "2"]);
    assert_eq!(attrs_of(twice.id().value()), ["5"]);
}

#[test]
fn polls_by_hand_are_answered_and_told() {
    let console = Console::open(Settings::default());
    let mut task = console.task("by hand").open();
    let resource = console.resource("Semaphore").kind("Sync").open();
    let mut op = console.op(&resource, "acquire").open();
    assert_eq!(task.end_poll(), Err(Refused::NotPolling));
    assert_eq!(task.start_poll(), Ok(()));
    assert_eq!(task.start_poll(), Err(Refused::AlreadyPolling));
    assert_eq!(op.end_poll(), Err(Refused::NotPolling));
    op.set_task(task.id());
    assert_eq!(op.start_poll(), Ok(()));
    assert_eq!(op.start_poll(), Err(Refused::AlreadyPolling));
    op.count_poll(false);
    op.count_poll(true);
    resource.count_poll(true);
    let told = publish(&console);
    let (t, r) = (task.id().value(), resource.id().value());
    let row = list(&told, "op_stats")[0];
    assert_eq!((value(row, "polling"), number(row, "polls"), number(row, "task")), ("true", 1, t));
    assert_eq!((value(common::task(&told, t), "polling"), number(common::task(&told, t), "polls")), ("true", 1));
    assert_eq!(list(&told, "poll_counts"), [format!("[{r},2,1]")]);
    // What is dropped with an open poll ends it, and is closed.
    drop((task, op));
    let told = publish(&console);
    for row in [list(&told, "op_stats")[0], common::task(&told, t)] {
        assert_eq!(value(row, "polling"), "false");
        assert!(number(row, "dropped") == number(row, "last_ended"), "{row}");
    }
}

#[test]
#[allow(deprecated)]
fn the_older_names_make_the_same() {
    let console = Console::open(Settings::default());
    let line = line!() + 1;
    let by_console = console.inspect("console", async {});
    let by_task = console.task("task").open().inspect(async {});
    let resource = console.resource("Semaphore").open();
    let wait = console.op(&resource, "acquire").open().inspect(async {});
    let told = publish(&console);
    let infos = [by_console.id(), by_task.id()].map(|id| with_id(&told, "new_tasks", id.value()).expect("the task"));
    assert!(infos[0].contains(&format!("[\"{}\",{line},", file!())), "{}", infos[0]);
    assert_eq!(infos.map(|info| value(info, "name")), ["\"console\"", "\"task\""]);
    assert_eq!(list(&told, "new_ops").len(), 1, "{wait:?}");
    // A resource of which no kind was said has this one.
    assert_eq!(value(list(&told, "new_resources")[0], "kind"), "\"Other\"");
}

#[test]
fn numbers_of_other_widths_are_values() {
    let values: [(Value, Value); 5] = [
        (7u32.into(), Value::U64(7)),
        (7usize.into(), Value::U64(7)),
        (i32::MIN.into(), Value::I64(i32::MIN.into())),
        (u64::MAX.into(), Value::U64(u64::MAX)),
        (i64::MIN.into(), Value::I64(i64::MIN)),
    ];
    for (given, held) in values {
        assert_eq!(given, held, "{held}");
    }
}

#[test]
fn what_a_program_keeps_has_the_common_traits() {
    fn is_common<T: Clone + std::fmt::Debug + Eq + std::hash::Hash>() {}
    fn is_ordered<T: Copy + Ord + std::fmt::Display>() {}
    fn is_shared<T: Send + Sync + Unpin + UnwindSafe + RefUnwindSafe>() {}
    is_shared::<Console>();
    is_shared::<taskscope::Task>();
    is_shared::<taskscope::SharedTask>();
    is_shared::<taskscope::TaskWaker>();
    is_shared::<taskscope::Resource>();
    is_shared::<taskscope::Op>();
    is_shared::<taskscope::Inspected<std::future::Ready<()>>>();
    is_shared::<taskscope::InspectedOp<std::future::Ready<()>>>();
    is_shared::<taskscope::Blocking<fn()>>();
    is_common::<Settings>();
    is_common::<Location>();
    is_common::<Value>();
    is_common::<Attr>();
    is_common::<Change>();
    is_common::<Refused>();
    is_ordered::<taskscope::TaskId>();
    is_ordered::<taskscope::ResourceId>();
    is_ordered::<taskscope::OpId>();
    is_ordered::<TaskKind>();
    is_ordered::<taskscope::Origin>();
    let places = [Location::new("a.rs", 9, 1), Location::new("a.rs", 10, 1), Location::new("b.rs", 1, 1)];
    assert!(places[0] < places[1] && places[1] < places[2], "{places:?}");
    assert_eq!(places[1].to_string(), "a.rs:10:1");
    assert_eq!(
        (TaskKind::default().to_string(), taskscope::Origin::Inside.to_string()),
        ("spawn".into(), "inside".into())
    );
}
