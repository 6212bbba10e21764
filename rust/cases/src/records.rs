//! Cases of records, in the order of the numbers of refusal. Beside each stands what docs/RULES.md gives, worked out by hand.

use lister::refusal::*;

use crate::case::{Case, Outcome};
use crate::question::{LENT, Question, decimals};
use crate::sample::{FULL, Sample, a, b, chain, hex, location, longest, one, task};

pub fn all() -> Vec<Case> {
    let groups = [
        accepted(),
        cut(),
        wrong_fields(),
        counts(),
        header_values(),
        location_values(),
        shapes(),
        gaps(),
        overlaps(),
        periods(),
        tasks(),
        orders(),
        fields(),
        rooms(),
        tables(),
    ];
    groups.into_iter().flatten().collect()
}

fn case(name: &str, question: Question, record: Vec<u8>, outcome: Outcome) -> Case {
    Case { name: name.into(), question, record, outcome }
}

fn fine(name: &str, sample: Sample) -> Case {
    case(name, Question::Record(LENT), sample.bytes(), Outcome::Accepted)
}

/// A refused record of any bytes.
fn raw(name: &str, number: u32, place: usize, record: Vec<u8>) -> Case {
    case(name, Question::Record(LENT), record, Outcome::Refused(number, place))
}

fn bad(name: &str, number: u32, place: usize, sample: Sample) -> Case {
    raw(name, number, place, sample.bytes())
}

/// Table A, and the bytes `more` after its record.
fn a_and(more: &str) -> Vec<u8> {
    [a().bytes(), hex(more)].concat()
}

fn longest_and(more: &str) -> Vec<u8> {
    [longest().bytes(), hex(more)].concat()
}

/// Table A's header, and the bytes `more` after it.
fn header_and(more: &str) -> Vec<u8> {
    [&a().bytes()[..7], &hex(more)].concat()
}

/// A root of one tick whose children, of three ticks each, have these guards.
fn guarded(guards: &[(u16, u16)]) -> Sample {
    let mut locations = vec![location(0, 1, 1, FULL)];
    locations.extend(guards.iter().map(|&guard| location(0, 1, 3, guard)));
    Sample::new(1, 4, &locations, &[])
}

fn accepted() -> Vec<Case> {
    vec![
        fine("a", a()),
        fine("b", b()),
        fine("one-location", one(4)),
        fine("locations-128", chain(128, 1, 128)),
        fine("tasks-32", one(4).with(|s| s.tasks = vec![task(1, 1, 2, 3); 32])),
        fine("longest", longest()),
        fine("queues-1", one(3)),
        fine("queues-16", one(4).with(|s| s.queues = 16)),
        fine("ticks-and-period-1", one(1)),
        fine("ticks-and-period-1024", one(1_024)),
        fine("variable-7", a().with(|s| s.locations[0].variable = 7)),
        fine("location-queue-0", a().with(|s| s.locations[2].queue = 0)),
        fine("location-queue-16", one(4).with(|s| (s.queues, s.locations[0].queue) = (16, 16))),
        fine("guards-of-one-value", guarded(&[(0, 0), (1, 65_534), (65_535, 65_535)])),
        fine("guards-in-any-order", guarded(&[(500, 65_535), (0, 7), (100, 499), (8, 99)])),
        fine("task-queue-2", a().with(|s| s.tasks[0].queue = 2)),
        fine("task-1-1-1", a().with(|s| s.tasks[0] = task(1, 1, 1, 1))),
        fine("task-4-4-5", a().with(|s| s.tasks[0] = task(1, 4, 4, 5))),
        fine("task-65535-65535-65535", a().with(|s| s.tasks[0] = task(1, 65_535, 65_535, 65_535))),
    ]
}

/// CUT: a field needs more bytes than there are.
fn cut() -> Vec<Case> {
    let a = |length: usize| a().bytes()[..length].to_vec();
    let longest = |length: usize, more: &str| [&longest().bytes()[..length], &hex(more)].concat();
    vec![
        raw("cut-empty", CUT, 0, vec![]),
        raw("cut-header-after-2", CUT, 0, a(2)),
        raw("cut-header-after-3", CUT, 0, a(3)),
        raw("cut-header-after-6", CUT, 0, a(6)),
        raw("cut-header-alone", CUT, 7, a(7)),
        raw("cut-root-after-2", CUT, 7, a(9)),
        raw("cut-root-after-3", CUT, 7, a(10)),
        raw("cut-root-after-11", CUT, 7, a(18)),
        raw("cut-location-1-after-1", CUT, 19, a(20)),
        raw("cut-location-1-after-11", CUT, 19, a(30)),
        raw("cut-location-2-after-11", CUT, 31, a(42)),
        raw("cut-task-after-2", CUT, 43, a(45)),
        raw("cut-task-after-9", CUT, 43, a(52)),
        raw("cut-location-128", CUT, 1_531, longest(1_531, "02 0009")),
        raw("cut-task-32", CUT, 1_853, longest(1_853, "03 0007")),
        raw("cut-line-feed", CUT, 53, a_and("0A")),
        raw("cut-two-stray-bytes", CUT, 53, a_and("FF FF")),
        raw("cut-line-feed-after-longest", CUT, 1_863, longest_and("0A")),
    ]
}

/// FIELD: a wrong tag, a wrong length, or out of order.
fn wrong_fields() -> Vec<Case> {
    let a = a().bytes();
    let (header, root, locations, task) = (&a[..7], &a[7..19], &a[..43], &a[43..]);
    vec![
        raw("field-tag-0", FIELD, 0, hex("00 0004 01 02 0004")),
        raw("field-tag-4", FIELD, 0, hex("04 0004 01 02 0004")),
        raw("field-header-length-3", FIELD, 0, hex("01 0003 01 02 0004")),
        raw("field-header-length-5", FIELD, 0, hex("01 0005 01 02 0004")),
        raw("field-header-length-260", FIELD, 0, hex("01 0104 01 02 0004")),
        raw("field-location-first", FIELD, 0, [root, header].concat()),
        raw("field-task-first", FIELD, 0, task.to_vec()),
        raw("field-two-headers", FIELD, 7, [header, header, root].concat()),
        raw("field-task-after-header", FIELD, 7, [header, task, root].concat()),
        raw("field-location-length-8", FIELD, 7, header_and("02 0008 00 01 0001 00 0000 FF")),
        raw("field-location-length-265", FIELD, 7, header_and("02 0109 00 01 0001 00 0000 FFFF")),
        raw("field-tag-4-after-root", FIELD, 19, [&a[..19], &hex("04 0009 00 01 0003")].concat()),
        raw("field-header-after-locations", FIELD, 43, [locations, header].concat()),
        raw("field-task-length-8", FIELD, 43, [locations, &hex("03 0008 01 0001 0004 0004 00")].concat()),
        raw("field-location-after-task", FIELD, 53, [&a, root].concat()),
        raw("field-header-after-task", FIELD, 53, [&a, header].concat()),
        raw("field-three-stray-bytes", FIELD, 53, a_and("00 00 00")),
        raw("field-three-stray-bytes-after-longest", FIELD, 1_863, longest_and("FF FF FF")),
    ]
}

/// COUNT: a 129th location, a 33rd task.
fn counts() -> Vec<Case> {
    let locations_129 = chain(129, 1, 128);
    let tasks_33 = |sample: Sample| sample.with(|s| s.tasks = vec![task(1, 1, 2, 3); 33]);
    vec![
        bad("count-locations-129", COUNT, 1_543, locations_129.clone()),
        bad("count-tasks-33", COUNT, 339, tasks_33(one(4))),
        bad("count-tasks-33-of-a", COUNT, 363, tasks_33(a())),
        bad("count-tasks-33-of-128", COUNT, 1_863, tasks_33(chain(128, 1, 128))),
    ]
}

/// VALUE of the header.
fn header_values() -> Vec<Case> {
    let a = a();
    vec![
        bad("value-version-0", VALUE, 0, a.with(|s| s.version = 0)),
        bad("value-version-2", VALUE, 0, a.with(|s| s.version = 2)),
        bad("value-version-255", VALUE, 0, a.with(|s| s.version = 255)),
        bad("value-queues-0", VALUE, 0, a.with(|s| s.queues = 0)),
        bad("value-queues-17", VALUE, 0, a.with(|s| s.queues = 17)),
        bad("value-period-0", VALUE, 0, a.with(|s| s.period = 0)),
        bad("value-period-1025", VALUE, 0, a.with(|s| s.period = 1_025)),
        bad("value-ticks-and-period-1025", VALUE, 0, one(1_025)),
    ]
}

/// VALUE of a location.
fn location_values() -> Vec<Case> {
    let a = a();
    vec![
        bad("value-ticks-0-at-0", VALUE, 1, a.with(|s| s.locations[0].ticks = 0)),
        bad("value-ticks-0-at-1", VALUE, 2, a.with(|s| s.locations[1].ticks = 0)),
        bad("value-ticks-0-at-2", VALUE, 3, a.with(|s| s.locations[2].ticks = 0)),
        bad("value-ticks-1025-at-0", VALUE, 1, a.with(|s| s.locations[0].ticks = 1_025)),
        bad("value-ticks-1025-at-2", VALUE, 3, a.with(|s| s.locations[2].ticks = 1_025)),
        bad("value-ticks-65535-at-1", VALUE, 2, a.with(|s| s.locations[1].ticks = 65_535)),
        bad("value-ticks-0-at-127", VALUE, 128, chain(128, 1, 128).with(|s| s.locations[127].ticks = 0)),
        bad("value-queue-3-at-0", VALUE, 1, a.with(|s| s.locations[0].queue = 3)),
        bad("value-queue-255-at-1", VALUE, 2, a.with(|s| s.locations[1].queue = 255)),
        bad("value-queue-2-of-1", VALUE, 3, a.with(|s| s.queues = 1)),
        bad("value-queue-17-of-16", VALUE, 1, one(4).with(|s| (s.queues, s.locations[0].queue) = (16, 17))),
        bad("value-variable-8-at-0", VALUE, 1, a.with(|s| s.locations[0].variable = 8)),
        bad("value-variable-8-at-2", VALUE, 3, a.with(|s| s.locations[2].variable = 8)),
        bad("value-variable-255-at-1", VALUE, 2, a.with(|s| s.locations[1].variable = 255)),
        bad(
            "value-guard-65535-0-at-0",
            VALUE,
            1,
            a.with(|s| (s.locations[0].low, s.locations[0].high) = (65_535, 0)),
        ),
        bad("value-guard-100-99-at-1", VALUE, 2, a.with(|s| s.locations[1].low = 100)),
        bad("value-guard-100-99-at-2", VALUE, 3, a.with(|s| s.locations[2].high = 99)),
    ]
}

/// SHAPE: the root, the parents, the leaves' variables.
fn shapes() -> Vec<Case> {
    let a = a();
    vec![
        bad("shape-root-parent-1", SHAPE, 1, a.with(|s| s.locations[0].parent = 1)),
        bad("shape-root-parent-255", SHAPE, 1, one(4).with(|s| s.locations[0].parent = 255)),
        bad("shape-root-low-1", SHAPE, 1, a.with(|s| s.locations[0].low = 1)),
        bad("shape-root-high-65534", SHAPE, 1, a.with(|s| s.locations[0].high = 65_534)),
        bad("shape-parent-1-of-1", SHAPE, 2, a.with(|s| s.locations[1].parent = 1)),
        bad("shape-parent-2-of-1", SHAPE, 2, a.with(|s| s.locations[1].parent = 2)),
        bad("shape-parent-2-of-2", SHAPE, 3, a.with(|s| s.locations[2].parent = 2)),
        bad("shape-parent-255-of-2", SHAPE, 3, a.with(|s| s.locations[2].parent = 255)),
        bad(
            "shape-parent-127-of-127",
            SHAPE,
            128,
            chain(128, 1, 128).with(|s| s.locations[127].parent = 127),
        ),
        bad("shape-leaf-variable-at-0", SHAPE, 1, one(4).with(|s| s.locations[0].variable = 1)),
        bad("shape-leaf-variable-at-1", SHAPE, 2, a.with(|s| s.locations[1].variable = 1)),
        bad("shape-leaf-variable-at-2", SHAPE, 3, a.with(|s| s.locations[2].variable = 7)),
        bad(
            "shape-leaf-variable-at-127",
            SHAPE,
            128,
            chain(128, 1, 128).with(|s| s.locations[127].variable = 1),
        ),
    ]
}

/// GAP: a value in no child's guard.
fn gaps() -> Vec<Case> {
    let a = a();
    let b = b();
    vec![
        bad("gap-a-101", GAP, 1, a.with(|s| s.locations[2].low = 101)),
        bad("gap-at-the-low-end", GAP, 1, a.with(|s| s.locations[1].low = 1)),
        bad("gap-at-the-high-end", GAP, 1, a.with(|s| s.locations[2].high = 65_534)),
        bad("gap-of-an-only-child", GAP, 2, b.with(|s| s.locations[3].high = 65_534)),
        bad("gap-of-one-value", GAP, 3, b.with(|s| s.locations[4].low = 1)),
        bad("gap-in-any-order", GAP, 1, guarded(&[(500, 65_535), (0, 7), (101, 499), (8, 99)])),
        bad("gap-though-the-widths-sum", GAP, 1, guarded(&[(0, 99), (99, 65_534)])),
        bad("gap-of-the-127th", GAP, 127, chain(128, 1, 128).with(|s| s.locations[127].low = 1)),
    ]
}

/// OVERLAP: a value in two children's guards.
fn overlaps() -> Vec<Case> {
    let b = b();
    let once_more = |parent: u8, guard| b.with(|s| s.locations.push(location(parent, 1, 2, guard)));
    vec![
        bad("overlap-a-99", OVERLAP, 1, a().with(|s| s.locations[2].low = 99)),
        bad("overlap-two-full-guards", OVERLAP, 1, guarded(&[FULL, FULL])),
        bad("overlap-in-the-middle", OVERLAP, 1, guarded(&[FULL, (5, 5)])),
        bad("overlap-at-the-high-end", OVERLAP, 1, guarded(&[(65_535, 65_535), FULL])),
        bad("overlap-in-any-order", OVERLAP, 1, guarded(&[(500, 65_535), (0, 7), (99, 499), (8, 99)])),
        bad("overlap-below-1", OVERLAP, 2, once_more(1, FULL)),
        bad("overlap-below-2", OVERLAP, 3, once_more(2, (0, 0))),
    ]
}

/// PERIOD: a path's ticks do not sum to P.
fn periods() -> Vec<Case> {
    let a = a();
    vec![
        bad("period-one-tick-less", PERIOD, 1, one(4).with(|s| s.locations[0].ticks = 3)),
        bad("period-one-tick-more", PERIOD, 1, one(4).with(|s| s.locations[0].ticks = 5)),
        bad("period-a-location-1-of-4", PERIOD, 2, a.with(|s| s.locations[1].ticks = 4)),
        bad("period-a-location-2-of-2", PERIOD, 3, a.with(|s| s.locations[2].ticks = 2)),
        bad("period-a-root-of-2", PERIOD, 2, a.with(|s| s.locations[0].ticks = 2)),
        bad("period-a-of-5", PERIOD, 2, a.with(|s| s.period = 5)),
        bad("period-b-location-4-of-3", PERIOD, 5, b().with(|s| s.locations[4].ticks = 3)),
        bad("period-127-for-128", PERIOD, 128, chain(128, 1, 127)),
        bad("period-66560-for-1024", PERIOD, 65, chain(65, 1_024, 1_024)),
        bad("period-131072-for-1024", PERIOD, 128, chain(128, 1_024, 1_024)),
    ]
}

/// TASK: its queue, and 1 <= C <= D <= T.
fn tasks() -> Vec<Case> {
    let a = a();
    let changed = |work, deadline, gap| a.with(|s| s.tasks[0] = task(1, work, deadline, gap));
    vec![
        bad("task-queue-0", TASK, 4, a.with(|s| s.tasks[0].queue = 0)),
        bad("task-queue-3-of-2", TASK, 4, a.with(|s| s.tasks[0].queue = 3)),
        bad(
            "task-queue-17-of-16",
            TASK,
            2,
            one(4).with(|s| (s.queues, s.tasks) = (16, vec![task(17, 1, 1, 1)])),
        ),
        bad("task-0-4-4", TASK, 4, changed(0, 4, 4)),
        bad("task-0-0-0", TASK, 4, changed(0, 0, 0)),
        bad("task-5-4-5", TASK, 4, changed(5, 4, 5)),
        bad("task-1-5-4", TASK, 4, changed(1, 5, 4)),
        bad("task-65535-65534-65535", TASK, 4, changed(65_535, 65_534, 65_535)),
        bad("task-second", TASK, 5, a.with(|s| s.tasks.push(task(1, 2, 1, 1)))),
        bad("task-lowest-of-two", TASK, 5, a.with(|s| s.tasks.extend([task(1, 1, 2, 1), task(0, 1, 1, 1)]))),
        bad("task-32nd", TASK, 160, longest().with(|s| s.tasks[31].work = 3)),
    ]
}

/// Where two refusals apply.
fn orders() -> Vec<Case> {
    let a = a();
    let version_9 = a.with(|s| s.version = 9).bytes();
    // The only child of location 8, which is field 9, leaves 0 out; the root's children overlap.
    let mut late_gap = vec![location(0, 1, 1, FULL), location(0, 1, 3, FULL)];
    late_gap.extend((2..8).map(|v| location(0, 1, 3, (v, v))));
    late_gap.extend([location(0, 1, 2, (9, 9)), location(8, 1, 1, (1, 65_535))]);
    vec![
        raw("order-three-bytes-before-tag", CUT, 0, hex("09 09")),
        raw("order-tag-before-payload", FIELD, 0, hex("09 0004")),
        raw("order-length-before-payload", FIELD, 7, header_and("02 0008 00")),
        raw(
            "order-count-before-payload",
            COUNT,
            1_543,
            [chain(128, 1, 128).bytes(), hex("02 0009")].concat(),
        ),
        raw("order-count-before-payload-of-task", COUNT, 1_863, longest_and("03 0007")),
        raw("order-field-before-count", FIELD, 1_863, longest_and("02 0009")),
        raw("order-count-before-value", COUNT, 1_863, longest_and("03 0007 FF FFFF FFFF FFFF 99")),
        raw("order-cut-before-value", CUT, 53, [version_9, vec![0]].concat()),
        bad("order-count-before-version", COUNT, 1_543, chain(129, 1, 128).with(|s| s.version = 9)),
        bad("order-header-before-location", VALUE, 0, a.with(|s| (s.queues, s.locations[0].ticks) = (17, 0))),
        bad(
            "order-lower-location",
            VALUE,
            2,
            a.with(|s| (s.locations[1].variable, s.locations[2].ticks) = (8, 0)),
        ),
        bad(
            "order-value-before-shape",
            VALUE,
            3,
            a.with(|s| (s.locations[0].parent, s.locations[2].variable) = (1, 8)),
        ),
        bad(
            "order-shape-before-gap",
            SHAPE,
            3,
            a.with(|s| (s.locations[2].variable, s.locations[2].low) = (1, 101)),
        ),
        bad("order-gap-before-overlap", GAP, 9, Sample::new(1, 4, &late_gap, &[])),
        bad(
            "order-overlap-before-period",
            OVERLAP,
            1,
            a.with(|s| (s.locations[1].ticks, s.locations[2].low) = (2, 99)),
        ),
        bad(
            "order-period-before-task",
            PERIOD,
            3,
            a.with(|s| (s.locations[2].ticks, s.tasks[0].work) = (2, 0)),
        ),
        bad("order-task-queue-is-no-value", PERIOD, 2, a.with(|s| (s.period, s.tasks[0].queue) = (3, 99))),
    ]
}

/// The field question.
fn fields() -> Vec<Case> {
    let asked = |name: &str, k: u16, record: &[u8], outcome: Outcome| {
        case(&format!("{name}-field-{k}"), Question::Field(k), record.to_vec(), outcome)
    };
    let payload = |text: &str| Outcome::Words(format!("accepted{}", decimals(&hex(text))));
    let (a, b, longest) = (a().bytes(), b().bytes(), longest().bytes());
    let gap = self::a().with(|s| s.locations[2].low = 101).bytes();
    vec![
        asked("a", 0, &a, payload("01 02 0004")),
        asked("a", 1, &a, payload("00 01 0001 00 0000 FFFF")),
        asked("a", 2, &a, payload("00 01 0003 00 0000 0063")),
        asked("a", 3, &a, payload("00 02 0003 00 0064 FFFF")),
        asked("a", 4, &a, payload("01 0001 0004 0004")),
        asked("a", 5, &a, Outcome::Refused(AMOUNT, 0)),
        asked("a", 65_535, &a, Outcome::Refused(AMOUNT, 0)),
        asked("b", 5, &b, payload("02 01 0002 00 0000 FFFF")),
        asked("b", 6, &b, Outcome::Refused(AMOUNT, 0)),
        asked("longest", 160, &longest, payload("01 0001 0002 0003")),
        asked("longest", 161, &longest, Outcome::Refused(AMOUNT, 0)),
        asked("empty", 0, &[], Outcome::Refused(CUT, 0)),
        asked("cut", 0, &a[..52], Outcome::Refused(CUT, 43)),
        asked("cut", 99, &a[..52], Outcome::Refused(CUT, 43)),
        asked("gap", 0, &gap, Outcome::Refused(GAP, 1)),
    ]
}

/// Room for the writer.
fn rooms() -> Vec<Case> {
    let lent = |name: &str, sample: Sample, room: u16, outcome: Outcome| {
        case(&format!("{name}-room-{room}"), Question::Record(room), sample.bytes(), outcome)
    };
    vec![
        lent("a", a(), 0, Outcome::Refused(ROOM, 0)),
        lent("a", a(), 52, Outcome::Refused(ROOM, 0)),
        lent("a", a(), 53, Outcome::Accepted),
        lent("a", a(), 54, Outcome::Accepted),
        lent("one-location", one(4), 18, Outcome::Refused(ROOM, 0)),
        lent("one-location", one(4), 19, Outcome::Accepted),
        lent("longest", longest(), 1_862, Outcome::Refused(ROOM, 0)),
        lent("longest", longest(), 1_863, Outcome::Accepted),
    ]
}

/// Tables handed over with other counts than their records had.
fn tables() -> Vec<Case> {
    let counted = |name: &str, question: Question, sample: Sample, outcome: Outcome| {
        case(name, question, sample.bytes(), outcome)
    };
    let refused = || Outcome::Refused(COUNT, 0);
    vec![
        counted("table-of-0-locations", Question::Locations(0), a(), refused()),
        counted("table-of-1-location", Question::Locations(1), a(), Outcome::Refused(PERIOD, 1)),
        counted("table-of-3-locations", Question::Locations(3), a(), Outcome::Accepted),
        counted("table-of-129-locations", Question::Locations(129), a(), refused()),
        counted("table-of-65535-locations", Question::Locations(65_535), a(), refused()),
        counted("table-of-0-tasks", Question::Tasks(0), a(), Outcome::Accepted),
        counted("table-of-2-tasks", Question::Tasks(2), a(), Outcome::Refused(TASK, 5)),
        counted("table-of-33-tasks", Question::Tasks(33), a(), refused()),
        counted("table-of-65535-tasks", Question::Tasks(65_535), a(), refused()),
    ]
}
