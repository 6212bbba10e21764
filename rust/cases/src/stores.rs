//! The stores of tables/, from which their records are made. The page beside each record explains the table.

use crate::sample::{FULL, Location, Sample, location, task};

const NOBODY: u8 = 0;

/// A location after which a variable chooses.
fn choosing(variable: u8, location: Location) -> Location {
    Location { variable, ..location }
}

/// The branches at the door, and at the cold or warm air.
const CLOSED: (u16, u16) = (0, 9);
const OPEN: (u16, u16) = (10, 65_535);
const COLD: (u16, u16) = (0, 119);
const WARM: (u16, u16) = (120, 65_535);

pub fn cellar() -> Sample {
    let [humidity, temperature, door, heater] = [1, 2, 3, 4];
    let locations = [
        location(0, door, 2, FULL),
        choosing(1, location(0, humidity, 6, CLOSED)),
        location(0, temperature, 8, OPEN),
        location(1, heater, 4, COLD),
        location(1, NOBODY, 4, WARM),
        location(2, humidity, 4, FULL),
        location(3, temperature, 8, FULL),
        location(4, temperature, 8, FULL),
        location(5, heater, 6, FULL),
    ];
    let tasks = [task(humidity, 2, 40, 40), task(temperature, 4, 30, 60), task(door, 1, 20, 20)];
    Sample::new(4, 20, &locations, &tasks)
}

/// The cellar with the last 10 ticks of the open branch for the heater, and with two tasks of the heater.
pub fn draft() -> Sample {
    let heater = 4;
    cellar().with(|store| {
        store.locations.pop();
        store.locations[5] = location(2, heater, 10, FULL);
        store.tasks.extend([task(heater, 1, 500, 991), task(heater, 1, 500, 997)]);
    })
}

/// The queues of the ripening store.
const ALARMS: u8 = 1;
const ROOMS: [u8; 3] = [2, 3, 4];
const HUMIDIFIERS: u8 = 5;
const FANS: u8 = 6;
const TURNER: u8 = 7;
const REPORTS: u8 = 8;

/// Its branches at the humidity, and at the turner. Those at the door are the cellar's.
const DRY: (u16, u16) = (0, 849);
const RIGHT: (u16, u16) = (850, 949);
const WET: (u16, u16) = (950, 65_535);
const PARKED: (u16, u16) = (0, 0);
const AT_WORK: (u16, u16) = (1, 65_535);

pub fn ripening() -> Sample {
    let readings = ROOMS.map(|room| task(room, 4, 150, 200));
    let alarms = [task(ALARMS, 1, 100, 100), task(ALARMS, 2, 100, 500), task(ALARMS, 1, 200, 1_000)];
    let devices = [
        task(HUMIDIFIERS, 4, 100, 200),
        task(HUMIDIFIERS, 2, 400, 500),
        task(FANS, 6, 200, 200),
        task(TURNER, 2, 120, 250),
    ];
    let locations = [closed(), dry(), right(), wet(), open()].concat();
    Sample::new(8, 100, &locations, &[&alarms[..], &readings, &devices].concat())
}

/// Locations 0 to 3: the root, and the rooms behind a closed door.
fn closed() -> Vec<Location> {
    vec![
        location(0, ALARMS, 4, FULL),
        location(0, ROOMS[0], 8, CLOSED),
        location(1, ROOMS[1], 8, FULL),
        choosing(1, location(2, ROOMS[2], 8, FULL)),
    ]
}

/// Locations 4 to 10.
fn dry() -> Vec<Location> {
    vec![
        choosing(2, location(3, HUMIDIFIERS, 20, DRY)),
        location(4, TURNER, 24, AT_WORK),
        location(5, FANS, 8, FULL),
        location(6, REPORTS, 20, FULL),
        location(4, TURNER, 4, PARKED),
        location(8, FANS, 8, FULL),
        location(9, REPORTS, 40, FULL),
    ]
}

/// Locations 11 to 17.
fn right() -> Vec<Location> {
    vec![
        choosing(2, location(3, HUMIDIFIERS, 8, RIGHT)),
        location(11, TURNER, 24, AT_WORK),
        location(12, FANS, 8, FULL),
        location(13, REPORTS, 32, FULL),
        location(11, TURNER, 4, PARKED),
        location(15, FANS, 8, FULL),
        location(16, REPORTS, 52, FULL),
    ]
}

/// Locations 18 to 24.
fn wet() -> Vec<Location> {
    vec![
        choosing(2, location(3, FANS, 24, WET)),
        location(18, TURNER, 24, AT_WORK),
        location(19, HUMIDIFIERS, 8, FULL),
        location(20, REPORTS, 16, FULL),
        location(18, TURNER, 4, PARKED),
        location(22, HUMIDIFIERS, 8, FULL),
        location(23, REPORTS, 36, FULL),
    ]
}

/// Locations 25 to 33.
fn open() -> Vec<Location> {
    vec![
        location(0, ALARMS, 4, OPEN),
        location(25, FANS, 24, FULL),
        location(26, ROOMS[0], 6, FULL),
        location(27, ROOMS[1], 6, FULL),
        location(28, ROOMS[2], 6, FULL),
        location(29, TURNER, 4, FULL),
        location(30, HUMIDIFIERS, 8, FULL),
        location(31, NOBODY, 10, FULL),
        location(32, REPORTS, 28, FULL),
    ]
}
