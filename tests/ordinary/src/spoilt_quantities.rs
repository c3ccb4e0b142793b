//! Quantity lists that are right for an hour, rounded in any way, and ways to spoil one, each by
//! one part of cause 3 or of one of the causes 22 to 24. The hour itself is fit.

use std::ops::Range;

use crate::limits;
use crate::random::Random;
use crate::spoilt::{some_place, way, Call, Way};

/// What an hour makes of a user, with the quantity that the list has for it. The exact share is
/// `down` and `rest` parts of `sum`.
#[derive(Clone, Copy)]
struct Due {
    /// 1 in an excess, -1 in a shortfall, 0 within the thresholds.
    sign: i64,
    /// The position before settlement.
    position: i64,
    /// The size of a causer's position; of another one 0.
    size: i64,
    /// The sum of all causers' sizes.
    sum: i64,
    /// The exact share rounded down.
    down: i64,
    /// What that leaves of it: 0 if the share is whole.
    rest: i64,
    /// The quantity.
    quantity: i64,
}

impl Due {
    /// The quantity of this size on the hour's side.
    fn signed(&self, size: i64) -> i64 {
        self.sign * size
    }

    fn caused(&self) -> bool {
        self.size > 0
    }

    /// The exact share rounded up.
    fn up(&self) -> i64 {
        self.down + i64::from(self.rest > 0)
    }

    fn nearest(&self) -> i64 {
        self.down + i64::from(2 * self.rest >= self.sum && self.rest > 0)
    }
}

/// The positions before settlement of a call that is fit.
pub(crate) fn positions(call: &Call) -> Vec<i64> {
    let start = call.zone as usize * limits::PLACES;
    let a = &call.amounts;
    (0..a.entry.len())
        .map(|g| call.table[start + g] + a.entry[g] + a.exit[g] + a.title[g] + a.pooling[g])
        .collect()
}

fn dues(call: &Call) -> Vec<Due> {
    let positions = positions(call);
    let terms = &call.amounts.terms;
    let market: i64 = positions.iter().sum();
    let due = (market - terms.upper).max(0) + (market - terms.lower).min(0);
    let sizes: Vec<i64> = positions.iter().map(|position| (due.signum() * position).max(0)).collect();
    let sum: i64 = sizes.iter().sum();
    let user = |g: usize| {
        let exact = due.abs() * sizes[g];
        Due {
            sign: due.signum(),
            position: positions[g],
            size: sizes[g],
            sum,
            down: exact / sum.max(1),
            rest: exact % sum.max(1),
            quantity: call.quantity[g],
        }
    };
    (0..positions.len()).map(user).collect()
}

/// Quantities that are right for the hour: quite often the settlement's own, else any. Each
/// share is rounded down or up, and the kWh that rounding down leaves are as many as the rests
/// make up: so as many of the shares that are not whole are rounded up.
pub fn right_quantities(random: &mut Random, call: &Call) -> Vec<i64> {
    if random.one_in(3) {
        let mut settled = call.clone();
        settled.settle().expect("the hour is fit");
        return settled.quantity;
    }
    let dues = dues(call);
    let mut sizes: Vec<i64> = dues.iter().map(|due| due.down).collect();
    let mut broken: Vec<usize> = (0..dues.len()).filter(|&g| dues[g].rest > 0).collect();
    let rests: i64 = dues.iter().map(|due| due.rest).sum();
    for _ in 0..rests / dues[0].sum.max(1) {
        sizes[broken.swap_remove(random.below(broken.len()))] += 1;
    }
    dues.iter().zip(sizes).map(|(due, size)| due.signed(size)).collect()
}

/// Makes the quantity of one user wrong, if it has room for that.
type Fault = fn(&mut Random, Due) -> Option<i64>;

/// Any quantity in the place of none.
fn within(random: &mut Random, due: Due) -> Option<i64> {
    let sign = random.pick([1, -1]);
    (due.sign == 0).then(|| odd(random, sign))
}

/// The same, often of the hour's side.
fn at_zero(random: &mut Random, due: Due) -> Option<i64> {
    let sign = random.pick([due.sign, due.sign, -due.sign]);
    (due.sign != 0 && due.position == 0).then(|| odd(random, sign))
}

fn on_the_other_side(random: &mut Random, due: Due) -> Option<i64> {
    let sign = random.pick([due.sign, due.sign, -due.sign]);
    (due.sign * due.position < 0).then(|| odd(random, sign))
}

/// A causer's quantity turned, or another one of the wrong sign.
fn wrong_sign(random: &mut Random, due: Due) -> Option<i64> {
    let odd = odd(random, -due.sign);
    let turned = due.signed(-due.up());
    due.caused().then(|| random.pick([turned, -due.sign, odd]))
}

/// The least size above the share that is 1 kWh off or more.
fn too_many(_: &mut Random, due: Due) -> Option<i64> {
    due.caused().then(|| due.signed(due.up() + 1))
}

/// The same below it.
fn too_few(_: &mut Random, due: Due) -> Option<i64> {
    (due.down > 0).then(|| due.signed(due.down - 1))
}

/// Just 1 kWh off the share, which is whole.
fn off_by_one(random: &mut Random, due: Due) -> Option<i64> {
    let more = due.down + 1;
    let size = if due.down > 0 { random.pick([more, due.down - 1]) } else { more };
    (due.caused() && due.rest == 0).then(|| due.signed(size))
}

/// More than its position, so that it would cross zero.
fn above_position(random: &mut Random, due: Due) -> Option<i64> {
    let size = random.pick([due.size + 1, due.size + 2, due.size + due.sum, due.down + (1 << 32), i64::MAX]);
    let quantity = random.pick([due.signed(size), due.signed(size), if due.sign < 0 { i64::MIN } else { i64::MAX }]);
    due.caused().then_some(quantity)
}

/// So large that its product with the sum is, in 64 bits, less than the sum above the share's.
fn wrapped(random: &mut Random, due: Due) -> Option<i64> {
    let any = random.between(1, due.sum / 2 - 1);
    let turns = random.pick([1, any]);
    let exact = i128::from(due.down) * i128::from(due.sum) + i128::from(due.rest);
    let beyond = exact + (i128::from(turns) << 64);
    let size = (beyond + i128::from(due.sum - 1)) / i128::from(due.sum.max(1));
    let size = i64::try_from(size).ok()?;
    (due.caused() && due.sum > 3).then(|| due.signed(size))
}

/// Rounded up in the place of down, or down in the place of up: each still less than 1 kWh off.
fn rounded_otherwise(_: &mut Random, due: Due) -> Option<i64> {
    let other = if due.quantity == due.signed(due.down) { due.up() } else { due.down };
    (due.rest > 0).then(|| due.signed(other))
}

/// The same, only up; or only down.
fn rounded_up(_: &mut Random, due: Due) -> Option<i64> {
    (due.rest > 0 && due.quantity == due.signed(due.down)).then(|| due.signed(due.up()))
}

fn rounded_down(_: &mut Random, due: Due) -> Option<i64> {
    (due.rest > 0 && due.quantity == due.signed(due.up())).then(|| due.signed(due.down))
}

/// A number of this sign: small, or at the end of the 64 bits, or any.
fn odd(random: &mut Random, sign: i64) -> i64 {
    let any = random.between(1, i64::MAX);
    let size = random.pick([1, 1, 2, 100_000_000, 1 << 32, i64::MAX, any]);
    let end = if sign < 0 { i64::MIN } else { i64::MAX };
    random.pick([sign * size, sign * size, sign * size, end])
}

/// The ways to spoil the quantities of an hour. Those of cause 3 stand beside one that spoils
/// every hour's quantity list.
pub(crate) const QUANTITIES: [Way; 18] = [
    way(3, "quantities one too few", |_, call| call.quantity.truncate(call.quantity.len().saturating_sub(1))),
    way(3, "quantities one too many", |_, call| call.quantity.push(0)),
    way(22, "a quantity within the thresholds", |r, call| {
        widen(call);
        spoil_one(r, call, within);
    }),
    way(22, "quantities within the thresholds that add to zero", |r, call| {
        widen(call);
        spoil_two(r, call, within);
    }),
    way(22, "a quantity at position zero", |r, call| spoil_one(r, call, at_zero)),
    way(22, "a quantity on the other side", |r, call| spoil_one(r, call, on_the_other_side)),
    way(22, "a causer's wrong sign", |r, call| spoil_one(r, call, wrong_sign)),
    way(22, "all signs turned", |_, call| call.quantity.iter_mut().for_each(|quantity| *quantity = quantity.wrapping_neg())),
    way(23, "one too many", |r, call| spoil_one(r, call, too_many)),
    way(23, "one too few", |r, call| spoil_one(r, call, too_few)),
    way(23, "1 kWh off a whole share", |r, call| spoil_one(r, call, off_by_one)),
    way(23, "more than the position", |r, call| spoil_one(r, call, above_position)),
    way(23, "a product beyond 64 bits", |r, call| spoil_one(r, call, wrapped)),
    way(24, "one rounded up", |r, call| spoil_one(r, call, rounded_up)),
    way(24, "one rounded down", |r, call| spoil_one(r, call, rounded_down)),
    way(24, "all rounded up", |_, call| spoil_all(call, Due::up)),
    way(24, "all rounded down", |_, call| spoil_all(call, |due| due.down)),
    way(24, "all rounded to the nearest", |_, call| spoil_all(call, Due::nearest)),
];

/// The faults of one user by cause.
const FAULTS: [(u64, Fault); 8] = [
    (22, at_zero),
    (22, on_the_other_side),
    (22, wrong_sign),
    (23, too_many),
    (23, too_few),
    (23, above_position),
    (23, wrapped),
    (24, rounded_otherwise),
];

/// One user with room for the fault gets it.
fn spoil_one(random: &mut Random, call: &mut Call, fault: Fault) {
    let users = call.quantity.len();
    spoil_in(random, call, 0..users, fault);
}

/// The same of a user at one of these places; whether there is one.
fn spoil_in(random: &mut Random, call: &mut Call, places: Range<usize>, fault: Fault) -> bool {
    let dues = dues(call);
    let wrong: Vec<(usize, i64)> = places.filter_map(|g| fault(random, dues[g]).map(|quantity| (g, quantity))).collect();
    let chosen = some_place(random, wrong.len());
    wrong.get(chosen).map(|&(g, quantity)| call.quantity[g] = quantity).is_some()
}

/// One user gets the fault, and another one that quantity turned.
fn spoil_two(random: &mut Random, call: &mut Call, fault: Fault) {
    let users = call.quantity.len();
    let [first, more] = [users, users - 1].map(|count| random.below(count));
    let other = (first + 1 + more) % users;
    if other != first && spoil_in(random, call, first..first + 1, fault) {
        call.quantity[other] = call.quantity[first].saturating_neg();
    }
}

/// The thresholds get as wide as the market, if they can be, so that nobody has caused: then
/// all quantities are zero.
fn widen(call: &mut Call) {
    let market: i64 = positions(call).iter().sum();
    let terms = &mut call.amounts.terms;
    if (*limits::LOWER.start()..=*limits::UPPER.end()).contains(&market) {
        terms.upper = terms.upper.max(market);
        terms.lower = terms.lower.min(market);
        call.quantity.fill(0);
    }
}

/// Every user's size becomes this.
fn spoil_all(call: &mut Call, size: fn(&Due) -> i64) {
    call.quantity = dues(call).iter().map(|due| due.signed(size(due))).collect();
}

/// Two users get a fault each: an earlier one that of the second cause, and a later one that of
/// the first. Whether there are such.
pub fn spoil_two_users(random: &mut Random, call: &mut Call, (first, second): (u64, u64)) -> bool {
    let users = call.quantity.len();
    let later = 1 + random.below(users.saturating_sub(1));
    let [earlier_fault, later_fault] = [second, first].map(|cause| {
        let faults: Vec<Fault> = FAULTS.iter().filter(|(of, _)| *of == cause).map(|&(_, fault)| fault).collect();
        faults[random.below(faults.len())]
    });
    spoil_in(random, call, 0..later, earlier_fault) && spoil_in(random, call, later..users, later_fault)
}
