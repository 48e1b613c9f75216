//! The twin's searches and the proved ones, on the same programs in one run: sequences a second of
//! the plain searches, then how long whole searches take with lent tables of several sizes, then the
//! same of the listings of outcomes, then how long the worst files and certifications take.

mod outcomes;
mod plain;
mod tables;
mod worst;

fn main() {
    plain::rates();
    tables::times();
    outcomes::times();
    worst::times();
}
