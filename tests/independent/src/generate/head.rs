//! What a file says before its step, and the speed that its road is designed for: they decide every limit of the road.

use super::days::{contract_under, random_contract};
use super::random::Random;
use reference::file::Contract;
use reference::limits::{limits_at, speed, Limits, RuleBook, SPEEDS};

#[derive(Clone, Copy)]
pub struct Head {
    pub contract: Contract,
    pub class: i128,
    pub terrain: i128,
    /// The speed whose row the road keeps: that of its class and terrain, or another.
    pub speed: i128,
}

impl Head {
    /// A road designed for the speed of its class and terrain.
    pub fn of_class(random: &mut Random) -> Head {
        let contract = random_contract(random);
        let (class, terrain) = (random.between(1, 4), random.between(1, 3));
        Head {
            contract,
            class,
            terrain,
            speed: speed(class, terrain),
        }
    }

    /// A road designed for any of the seven speeds, whatever its class and terrain say; nearly half of them stand
    /// under the old handbook.
    pub fn of_any_speed(random: &mut Random) -> Head {
        let mut head = Head::of_class(random);
        head.speed = random.pick(&SPEEDS);
        if random.chance(30) {
            head.contract = contract_under(random, RuleBook::OldHandbook);
        }
        head
    }

    /// A road of either sort.
    pub fn random(random: &mut Random) -> Head {
        if random.chance(25) {
            Head::of_class(random)
        } else {
            Head::of_any_speed(random)
        }
    }

    /// A road under each rule book equally often.
    pub fn of_either_book(random: &mut Random) -> Head {
        let book = random.pick(&[RuleBook::Today, RuleBook::OldHandbook]);
        Head {
            contract: contract_under(random, book),
            ..Head::random(random)
        }
    }

    /// A road whose row has what is asked of it.
    pub fn with(random: &mut Random, has: fn(&Limits) -> bool) -> Head {
        loop {
            let head = Head::random(random);
            if has(&head.limits()) {
                return head;
            }
        }
    }

    /// A road designed for a speed, under a contract.
    pub fn designed_for(random: &mut Random, speed: i128, contract: Contract) -> Head {
        loop {
            let head = Head::random(random);
            if head.speed == speed {
                return Head { contract, ..head };
            }
        }
    }

    pub fn limits(self) -> Limits {
        limits_at(self.speed, self.contract)
    }
}
