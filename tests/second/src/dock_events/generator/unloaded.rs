//! The dock before anything is loaded: an empty list, and no identity to give.

use super::situation::situations;
use super::Generator;
use crate::dock::{PolicyAnswer, LEAST_IDENTITY, MOST_IDENTITY};
use crate::messages::{IDENTITY, SVIDS};

impl Generator {
    pub(super) fn unloaded(&mut self) {
        self.answers_of_no_request();
        self.answers_of_every_count();
        self.rooms_of_naks();
        self.rooms_of(SVIDS, PolicyAnswer::Give, 0);
        self.limits_without_room();
        self.refused_loads();
        for situation in situations() {
            self.bring_to(situation);
            self.close();
            self.turn_page();
        }
    }

    /// Policy and confirmations while nothing has been asked.
    fn answers_of_no_request(&mut self) {
        self.answer_all();
        self.sent();
        self.failed();
    }

    /// Loads after which the dock is as unloaded as before.
    fn refused_loads(&mut self) {
        for command in [IDENTITY, SVIDS] {
            self.make_ready();
            self.load(LEAST_IDENTITY - 1, vec![1]);
            self.load(MOST_IDENTITY + 1, vec![1]);
            self.load(LEAST_IDENTITY, vec![1, 0]);
            self.ask(command);
            self.load(LEAST_IDENTITY, vec![1]);
            self.give();
            self.load(LEAST_IDENTITY, vec![1]);
            self.sent();
        }
    }
}
