//! The link: the request under way, and the answer to the last request that reached the dock.

/// At most one request is under way, the awaited one.
#[derive(Clone, Debug, Default, PartialEq, Eq)]
pub struct Link {
    request: Option<Vec<u8>>,
    answer: Option<Answer>,
}

#[derive(Clone, Debug, PartialEq, Eq)]
struct Answer {
    bytes: Vec<u8>,
    place: Place,
    heard: Option<Heard>,
    is_page_before_last: bool,
    /// Whether the laptop counted it as a page.
    is_counted: bool,
}

#[derive(Clone, Copy, Debug, PartialEq, Eq)]
enum Place {
    UnderWay,
    Arrived,
    Lost,
}

/// What the dock has heard of its answer, at most once.
#[derive(Clone, Copy, Debug, PartialEq, Eq)]
pub enum Heard {
    Sent,
    Failed,
}

impl Link {
    pub fn has_request(&self) -> bool {
        self.request.is_some()
    }

    /// The request that is under way.
    pub fn request(&self) -> Option<&[u8]> {
        self.request.as_deref()
    }

    pub fn request_sent(&mut self, bytes: &[u8]) {
        self.request = Some(bytes.to_vec());
    }

    /// The request is lost, or its wait has ended before it reached the dock.
    pub fn request_lost(&mut self) {
        self.request = None;
    }

    /// Whether a request can reach the dock: not before a confirmed answer has arrived.
    pub fn can_reach(&self) -> bool {
        self.has_request() && !self.must_arrive()
    }

    /// The request that reaches the dock. The answer before it can no longer arrive or be heard of.
    pub fn take_request(&mut self) -> Option<Vec<u8>> {
        self.answer = None;
        self.request.take()
    }

    pub fn answer_sent(&mut self, bytes: &[u8], is_page_before_last: bool) {
        self.answer = Some(Answer {
            bytes: bytes.to_vec(),
            place: Place::UnderWay,
            heard: None,
            is_page_before_last,
            is_counted: false,
        });
    }

    /// The answer that is under way.
    pub fn answer(&self) -> Option<&[u8]> {
        let answer = self.answer.as_ref();
        let under_way = answer.filter(|answer| answer.place == Place::UnderWay);
        under_way.map(|answer| &answer.bytes[..])
    }

    /// Whether the answer can be lost: not once it is confirmed.
    pub fn can_lose_answer(&self) -> bool {
        self.answer().is_some() && !self.must_arrive()
    }

    pub fn answer_lost(&mut self) {
        self.place_answer(Place::Lost);
    }

    pub fn answer_arrived(&mut self, is_counted: bool) {
        self.place_answer(Place::Arrived);
        if let Some(answer) = &mut self.answer {
            answer.is_counted = is_counted;
        }
    }

    /// Whether the dock can hear this of its answer: "sent" only if it arrives.
    pub fn can_hear(&self, heard: Heard) -> bool {
        self.answer.as_ref().is_some_and(|answer| {
            answer.heard.is_none() && (heard == Heard::Failed || answer.place != Place::Lost)
        })
    }

    pub fn hear(&mut self, heard: Heard) {
        if let Some(answer) = &mut self.answer {
            answer.heard = Some(heard);
        }
    }

    pub fn has_heard(&self, heard: Heard) -> bool {
        let answer = self.answer.as_ref();
        answer.is_some_and(|answer| answer.heard == Some(heard))
    }

    /// Whether the last answer is a page before the last, counted and not confirmed.
    pub fn is_unconfirmed_page(&self) -> bool {
        self.answer.as_ref().is_some_and(|answer| {
            answer.is_page_before_last && answer.is_counted && answer.heard != Some(Heard::Sent)
        })
    }

    fn must_arrive(&self) -> bool {
        self.answer().is_some() && self.has_heard(Heard::Sent)
    }

    fn place_answer(&mut self, place: Place) {
        if let Some(answer) = &mut self.answer {
            answer.place = place;
        }
    }
}
