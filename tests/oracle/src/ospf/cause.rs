//! What turns a run away.

listed! {
    /// One cause of number 16, which speaks of one LSA, or of number 17, which speaks
    /// of the whole run and of the buffer.
    pub enum Cause {
        CutShort: "an LSA is cut short",
        LengthNotFilled: "the links of an LSA do not fill its length",
        OtherType: "an LSA is of another type",
        ChecksumZero: "an LSA's checksum is zero",
        FletcherSums: "an LSA's Fletcher sums are not both 0 modulo 255",
        TosMetric: "a link has a TOS metric",
        RouterNamedBefore: "an earlier LSA has the same Link State ID",
        LinkOfAnotherType: "a link is neither point-to-point nor stub",
        MetricZero: "a point-to-point link has metric 0",
        ToItself: "a point-to-point link leads to the router itself",
        SeveralToOneRouter: "several point-to-point links of an LSA lead to one router",
        NoRouter: "there is no router",
        RoutersOver: "there are over 64 routers",
        LinksOver: "there are over 128 links",
        PrefixesOver: "there are over 128 prefixes",
        AttachmentsOver: "a prefix has over 8 attachments",
        BufferShort: "the buffer is shorter than the file",
    }
}

impl Cause {
    /// The number of the refusal.
    pub fn number(self) -> u8 {
        if self <= Cause::SeveralToOneRouter { 16 } else { 17 }
    }

    /// The causes of number 16, or of number 17.
    pub fn of_number(number: u8) -> Vec<Cause> {
        Cause::ALL.iter().copied().filter(|cause| cause.number() == number).collect()
    }
}
