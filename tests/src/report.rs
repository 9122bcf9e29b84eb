//! Counts comparisons, and remembers whether one failed.

pub struct Report {
    part: String,
    passed: usize,
    failed: usize,
    all_failed: usize,
}

impl Report {
    pub fn new() -> Report {
        Report {
            part: String::new(),
            passed: 0,
            failed: 0,
            all_failed: 0,
        }
    }

    pub fn begin(&mut self, part: &str) {
        self.part = part.to_string();
        self.passed = 0;
        self.failed = 0;
    }

    /// One comparison. The first failures of a part are told at length.
    pub fn check(&mut self, ok: bool, detail: impl Fn() -> String) {
        if ok {
            self.passed += 1;
            return;
        }
        self.failed += 1;
        if self.failed <= 5 {
            println!("FAILED {}: {}", self.part, detail());
        }
    }

    pub fn end(&mut self) {
        if self.passed + self.failed == 0 {
            self.failed = 1;
            println!("FAILED {}: nothing was compared", self.part);
        }
        let (part, passed, failed) = (&self.part, self.passed, self.failed);
        println!("{part}: {passed} tests passed, {failed} failed");
        self.all_failed += self.failed;
    }

    pub fn is_clean(&self) -> bool {
        self.all_failed == 0
    }
}
