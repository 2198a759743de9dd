//! How often each number was given.

/// One more than the largest number.
const NUMBERS: usize = 24;

#[derive(Default)]
pub struct Met {
    times: [usize; NUMBERS],
}

impl Met {
    pub fn count(&mut self, number: u32) {
        self.times[number as usize] += 1;
    }

    pub fn times(&self, number: u32) -> usize {
        self.times[number as usize]
    }

    pub fn all(&self) -> usize {
        self.times.iter().sum()
    }

    /// Each of these numbers was given more than `least` times, and no other at all. Prints how often each was.
    pub fn are(&self, subject: &str, numbers: &[u32], least: usize) {
        println!("{subject}: {self}");
        for number in 0..NUMBERS as u32 {
            let times = self.times(number);
            if numbers.contains(&number) {
                assert!(times > least, "{subject}: {number} comes up {times} times");
            } else {
                assert_eq!(times, 0, "{subject}: {number} comes up");
            }
        }
    }
}

impl std::fmt::Display for Met {
    fn fmt(&self, to: &mut std::fmt::Formatter) -> std::fmt::Result {
        let given = self.times.iter().enumerate().filter(|(_, times)| **times > 0);
        let given: Vec<String> = given.map(|(number, times)| format!("{number}: {times}")).collect();
        write!(to, "{}", given.join(", "))
    }
}
