//! Tables: the answers to each compared.

use super::exposure::given;
use super::Run;
use crate::laws;
use crate::prng::Prng;
use crate::subject::{Oracle, Subject};
use crate::tables::{self, LentTable};

impl Run<'_> {
    pub fn take_table(&mut self, table: &LentTable) {
        self.tables += 1;
        let answer = Oracle.fresh(table);
        let other = self.subject.fresh(table);
        let both = |name: &str, told: &str| format!("{:?}\noracle: {:?}\n{}: {}", table, answer, name, told);
        if other != answer {
            let name = self.subject.name();
            self.differ("the subject's answer to a table", || both(&name, &format!("{:?}", other)));
        }
        if let Some(law) = laws::made_law_broken(table, &answer) {
            self.differ(law, || both("law", law));
        }
        for (wrong, exposure) in given(&mut self.wrong_tables, self.tables) {
            let other = wrong.fresh(table);
            exposure.note(other != answer, other.refusal != answer.refusal);
        }
        self.reached.tables[usize::from(answer.refusal)] += 1;
        self.take_table_handover(table, answer.refusal);
    }

    pub fn tables(&mut self, quota: usize, prng: &mut Prng) -> usize {
        let before = self.tables;
        let mut number = 0;
        while self.tables - before < quota {
            tables::batch(number, prng).iter().for_each(|table| self.take_table(table));
            number += 1;
        }
        self.tables - before
    }
}
