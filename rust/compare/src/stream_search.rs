//! The searches of a real stream.

use crate::codec;
use crate::found::Left;
use crate::stream::Now;
use crate::tally::Tally;
use cases::judge::fixes_the_same;
use cases::judge::judge;
use cases::judge::Verdict;
use cases::real;
use jaskkovir::calls::Searched;
use oracle::paper::Lent;
use oracle::paper::RowTable;
use oracle::search::Answer;
use oracle::search::Ask;
use oracle::search::Prepared;
use shared::finds;
use shared::split_mix::SplitMix64;

impl Now {
    /// The port, the Rust and the paper, all as traced.
    pub fn search(&self, body: &[u8], tally: &mut Tally) -> Result<Vec<String>, String> {
        let (query, found) = finds::event(body)?;
        let (ask, traced) = (real::ask(&query, self.precision), real::answer(&found));
        let mut differing = Vec::new();
        if !self.is_as_traced(&ask, &traced)? {
            differing.push(format!(
                "search {ask:?}: the Rust or the paper not as traced"
            ));
        }
        let searched = Searched {
            frame: &self.frame,
            tile: &self.tile,
            records: &self.records,
            projection: &self.projection,
        };
        let lent = Left::lent(&mut SplitMix64::new(body.len() as u64));
        let wanted = lent.clone().with(ask.is_compound(), &traced);
        let (answer, left) = lent.search(&searched, &codec::ask_bytes(&ask));
        tally.count(0);
        if answer != 0 || left != wanted {
            differing.push(format!(
                "search {ask:?}: {answer} {left:?}, traced {wanted:?}"
            ));
        }
        Ok(differing)
    }

    fn is_as_traced(&self, ask: &Ask, traced: &Answer) -> Result<bool, String> {
        let table = self.table.ok_or("a search before the first row")?;
        let rows: RowTable = (&table).into();
        let lent = Lent {
            record: &self.record,
            table: &rows,
            records: &self.records,
            projection: &self.projection,
        };
        let rust = Prepared::on_record(lent.record, &table, lent.records, lent.projection);
        let judged = judge(&lent, &rust, ask);
        let compound = ask.is_compound();
        let as_traced = judged
            .searched
            .is_ok_and(|searched| fixes_the_same(compound, &searched.answer, traced));
        Ok(as_traced && judged.verdict == Verdict::Same)
    }
}
