//! What a picture of an accepted table is drawn from: the table, a plan of it, the order that the
//! plan was made in, and the tree's depths and leaves by the second implementation.

use crate::reference::paths;
use crate::reference::plan::Plan;
use crate::reference::tree::{settled, Settled};
use crate::reference::{Table, ABSENT};

pub struct Planned {
    pub table: Table,
    pub plan: Plan,
    /// The jobs by place.
    pub order: Vec<usize>,
    pub tree: Settled,
    pub passes: Vec<Pass>,
    /// Of each job its place, and where its pass stands among the passes.
    places: Vec<usize>,
    pass_at: Vec<usize>,
}

/// One run of the press.
#[derive(Clone, Copy, Debug, PartialEq, Eq)]
pub struct Pass {
    /// Counted from 1, as the lines of the plan are.
    pub number: usize,
    /// The job that opens the pass: of a pair the earlier one.
    pub opener: usize,
    pub partner: Option<Partner>,
}

/// The later job of a pair, and both ends of what the two share.
#[derive(Clone, Copy, Debug, PartialEq, Eq)]
pub struct Partner {
    pub job: usize,
    /// The highest, which is the barest layout that does for both.
    pub upper: u16,
    /// The deepest, which is printed.
    pub printed: u16,
}

impl Pass {
    pub fn jobs(&self) -> impl Iterator<Item = usize> {
        let partner = self.partner.map(|partner| partner.job);
        std::iter::once(self.opener).chain(partner)
    }
}

impl Partner {
    /// The barest layout that does, where it is not the one printed.
    pub fn barest(&self) -> Option<u16> {
        (self.upper != self.printed).then_some(self.upper)
    }

    /// The layout printed, and the barest that does where that is another.
    pub fn layouts(&self) -> String {
        let printed = self.printed;
        match self.barest() {
            Some(barest) => format!("layout {printed}, barest {barest}"),
            None => format!("layout {printed}"),
        }
    }
}

/// How a job is printed.
#[derive(Clone, Copy, Debug, PartialEq, Eq)]
pub enum Role {
    /// The earlier job of a pair.
    LaneOne,
    /// The later job of a pair.
    LaneTwo,
    /// Alone, for want of a partner.
    Single,
    /// Alone, as the table asks.
    Solo,
}

impl Planned {
    pub fn new(table: Table, plan: Plan, order: Vec<usize>) -> Planned {
        let passes = passes(&plan, &order);
        let mut planned = Planned {
            tree: settled(&table.parents),
            places: vec![0; order.len()],
            pass_at: vec![0; order.len()],
            passes,
            table,
            plan,
            order,
        };
        planned.index();
        planned
    }

    fn index(&mut self) {
        for (place, &job) in self.order.iter().enumerate() {
            self.places[job] = place;
        }
        for (at, pass) in self.passes.iter().enumerate() {
            for job in pass.jobs() {
                self.pass_at[job] = at;
            }
        }
    }

    pub fn role(&self, job: usize) -> Role {
        let pass = self.pass_of(job);
        match pass.partner {
            Some(_) if pass.opener == job => Role::LaneOne,
            Some(_) => Role::LaneTwo,
            None if self.table.solo(job) => Role::Solo,
            None => Role::Single,
        }
    }

    pub fn pass_of(&self, job: usize) -> &Pass {
        &self.passes[self.pass_at[job]]
    }

    pub fn place(&self, job: usize) -> usize {
        self.places[job]
    }

    pub fn depth(&self, layout: u16) -> usize {
        usize::from(self.tree.depths[usize::from(layout)])
    }

    /// The highest layout other than 0 on a job's path; a job 0-0 has none.
    pub fn highest(&self, job: usize) -> Option<u16> {
        paths::highest(&self.table, job)
    }

    /// The depth that the running order goes by.
    pub fn depth_of_highest(&self, job: usize) -> usize {
        paths::depth_of_highest(&self.table, job)
    }

    /// The first leaf of a job's bottom.
    pub fn leaf(&self, job: usize) -> usize {
        usize::from(self.tree.firsts[usize::from(self.table.bottoms[job])])
    }

    /// Whether windows are shown: only where some job is in another than window 0.
    pub fn has_windows(&self) -> bool {
        self.table.windows.iter().any(|&window| window != 0)
    }

    /// The window of a job, where windows are shown.
    pub fn window(&self, job: usize) -> Option<u8> {
        self.has_windows().then(|| self.table.windows[job])
    }

    /// What is said beside the jobs of a pass: the layouts of a pair, and the window where windows are
    /// shown.
    pub fn words(&self, pass: &Pass) -> Option<String> {
        let window = self.window(pass.opener);
        let window = window.map(|window| format!("window {window}"));
        let layouts = pass.partner.map(|partner| partner.layouts());
        let words: Vec<String> = layouts.into_iter().chain(window).collect();
        (!words.is_empty()).then(|| words.join(", "))
    }

    /// Whether all jobs of a pass stand in front of a cut.
    pub fn is_in_front(&self, pass: &Pass, cut: usize) -> bool {
        pass.jobs().all(|job| self.place(job) < cut)
    }

    /// Whether some pair could print on a barer layout than it does.
    pub fn has_barer(&self) -> bool {
        let mut partners = self.passes.iter().filter_map(|pass| pass.partner);
        partners.any(|partner| partner.barest().is_some())
    }

    pub fn pairs_in_front(&self, cut: usize) -> usize {
        let in_front = |pass: &&Pass| pass.partner.is_some() && self.is_in_front(pass, cut);
        self.passes.iter().filter(in_front).count()
    }
}

/// The passes in the order of their openers.
fn passes(plan: &Plan, order: &[usize]) -> Vec<Pass> {
    let mut placed = vec![false; order.len()];
    let mut passes = Vec::new();
    for &job in order {
        let partner = plan.partners[job];
        let seen = partner != ABSENT && placed[usize::from(partner)];
        placed[job] = true;
        if !seen {
            passes.push(Pass {
                number: passes.len() + 1,
                opener: job,
                partner: (partner != ABSENT).then(|| Partner {
                    job: usize::from(partner),
                    upper: plan.uppers[job],
                    printed: plan.printed[job],
                }),
            });
        }
    }
    passes
}
