//! The session of document 01, with the marks, the pages and the authors of document 02: clauses held, questions answered by the
//! fixed search, steps and the last verdict kept.

use crate::certificate;
use crate::naming::{problem_of, single, Flat, Implication, Problem, FALSE, MOST_FLATS, MOST_IMPLICATIONS};
use crate::reader::read;
use crate::refusal::Refusal;
use crate::search::{settle_after, Answer, Step, Verdict};

const MOST_MARK: u8 = 7;
const MOST_GOALS: usize = 64;
const AUTHORS: u8 = 16;

pub struct Session {
    /// The clauses held; the goal is that of the last verdict, at first that of the text.
    problem: Problem,
    steps: Vec<Step>,
    /// That with the last verdict, while it is held.
    answer: Option<Answer>,
    /// Those of each author.
    counts: [Counts; AUTHORS as usize],
    /// In the order in which they were last set.
    marks: Vec<Mark>,
}

/// How many classical questions an author put, and how many verdicts they gave.
#[derive(Clone, Copy, Debug, Default, PartialEq, Eq)]
struct Counts {
    questions: u32,
    verdicts: u32,
}

impl Counts {
    /// One verdict more, after so many questions.
    fn add_verdict(&mut self, questions: u32) {
        self.questions = self.questions.saturating_add(questions);
        self.verdicts = self.verdicts.saturating_add(1);
    }
}

/// A mark, with all that was held when it was last set.
struct Mark {
    number: u8,
    flats: Vec<Flat>,
    implications: Vec<Implication>,
    steps: Vec<Step>,
}

/// What is answered to one goal of a page.
#[derive(Clone, Debug, PartialEq, Eq)]
pub enum GoalAnswer {
    /// With so many steps then held.
    Valid(usize),
    /// By its own search, with these worlds.
    Refuted(Vec<u64>),
    /// By the model that the goal at this place found.
    RefutedBy(usize),
    Refused(Refusal),
}

impl Session {
    /// What a refused opening or text gives.
    pub fn of_one_atom() -> Session {
        Session::holding(Problem { atoms: 1, flats: Vec::new(), implications: Vec::new(), goal: FALSE })
    }

    pub fn open(atoms: u8) -> Result<Session, Refusal> {
        refuse(5, !(1..=64).contains(&atoms))?;
        let mut session = Session::of_one_atom();
        session.problem.atoms = atoms;
        Ok(session)
    }

    /// The session of a text, and its goal.
    pub fn of_text(text: &[u8]) -> Result<(Session, u8), Refusal> {
        let problem = problem_of(&read(text)?);
        let goal = problem.goal;
        Ok((Session::holding(problem), goal))
    }

    fn holding(problem: Problem) -> Session {
        let counts = [Counts::default(); AUTHORS as usize];
        Session { problem, steps: Vec::new(), answer: None, counts, marks: Vec::new() }
    }

    pub fn atoms(&self) -> u8 {
        self.problem.atoms
    }

    pub fn add_flat(&mut self, flat: Flat) -> Result<(), Refusal> {
        refuse(6, !self.problem.has_set(flat.left | flat.right))?;
        refuse(7, self.is_full_of_flats())?;
        self.problem.flats.push(flat);
        self.answer = None;
        Ok(())
    }

    pub fn add_implication(&mut self, implication: Implication) -> Result<(), Refusal> {
        refuse(6, !self.problem.has_atoms_of(&implication))?;
        let closing = implication.closing();
        refuse(7, closing.is_some() && self.is_full_of_flats())?;
        refuse(8, self.problem.implications.len() == MOST_IMPLICATIONS)?;
        self.problem.implications.push(implication);
        self.problem.flats.extend(closing);
        self.answer = None;
        Ok(())
    }

    fn is_full_of_flats(&self) -> bool {
        self.problem.flats.len() == MOST_FLATS
    }

    /// The verdict with all steps held and all questions of its author. A refused question changes nothing.
    pub fn ask(&mut self, goal: u8, author: u8) -> Result<Answer, Refusal> {
        refuse(20, author >= AUTHORS)?;
        refuse(6, !self.problem.has_atom_or_false(goal))?;
        let problem = Problem { goal, ..self.problem.clone() };
        let answer = settle_after(&problem, &self.steps)?;
        let counts = &mut self.counts[usize::from(author)];
        counts.add_verdict(answer.questions);
        let answer = Answer { questions: counts.questions, ..answer };
        self.problem = problem;
        self.steps = answer.steps.clone();
        self.answer = Some(answer.clone());
        Ok(answer)
    }

    /// The goals in order, each as if its author asked it alone, unless a model found on this page refutes it.
    pub fn page(&mut self, goals: &[u8], author: u8) -> Result<Vec<GoalAnswer>, Refusal> {
        refuse(20, author >= AUTHORS)?;
        refuse(19, goals.len() > MOST_GOALS)?;
        refuse(6, !goals.iter().all(|&goal| self.problem.has_atom_or_false(goal)))?;
        let mut answers = Vec::new();
        for &goal in goals {
            answers.push(match earliest_lacking(goal, &answers) {
                None => self.searched(goal, author),
                Some(place) => {
                    self.counts[usize::from(author)].add_verdict(0);
                    GoalAnswer::RefutedBy(place)
                }
            });
        }
        Ok(answers)
    }

    fn searched(&mut self, goal: u8, author: u8) -> GoalAnswer {
        match self.ask(goal, author) {
            Err(refusal) => GoalAnswer::Refused(refusal),
            Ok(Answer { verdict: Verdict::Valid, steps, .. }) => GoalAnswer::Valid(steps.len()),
            Ok(Answer { verdict: Verdict::Refuted(worlds), .. }) => GoalAnswer::Refuted(worlds),
        }
    }

    /// The questions of an author to one verdict, and how many are over.
    pub fn mean(&self, author: u8) -> Result<(u32, u32), Refusal> {
        refuse(20, author >= AUTHORS)?;
        let Counts { questions, verdicts } = self.counts[usize::from(author)];
        refuse(21, verdicts == 0)?;
        Ok((questions / verdicts, questions % verdicts))
    }

    pub fn set_mark(&mut self, number: u8) -> Result<(), Refusal> {
        refuse(17, number > MOST_MARK)?;
        self.marks.retain(|mark| mark.number != number);
        let Problem { flats, implications, .. } = self.problem.clone();
        self.marks.push(Mark { number, flats, implications, steps: self.steps.clone() });
        Ok(())
    }

    /// Holds again what was held when the mark was set. Those set after it are lost.
    pub fn return_to(&mut self, number: u8) -> Result<(), Refusal> {
        refuse(17, number > MOST_MARK)?;
        let place = self.marks.iter().position(|mark| mark.number == number).ok_or(Refusal::plain(18))?;
        self.marks.truncate(place + 1);
        let mark = &self.marks[place];
        self.problem.flats = mark.flats.clone();
        self.problem.implications = mark.implications.clone();
        self.steps = mark.steps.clone();
        self.answer = None;
        Ok(())
    }

    fn answer(&self) -> Result<&Answer, Refusal> {
        self.answer.as_ref().ok_or(Refusal::plain(9))
    }

    /// The length of the sheet of the verdict held, by the counts.
    pub fn length_told(&self) -> Result<usize, Refusal> {
        let claim = match &self.answer()?.verdict {
            Verdict::Valid => 9 * self.steps.len(),
            Verdict::Refuted(worlds) => 8 * worlds.len(),
        };
        Ok(39 + 16 * self.problem.flats.len() + 3 * self.problem.implications.len() + claim)
    }

    pub fn sheet(&self) -> Result<Vec<u8>, Refusal> {
        Ok(certificate::write(&self.problem, self.answer()?))
    }
}

/// The place of the first answer with a model whose root lacks the goal.
fn earliest_lacking(goal: u8, answers: &[GoalAnswer]) -> Option<usize> {
    let lacks = |answer: &GoalAnswer| matches!(answer, GoalAnswer::Refuted(worlds) if worlds[0] & single(goal) == 0);
    answers.iter().position(lacks)
}

fn refuse(number: u8, holds: bool) -> Result<(), Refusal> {
    if holds {
        return Err(Refusal::plain(number));
    }
    Ok(())
}

#[cfg(test)]
mod tests {
    use super::*;
    use crate::certificate::verdict_line;
    use crate::corpus::entries;

    const SAME: Flat = Flat { left: 1, right: 1 };
    const NOT_FALSE: Implication = Implication { a: 0, b: FALSE, c: FALSE };
    const AUTHOR: u8 = 15;

    fn refusal<T>(answered: Result<T, Refusal>) -> u8 {
        answered.err().map_or(0, |refusal| refusal.number)
    }

    fn counts(session: &mut Session) -> &mut Counts {
        &mut session.counts[usize::from(AUTHOR)]
    }

    #[test]
    fn openings() {
        let numbers = [0, 1, 64, 65, 255].map(|atoms| refusal(Session::open(atoms)));
        assert_eq!(numbers, [5, 0, 0, 5, 5]);
    }

    #[test]
    fn refusals_in_order() {
        let mut session = Session::open(1).expect("one atom");
        for _ in 0..MOST_FLATS {
            assert_eq!(refusal(session.add_flat(SAME)), 0);
        }
        assert_eq!(refusal(session.add_flat(SAME)), 7);
        assert_eq!(refusal(session.add_flat(Flat { left: 2, right: 1 })), 6);
        for _ in 0..MOST_IMPLICATIONS {
            assert_eq!(refusal(session.add_implication(NOT_FALSE)), 0);
        }
        assert_eq!(refusal(session.add_implication(NOT_FALSE)), 8);
        assert_eq!(refusal(session.add_implication(Implication { b: 0, ..NOT_FALSE })), 7);
        assert_eq!(refusal(session.add_implication(Implication { a: FALSE, b: 0, c: 0 })), 6);
        assert_eq!(refusal(session.length_told()), 9);
    }

    #[test]
    fn verdicts_held() {
        let (mut session, goal) = Session::of_text(b"p>p").expect("p>p");
        assert_eq!((goal, refusal(session.sheet())), (1, 9));
        let answer = session.ask(goal, AUTHOR).expect("a verdict");
        assert_eq!((answer.verdict, answer.questions, answer.steps.len()), (Verdict::Valid, 3, 1));
        let sheet = session.sheet().expect("a sheet");
        assert_eq!((sheet.len(), verdict_line(&sheet)), (83, "accepted valid\n".into()));
        assert_eq!(session.length_told().expect("a length"), 83);
        assert_eq!(refusal(session.ask(2, AUTHOR)), 6);
        assert_eq!(refusal(session.add_flat(Flat { left: 4, right: 0 })), 6);
        assert_eq!(session.sheet(), Ok(sheet));
        assert_eq!(refusal(session.add_flat(SAME)), 0);
        assert_eq!(refusal(session.sheet()), 9);
        let again = session.ask(goal, AUTHOR).expect("a verdict");
        assert_eq!((again.questions, again.steps.len()), (4, 1));
    }

    #[test]
    fn marks_in_the_order_of_setting() {
        let mut session = Session::open(2).expect("two atoms");
        for mark in [0, 7, 3, 0] {
            assert_eq!(refusal(session.set_mark(mark)), 0);
        }
        assert_eq!([8, 255].map(|mark| refusal(session.set_mark(mark))), [17, 17]);
        assert_eq!([8, 1].map(|mark| refusal(session.return_to(mark))), [17, 18]);
        assert_eq!(refusal(session.return_to(3)), 0);
        assert_eq!([0, 3, 7, 3].map(|mark| refusal(session.return_to(mark))), [18, 0, 0, 18]);
    }

    #[test]
    fn a_return_drops_clauses_steps_and_the_verdict() {
        let (mut session, goal) = Session::of_text(b"p>p").expect("p>p");
        session.set_mark(0).expect("a mark");
        let first = session.ask(goal, AUTHOR).expect("a verdict");
        session.set_mark(1).expect("a mark");
        assert!(session.sheet().is_ok());
        session.add_flat(SAME).expect("a clause");
        assert_eq!(refusal(session.return_to(1)), 0);
        assert_eq!((session.problem.flats.len(), session.steps.len(), refusal(session.sheet())), (2, 1, 9));
        assert_eq!(refusal(session.return_to(0)), 0);
        assert_eq!((session.steps.len(), refusal(session.return_to(1))), (0, 18));
        let again = session.ask(goal, AUTHOR).expect("a verdict");
        assert_eq!((again.questions, again.steps), (2 * first.questions, first.steps));
    }

    /// Ten atoms, and the double negations of nine.
    fn with_double_negations() -> Session {
        let mut session = Session::open(10).expect("ten atoms");
        for a in 0..9 {
            session.add_implication(Implication { a, ..NOT_FALSE }).expect("an implication");
        }
        session
    }

    /// Atom 0 or 9: where 0 holds, the other eight have 256 worlds.
    const ZERO_OR_NINE: Flat = Flat { left: 0, right: 1 << 0 | 1 << 9 };

    #[test]
    fn a_question_that_needs_too_many_worlds_changes_nothing() {
        let mut session = with_double_negations();
        assert_eq!(refusal(session.ask(FALSE, AUTHOR)), 11);
        assert_eq!((refusal(session.sheet()), refusal(session.mean(AUTHOR))), (9, 21));
        session.add_flat(ZERO_OR_NINE).expect("a clause");
        session.ask(9, AUTHOR).expect("256 worlds that have atom 0");
        let before = held(&session);
        assert_eq!(refusal(session.ask(0, AUTHOR)), 11);
        assert_eq!(held(&session), before);
    }

    /// Three atoms, of which 0 or 1 holds.
    fn with_a_choice() -> Session {
        let mut session = Session::open(3).expect("three atoms");
        session.add_flat(Flat { left: 0, right: 3 }).expect("a clause");
        session
    }

    /// All that a question or a page may change.
    fn held(session: &Session) -> ([Counts; AUTHORS as usize], Vec<Step>, Result<Vec<u8>, Refusal>) {
        (session.counts, session.steps.clone(), session.sheet())
    }

    #[test]
    fn refusals_of_a_question_in_order() {
        let mut session = with_a_choice();
        session.ask(0, AUTHOR).expect("a verdict");
        let before = held(&session);
        for (goal, author, wanted) in [(0, 16, 20), (3, 16, 20), (254, 255, 20), (3, AUTHOR, 6), (254, 0, 6)] {
            assert_eq!(refusal(session.ask(goal, author)), wanted, "{goal} by {author}");
            assert_eq!(held(&session), before, "{goal} by {author}");
        }
    }

    #[test]
    fn refusals_of_a_page_in_order() {
        let mut session = with_a_choice();
        session.ask(0, AUTHOR).expect("a verdict");
        let before = held(&session);
        let [mut last_wrong, mut first_wrong] = [[1; MOST_GOALS]; 2];
        (last_wrong[MOST_GOALS - 1], first_wrong[0]) = (3, 254);
        let refused: [(&[u8], u8); 6] =
            [(&[3], 6), (&[1, 3, 1], 6), (&last_wrong, 6), (&first_wrong, 6), (&[1; 65], 19), (&[3; 65], 19)];
        for (goals, wanted) in refused {
            assert_eq!(refusal(session.page(goals, AUTHOR)), wanted, "{goals:?}");
            assert_eq!([16, 255].map(|author| refusal(session.page(goals, author))), [20, 20], "{goals:?}");
            assert_eq!(held(&session), before, "{goals:?}");
        }
        assert_eq!([&[][..], &[1]].map(|goals| refusal(session.page(goals, 16))), [20, 20]);
        assert_eq!(session.page(&[1; MOST_GOALS], AUTHOR).expect("a page").len(), MOST_GOALS);
    }

    #[test]
    fn an_empty_page_changes_nothing() {
        let mut session = with_a_choice();
        assert_eq!((session.page(&[], AUTHOR), refusal(session.sheet())), (Ok(Vec::new()), 9));
        session.ask(0, AUTHOR).expect("a verdict");
        let before = held(&session);
        assert_eq!((session.page(&[], AUTHOR), held(&session)), (Ok(Vec::new()), before));
    }

    #[test]
    fn the_earliest_model_refutes() {
        let mut session = with_a_choice();
        let answers = session.page(&[0, 1, 2, 1, 0, FALSE], AUTHOR).expect("a page");
        let own = [2, 1].map(|root| GoalAnswer::Refuted(vec![root]));
        assert_eq!((&answers[..2], &answers[2..]), (&own[..], &[0, 1, 0, 0].map(GoalAnswer::RefutedBy)[..]));
        let mut asked = with_a_choice();
        asked.ask(0, AUTHOR).expect("a verdict");
        asked.ask(1, AUTHOR).expect("a verdict");
        (0..4).for_each(|_| counts(&mut asked).add_verdict(0));
        assert_eq!(held(&session), held(&asked));
    }

    #[test]
    fn models_of_earlier_calls_refute_nothing() {
        let mut session = with_a_choice();
        let own = Ok(vec![GoalAnswer::Refuted(vec![1])]);
        assert_eq!(session.ask(0, AUTHOR).expect("a verdict").verdict, Verdict::Refuted(vec![2]));
        assert_eq!(session.page(&[2], AUTHOR), own);
        assert_eq!(session.page(&[0], AUTHOR), Ok(vec![GoalAnswer::Refuted(vec![2])]));
        assert_eq!((session.page(&[2], AUTHOR), session.mean(AUTHOR)), (own, Ok((1, 0))));
    }

    #[test]
    fn false_lacks_at_every_root() {
        let mut session = with_a_choice();
        let by_first = vec![GoalAnswer::Refuted(vec![1]), GoalAnswer::RefutedBy(0)];
        assert_eq!(session.page(&[FALSE, FALSE], AUTHOR), Ok(by_first));
        session.add_flat(Flat { left: 0, right: 0 }).expect("a clause");
        assert_eq!(session.page(&[FALSE, FALSE], AUTHOR), Ok(vec![GoalAnswer::Valid(0); 2]));
    }

    #[test]
    fn the_last_verdict_searched_for_is_held() {
        let (mut session, goal) = Session::of_text(b"p>p").expect("p>p");
        let answers = session.page(&[0, goal, FALSE, 0], AUTHOR).expect("a page");
        let [by_first, valid] = [GoalAnswer::RefutedBy(0), GoalAnswer::Valid(1)];
        assert_eq!(answers, [GoalAnswer::Refuted(vec![2]), valid, by_first.clone(), by_first]);
        let sheet = session.sheet().expect("a sheet");
        assert_eq!((session.problem.goal, verdict_line(&sheet)), (goal, "accepted valid\n".into()));
    }

    #[test]
    fn a_goal_that_needs_too_many_worlds_changes_nothing() {
        let [mut session, mut asked] = [with_double_negations(), with_double_negations()];
        session.add_flat(ZERO_OR_NINE).expect("a clause");
        asked.add_flat(ZERO_OR_NINE).expect("a clause");
        let refused = GoalAnswer::Refused(Refusal::plain(11));
        assert_eq!((session.page(&[0], AUTHOR), refusal(session.sheet())), (Ok(vec![refused.clone()]), 9));
        let Verdict::Refuted(worlds) = asked.ask(9, AUTHOR).expect("256 worlds").verdict else { panic!("9 is valid") };
        let wanted = [refused.clone(), GoalAnswer::Refuted(worlds), refused.clone(), GoalAnswer::RefutedBy(1)];
        assert_eq!(session.page(&[0, 9, 0, FALSE], AUTHOR).expect("a page"), wanted);
        counts(&mut asked).add_verdict(0);
        assert_eq!(held(&session), held(&asked));
        assert_eq!((session.page(&[0, 0], AUTHOR), held(&session)), (Ok(vec![refused; 2]), held(&asked)));
    }

    /// Each verdict is that of the goal alone, and what is searched for is answered as if asked in order.
    #[test]
    fn pages_of_all_atoms() {
        let fresh = |text: &str| Session::of_text(text.as_bytes()).expect("a formula").0;
        let is_valid = |answer: &GoalAnswer| matches!(answer, GoalAnswer::Valid(_));
        for text in entries().map(|entry| entry.text).filter(|text| fresh(text).atoms() <= 20) {
            let [mut session, mut asked] = [fresh(text), fresh(text)];
            let goals: Vec<u8> = (0..session.atoms()).chain([FALSE]).collect();
            let answers = session.page(&goals, AUTHOR).expect("a page");
            for (&goal, answer) in goals.iter().zip(&answers) {
                assert_eq!(is_valid(answer), is_valid(&fresh(text).searched(goal, AUTHOR)), "{goal} of {text}");
                match answer {
                    GoalAnswer::RefutedBy(_) => counts(&mut asked).add_verdict(0),
                    _ => assert_eq!(*answer, asked.searched(goal, AUTHOR), "{goal} of {text}"),
                }
            }
            assert_eq!(held(&session), held(&asked), "{text}");
        }
    }

    #[test]
    fn authors_are_counted_apart() {
        let (mut session, goal) = Session::of_text(b"p>p").expect("p>p");
        assert_eq!([0, 15, 16, 255].map(|author| refusal(session.mean(author))), [21, 21, 20, 20]);
        session.set_mark(0).expect("a mark");
        assert_eq!([0, 7, 0].map(|author| session.ask(goal, author).expect("a verdict").questions), [3, 1, 4]);
        session.add_flat(SAME).expect("a clause");
        session.return_to(0).expect("a mark");
        assert_eq!([0, 1, 7].map(|author| session.mean(author).ok()), [Some((2, 0)), None, Some((1, 0))]);
        session.page(&[goal, 0, FALSE], 7).expect("a page");
        assert_eq!([0, 7].map(|author| session.mean(author)), [Ok((2, 0)), Ok((1, 1))]);
        assert_eq!(session.counts[7], Counts { questions: 5, verdicts: 4 });
    }

    #[test]
    fn counts_stay_at_their_end() {
        let (mut session, goal) = Session::of_text(b"p>p").expect("p>p");
        let most = Counts { questions: u32::MAX, verdicts: u32::MAX };
        *counts(&mut session) = Counts { questions: u32::MAX - 2, verdicts: u32::MAX - 1 };
        for _ in 0..2 {
            assert_eq!(session.ask(goal, AUTHOR).expect("a verdict").questions, u32::MAX);
            assert_eq!(*counts(&mut session), most);
        }
        session.page(&[0, 0], AUTHOR).expect("a page");
        assert_eq!((*counts(&mut session), session.mean(AUTHOR)), (most, Ok((1, 0))));
    }
}
