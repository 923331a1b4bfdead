// Child of the build copy: the private judge, and its answers in a public form.
use super::*;

pub struct Judge<'cx, 'grammar>(ErrorReportingCx<'cx, 'grammar>);

/// A classification: its number (docs/RULES.md, "Classes"), its own values, its examples.
pub struct Judged {
    pub class: u16,
    pub own: Own,
    pub action: Option<Example>,
    pub reduce: Option<Example>,
}

pub enum Own {
    Nothing,
    Nonterminal(NonterminalString),
    Question(NonterminalString, Symbol),
    Spans(Span, Span),
}

impl<'cx, 'grammar> Judge<'cx, 'grammar> {
    pub fn new(
        grammar: &'grammar Grammar,
        states: &'cx [Lr1State<'grammar>],
        conflicts: &'cx [Lr1Conflict<'grammar>],
    ) -> Self {
        Judge(ErrorReportingCx::new(grammar, states, conflicts))
    }

    pub fn first_sets(&self) -> &FirstSets {
        &self.0.first_sets
    }

    pub fn classify(&mut self, conflict: &Conflict<'grammar, Token>) -> Judged {
        judged(self.0.classify(conflict))
    }

    pub fn shift_items(&self, conflict: &Conflict<'grammar, Token>) -> Vec<Lr0Item<'grammar>> {
        let state = &self.0.states[conflict.state.0];
        let items = self.0.conflicting_shift_items(state, conflict);
        items.into_iter().collect()
    }

    pub fn shift_examples(&self, conflict: &Conflict<'grammar, Token>) -> Vec<Example> {
        self.0.shift_examples(conflict)
    }

    pub fn reduce_examples(
        &self,
        state: StateIndex,
        production: &'grammar Production,
        lookahead: Token,
    ) -> Vec<Example> {
        self.0.reduce_examples(state, production, lookahead)
    }

    /// The messages of all conflicts, as `report_errors` chooses them.
    pub fn messages(&mut self) -> Vec<Message> {
        let mut all = vec![];
        let taken: Result<(), ()> = self.0.report_errors(|m| {
            all.push(m);
            Ok(())
        });
        taken.unwrap();
        all
    }

    /// The message of one conflict.
    pub fn message(&mut self, conflict: &Conflict<'grammar, Token>) -> Message {
        let class = self.0.classify(conflict);
        self.0.report_error(conflict, class)
    }

    /// The body that holds the observed symbols.
    pub fn not_lr1(
        &self,
        conflict: &Conflict<'grammar, Token>,
        action: Example,
        reduce: Example,
    ) -> Message {
        self.0
            .report_error_not_lr1_core(conflict, action, reduce)
            .end()
            .end()
    }
}

fn judged(class: ConflictClassification) -> Judged {
    let (class, own, action, reduce) = match class {
        ConflictClassification::Naive => (0, Own::Nothing, None, None),
        ConflictClassification::Ambiguity { action, reduce } => {
            (1, Own::Nothing, Some(action), Some(reduce))
        }
        ConflictClassification::Precedence {
            shift,
            reduce,
            nonterminal,
        } => (2, Own::Nonterminal(nonterminal), Some(shift), Some(reduce)),
        ConflictClassification::SuggestInline {
            shift,
            reduce,
            nonterminal,
        } => (3, Own::Nonterminal(nonterminal), Some(shift), Some(reduce)),
        ConflictClassification::SuggestQuestion {
            shift,
            reduce,
            nonterminal,
            symbol,
        } => (
            4,
            Own::Question(nonterminal, symbol),
            Some(shift),
            Some(reduce),
        ),
        ConflictClassification::AmbiguousReduction {
            reduce,
            span1,
            span2,
        } => (5, Own::Spans(span1, span2), Some(reduce), None),
        ConflictClassification::InsufficientLookahead { action, reduce } => {
            (6, Own::Nothing, Some(action), Some(reduce))
        }
    };
    Judged {
        class,
        own,
        action,
        reduce,
    }
}
