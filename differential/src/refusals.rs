//! Calls that must be refused, and calls at the edge of it: short tables, the greatest length, the
//! text test, and decoding.

use crate::compare::{rules, Call, Trial};
use crate::host::{DecodeCall, LexCall};
use expected::lexing::{expect, expect_decoding, Lexing, LONGEST};
use expected::mixed_dice::Dice;
use expected::records::{ERROR_WORDS, TOKEN_WORDS};

/// Lexings by each rule with each room from none to one more than is needed: for tokens with every
/// spare tail and enough room for errors, the other way round, and both short at once.
pub fn rooms(source: &[u8]) -> Trial {
    let mut dice = Dice::of(source);
    let mut trial = Trial::new(source, &mut dice);
    for rule in rules(source, &mut dice) {
        let full = Full::of(rule, source);
        let (tokens, errors) = full.counts();
        let (tokens, errors) = (tokens + 1, errors + 1);
        for tail in 0..TOKEN_WORDS {
            for room in 0..=tokens {
                let (token_words, error_words) = (TOKEN_WORDS * room + tail, ERROR_WORDS * errors);
                trial.lex(&full, token_words, error_words, &mut dice);
            }
        }
        for tail in 0..ERROR_WORDS {
            for room in 0..=errors {
                let (token_words, error_words) = (TOKEN_WORDS * tokens, ERROR_WORDS * room + tail);
                trial.lex(&full, token_words, error_words, &mut dice);
            }
        }
        for token_room in 0..=tokens {
            for error_room in 0..=errors {
                let token_words = TOKEN_WORDS * token_room + dice.below(TOKEN_WORDS);
                let error_words = ERROR_WORDS * error_room + dice.below(ERROR_WORDS);
                trial.lex(&full, token_words, error_words, &mut dice);
            }
        }
        trial.lex(&full, 0, 0, &mut dice);
    }
    trial
}

/// What a lexing by a rule comes to with room enough.
struct Full {
    rule: u32,
    lexing: Lexing,
}

impl Full {
    fn of(rule: u32, source: &[u8]) -> Full {
        let (lexing, _) = expect(rule, source);
        Full { rule, lexing }
    }

    /// How many tokens and errors there are.
    fn counts(&self) -> (usize, usize) {
        (self.lexing.tokens.len(), self.lexing.errors.len())
    }
}

impl Trial {
    /// Adds a lexing with tables of so many words.
    fn lex(&mut self, full: &Full, token_words: usize, error_words: usize, dice: &mut Dice) {
        let (token_room, error_room) = (token_words / TOKEN_WORDS, error_words / ERROR_WORDS);
        let want = full.lexing.within(token_room, error_room);
        let call = LexCall {
            rule: full.rule,
            token_words,
            error_words,
            fill: dice.word() as u32,
        };
        self.calls.push(Call::Lex(call, want));
    }

    /// Adds a decoding.
    fn decode(&mut self, start: u64, room: usize, dice: &mut Dice) {
        let want = expect_decoding(&self.source, start, room);
        let fill = dice.word() as u8;
        let call = DecodeCall { start, room, fill };
        self.calls.push(Call::Decode(call, want));
    }
}

/// Decodings at each place of a source, past its end and far past, with buffers that are empty,
/// one byte too short, exact and too long. A place and 2^32 is far past, not that place.
pub fn decodings(source: &[u8]) -> Trial {
    let mut dice = Dice::of(source);
    let mut trial = Trial::new(source, &mut dice);
    for start in 0..source.len() as u64 + 2 {
        let exact = expect_decoding(source, start, usize::MAX).bytes.len();
        let mut rooms = vec![0, exact.saturating_sub(1), exact, exact + 1, exact + 9];
        rooms.dedup();
        for room in rooms {
            trial.decode(start, room, &mut dice);
        }
        trial.decode(start + (1 << 32), exact + 1, &mut dice);
    }
    for far in [1 << 31, u64::MAX >> 1, 1 << 63, u64::MAX - 1, u64::MAX] {
        trial.decode(far, 9, &mut dice);
    }
    trial
}

/// Lexings with some room and a decoding at the start, for sources of about the greatest length.
pub fn sizes(source: &[u8]) -> Trial {
    let mut dice = Dice::of(source);
    let mut trial = Trial::whole(source);
    for rule in rules(source, &mut dice) {
        let full = Full::of(rule, source);
        trial.lex(&full, 0, 0, &mut dice);
        trial.lex(&full, 30, 10, &mut dice);
        let needed = TOKEN_WORDS * full.counts().0;
        trial.lex(&full, needed.saturating_sub(1), 10, &mut dice);
    }
    for start in [0, 1, source.len().saturating_sub(1)] {
        trial.decode(start as u64, 8, &mut dice);
    }
    trial.decode(0, 0, &mut dice);
    trial
}

/// Sources one byte below the greatest length, at it, above it and far above; text, and no text by
/// the first, a middle or the last byte; with a string at the start and without.
pub fn about_the_longest() -> impl Iterator<Item = Vec<u8>> {
    let lengths = [LONGEST - 1, LONGEST, LONGEST + 1, LONGEST + 2, 2 * LONGEST];
    let starts: [&[u8]; 2] = [b"\"a\"", b"a"];
    lengths.into_iter().flat_map(move |length| {
        starts.into_iter().flat_map(move |start| {
            let mut text = vec![b' '; length];
            text[..start.len()].copy_from_slice(start);
            let wrong_at = [0, start.len(), length / 2, length - 1];
            let wrong = wrong_at.map(|at| {
                let mut wrong = text.clone();
                wrong[at] = 0xff;
                wrong
            });
            // A letter that the end cuts, and one that just fits.
            let mut cut = text.clone();
            cut[length - 1] = 0xc3;
            let mut fits = text.clone();
            fits[length - 2..].copy_from_slice("é".as_bytes());
            wrong.into_iter().chain([text, cut, fits])
        })
    })
}

/// Byte strings at every boundary of the text test: all first bytes, each followed by up to three
/// bytes on both sides of the limits for bytes that follow.
pub fn text_edges() -> impl Iterator<Item = Vec<u8>> {
    const FOLLOW: [u8; 9] = [0x00, 0x22, 0x7f, 0x80, 0x8f, 0x90, 0x9f, 0xa0, 0xbf];
    const COUNT: usize = FOLLOW.len();
    (0..=255u8).flat_map(|first| {
        (0..4u32).flat_map(move |behind| {
            (0..COUNT.pow(behind)).map(move |number| {
                let follow = |place: u32| FOLLOW[number / COUNT.pow(place) % COUNT];
                [first].into_iter().chain((0..behind).map(follow)).collect()
            })
        })
    })
}

/// Lexings of the bytes, and where they are no text also with short tables and a decoding: such a
/// refusal comes before any other but that of a rule.
pub fn text_edge(source: &[u8]) -> Trial {
    let mut dice = Dice::of(source);
    let mut trial = Trial::whole(source);
    for rule in rules(source, &mut dice) {
        let (token_words, error_words) = (dice.below(30), dice.below(12));
        trial.lex(&Full::of(rule, source), token_words, error_words, &mut dice);
    }
    trial.decode(dice.below(6) as u64, dice.below(4), &mut dice);
    trial
}

/// The bytes between a string before and a string after them.
pub fn between_strings(bytes: Vec<u8>) -> Vec<u8> {
    [b"\"a\"".as_slice(), &bytes, b"\"b\""].concat()
}
