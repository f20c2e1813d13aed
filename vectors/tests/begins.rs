//! Where a token begins, which the original doesn't keep, is found in two ways that have to agree: by the
//! judge of the stored lexings as the line of the token or error before it, in `expected` as the token's
//! own line less the new lines in it.

use expected::lex_scripts::{any_script, damaged};
use expected::lexing::Lexing;
use expected::mixed_dice::Dice;
use expected::records::token::{shown, BEGINS, KIND, LINE};
use expected::records::Token;
use expected::rules::Rule;
use vectors::lexing::judge::token_words;

/// A string of several lines.
fn is_several(token: &&Token) -> bool {
    token[KIND] == oracle::token::Token::String as u32 && token[LINE] > token[BEGINS]
}

#[test]
fn both_ways_agree() {
    let mut dice = Dice::new(20261119);
    let (mut tokens, mut strings, mut errors) = (0, 0, 0);
    for _ in 0..3000 {
        let script = any_script(&mut dice);
        for source in [script.clone(), damaged(&mut dice, script)] {
            let Ok(script) = std::str::from_utf8(&source) else {
                continue;
            };
            for rule in Rule::BOTH {
                let (lexing, _) = Lexing::of(rule, script);
                let begins: Vec<_> = lexing.tokens.iter().map(shown).collect();
                assert_eq!(token_words(rule, script), begins, "{script:?}");
                tokens += lexing.tokens.len();
                strings += lexing.tokens.iter().filter(is_several).count();
                errors += lexing.errors.len();
            }
        }
    }
    let found = (tokens, strings, errors);
    assert!(
        tokens > 10_000 && strings > 100 && errors > 1000,
        "{found:?}"
    );
}
