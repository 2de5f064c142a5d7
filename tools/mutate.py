#!/usr/bin/env python3
"""mutate.py [--jobs N] [WORD..]: changes the statement in one place at a time, in copies outside the repository, and says at which row or theorem each change is refused.
A change counts as refused where a computed row fails, or where a theorem below no longer holds; an error anywhere else is SHAPE: a proof broke, but nothing was said
that the change makes false. So where no row fails the same text is tried with one part spelled otherwise, and must be proved, or the theorem broke by its shape. SHAPE and SURVIVES show a rule that no row and no theorem guards; NOT SAID is a change that says nothing, as with a name out of scope.
A change of a function that decides a relation (proofs/..) must be seen at a row: it stands for a change that relation and function share. With words, only the changes
whose file or text has one of them. N copies at a time, 2 if not said. First the rows of law are tried, then the cheap sections of those of guards, then the others;
target/mutants/seen.json keeps the section that refused a change, and this one is tried first the next time."""
import argparse, json, os, re, shutil, subprocess, sys, tempfile, time
from concurrent.futures import ThreadPoolExecutor
from queue import Queue

ROOT = os.path.dirname(os.path.dirname(os.path.abspath(__file__)))
KEEP = ("types", "kit", "law", "written")

# What the results of each list earn, and all that one could.
EARNS = (("1W+F", "win"), ("=DH", "draw"), ("0L", "loss"), ("-Z", "absent"), ("U", "pairing"))
VALUES = ("win", "draw", "loss", "absent", "pairing", "unknown")

CHANGES = [
    # sizes
    ("Sizes", "most_file = 65535", "most_file = 65534"),
    ("Sizes", "most_line = 512", "most_line = 511"),
    ("Sizes", "most_line = 512", "most_line = 513"),
    ("Sizes", "most_players = 200", "most_players = 201"),
    ("Sizes", "most_rounds = 20", "most_rounds = 19"),
    ("Sizes", "most_rounds = 20", "most_rounds = 21"),
    ("Sizes", "most_accelerations = 32", "most_accelerations = 33"),
    ("Sizes", "most_text = 2048", "most_text = 2047"),
    ("Sizes", "most_points = 999", "most_points = 998"),
    ("Sizes", "most_start = 9999", "most_start = 9998"),
    ("Sizes", "most_rank = 9999", "most_rank = 9998"),
    # lines
    ("Lines", "LF = 10", "LF = 11"),
    ("Lines", "between 32 255 c", "between 31 255 c"),
    ("Lines", "between 32 255 c", "between 9 255 c"),
    ("Lines", "between 32 255 c", "between 32 256 c"),
    ("Lines", "between 32 255 c", "between 32 254 c"),
    ("Lines", "not (eqb c 127)", "not (eqb c 126)"),
    ("Lines", "end_bytes (some crlf) = CR ∷ LF ∷ []", "end_bytes (some crlf) = CR ∷ CR ∷ []"),
    ("Lines", "end_bytes (some crlf) = CR ∷ LF ∷ []", "end_bytes (some crlf) = LF ∷ CR ∷ []"),
    ("Lines", "starts_with_lf (c ∷ l) = eqb c LF", "starts_with_lf (c ∷ l) = false"),
    ("Lines", "Follows (some cr) text after = starts_with_lf (joined after) ≡ false", "Follows (some cr) text after = Unit {0}"),
    ("Lines", "(is_empty text ≡ false) × (is_empty after ≡ true)", "(is_empty text ≡ is_empty text) × (is_empty after ≡ true)"),
    ("Lines", "is_ended none = false", "is_ended none = true"),
    # columns
    ("Columns", "col row c = get_or row (c - 1) blank", "col row c = get_or row c blank"),
    ("Columns", "width f = suc f.1 - f.0", "width f = f.1 - f.0"),
    ("Columns", "part f row = cells row (f.0 - 1) (width f)", "part f row = cells row f.0 (width f)"),
    ("Columns", "blank_from c row = all is_blank (drop (c - 1) row)", "blank_from c row = all is_blank (drop c row)"),
    ("Columns", "else_blank c [] row = blank_from c row", "else_blank c [] row = all is_blank []"),
    ("Columns", "all is_blank (cells row (c - 1) (f.0 - c)) && else_blank", "all is_blank (cells row c (f.0 - suc c)) && else_blank"),
    ("Columns", "else_blank (suc f.1) fs row", "else_blank (suc (suc f.1)) fs row"),
    ("Columns", "after_code = 4", "after_code = 5"),
    ("Columns", "code_field = (1, 3)", "code_field = (1, 4)"),
    # fields
    ("Fields", 'between (code "0") (code "9") c', 'between (code "0") (code "8") c'),
    ("Fields", "decimal_from (n * 10 + digit_value d) ds", "decimal_from (n * 10 + digit_value d + 1) ds"),
    ("Fields", "text : field ≡ replicate blanks blank ++ (first ∷ others)", "text : field ≡ replicate 0 blank ++ (first ∷ others)"),
    ("Fields", "is_tens c = is_blank c || is_digit c", "is_tens c = is_digit c"),
    ("Fields", 'code "." ∷ tenths', 'code "," ∷ tenths'),
    ("Fields", "digit_value tens * 100", "digit_value tens * 10"),
    ("Fields", 'eqb s (code "0") && is_digit c', 'eqb s (code "0") && is_blank c'),
    # text
    ("Text", 'name_code = ascii "012"', 'name_code = ascii "022"'),
    ("Text", 'repeated_code = ascii "112"', 'repeated_code = ascii "122"'),
    ("Text", '∷ ascii "212" ∷', '∷ ascii "213" ∷'),
    ("Text", "not (blank_from (suc after_code) row)", "not (blank_from 6 row)"),
    ("Text", "pub ends : is_blank (last_or 0 kept) ≡ false", "pub ends : is_blank (last_or 0 []) ≡ false"),
    ("Text", "pub gap : is_blank (col row after_code) ≡ true", "pub gap : is_blank (col row 6) ≡ true"),
    ("Text", "ended line = line ++ (CR ∷ [])", "ended line = line ++ (CR ∷ CR ∷ [])"),
    ("Text", "is_repeated before line = not (same (part code_field line) repeated_code) &&", "is_repeated before line = same (part code_field line) repeated_code &&"),
    # 142, 152
    ("Heads", "rounds_field = (5, 7)", "rounds_field = (5, 8)"),
    ("Heads", "rounds_field = (5, 7)", "rounds_field = (5, 6)"),
    ("Heads", "colour_column = 5", "colour_column = 6"),
    ("Heads", 'initial_colours = ascii "WB"', 'initial_colours = ascii "wb"'),
    ("Heads", 'rounds_code = ascii "142"', 'rounds_code = ascii "172"'),
    # 162
    ("Scoring", '(code "P", s.pairing) ∷ (code "X", s.unknown)', '(code "X", s.pairing) ∷ (code "P", s.unknown)'),
    ("Scoring", "win = 10; draw = 5", "win = 10; draw = 6"),
    ("Scoring", "pairing = 10; unknown = 5", "pairing = 10; unknown = 6"),
    ("Scoring", "loss = 0; absent = 0", "loss = 0; absent = 5"),
    ("Scoring", 'pairing = given_or (own_win given) (code "P") given', 'pairing = given_or (own_win given) (code "X") given'),
    # a P or X that is not given: its own default, by the other's letter, 0 where W or D is not given; one that is given is passed over, always, as 0.0 or as its default
    # alone; W, D, L and A by another letter
    ("Scoring", "pairing = given_or (own_win given)", "pairing = given_or defaults.pairing"),
    ("Scoring", "pairing = given_or (own_win given)", "pairing = given_or (own_draw given)"),
    ("Scoring", "pairing = given_or (own_win given)", "pairing = given_or (given_or 0 (code \"W\") given)"),
    ("Scoring", 'pairing = given_or (own_win given) (code "P") given', "pairing = own_win given"),
    ("Scoring", 'pairing = given_or (own_win given) (code "P") given', 'pairing = cond (eqb (given_or (own_win given) (code "P") given) defaults.pairing) (own_win given) (given_or (own_win given) (code "P") given)'),
    ("Scoring", "unknown = given_or (own_draw given)", "unknown = given_or defaults.unknown"),
    ("Scoring", "unknown = given_or (own_draw given)", "unknown = given_or (own_win given)"),
    ("Scoring", "unknown = given_or (own_draw given)", "unknown = given_or (given_or 0 (code \"D\") given)"),
    ("Scoring", 'unknown = given_or (own_draw given) (code "X") given', "unknown = own_draw given"),
    ("Scoring", 'unknown = given_or (own_draw given) (code "X") given', 'unknown = cond (eqb (given_or (own_draw given) (code "X") given) defaults.unknown) (own_draw given) (given_or (own_draw given) (code "X") given)'),
    ("Scoring", "win = own_win given", 'win = given_or (given_or defaults.win (code "P") given) (code "W") given'),
    ("Scoring", "draw = own_draw given", 'draw = given_or (given_or defaults.draw (code "X") given) (code "D") given'),
    ("Scoring", "loss = given_or defaults.loss", "loss = given_or (given_or defaults.loss (code \"A\") given)"),
    ("Scoring", "absent = given_or defaults.absent", "absent = given_or (given_or defaults.absent (code \"L\") given)"),
    ("Scoring", "cond (eqb letter v.0) v.1", "cond (eqb letter v.0 && not (eqb v.1 0)) v.1"),
    # W and D raised or lowered to P and X; P and X only to one side of W and D, or as another letter or the slot would have it; what U earns by another value
    ("Scoring", 'win = own_win given', 'win = given_or (cond (lib.Dec.leb defaults.win (given_or 0 (code "P") given)) (given_or 0 (code "P") given) defaults.win) (code "W") given'),
    ("Scoring", 'draw = own_draw given', 'draw = given_or (cond (lib.Dec.leb defaults.draw (given_or 999 (code "X") given)) defaults.draw (given_or 999 (code "X") given)) (code "D") given'),
    ("Scoring", 'pairing = given_or (own_win given) (code "P") given', 'pairing = cond (among (code "W") (letters_of given)) (given_or (own_win given) (code "P") given) (cond (lib.Dec.leb (given_or (own_win given) (code "P") given) (own_win given)) (given_or (own_win given) (code "P") given) (own_win given))'),
    ("Scoring", 'unknown = given_or (own_draw given) (code "X") given', 'unknown = cond (among (code "D") (letters_of given)) (given_or (own_draw given) (code "X") given) (cond (lib.Dec.leb (own_draw given) (given_or (own_draw given) (code "X") given)) (given_or (own_draw given) (code "X") given) (own_draw given))'),
    ("Scoring", 'pairing = given_or (own_win given)', 'pairing = given_or (cond (among (code "X") (letters_of given)) defaults.pairing (own_win given))'),
    ("Scoring", 'unknown = given_or (own_draw given)', 'unknown = given_or (cond (among (code "P") (letters_of given)) defaults.unknown (own_draw given))'),
    ("Scoring", 'pairing = given_or (own_win given)', 'pairing = given_or (own_win (Rattle.std.specs.Prelude.take 4 given))'),
    ("Scoring", 'unknown = given_or (own_draw given)', 'unknown = given_or (own_draw (Rattle.std.specs.Prelude.take 4 given))'),
    ("Scoring", 'pairing = given_or (own_win given) (code "P") given', 'pairing = cond (lib.Dec.leb (given_or (own_win given) (code "P") given) (own_win given)) (given_or (own_win given) (code "P") given) (own_win given)'),
    ("Entries", '(ascii "U")) s.pairing', '(ascii "U")) (cond (eqb s.pairing 10) s.win s.pairing)'),
    ("Entries", '(ascii "U")) s.pairing', '(ascii "U")) (cond (lib.Dec.leb s.win s.pairing) s.win s.pairing)'),
    ("Scoring", "(6, 10) ∷ (15, 19)", "(6, 10) ∷ (16, 20)"),
    ("Scoring", "∷ (51, 55) ∷ []", "∷ []"),
    ("Scoring", "FilledFirst slots [] = all (all is_blank) slots ≡ true", "FilledFirst slots [] = all (all is_blank) [] ≡ true"),
    ("Scoring", "not (among letter before)", "not (among letter [])"),
    ("Scoring", "not (is_empty given) && letters_differ given ≡ true", "letters_differ given && letters_differ given ≡ true"),
    # 250
    ("Accelerations", "between 1 most_points a.points", "between 0 most_points a.points"),
    ("Accelerations", "between 1 most_rounds a.first_round", "between 0 most_rounds a.first_round"),
    ("Accelerations", "between 1 most_rounds a.last_round", "between 1 99 a.last_round"),
    ("Accelerations", "leb a.first_round a.last_round", "leb a.first_round a.first_round"),
    ("Accelerations", "leb a.first_start a.last_start ∷ []", "leb a.first_start a.first_start ∷ []"),
    ("Accelerations", "first_round_field = (15, 17)", "first_round_field = (14, 17)"),
    ("Accelerations", "last_start_field = (28, 31)", "last_start_field = (28, 32)"),
    ("Accelerations", "leb first last' && leb first' last", "leb first last'"),
    ("Accelerations", "overlap a.first_round a.last_round b.first_round b.last_round && overlap", "overlap"),
    ("Accelerations", " && overlap a.first_start a.last_start b.first_start b.last_start", ""),
    ("Accelerations", "between a.first_start a.last_start start", "between a.first_start a.last_start round"),
    # 001
    ("Players", "kept_field = (sex_field.0, birth_field.1)", "kept_field = (sex_field.0, 80)"),
    ("Players", "sex_field = column 10", "sex_field = column 11"),
    ("Players", "title_field = (11, 13)", "title_field = (12, 14)"),
    ("Players", "name_field = (15, 47)", "name_field = (14, 47)"),
    ("Players", "name_field = (15, 47)", "name_field = (15, 48)"),
    ("Players", "rating_field = (49, 52)", "rating_field = (49, 53)"),
    ("Players", "federation_field = (54, 56)", "federation_field = (54, 57)"),
    ("Players", "fide_field = (58, 68)", "fide_field = (58, 69)"),
    ("Players", 'sexes = ascii "m" ∷', 'sexes = ascii "M" ∷'),
    ("Players", 'ascii "WCM" ∷', 'ascii "KM " ∷'),
    ("Players", 'has_shape (ascii "0000/00/00") field', 'has_shape (ascii "0000-00-00") field'),
    ("Players", "id_column r = 92 + 10 * (r - 1)", "id_column r = 93 + 10 * (r - 1)"),
    ("Players", "id_field r = (id_column r, id_column r + 3)", "id_field r = (id_column r, id_column r + 4)"),
    ("Players", "entry_colour_column r = id_column r + 5", "entry_colour_column r = id_column r + 6"),
    ("Players", 'game_colours = ascii "wb"', 'game_colours = ascii "WB"'),
    ("Players", 'game_results = ascii "1=0WDL+-"', 'game_results = ascii "1=0WDL+-?"'),
    ("Players", 'bye_results = ascii "HFUZ"', 'bye_results = ascii "HFZ"'),
    ("Players", 'between (code "a") (code "z") c', 'between (code "a") (code "a") c'),
    ("Players", "not (all (λ f. all is_blank (part f row)) (round_fields r))", "not (all (λ f. all is_blank (part f row)) (id_field r ∷ []))"),
    ("Players", "start_field = (5, 8)", "start_field = (5, 7)"),
    ("Players", "points_field = (81, 84)", "points_field = (80, 83)"),
    ("Players", "rank_field = (86, 89)", "rank_field = (86, 90)"),
    ("Sizes", "is_start n = between 1 most_start n", "is_start n = between 0 most_start n"),
    ("Sizes", "is_rank n = between 1 most_rank n", "is_rank n = between 0 most_rank n"),
    # items
    ("Items", 'same (part code_field row) (ascii "###")', 'same (part code_field row) (ascii "## ")'),
    ("Items", "is_passed row = all is_blank row ||", "is_passed row = all is_blank (part code_field row) ||"),
    # tournament
    ("Tournament", 'blank_as (code "Z") s.result', 'blank_as (code "H") s.result'),
    ("Tournament", "rounds_of items = only_or (used_rounds (flat player_in items)) (flat rounds_in items)", "rounds_of items = only_or (used_rounds []) (flat rounds_in items)"),
    ("Tournament", "entries = map normal (take R p.slots)", "entries = map normal (take (R - 1) p.slots)"),
    ("Tournament", "colour = only_or 0 (flat colour_in items)", "colour = 0"),
    ("Tournament", "scoring = scoring_of (only_or [] (flat scoring_in items))", "scoring = scoring_of []"),
    # entries
    ("Entries", 'eqb e.colour (code "-") && among e.result bye_results', "among e.result bye_results"),
    ("Entries", "is_another t p id = not (eqb id p.start) &&", "is_another t p id = not (eqb id 0) &&"),
    ("Entries", "eqb theirs.id p.start && not (eqb theirs.colour e.colour)", "eqb theirs.id p.start"),
    ("Entries", "eqb theirs.id p.start && not (eqb theirs.colour e.colour)", "not (eqb theirs.colour e.colour)"),
    ("Entries", " || is_one_of (b ∷ a ∷ []) fitting_pairs", ""),
    ("Entries", "any (has_u r) (take place t.players)", "any (has_u r) t.players"),
    ("Entries", '(ascii "0L")) s.loss', '(ascii "0L")) s.absent'),
    ("Entries", '(ascii "U")) s.pairing', '(ascii "U")) s.win'),
    # spelling
    ("Spelling", "is_ended l.end && leb", "leb"),
    ("Spelling", "ltb (rounds_of items) r && (slot_at", "ltb r (rounds_of items) && (slot_at"),
    ("Spelling", "pub tournament : t ≡ tournament_of items", "pub tournament : tournament_of items ≡ tournament_of items"),
    ("Spelling", "pub sound : all is_sound lines ≡ true", "pub sound : all is_sound [] ≡ true"),
    ("Spelling", "at_most_one (flat colour_in items) && at_most_one (flat scoring_in items)", "at_most_one (flat scoring_in items)"),
    # tables
    ("Tables", "place_in i = i / most_rounds", "place_in i = i % most_players"),
    ("Tables", "round_in i = i % most_rounds + 1", "round_in i = i % most_rounds"),
    ("Tables", "ranks = cells_of (map (λ p. p.rank) t.players)", "ranks = cells_of (map (λ p. p.points) t.players)"),
    ("Tables", "opponents = entry_cells_of (λ e. e.id) t", "opponents = entry_cells_of (λ e. e.result) t"),
    ("Tables", "(get_or of_accelerations (i - most_players) 0)", "(get_or of_accelerations i 0)"),
    ("Tables", "(get_or of_players i 0) (get_or of_accelerations (i - most_players) 0)", "(get_or of_accelerations i 0) (get_or of_players (i - most_players) 0)"),
    ("Tables", "kept = λ i. 0;", "kept = λ i. 32;"),
    ("Tables", "rounds = t.rounds;", "rounds = 0;"),
    ("Tables", "text = length (flat ended t.text);", "text = length t.text;"),
    ("Tables", "number = 0;", "number = 1;"),
    ("Tables", "pub lines : Holds 0 line_cells", "pub lines : Holds 0 most_players"),
    ("Tables", "pub kept : Holds 0 kept_cells", "pub kept : Holds 0 entry_cells"),
    ("Tables", "are_long ((line_cells, length t.lines) ∷ rooms t.tables)", "are_long (rooms t.tables)"),
    ("Tables", "(most_accelerations, length t.accelerations) ∷ []", "[]"),
    # refusals
    ("Refusals", "line_fault_number again = 8", "line_fault_number again = 9"),
    ("Refusals", "again ∷ too_many ∷ []", "too_many ∷ again ∷ []"),
    ("Refusals", "bad_byte ∷ no_cr ∷ too_long", "no_cr ∷ bad_byte ∷ too_long"),
    ("Refusals", "no_cr ∷ too_long ∷ not_listed", "no_cr ∷ not_listed ∷ too_long"),
    ("Refusals", "too_long ∷ not_listed ∷ bad_field ∷", "too_long ∷ bad_field ∷ not_listed ∷"),
    ("Refusals", "(line_fault_number f) (length before + 1) 0", "(line_fault_number f) (length before) 0"),
    ("Refusals", "code) (n + 1) ++ lines_of", "code) n ++ lines_of"),
    ("Refusals", "file_fault_number (unlawful mutual_pairing) = 13", "file_fault_number (unlawful mutual_pairing) = 14"),
    ("Refusals", "file_faults = incomplete ∷ past_142 ∷", "file_faults = past_142 ∷ incomplete ∷"),
    ("Refusals", "past_142 ∷ shared ∷ unlawful bye-or-game ∷", "shared ∷ past_142 ∷ unlawful bye-or-game ∷"),
    ("Refusals", "past_142 ∷ shared ∷ unlawful bye-or-game ∷", "shared ∷ unlawful bye-or-game ∷ past_142 ∷"),
    ("Refusals", "shared ∷ unlawful bye-or-game ∷ unlawful mutual", "unlawful bye-or-game ∷ shared ∷ unlawful mutual"),
    ("Refusals", "unlawful bye-or-game ∷ unlawful mutual_pairing ∷ unlawful fit", "unlawful mutual_pairing ∷ unlawful bye-or-game ∷ unlawful fit"),
    ("Refusals", "unlawful mutual_pairing ∷ unlawful fitting_results ∷", "unlawful fitting_results ∷ unlawful mutual_pairing ∷"),
    ("Refusals", "unlawful fitting_results ∷ unlawful one_U ∷", "unlawful one_U ∷ unlawful fitting_results ∷"),
    ("Refusals", "unlawful one_U ∷ wrong_sum_lem ∷", "wrong_sum_lem ∷ unlawful one_U ∷"),
    ("Refusals", "unlawful one_U ∷ wrong_sum_lem ∷ []", "unlawful one_U ∷ []"),
    ("Refusals", "refusal_of (of_file f s r) = refusal (file_fault_number f) s.line r", "refusal_of (of_file f s r) = refusal (file_fault_number f) s.place r"),
    ("Refusals", "refusal_of (of_file f s r) = refusal (file_fault_number f) s.line r", "refusal_of (of_file f s r) = refusal (file_fault_number f) s.line 0"),
    ("Refusals", "is_complete t = any is_name t.text && not (is_empty t.players)", "is_complete t = any is_name t.text"),
    ("Refusals", "is_again before (colour c) = not (is_empty (flat colour_in before))", "is_again before (colour c) = false"),
    ("Refusals", "labels_of players accelerations shared = each_seat shared accelerations", "labels_of players accelerations shared = each_seat shared players"),
    ("Refusals", "leb r (tournament_of items).rounds && not (keeps", "not (keeps"),
    ("Refusals", "IsLineFault too_long before l = most_line < length (row_of l.text)", "IsLineFault too_long before l = 511 < length (row_of l.text)"),
    ("Refusals", "pub no_fault : NoneOf (IsFault long file lines) (labels lines)", "pub no_fault : NoneOf (IsFault long file lines) []"),
    ("Refusals", "seats_from (place + 1) ns", "seats_from place ns"),
    ("Refusals", "incomplete = of_file incomplete nowhere 0", "incomplete = of_file incomplete nowhere 1"),
    # writing
    ("Writing", "(added_field, points_text (code \"0\") a.points)", "(added_field, points_text blank a.points)"),
    ("Writing", "number nothing rounds_field n", "number blanks rounds_field n"),
    ("Writing", "cond (eqb id 0) (noughts w) (filled blanks w id)", "filled blanks w id"),
    ("Writing", "number noughts first_round_field", "number blanks first_round_field"),
    ("Writing", "number blanks rank_field", "number noughts rank_field"),
    ("Writing", "colour_lines c = cond (eqb c 0) [] (colour_line c ∷ [])", "colour_lines c = []"),
    ("Writing", "digit p ∷ []", "digit (p / 10) ∷ []"),
    ("Writing", "entries_from (r + 1) es", "entries_from r es"),
    ("Writing", "(map acceleration_line t.accelerations ++ map player_line t.players)", "(map player_line t.players ++ map acceleration_line t.accelerations)"),
    ("Writing", "take (round - 1) (player_at t place).entries", "take round (player_at t place).entries"),
    ("Writing", "covers (player_at t place).start round", "covers place round"),
    # calls
    ("Calls", "Cleared true before after = HoldLent zeros (λ i. 0) before after", "Cleared true before after = after ≡ before"),
    ("Calls", "Cleared false before after = after ≡ before", "Cleared false before after = HoldLent zeros (λ i. 0) before after"),
    ("Calls", "round = x.round;\n      players = 0;", "round = x.round;\n      players = 1;"),
    ("Calls", "line = record { 0 = x.line };\n      round = x.round;\n      players", "line = record { 0 = x.round };\n      round = x.line;\n      players"),
    ("Calls", "pub judged : Judged (enough_lent before) file outcome", "pub judged : Judged true file outcome"),
    # ---- two players, results, titles, dates: what only a row can see
    ("Entries", "not (eqb theirs.colour e.colour)", "(not (eqb theirs.colour e.colour) || eqb e.colour (code \"b\"))"),
    ("Entries", "not (eqb theirs.colour e.colour)", "(not (eqb theirs.colour e.colour) || eqb e.colour (code \"w\"))"),
    ("Entries", 'eqb (entry_of r p).result (code "U")', 'eqb (entry_of r p).result (code "U") && not (eqb r 3)'),
    ("Entries", 'eqb (entry_of r p).result (code "U")', 'eqb (entry_of r p).result (code "U") && not (eqb r 20)'),
    ("Entries", 'eqb (entry_of r p).result (code "U")', 'eqb (entry_of r p).result (code "F")'),
    ("Players", "is_birth field = all is_blank field ||", "is_birth field = else_blank 1 ((10, 10) ∷ []) field ||"),
    ("Players", "is_birth field = all is_blank field ||", "is_birth field = else_blank 1 ((1, 1) ∷ []) field ||"),
    ("Players", 'ascii "WCM" ∷', 'ascii "WCM" ∷ ascii "NM " ∷'),
    ("Players", 'ascii "WCM" ∷', 'ascii "WCM" ∷ ascii "XXX" ∷'),
    ("Players", 'titles = ascii "GM " ∷', 'titles = ascii " GM" ∷'),
    ("Players", 'sexes = ascii "m" ∷', 'sexes = ascii "f" ∷ ascii "m" ∷'),
    ("Writing", "points_or0 (some a) = a.points", "points_or0 (some a) = a.points % 100"),
    ("Writing", "points_or0 none = 0", "points_or0 none = 1"),
    # results that fit
    *[("Entries", 'ascii "10" ∷', 'ascii "10" ∷ ascii "%s" ∷' % p) for p in ("+0", "11", "1=", "1W", "1L", "1D", "1+", "1-", "0L", "0-", "0W", "0D", "=D", "=-", "=L", "=W", "=+", "WW", "W-", "LL", "DL", "L-", "D-", "++", "+L", "+W", "+D", "WD", "0Z", "=H")],
    *[("Entries", 'ascii "%s" ∷' % p, "") for p in ("10", "==", "WL", "DD", "+-", "--", "00", "=0")],
    *[("Entries", 'ascii "%s" ∷' % p, 'ascii "%s" ∷' % q) for p, q in (("00", "LL"), ("00", "0L"), ("00", "0-"), ("00", "0="), ("00", "--"), ("=0", "=L"), ("=0", "=-"), ("=0", "=1"), ("=0", "DL"), ("=0", "D0"), ("=0", "+0"), ("=0", "=W"))],
    *[("Entries", "is_one_of (b ∷ a ∷ []) fitting_pairs", "is_one_of (b ∷ a ∷ []) (take %d fitting_pairs)" % n) for n in (7, 6, 4, 2)],
    # what a result earns
    *[("Entries", 'ascii "%s"' % s, 'ascii "%s"' % s.replace(c, "")) for s, _ in EARNS for c in s],
    *[("Entries", '(ascii "%s")) s.%s' % (s, v), '(ascii "%s")) (cond (eqb result (code "%s")) s.%s s.%s)' % (s, c, w, v)) for s, v in EARNS for c in s for w in VALUES if w != v],
    ("Entries", "sum_of (λ e. worth s e.result) entries", "sum_of (λ e. worth s e.result) (take 1 entries)"),
    ("Entries", "is_bye e = eqb e.id 0 &&", "is_bye e = eqb e.result e.result &&"),
    ("Entries", "among e.colour game_colours && among e.result held_game_results", "among e.result held_game_results"),
    ("Entries", "among e.colour game_colours && among e.result held_game_results", "among e.colour game_colours"),
    # unknown results: held as something else, or a blank or no `?` held; a colour made up, one colour only, any colour, an entry without opponent; one more pair that fits, none, or another;
    # what it earns; what is written for it and for others; `?` on a line
    *[("Players", 'unknown_result = code "?"', 'unknown_result = code "%s"' % c) for c in " Z=0-!"],
    ("Players", "held_game_results = unknown_result ∷ game_results", "held_game_results = game_results"),
    ("Players", "held_game_results = unknown_result ∷ game_results", 'held_game_results = code " " ∷ unknown_result ∷ game_results'),
    ("Players", '(bye_results ++ ascii " ")', '(bye_results ++ ascii " ?")'),
    *[("Tournament", "blank_as unknown_result s.result", other) for other in ('blank_as (code "Z") s.result', 'blank_as (code "=") s.result', 'blank_as (code "-") s.result', "s.result", 'blank_as unknown_result (cond (eqb s.result (code "=")) blank s.result)')],
    *[("Tournament", "colour = s.colour; result = blank_as unknown_result", 'colour = blank_as (code "%s") s.colour; result = blank_as unknown_result' % c) for c in "wb"],
    ("Tournament", "(record { id = s.id; colour = s.colour; result = blank_as", "(record { id = cond (is_blank s.result) 0 s.id; colour = s.colour; result = blank_as"),
    *[("Entries", "among e.colour game_colours && among e.result held_game_results", '%s && among e.result held_game_results' % test) for test in (
        '(among e.colour game_colours || eqb e.result unknown_result)', '(among e.colour game_colours && (not (eqb e.result unknown_result) || eqb e.colour (code "w")))')],
    ("Entries", "is_game t p e = is_another t p e.id &&", "is_game t p e = (is_another t p e.id || eqb e.result unknown_result) &&"),
    # how many there may be: one of a player, one game of a round, none before a later game, none beside a U
    *[("Entries", "    asked (λ q. fits (entry_of r (player_at t place)).result (entry_of r q).result) (opponent t (entry_of r (player_at t place)))\n",
       "    asked (λ q. fits (entry_of r (player_at t place)).result (entry_of r q).result) (opponent t (entry_of r (player_at t place))) && (not (eqb (entry_of r (player_at t place)).result unknown_result) || %s)\n" % few) for few in (
        "not (any (λ (x : Entry). eqb x.result unknown_result) (take (r - 1) (player_at t place).entries))",
        "lib.Dec.leb (sum_of (λ (q : Player). cond (eqb (entry_of r q).result unknown_result) 1 0) t.players) 2",
        "not (any (λ (x : Entry). not (eqb x.id 0)) (Rattle.std.specs.Prelude.drop r (player_at t place).entries))",
        "not (any (has_u r) t.players)")],
    ("Entries", " ∷ (unknown_result ∷ unknown_result ∷ []) ∷ []", " ∷ []"),
    *[("Entries", "(unknown_result ∷ unknown_result ∷ []) ∷", '(unknown_result ∷ unknown_result ∷ []) ∷ (unknown_result ∷ code "%s" ∷ []) ∷' % c) for c in "1=0WDL+-HFUZ"],
    *[("Entries", "(unknown_result ∷ unknown_result ∷ []) ∷", '(unknown_result ∷ code "%s" ∷ []) ∷' % c) for c in "1=0WDL+-"],
    *[("Entries", "(eqb result unknown_result) s.unknown", "(eqb result unknown_result) s.%s" % v) for v in VALUES if v != "unknown"],
    ("Entries", "(eqb result unknown_result) s.unknown", "(eqb result unknown_result) 0"),
    *[("Writing", "cond (eqb result unknown_result) blank result", other) for other in (
        "result", 'cond (eqb result unknown_result) (code "Z") result', 'cond (eqb result unknown_result) (code "=") result', 'cond (eqb result unknown_result) blank (cond (eqb result (code "=")) blank result)',
        'cond (eqb result unknown_result) blank (cond (eqb result (code "Z")) blank result)')],
    ("Entries", "entry_of r p = get_or p.entries (r - 1) no_entry", "entry_of r p = get_or p.entries r no_entry"),
    ("Entries", "states_sum t place = eqb (player_at t place).points", "states_sum t place = eqb (player_at t 0.points)"),
    # letters, columns and defaults
    ("Heads", 'initial_colours = ascii "WB"', 'initial_colours = ascii "WBX"'),
    ("Heads", 'initial_colours = ascii "WB"', 'initial_colours = ascii "W"'),
    ("Heads", 'colour_code = ascii "152"', 'colour_code = ascii "153"'),
    ("Scoring", "loss = 0; absent = 0", "loss = 5; absent = 0"),
    ("Scoring", "win = 10; draw = 5", "win = 11; draw = 5"),
    ("Scoring", "pairing = 10; unknown = 5", "pairing = 11; unknown = 5"),
    ("Scoring", "(15, 19) ∷ (24, 28)", "(15, 19) ∷ (25, 29)"),
    ("Scoring", "(33, 37) ∷ (42, 46)", "(34, 38) ∷ (42, 46)"),
    ("Scoring", "(33, 37) ∷ (42, 46)", "(33, 37) ∷ (43, 47)"),
    ("Scoring", '(code "W", s.win) ∷ (code "D", s.draw)', '(code "D", s.draw) ∷ (code "W", s.win)'),
    ("Scoring", '(code "L", s.loss) ∷ (code "A", s.absent)', '(code "A", s.absent) ∷ (code "L", s.loss)'),
    *[("Scoring", '(code "%s") given' % c, '(code "Y") given') for c in "WDLAPX"],
    ("Accelerations", "added_field = (10, 13)", "added_field = (9, 13)"),
    ("Accelerations", "last_round_field = (19, 21)", "last_round_field = (19, 22)"),
    ("Accelerations", "first_start_field = (23, 26)", "first_start_field = (22, 26)"),
    ("Accelerations", "leb first last' && leb first' last", "leb first' last"),
    ("Accelerations", "leb first last' && leb first' last", "not (leb last' first) && leb first' last"),
    ("Accelerations", "leb first last' && leb first' last", "leb first last' && not (leb last first')"),
    ("Accelerations", "overlap a.first_start a.last_start b.first_start b.last_start", "overlap a.first_start a.first_start b.first_start b.last_start"),
    ("Accelerations", "between a.first_round a.last_round round", "between 1 a.last_round round"),
    ("Accelerations", "between a.first_round a.last_round round", "between a.first_round 20 round"),
    ("Accelerations", "between a.first_start a.last_start start", "between 1 a.last_start start"),
    ("Accelerations", "between a.first_start a.last_start start", "between a.first_start 9999 start"),
    ("Players", "birth_field = (70, 79)", "birth_field = (70, 78)"),
    ("Players", "result_column r = id_column r + 7", "result_column r = id_column r + 8"),
    ("Players", "id_column r = 92 + 10 * (r - 1)", "id_column r = 92 + 11 * (r - 1)"),
    ("Players", 'slot_colours = game_colours ++ ascii "- "', 'slot_colours = game_colours ++ ascii "-"'),
    ("Players", 'slot_colours = game_colours ++ ascii "- "', 'slot_colours = game_colours ++ ascii "- x"'),
    ("Players", '(bye_results ++ ascii " ")', '(bye_results ++ ascii "")'),
    ("Players", '(bye_results ++ ascii " ")', '(bye_results ++ ascii " A")'),
    ("Players", 'game_results = ascii "1=0WDL+-"', 'game_results = ascii "1=0WDL+"'),
    ("Players", 'game_colours = ascii "wb"', 'game_colours = ascii "w"'),
    ("Players", 'bye_results = ascii "HFUZ"', 'bye_results = ascii "HFUZ1"'),
    # sizes, the other way
    ("Sizes", "most_file = 65535", "most_file = 65536"),
    ("Sizes", "most_players = 200", "most_players = 199"),
    ("Sizes", "most_accelerations = 32", "most_accelerations = 31"),
    ("Sizes", "most_text = 2048", "most_text = 2049"),
    ("Sizes", "most_points = 999", "most_points = 1000"),
    ("Sizes", "most_start = 9999", "most_start = 10000"),
    ("Sizes", "most_rank = 9999", "most_rank = 10000"),
    ("Lines", "CR = 13", "CR = 12"),
    ("Lines", "has_no_cr text = all (λ c. not (eqb c CR)) text", "has_no_cr text = true"),
    ("Fields", 'between (code "0") (code "9") c', 'between (code "/") (code "9") c'),
    ("Fields", 'between (code "0") (code "9") c', 'between (code "0") (code ":") c'),
    ("Fields", 'between (code "0") (code "9") c', 'between (code "1") (code "9") c'),
    ("Fields", "has_shape (s ∷ shape) [] = false", "has_shape (s ∷ shape) [] = true"),
    # the tournament
    ("Tournament", 'blank_as (code "-") s.colour', 'blank_as (code "w") s.colour'),
    ("Tournament", "slot_at r p = get_or p.slots (r - 1) no_slot", "slot_at r p = get_or p.slots r no_slot"),
    ("Tournament", "any (λ p. (slot_at r p).used) lines", "any (λ p. (slot_at r p).used) (take 1 lines)"),
    ("Tournament", "points = p.points; rank = p.rank; entries", "points = p.rank; rank = p.points; entries"),
    ("Tournament", "start = p.start; kept = p.kept;", "start = p.rank; kept = p.kept;"),
    ("Tournament", "colour = only_or 0 (flat colour_in items)", "colour = only_or 66 (flat colour_in items)"),
    # the numbers of the refusals
    *[("Refusals", "line_fault_number %s = %d" % (f, n), "line_fault_number %s = %d" % (f, n % 9 + 3)) for f, n in (("bad_byte", 3), ("no_cr", 4), ("too_long", 5), ("not_listed", 6), ("bad_field", 7), ("too_many", 9))],
    *[("Refusals", "file_fault_number %s = %d" % (f, n), "file_fault_number %s = %d" % (f, n + 10)) for f, n in (("incomplete", 10), ("past_142", 11), ("(unlawful bye-or-game)", 12), ("(unlawful fitting_results)", 14), ("(unlawful one_U)", 15), ("wrong_sum_lem", 16), ("shared", 17))],
    ("Refusals", "refusal_of too_short = refusal 1 0 0", "refusal_of too_short = refusal 2 0 0"),
    ("Refusals", "refusal_of too_big = refusal 2 0 0", "refusal_of too_big = refusal 1 0 0"),
    ("Refusals", "labels lines = too_short ∷ too_big ∷", "labels lines = too_big ∷ too_short ∷"),
    # the first player in file order counts, then the lowest round
    ("Refusals", "each_round f seats = flat (λ s. map (of_file f s) every_round) seats", "each_round f seats = flat (λ r. map (λ s. of_file f s r) seats) every_round"),
    ("Refusals", "past_142 = each_round past_142 players", "past_142 = flat (λ r. map (λ s. of_file past_142 s r) players) every_round"),
    ("Refusals", "(unlawful law) = each_round (unlawful law) players", "(unlawful law) = flat (λ r. map (λ s. of_file (unlawful law) s r) players) every_round"),
    *[("Refusals", "is_again before (%s) = %s" % (k, v), "is_again before (%s) = false" % k) for k, v in (("text kept", "is_repeated (flat text_in before) kept"), ("rounds n", "not (is_empty (flat rounds_in before))"), ("scoring given", "not (is_empty (flat scoring_in before))"))],
    ("Refusals", "any (λ (q : PlayerLine). eqb q.start p.start) (flat player_in before)", "false"),
    # the writer
    ("Writing", "number nothing rounds_field n", "number noughts rounds_field n"),
    ("Writing", "number blanks start_field", "number noughts start_field"),
    ("Writing", "number noughts last_round_field", "number blanks last_round_field"),
    ("Writing", "number noughts first_start_field", "number blanks first_start_field"),
    ("Writing", "number noughts last_start_field", "number blanks last_start_field"),
    ("Writing", "(f, v.0 ∷ points_text blank v.1)", "(f, v.0 ∷ points_text (code \"0\") v.1)"),
    ("Writing", "(points_field, points_text blank p.points)", "(points_field, points_text (code \"0\") p.points)"),
    ("Writing", "cond (eqb (p / 100) 0) fill (digit (p / 100))", "cond (eqb (p / 100) 0) fill (digit 1)"),
    ("Writing", 'digit n = code "0" + n % 10', 'digit n = code "0" + n % 9'),
    ("Writing", "(filled fill w (n / 10))", "(filled fill w 1)"),
    ("Writing", "colour_lines c = cond (eqb c 0) [] (colour_line c ∷ [])", "colour_lines c = colour_line c ∷ []"),
    # what is handed back
    *[("Tables", "%s = entry_cells_of (λ e. e.%s) t" % (k, v), "%s = entry_cells_of (λ e. e.id) t" % k) for k, v in (("colours", "colour"), ("results", "result"))],
    ("Tables", "points = cells_of (map (λ p. p.points) t.players)", "points = cells_of (map (λ p. p.start) t.players)"),
    ("Tables", "starts = cells_of (map (λ p. p.start) t.players)", "starts = cells_of (map (λ p. p.rank) t.players)"),
    ("Tables", "text = cells_of (flat ended t.text)", "text = cells_of (flat (λ l. l) t.text)"),
    ("Tables", "players = length t.players;", "players = t.rounds;"),
    ("Tables", "accelerations = length t.accelerations;", "accelerations = 0;"),
    ("Tables", "colour = t.colour;", "colour = 0;"),
    ("Tables", "line = record { 0 = 0 };", "line = record { 0 = 1 };"),
    ("Tables", "      round = 0;", "      round = 1;"),
    *[("Tables", "%s = λ i. 0;" % k, "%s = λ i. 1;" % k) for k in ("starts", "points", "ranks", "opponents", "colours", "results", "text")],
    *[("Tables", "pub %s : Holds 0 %s" % (k, n), "pub %s : Holds 0 1" % k) for k, n in (("starts", "most_players"), ("points", "most_players"), ("ranks", "most_players"), ("opponents", "entry_cells"), ("colours", "entry_cells"), ("results", "entry_cells"), ("text", "most_text"))],
    *[("Tables", "(%s, length t.%s) ∷" % (n, k), "") for k, n in (("starts", "most_players"), ("points", "most_players"), ("ranks", "most_players"), ("kept", "kept_cells"), ("opponents", "entry_cells"), ("colours", "entry_cells"), ("results", "entry_cells"), ("text", "most_text"))],
    # what writer and question refuse
    ("Calls", "denial_of tables-short = refusal_of too_short", "denial_of tables-short = refusal 2 0 0"),
    ("Calls", "denial_of no_reading = refusal 18 0 0", "denial_of no_reading = refusal 19 0 0"),
    ("Calls", "denial_of no_reading = refusal 18 0 0", "denial_of no_reading = refusal 18 1 0"),
    ("Calls", "denial_of no_reading = refusal 18 0 0", "denial_of no_reading = refusal 18 0 1"),
    ("Calls", "denial_of out_short = refusal 19 0 0", "denial_of out_short = refusal 18 0 0"),
    ("Calls", "denial_of out_short = refusal 19 0 0", "denial_of out_short = refusal 19 1 0"),
    ("Calls", "denial_of no_place = refusal 20 0 0", "denial_of no_place = refusal 19 0 0"),
    ("Calls", "denial_of no_place = refusal 20 0 0", "denial_of no_place = refusal 20 0 1"),
    ("Calls", "writer_denials = tables-short ∷ no_reading ∷", "writer_denials = no_reading ∷ tables-short ∷"),
    ("Calls", "writer_denials = tables-short ∷ no_reading ∷", "writer_denials = no_reading ∷"),
    ("Calls", "question_denials = tables-short ∷ no_reading ∷", "question_denials = no_reading ∷ tables-short ∷"),
    ("Calls", "question_denials = tables-short ∷ no_reading ∷ no_place ∷ []", "question_denials = tables-short ∷ no_reading ∷ []"),
    ("Calls", "pub short : room < length (written end t)", "pub short : room ≤ length (written end t)"),
    ("Calls", "(place < length t.players) × (1 ≤ round)", "(place ≤ length t.players) × (1 ≤ round)"),
    ("Calls", "× (1 ≤ round) ×", "× (0 ≤ round) ×"),
    ("Calls", "× (round ≤ t.rounds) → ⊥", "× (round < t.rounds) → ⊥"),
    ("Calls", "pub untouched : after ≡ before", "pub untouched : after ≡ after"),
    ("Calls", "r ≡ written_answer (denial_of denial) 0", "r ≡ written_answer (denial_of denial) 1"),
    ("Calls", "r ≡ score_answer (denial_of denial) 0 0", "r ≡ score_answer (denial_of denial) 1 0"),
    ("Calls", "r ≡ score_answer (denial_of denial) 0 0", "r ≡ score_answer (denial_of denial) 0 1"),
    ("Calls", "r ≡ written_answer no_refusal (length (written end t))", "r ≡ written_answer no_refusal 0"),
    ("Calls", "(λ i. get_or (written end t) i 0) before after", "(λ i. get_or (written end t) 0 0) before after"),
    ("Calls", "score_answer no_refusal (earned_before t place round) (acceleration_for t place round)", "score_answer no_refusal (acceleration_for t place round) (earned_before t place round)"),
    # how the writer's lines end
    ("Calls", "end_of false = crlf", "end_of false = cr"),
    ("Calls", "end_of true = cr", "end_of true = crlf"),
    ("Calls", "pub short : room < length (written end t)", "pub short : room < length (written crlf t)"),
    ("Calls", "pub short : room < length (written end t)", "pub short : room < length (written cr t)"),
    ("Calls", "r ≡ written_answer no_refusal (length (written end t))", "r ≡ written_answer no_refusal (length (written cr t))"),
    ("Calls", "pub bytes : Holds 0 (length (written end t)) (λ i. get_or (written end t) i 0) before after", "pub bytes : Holds 0 (length (written cr t)) (λ i. get_or (written cr t) i 0) before after"),
    ("Writing", "written end t = flat (λ line. line ++ end_bytes (some end)) (written_lines t)", "written end t = flat (λ line. line ++ end_bytes (some crlf)) (written_lines t)"),
    ("Writing", "written end t = flat (λ line. line ++ end_bytes (some end)) (written_lines t)",
     "written end t = flat (λ line. line ++ end_bytes (some cr)) t.text ++ flat (λ line. line ++ end_bytes (some end)) (Rattle.std.specs.Prelude.drop (Rattle.std.specs.Prelude.length t.text) (written_lines t))"),
    ("Writing", "written end t = flat (λ line. line ++ end_bytes (some end)) (written_lines t)",
     "written end t = flat (λ line. line ++ end_bytes (some end)) (take (Rattle.std.specs.Prelude.length (written_lines t) - 1) (written_lines t)) ++ flat (λ line. line ++ end_bytes (some cr)) (Rattle.std.specs.Prelude.drop (Rattle.std.specs.Prelude.length (written_lines t) - 1) (written_lines t))"),
    ("Writing", "longest cr = 61141", "longest cr = 61140"),
    ("Writing", "longest cr = 61141", "longest cr = 61142"),
    ("Writing", "longest crlf = 61887", "longest crlf = 61886"),
    ("Writing", "longest crlf = 61887", "longest crlf = 61888"),
    ("Calls", "(t : Tournament) → Reading answer tables file t → ⊥", "(t : Tournament) → Reading answer tables file t → SpellsFile file t"),
    ("Calls", "pub accepts : answer.number ≡ 0", "pub accepts : answer ≡ answer"),
    ("Calls", "WriterDenies end answer tables room tables-short = enough tables ≡ false", "WriterDenies end answer tables room tables-short = enough tables ≡ true"),
    ("Calls", "QuestionDenies answer tables place round tables-short = enough tables ≡ false", "QuestionDenies answer tables place round tables-short = enough tables ≡ true"),
    ("Calls", "round = x.round; length = n }", "round = x.round; length = x.number }"),
    ("Calls", "points = points; acceleration = acceleration }", "points = acceleration; acceleration = points }"),
    *[("Calls", "      %s = 0;\n" % k, "      %s = 1;\n" % k) for k in ("rounds", "accelerations", "text", "colour")],
    ("Calls", "values = map (λ c. 0) letters", "values = map (λ c. 1) letters"),
    ("Calls", "ask_refused : AskRefused answer tables place.0 round r", "ask_refused : AskRefused answer tables round place.0 r"),
    # one more of each module
    ("Accelerations", "between a.first_round a.last_round round && between", "between"),
    ("Accelerations", " && between a.first_start a.last_start start", ""),
    ("Columns", "padded (suc w) [] = blank ∷ padded w []", "padded (suc w) [] = 0 ∷ padded w []"),
    ("Entries", "any (λ q. eqb q.start id) t.players", "any (λ q. eqb q.rank id) t.players"),
    ("Entries", "opponent t e = first (λ q. eqb q.start e.id) t.players", "opponent t e = first (λ q. eqb q.rank e.id) t.players"),
    ("Entries", "asked f none = true", "asked f none = Bool.false"),
    ("Fields", "blanks blank)\n  pub digits : all is_digit (first ∷ others)", "blanks blank)\n  pub digits : all is_digit others"),
    ("Heads", "pub number_in : n ≤ most_rounds", "pub number_in : n ≤ 19"),
    ("Items", "same (part code_field row) acceleration_code", "same (part code_field row) scoring_code"),
    ("Lawful", "is_taken before p = any (λ q. eqb q.start p.start) before", "is_taken before p = any (λ q. eqb q.rank p.rank) before"),
    ("Lawful", "pub round_high : r ≤ t.rounds", "pub round_high : r < t.rounds"),
    ("Lawful", "(take j records)", "records"),
    ("Lines", "joined (l ∷ ls) = l.text ++ (end_bytes l.end ++ joined ls)", "joined (l ∷ ls) = l.text ++ joined ls"),
    ("Players", '(c - (code "a" - code "A"))', "c"),
    ("Players", "pub kept : p.kept ≡ part kept_field row", "pub kept : p.kept ≡ part name_field row"),
    ("Refusals", "length (flat ended (flat text_in before)) + length (ended kept)", "length (flat ended (flat text_in before)) + length kept"),
    ("Refusals", "ltb most_accelerations (length (flat acceleration_in before) + 1)", "ltb most_accelerations (length (flat acceleration_in before))"),
    ("Refusals", "ltb most_players (length (flat player_in before) + 1)", "ltb most_players (length (flat player_in before))"),
    ("Refusals", "IsFault long file lines too_big = most_file < length file", "IsFault long file lines too_big = 65534 < length file"),
    ("Refusals", "pub player_lines_lem : of_players ≡ lines_of player_code 0 lines", "pub player_lines_lem : of_players ≡ lines_of player_code 1 lines"),
    ("Scoring", "cond (eqb letter v.0) v.1", "cond (eqb letter v.0) v.0"),
    ("Spelling", "leb (length (row_of l.text)) most_line", "leb (length (row_of l.text)) 513"),
    ("Spelling", "r ≤ most_rounds → is_past", "r < most_rounds → is_past"),
    ("Tables", "entry_cells = most_players * most_rounds", "entry_cells = most_players * 19"),
    ("Text", "pub text : row ≡ kept ++ replicate blanks blank", "pub text : row ≡ kept ++ replicate 0 blank"),
    ("Tournament", "lines) most_rounds\n", "lines) (most_rounds - 1)\n"),
    ("Tournament", "players = map (player_of (rounds_of items))", "players = map (player_of most_rounds)"),
    ("Writing", "laid (suc x.0.1) pieces", "laid (x.0.1) pieces"),
    ("Writing", "t.text ++ (rounds_line t.rounds ∷ (colour_lines t.colour ++", "t.text ++ (colour_lines t.colour ++ (rounds_line t.rounds ∷"),
    ("Calls", "WriteDone end answer tables before r after → Writes", "WriteRefused end answer tables before r after → Writes"),
    ("Calls", "pub no_denial : NoneOf (WriterDenies end answer tables (length before)) writer_denials", "pub no_denial : NoneOf (WriterDenies end answer tables (length before)) []"),
    ("Calls", "pub no_denial : NoneOf (QuestionDenies answer tables place round) question_denials", "pub no_denial : NoneOf (QuestionDenies answer tables place round) []"),
    # ---- the functions that decide the relations, which the rows compute: a change that relation and function share must be seen at a row
    ("proofs/FieldsRead", "(some (digit_value a * 100 + digit_value b * 10 + digit_value d))\n", "(some (digit_value a * 10 + digit_value b * 10 + digit_value d))\n"),
    ("proofs/FieldsRead", 'are_points a b c d = eqb c (code ".") && (is_tens a && is_digit b && is_digit d)', 'are_points a b c d = eqb c (code ".") && (is_tens a && is_digit b)'),
    ("proofs/FieldsRead", 'are_points a b c d = eqb c (code ".") && (is_tens a && is_digit b && is_digit d)', 'are_points a b c d = eqb c (code ".") && (is_tens a && is_digit d)'),
    ("proofs/FieldsRead", 'are_points a b c d = eqb c (code ".") && (is_tens a && is_digit b && is_digit d)', "are_points a b c d = is_tens a && is_digit b && is_digit d"),
    ("proofs/FieldsRead", 'are_points a b c d = eqb c (code ".") && (is_tens a && is_digit b && is_digit d)', 'are_points a b c d = eqb c (code ".") && (is_digit b && is_digit d)'),
    ("proofs/FieldsRead", "number_or0 none-there = some 0", "number_or0 none-there = none"),
    ("proofs/FieldsRead", "the_number none-there = none", "the_number none-there = some 1"),
    ("proofs/FieldsRead", "number_of (c ∷ cs) = cond (is_blank c) (number_of cs) (digits_from 0 (c ∷ cs))", "number_of (c ∷ cs) = cond (is_blank c) (digits_from 0 cs) (digits_from 0 (c ∷ cs))"),
    ("proofs/FieldsRead", "(leading_from (n * 10 + digit_value c) l) (when (all is_blank (c ∷ l)) (some n))\n\n", "(leading_from (n * 10 + digit_value c) l) (some n)\n\n"),
    ("proofs/FieldsRead", "leading_of (c ∷ l) = when (is_digit c) (leading_from (0 * 10 + digit_value c) l)", "leading_of (c ∷ l) = leading_from 0 (c ∷ l)"),
    ("proofs/FieldsRead", "trim (c ∷ l) = cons_unless (is_blank c && is_nil (trim l)) c (trim l)", "trim (c ∷ l) = c ∷ l"),
    ("proofs/FieldsRead", "trim (c ∷ l) = cons_unless (is_blank c && is_nil (trim l)) c (trim l)", "trim (c ∷ l) = cons_unless (is_blank c) c (trim l)"),
    ("proofs/RecordsRead", "text_of row = when (is_blank (col row after_code) && says_name row)", "text_of row = when (is_blank (col row after_code))"),
    ("proofs/RecordsRead", "text_of row = when (is_blank (col row after_code) && says_name row)", "text_of row = when (says_name row)"),
    ("proofs/RecordsRead", "rounds_of_row row = when (else_blank after_code (rounds_field ∷ []) row)", "rounds_of_row row = when true"),
    ("proofs/RecordsRead", "(keep (λ n. leb n most_rounds) (leading_of (part rounds_field row)))\n", "(leading_of (part rounds_field row))\n"),
    ("proofs/RecordsRead", "colour_of row = when (among (col row colour_column) initial_colours && else_blank after_code (column colour_column ∷ []) row)", "colour_of row = when (else_blank after_code (column colour_column ∷ []) row)"),
    ("proofs/RecordsRead", "colour_of row = when (among (col row colour_column) initial_colours && else_blank after_code (column colour_column ∷ []) row)", "colour_of row = when (among (col row colour_column) initial_colours)"),
    ("proofs/RecordsRead", "value_of slot = when (among (col slot 1) letters)", "value_of slot = when true"),
    ("proofs/RecordsRead", "fill_or true others v l = when others (some [])", "fill_or true others v l = some []"),
    ("proofs/RecordsRead", "are_given given = not (is_empty given) && letters_differ given", "are_given given = letters_differ given"),
    ("proofs/RecordsRead", "are_given given = not (is_empty given) && letters_differ given", "are_given given = not (is_empty given)"),
    ("proofs/RecordsRead", "given_of row = when (else_blank after_code slot_fields row)", "given_of row = when true"),
    ("proofs/RecordsRead", "f = record { points = f.0; first_round = f.1.0.0; last_round = f.1.0.1;", "f = record { points = f.0; first_round = f.1.0.1; last_round = f.1.0.0;"),
    ("proofs/RecordsRead", "first_start = f.1.1.0; last_start = f.1.1.1 }", "first_start = f.1.1.1; last_start = f.1.1.0 }"),
    ("proofs/RecordsRead", "    when (else_blank after_code acceleration_fields row)\n    (keep is_acceleration\n", "    when true\n    (keep is_acceleration\n"),
    ("proofs/RecordsRead", "    when (else_blank after_code acceleration_fields row)\n    (keep is_acceleration\n", "    when (else_blank after_code acceleration_fields row)\n    (keep (λ a. true)\n"),
    *[("proofs/RecordsRead", "    (is_one_of (part sex_field (in_line k)) sexes && is_one_of (part title_field (in_line k)) titles && is_birth (part birth_field (in_line k)) && else_blank kept_field.0 kept_fields (in_line k))\n", "    (%s)\n" % v) for v in (
        "is_one_of (part title_field (in_line k)) titles && is_birth (part birth_field (in_line k)) && else_blank kept_field.0 kept_fields (in_line k)",
        "is_one_of (part sex_field (in_line k)) sexes && is_birth (part birth_field (in_line k)) && else_blank kept_field.0 kept_fields (in_line k)",
        "is_one_of (part sex_field (in_line k)) sexes && is_one_of (part title_field (in_line k)) titles && else_blank kept_field.0 kept_fields (in_line k)",
        "is_one_of (part sex_field (in_line k)) sexes && is_one_of (part title_field (in_line k)) titles && is_birth (part birth_field (in_line k))")],
    ("proofs/RecordsRead", "    && is_some (number_or0 (number_of (part rating_field (in_line k))))\n", "    && true\n"),
    ("proofs/RecordsRead", "colour = col row (entry_colour_column r); result = capital (col row (result_column r)); used = is_used row r }", "colour = col row (entry_colour_column r); result = col row (result_column r); used = is_used row r }"),
    ("proofs/RecordsRead", "    when (among (col row (entry_colour_column r)) slot_colours && among (capital (col row (result_column r))) slot_results)\n", "    when (among (capital (col row (result_column r))) slot_results)\n"),
    ("proofs/RecordsRead", "    when (among (col row (entry_colour_column r)) slot_colours && among (capital (col row (result_column r))) slot_results)\n", "    when (among (col row (entry_colour_column r)) slot_colours)\n"),
    ("proofs/RecordsRead", "    when (else_blank after_code player_fields row && is_kept (part kept_field row))\n", "    when (else_blank after_code player_fields row)\n"),
    ("proofs/RecordsRead", "    when (else_blank after_code player_fields row && is_kept (part kept_field row))\n", "    when (is_kept (part kept_field row))\n"),
    ("proofs/RecordsRead", "(pair (keep (between 1 most_start) (number_in start_field row)) (points_in points_field row))", "(pair (number_in start_field row) (points_in points_field row))"),
    ("proofs/RecordsRead", "(pair (keep (between 1 most_rank) (number_in rank_field row)) (slots_of row))", "(pair (number_in rank_field row) (slots_of row))"),
    ("proofs/Cut", "step true is_cr c e rest = rest", "step true is_cr c e rest = push c rest"),
    ("proofs/Faults", "test_line bad_byte before l = not (all allowed l.text)", "test_line bad_byte before l = false"),
    ("proofs/Faults", "test_line no_cr before l = not (is_ended l.end)", "test_line no_cr before l = false"),
    ("proofs/Faults", "test_line too_long before l = ltb most_line (length (row_of l.text))", "test_line too_long before l = ltb 513 (length (row_of l.text))"),
    ("proofs/Faults", "test_line not_listed before l = is_unlisted (kind_of (row_of l.text))", "test_line not_listed before l = false"),
    ("proofs/Faults", "test_line bad_field before l = not (is_some (line_item l))", "test_line bad_field before l = false"),
    ("proofs/Faults", "test_line again before l = test_after is_again (line_items before) (line_item l)", "test_line again before l = false"),
    ("proofs/Faults", "test_line too_many before l = test_after is_too_many (line_items before) (line_item l)", "test_line too_many before l = false"),
    ("proofs/Replies", "is_too_long end (some t) room = ltb room (length (written end t))", "is_too_long end (some t) room = not (ltb (length (written end t)) room)"),
    ("proofs/Replies", "writer_denied end long o room tables-short = not long", "writer_denied end long o room tables-short = false"),
    ("proofs/Replies", "writer_denied end long o room no_reading = not (is_some o)", "writer_denied end long o room no_reading = false"),
    ("proofs/Replies", "question_denied long o place round tables-short = not long", "question_denied long o place round tables-short = false"),
    ("proofs/Replies", "question_denied long o place round no_reading = not (is_some o)", "question_denied long o place round no_reading = false"),
    ("proofs/Replies", "not (ltb place (length t.players) && leb 1 round && leb round t.rounds)", "not (ltb place (length t.players) && leb 1 round)"),
    ("proofs/Replies", "not (ltb place (length t.players) && leb 1 round && leb round t.rounds)", "not (ltb place (length t.players) && leb round t.rounds)"),
    ("proofs/Replies", "not (ltb place (length t.players) && leb 1 round && leb round t.rounds)", "not (leb 1 round && leb round t.rounds)"),
    ("proofs/Replies", "write_by end o (some d) = written_answer (denial_of d) 0", "write_by end o (some d) = written_answer (denial_of d) 1"),
    ("proofs/Replies", "bytes_by end o (some d) = []", "bytes_by end o (some d) = 0 ∷ []"),
    ("proofs/Replies", "ask_by o place round (some d) = score_answer (denial_of d) 0 0", "ask_by o place round (some d) = score_answer (denial_of d) 0 1"),
]

# ---- what may refuse a change beside a row: the theorems of docs/STATEMENT.md, by module. Each says something that the change makes false. An error in a part of its
# proof that stands in the theorem's own module is the theorem's; one in a module below it is not, since a proof's shape breaks there first.
THEOREMS = {
    # accepted exactly when lawful, one tournament a file, one answer and content an input, two tournaments two readings
    "Accepts": ("lawful_no_fault", "no_fault_lawful", "one_tournament"),
    "Judges": ("judged", "is_judged", "accepted_lawful", "lawful_accepted", "refused_exactly"),
    "ReadsOnce": ("reads-once", "reads-some", "reads_lawful"),
    "TwoReadings": ("one_tournament_a_reading", "same_lines"),
    "Readings": ("reading_has", "one_reading"),
    # what is left for writer and question, and what they then answer
    "RepliesRight": ("left_is", "writes_as", "asks_as", "writes-some", "asks_some"),
    # the limits by their numerals, and what a row says of every cell
    "Edges": ("sizes", "line-cells", "as_many", "too_big_refused", "small-not_too_big", "players_full", "players-room", "accelerations_full", "accelerations-room", "text_full", "text-room", "short-untouched"),
    "Samples": ("cleared_cell", "holds_cell"),
    # the six defaults
    "Values": ("no_162",),
    # each relation is decided by its function, which the rows compute: a relation that is changed alone is not decided any more
    "Cut": ("lines_are", "lines_unique"),
    "FieldsRead": ("number", "number-or-blank", "points", "leading", "trimmed"),
    "RecordsRead": ("text-line", "rounds-line", "colour-line", "value", "scoring-line", "acceleration-line", "kept-columns", "slot", "player-line", "item"),
    "Faults": ("faults", "lines-spelled"),
    # the lines have no fault exactly where each is sound, spells an item, and repeats and exceeds nothing; the players of a tournament differ exactly where their lines do
    "LinesRead": ("lines-good", "good-lines"),
    "NewAndFew": ("differ_same",),
}
# of the crate written: whatever breaks in it is a part of these
WRITTEN = ("written-spells", "written-long", "written-accepted", "longest_reached")
# has tests of its own for what the theorems above say, and no row computes them
LEFT_OUT = "LawfulTested"


def field_end(text, at):
    """Where the value of a record's field ends: at its semicolon, past the records inside it."""
    deep = 0
    while deep or text[at] != ";":
        deep += {"{": 1, "}": -1}.get(text[at], 0)
        at += 1
    return at


def lawful_conjuncts():
    """Each conjunct of Lawful, and of its parts, dropped; and no longer proved where the record is made, so that only what needs it can fail."""
    text = open(os.path.join(ROOT, "crates/law/specs/Lawful.antt")).read()
    for name, module, maker in (("KeptLine (line", "LinesLawful", "\nkept_line row"), ("LawfulPlayer (R", "LinesLawful", "\nlawful_player R"), ("Lawful (t", "Accepts", "Lawful (tournament_of is)")):
        record = text[text.index("pub record " + name):]
        proof = open(os.path.join(ROOT, "crates/law/proofs", module + ".antt")).read()
        for m in re.finditer(r"  pub (\S+) : (.*)\n", record[:(record + "\n\n").index("\n\n") + 1]):
            at = re.compile(r"(?<=\s)%s =" % m.group(1)).search(proof, proof.index(maker)).end()
            yield ("Lawful", m.group(0), "  pub %s : Unit {0}\n" % m.group(1), ("proofs/" + module, proof[:at], " tt", proof[field_end(proof, at):]))


def equal(text):
    """The same text with one of its parts spelled otherwise."""
    spelled = (
        (r"≡ true", lambda m: "≡ Rattle.std.specs.Prelude.not Rattle.std.specs.Prelude.false"),
        (r"≡ false", lambda m: "≡ Rattle.std.specs.Prelude.not Rattle.std.specs.Prelude.true"),
        (r'\(?code "(.)"\)?', lambda m: str(ord(m.group(1)))),
        (r'ascii "(.)(.)"', lambda m: "(%d ∷ %d ∷ [])" % (ord(m.group(1)), ord(m.group(2)))),
        (r"(?<![\w.-])blank(?![\w-])", lambda m: "32"),
        (r"(?<![\w.«{-])([1-9]\d*)(?![\w»-])", lambda m: "(Rattle.std.specs.Prelude.suc %d)" % (int(m.group(1)) - 1)),
        (r"(?<![\w.])(\w+\.\w+)(?![\w.])", lambda m: "(%s)" % m.group(1)),
        (r"^( *pub \S+ : )(.+)$", lambda m: "%s(%s)" % m.groups()),
        (r"^(.+ = )(.+)$", lambda m: "%s(%s)" % m.groups()),
    )
    for form, other in spelled:
        if re.search(form, text):
            return re.sub(form, other, text, count=1)
    return text


class Errors:
    """What the checker said of a crate: its rows that fail, its own errors, and which error each of the others follows from."""

    def __init__(self, out):
        self.proved = out.rstrip().split("\n")[-1].startswith("logic=proved")
        self.rows, self.own, self.follows, self.stated, name = [], [], [], [], None
        for line in out.split("\n"):
            m = re.match(r"(?:\./)?(specs|proofs)/(\w+)\.antt:(\d+):\d+: error: (?:`([^`]+)`: )?(.*)", line)
            if m:
                part, module, number, name, what = m.groups()
                n = re.match(r"\d+ declarations? that depends? on `([^`]+)`, which was rejected, w\w+ not checked: (.*)", what)
                if n:
                    self.follows += [(module, n.group(1), other) for other in re.findall(r"[^\s,`]+", n.group(2))]
                else:
                    self.own.append((module, name or "line " + number))
                    self.stated += [what] if part == "specs" else []
            r = re.search(r"expected type `(?:mathlib\.Core\.Path\.◌≡◌ \()?test \((.*?)\)+ (?:≡ )?(?:mathlib\.Core\.Bool\.)?true`", line)
            if r and name in ("guard_rows", "watched_rows", "computed"):
                self.rows.append((module, int(number), r.group(1)))

    def reached(self, module, name, wanted):
        """The first wanted name that an error in this one reaches, by parts of one module, or of any if none is given."""
        seen, todo = set(), [name]
        while todo:
            x = todo.pop(0)
            if x in wanted:
                return x
            seen.add(x)
            todo += [y for m, needed, y in self.follows if needed == x and y not in seen and module in (None, m)]

    def theorems(self, crate):
        found = []
        for module, name in self.own:
            t = self.reached(None, name, WRITTEN) if crate == "written" else self.reached(module, name, THEOREMS.get(module, ()))
            if t and t not in found:
                found.append(t)
        return ", ".join(found)


def said(room, crate):
    run = subprocess.run(["rt", "check", "--jobs", "1"], cwd=os.path.join(room, "crates", crate), capture_output=True, text=True)
    return Errors(run.stdout + run.stderr)


class Rows:
    """The rows of the crate `guards` by section, in modules of the copy of law: so they are computed even where a proof of law is broken, and not where a change does not reach them."""

    DEAR = ("001 lines", "what a result earns", "once only", "a round's entry", "results that are not known yet")
    # where the changes of a file fail, if they were not tried before
    LIKELY = {"Players": "001 lines", "proofs/RecordsRead": "lines that spell none", "Lawful": "no row"}

    def __init__(self):
        text = open(os.path.join(ROOT, "crates/guards/proofs/Guards.antt")).read()
        lists = re.findall(r"(?ms)^unfoldable pub (\w+) : List Computed\n(unfolding [^\n]*\n)\1 =\n(.*?) ∷ \[\]$", text)
        self.head = text[:text.index("unfoldable pub %s" % lists[0][0])]
        # by its title a section's rows, and what computes them
        self.sections, self.unfolding = {}, {}
        for name, unfolding, body in lists:
            for title, rows in re.findall(r"(?ms)^    -- ---- (.*?)\n(.*?)(?: ∷)?\s*(?=^    -- ---- |\Z)", body):
                self.sections[title], self.unfolding[title] = rows, unfolding
        dear = [t for t in self.sections if t.startswith(self.DEAR)]
        self.parts = {"GuardsCheap": [t for t in self.sections if t not in dear]}
        self.parts.update(("GuardsDear%d" % i, [t]) for i, t in enumerate(dear, 1))
        self.modules = "".join(l for l in open(os.path.join(ROOT, "crates/law/proofs/Lib.antt")) if LEFT_OUT not in l)

    def text(self, titles):
        """A module of these sections, which stand in one list."""
        rows = " ∷\n".join(self.sections[t] for t in titles)
        return (self.head + "unfoldable pub guard_rows : List Computed\n" + self.unfolding[titles[0]] + "guard_rows =\n" + rows
                + " ∷ []\n\npub guarded : AllOf (λ (c : Computed). RowHolds c.0) guard_rows\nguarded = all_computed guard_rows\n")

    def write(self, room, parts):
        """Modules and the sections in each; the first row that fails ends its module."""
        proofs = os.path.join(room, "crates/law/proofs")
        for module in ("GuardsSeen", *self.parts):
            path = os.path.join(proofs, module + ".antt")
            if module in parts:
                open(path, "w").write(self.text(parts[module]))
            elif os.path.exists(path):
                os.remove(path)
        open(os.path.join(proofs, "Lib.antt"), "w").write(self.modules + "".join("pub mod %s\n" % m for m in parts))

    def section(self, titles, line):
        """In which of a module's sections a line stands."""
        at = self.head.count("\n") + 3
        for t in titles:
            at += self.sections[t].count("\n") + 1
            if line <= at:
                return t


def workers(n, rows, folder):
    rooms = Queue()
    for i in range(n):
        room = os.path.join(folder, str(i))
        for crate in KEEP:
            shutil.copytree(os.path.join(ROOT, "crates", crate), os.path.join(room, "crates", crate), ignore=shutil.ignore_patterns("out", "must-fail"))
        os.remove(os.path.join(room, "crates/law/proofs", LEFT_OUT + ".antt"))
        lines = open(os.path.join(ROOT, "crates.txt")).read().split("\n")
        open(os.path.join(room, "crates.txt"), "w").write("\n".join(l for l in lines if l.split(":")[0] in KEEP) + "\n")
        rows.write(room, rows.parts)
        if not said(room, "law").proved:
            sys.exit("mutate: the unchanged statement is not proved")
        shutil.copytree(os.path.join(room, "crates/law/out"), os.path.join(room, "kept"))
        rooms.put(room)
    return rooms


def judge(room, rows, name, seen):
    """Verdict, place, and the section of the row: rows first, then theorems of law, then theorems of written."""
    # every change starts from what the checker has kept of the unchanged statement
    shutil.rmtree(os.path.join(room, "crates/law/out"))
    shutil.copytree(os.path.join(room, "kept"), os.path.join(room, "crates/law/out"))
    first = {"GuardsSeen": [seen]} if seen in rows.sections else {}
    for parts in (first, {"GuardsCheap": rows.parts["GuardsCheap"]}, rows.parts):
        rows.write(room, parts)
        law = said(room, "law")
        if law.stated:
            return "NOT SAID", law.stated[0], ""
        if law.rows:
            module, line, text = law.rows[0]
            return "refused", "row " + text, rows.section(parts[module], line) if module in parts else module
        # no row saw it the last time, and a theorem does
        if seen == "no row" and law.theorems("law"):
            break
    if name.startswith("proofs/"):
        return "NO ROW", "%s %s" % law.own[0] if law.own else "", ""
    if law.theorems("law"):
        return "refused", "theorem " + law.theorems("law"), "no row"
    if not law.proved:
        return "SHAPE", "%s %s" % law.own[0] if law.own else "?", ""
    rows.write(room, {})
    written = said(room, "written")
    if written.theorems("written"):
        return "refused", "theorem " + written.theorems("written"), ""
    return ("SURVIVES", "", "") if written.proved else ("SHAPE", "%s %s" % written.own[0] if written.own else "?", "")


def main():
    parser = argparse.ArgumentParser(description=__doc__, formatter_class=argparse.RawDescriptionHelpFormatter)
    parser.add_argument("--jobs", type=int, default=2, metavar="N")
    parser.add_argument("words", nargs="*", metavar="WORD")
    args = parser.parse_args()
    changes = [c for c in CHANGES + list(lawful_conjuncts()) if not args.words or any(w in c[0] or w in c[1] or w in c[2] for w in args.words)]
    rows = Rows()
    start, found = time.time(), {"row": 0, "theorem": 0, "not": 0}
    folder = tempfile.TemporaryDirectory(prefix="mutate-")
    rooms = workers(args.jobs, rows, folder.name)
    memory = os.path.join(ROOT, "target/mutants/seen.json")
    os.makedirs(os.path.dirname(memory), exist_ok=True)
    seen = json.load(open(memory)) if os.path.exists(memory) else {}

    def tried(change):
        name, old, new = change[:3]
        key = "%s: %s: %s" % (name, old, new)
        room = rooms.get()
        edits = [(name, old, new)]
        if len(change) > 3:
            module, before, made, after = change[3]
            edits.append((module, None, before + made + after))
        paths = [os.path.join(room, "crates/law", (n if "/" in n else "specs/" + n) + ".antt") for n, _, _ in edits]
        texts = [open(path).read() for path in paths]
        try:
            if texts[0].count(old) != 1:
                return "NOT ONE PLACE", change, str(texts[0].count(old))
            for path, text, (_, was, now) in zip(paths, texts, edits):
                open(path, "w").write(now if was is None else text.replace(was, now))
            verdict, where, seen[key] = judge(room, rows, name, seen.get(key) or rows.LIKELY.get(name))
            if where.startswith("theorem "):
                for path, text in zip(paths, texts):
                    open(path, "w").write(text.replace(old, equal(old)) if path == paths[0] else text)
                rows.write(room, {})
                if not said(room, "law").proved or not said(room, "written").proved:
                    return "SHAPE", change, where[8:] + ", and an equal change breaks it too"
            return verdict, change, where
        finally:
            for path, text in zip(paths, texts):
                open(path, "w").write(text)
            rooms.put(room)

    with ThreadPoolExecutor(args.jobs) as pool:
        for verdict, (name, old, new, *_), where in pool.map(tried, changes):
            found[where.split()[0] if verdict == "refused" else "not"] += 1
            json.dump(dict(seen), open(memory, "w"), indent=0, ensure_ascii=False)
            print("%-13s %-19s %-60s %s" % (verdict, name, new.replace("\n", " ").strip()[:60], where[:110]), flush=True)
    print("%d changes: %d refused at a row, %d at a theorem, %d not refused; %d minutes" % (len(changes), *found.values(), (time.time() - start) // 60))
    sys.exit(1 if found["not"] else 0)


if __name__ == "__main__":
    main()
