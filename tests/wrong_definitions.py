#!/usr/bin/env python3
"""wrong_definitions.py [--only WORD] [--jobs N] [--list]

Definitions are held by the worked tables alone: contract, code and proofs can follow a wrong one.
This changes the definitions of document 01 (crates/methodology/specs, and those of crates/numbers
that they are made of) in one place at a time: a constant by one, an operator, a name by another of
its type, two arguments exchanged, a list cut short, a condition, a factor or a row dropped, rows or
fields in another order; and in the ways listed by hand below. Each wrong definition is checked with
the tables and no other proof. It is held where a table no longer computes.

Prints each one that the tables let through and that is not known to say the same as the right
definition (tests/equivalent_definitions.txt, with reasons), then how many there were. Exits with 1
where one is left, or one is known that is no longer made. Needs rt on the path. --only takes those
whose description has WORD, --list shows them without a check.
"""
import argparse
import multiprocessing
import os
import re
import shutil
import subprocess
import sys
import tempfile
from collections import Counter, namedtuple

TOP = os.path.join(os.path.dirname(os.path.abspath(__file__)), "..", "crates")
# First no table, to see what is a definition at all; then the tables, those that take least time
# first, since what one lets through is held to the next; each with how many are checked at once.
STAGES = ((None, 300), ("WorkedCalls", 60), ("Figures", 60), ("WorkedTexts", 30), ("WorkedLimits", 12))
# Words for proofs and code, of which no statement of the outside speaks.
NOT_OF_THE_DOCUMENT = ("Lines", "Brought", "Lib")

# A wrong definition: its file, the part of it that is replaced, and what it is called.
Wrong = namedtuple("Wrong", "file start end new name")


def module_of(wrong):
    return os.path.basename(wrong.file)[:-5]


# ---- names and operators, each with what could stand in its place

INSTEAD = {
    "||": ["&&"], "&&": ["||"], "+": ["-"], "-": ["+"], "*": ["+"], "/": ["%"], "%": ["/"],
    "+ℤ": ["-ℤ"], "-ℤ": ["+ℤ"], "⊕": ["⊗"], "⊗": ["⊕"], "not": [""], "⁺": ["⁻"],
    "ltb": ["leb"], "leb": ["ltb"], "eqb": ["leb", "(λ x y. leb y x)"],
    "max": ["min", "◌+◌"], "ceil_div": ["round_div", "◌/◌"], "round_div": ["ceil_div", "◌/◌"],
    "greatest": ["Σ"], "Σ": ["greatest"], "list_any": ["(λ test l. not (list_any (λ x. not (test x)) l))"],
    "take": ["drop"], "drop": ["take"], "true": ["false"], "false": ["true"], "pos": ["negsuc"],
    "suc": [""], "filter": ["(λ test l. l)"], "descending": ["(λ l. l)"],
    "index": ["(suc index)"], "None": ["(Some 0)"],
}
ROWS = "BadOpening OutOfTurn BadDayNumber BadLengths BadLine", "BadHeading BadAmount BadPresence"
SAME_TYPE = [names.split() for names in (
    ".n .k", ".groups .firsts .lasts", "first_day last_day", "first last group", "from to", ".margins .extras", ".margin .extra", ".member .number .kind", "o .held",
    "kind_h kind_r kind_a kind_u", "is_house is_r is_aor_u is_client", "prev h nobody", "e Max T", "M S D",
    "value reserve estimate share", "funded unfunded shortfall",
    "half_of_clients two_largest_of_r part_b part_c", "total own_max_eul", "eul_under own_eul",
    "Fresh Open Closed", "number index", "n k", "at i count used", "tab LF", "bad5 bad6 count",
    "last number", "margin extra fall", "room D", "m j m' k", "x y",
    "n_outside k_outside group_outside count_outside member_outside", "step accept",
    *ROWS, "number_of below0", '"H" "R" "A" "U"', '"period" "member" "day" "acct" "end"',
    '"daily" "contribution" "fund" "refused" "total"', "ends bad", "minimum scale limit",
)]
# Their arguments may change places.
COMMUTE = ("eqb", "max", "same")
# Which argument of these is a list, to be cut short.
OVER_A_LIST = {"Σ": 1, "Σℤ": 1, "Σᶠ": 1, "greatest": 1, "list_any": 2, "filter": 2, "map": 2, "flat_map": 2, "position_or_len": 2}
# Where a name that stands in another's place is defined, if its file does not have it.
FROM = {
    **dict.fromkeys((
        "leb", "ltb", "eqb", "min", "max", "suc", "Some", "◌+◌", "◌-◌", "◌*◌", "◌/◌", "◌%◌", "negsuc", "pos", "◌-ℤ◌", "◌+ℤ◌", "cond", "not",
        "◌||◌", "◌&&◌", "false", "true", "length", "take", "drop", "map", "◌++◌"), "Rattle.std.specs.Prelude"),
    "range_with_len": "Rattle.std.specs.List", "position_or_len": "Rattle.std.specs.List", "filter": "Rattle.std.specs.List",
    "list_any": "Rattle.std.specs.List", "get_or": "Rattle.std.specs.Prelude",
    "Σℤ": "Rattle.numbers.specs.Sums", "Σ": "Rattle.numbers.specs.Sums",
    "greatest": "Rattle.numbers.specs.Sums", "◌⁺": "Rattle.numbers.specs.Signed", "◌⁻": "Rattle.numbers.specs.Signed",
    "round_div": "Rattle.numbers.specs.Rounding", "ceil_div": "Rattle.numbers.specs.Rounding",
    "first_day": "Rattle.methodology.specs.Account", "last_day": "Rattle.methodology.specs.Account",
    "present": "Rattle.methodology.specs.Account", "dailies": "Rattle.methodology.specs.Day", "total": "Rattle.methodology.specs.Day",
    "own_max_eul": "Rattle.methodology.specs.Day", "reported_max_eul": "Rattle.methodology.specs.Contribution",
    "counted": "Rattle.methodology.specs.Contribution", "is_open": "Rattle.methodology.specs.Refusals",
    **dict.fromkeys(" ".join(ROWS).split(), "Rattle.methodology.specs.declared.Refusal.TheVariants"),
}

# ---- wrong definitions that no change of one word makes: file, right, wrong

BY_HAND = [line.replace("⏎", "\n    ").split(" | ") for line in """
Contribution.highest | greatest days (λ d. own_max_eul o d.accounts) | greatest (take 1 days) (λ d. own_max_eul o d.accounts)
Contribution.highest | greatest days (λ d. own_max_eul o d.accounts) | greatest (drop (length days - 1) days) (λ d. own_max_eul o d.accounts)
Contribution.highest | greatest days (λ d. own_max_eul o d.accounts) | greatest (take 2 days) (λ d. own_max_eul o d.accounts)
Contribution.highest | own_max_eul o d.accounts) | total o d.accounts)
Contribution.reported_max_eul | greatest days | greatest (take 4 days)
Contribution.reported_max_eul | greatest days | greatest (take 30 days)
Contribution.reported_max_eul | greatest days | greatest (drop (length days - 1) days)
Contribution.reported_max_eul | greatest days | greatest (take 1 days ++ drop (length days - 1) days)
Contribution.reported_max_eul | own_max_eul o d.accounts) | total o d.accounts)
Contribution.reported_max_eul | greatest days (λ d. own_max_eul o d.accounts) | max (greatest (take 1 days) (λ d. own_max_eul o d.accounts)) (min 1000000000000 (greatest days (λ d. own_max_eul o d.accounts)))
Contribution.reported_max_eul | greatest days (λ d. own_max_eul o d.accounts) | max (greatest (take 1 days) (λ d. own_max_eul o d.accounts)) (min 700000000000000 (greatest days (λ d. own_max_eul o d.accounts)))
Register.returned | reported_max_eul g.held g.days ∷ [] | own_max_eul g.held (accounts g.held.k d) ∷ []
Register.returned | reported_max_eul g.held g.days ∷ [] | min (total g.held (accounts g.held.k d)) (reported_max_eul g.held g.days) ∷ []
Register.written | (reported_max_eul g.held g.days) | (own_max_eul g.held (accounts g.held.k d))
Register.written | (reported_max_eul g.held g.days) | (min (total g.held (accounts g.held.k d)) (reported_max_eul g.held g.days))
Register.written | (reported_max_eul g.held g.days) | (reported_max_eul g.held (drop 1 g.days))
Contribution.raw | (length (counted o days)) | (length (take 2 (counted o days)))
Contribution.charge | ceil_div (11 * M * S) (10 * D * scale) | ceil_div (11 * M * ceil_div S D) (10 * scale)
Contribution.charge | ceil_div (11 * M * S) (10 * D * scale) | ceil_div (11 * ceil_div (M * S) (D * scale)) 10
Contribution.charge | ceil_div (11 * M * S) (10 * D * scale) | round_div (11 * M * S) (10 * D * scale)
Contribution.exact_charge | (11 * highest o days) over (10 * D) | (11 * highest o days) over 10
Contribution.exact_charge | (0 over 1) | (0 over 0)
Contribution.exact_charge | cond (eqb D 0) (0 over 1) ((11 | cond (eqb D 0) ((11 * highest o days) over 10) ((11
Contribution.charge | cond (eqb D 0) 0 | cond (eqb D 0) 50000000
Contribution.funded | max rawCharge minimum | cond (eqb rawCharge 0) 0 (max rawCharge minimum)
Contribution.contributions | flat_map (λ m. three (raw o days m)) (members o.n) | cond (eqb (length days) 0) [] (flat_map (λ m. three (raw o days m)) (members o.n))
Register.refusal | closing_refusal g.status g.held room | cond (is_open g.status && eqb (length g.days) 0) (Err BadLine) (closing_refusal g.status g.held room)
Register.returned | length (counted g.held g.days) ∷ highest | cond (eqb (highest g.held g.days) 0) 0 (length (counted g.held g.days)) ∷ highest
Register.accept | record { status = Closed; held | record { status = cond (eqb (length g.days) 0) Open Closed; held
Register.accept | record { status = Closed; held | record { status = cond (eqb (length g.days) 0) Fresh Closed; held
Text.at_end | cond (same rest []) | cond (same rest [] || eqb (length g.days) 0)
Contribution.allowance | whole 1 ⊕ (11 * M) over (10 * scale) | whole 1
Contribution.allowance | whole 1 ⊕ (11 * M) over (10 * scale) | (11 * M) over (10 * scale)
Contribution.allowance | (10 * scale) | (10 * 1000000000000)
Contribution.allowance | (11 * M) over (10 * scale) | (11 * (M / 10)) over scale
Contribution.allowance | (11 * M) over (10 * scale) | (11 * M / 10) over scale
Contribution.allowance | (11 * M) over (10 * scale) | ceil_div (11 * M) 10 over scale
Contribution.charge | (10 * D * scale) | (10 * D * 1000000000000)
Contribution.charge | ceil_div (11 * M * S) (10 * D * scale) | ceil_div (11 * M * round_div S D) (10 * scale)
Contribution.charge | ceil_div (11 * M * S) (10 * D * scale) | ceil_div (11 * M * (S / D)) (10 * scale)
Contribution.charge | ceil_div (11 * M * S) (10 * D * scale) | ceil_div (11 * M * S / (10 * D)) scale
Contribution.charge | ceil_div (11 * M * S) (10 * D * scale) | ceil_div (11 * M * S / 10) (D * scale)
Contribution.charge | ceil_div (11 * M * S) (10 * D * scale) | ceil_div (11 * (M * S / D)) (10 * scale)
Contribution.charge | ceil_div (11 * M * S) (10 * D * scale) | ceil_div (11 * M * ceil_div S 1000) (10 * D * 1000000000000)
Contribution.charge | ceil_div (11 * M * S) (10 * D * scale) | ceil_div (11 * ceil_div (M * S) 1000) (10 * D * 1000000000000)
Contribution.raw | (sum_of_shares o days m) | (1000 * ceil_div (sum_of_shares o days m) 1000)
Contribution.sum_of_shares | Σ (counted o days) (λ d. share (loss o.k d.accounts m) (total o d.accounts)) | let x = Σᶠ (counted o days) (λ d. loss o.k d.accounts m over total o d.accounts) in ceil_div (x.num * scale) x.den
Contribution.sum_of_shares | (λ d. share (loss o.k d.accounts m) (total o d.accounts)) | (λ d. 1000 * ceil_div (share (loss o.k d.accounts m) (total o d.accounts)) 1000)
Day.share | ceil_div (e * scale) T | ceil_div (e * 1000000000000) T
Day.share | ceil_div (e * scale) T | 1000 * ceil_div (e * 1000000000000) T
Day.share | ceil_div (e * scale) T | e * scale / T + 1
Day.share | ceil_div (e * scale) T | min scale (ceil_div (e * scale) T)
Day.share | ceil_div (e * scale) T | cond (ltb (e * scale) T) 0 (ceil_div (e * scale) T)
Contribution.total_funded | funded (raw o days m) | raw o days m
Contribution.unfunded | 2 * funded rawCharge | funded (2 * rawCharge)
Day.total | Σ (members o.n) | Σ (members (o.n - 1))
Day.own_max_eul | λ j. member_under accts m j ⁺ | λ j. group_sum o accts m j ⁺
Day.own_max_eul | (greatest (members o.n) (λ m. greatest (scenarios o.k) (λ j. member_under accts m j ⁺))) | (greatest (members o.n) (loss o.k accts))
Day.own_max_eul | (greatest (members o.n) (λ m. greatest (scenarios o.k) (λ j. member_under accts m j ⁺)))⏎(greatest (members o.n) (λ m. greatest (scenarios o.k) | (greatest (members o.n) (λ m. greatest (filter (λ j. not (eqb j 7)) (scenarios o.k)) (λ j. member_under accts m j ⁺)))⏎(greatest (members o.n) (λ m. greatest (filter (λ j. not (eqb j 7)) (scenarios o.k))
Day.own_max_eul | (greatest (members o.n) (λ m. greatest (scenarios o.k) (λ j. member_under accts m j ⁺)))⏎(greatest (members o.n) (λ m. greatest (scenarios o.k) | (greatest (members o.n) (λ m. greatest (filter (λ j. not (eqb j 15)) (scenarios o.k)) (λ j. member_under accts m j ⁺)))⏎(greatest (members o.n) (λ m. greatest (filter (λ j. not (eqb j 15)) (scenarios o.k))
Day.group_of | cond (eqb (group_number o m) 0) (m ∷ []) | cond (eqb (group_number o m) 32) (m ∷ [])
Day.group_of | cond (eqb (group_number o m) 0) (m ∷ []) | cond (leb (group_number o m) 1) (m ∷ [])
Day.group_sum | member_under accts m' j) | pos (member_under accts m' j ⁺))
Day.value | round_div (100 * e * Max) T | 100 * round_div (e * Max) T
Day.estimate | round_div (220 * e * Max) T | 2 * reserve e Max T
Day.reserve | round_div (110 * e * Max) T | ceil_div (110 * e * Max) T
Account.largest_decrease | greatest (scenarios k) (decrease row) | decrease row k
Account.largest_decrease | greatest (scenarios k) (decrease row) | decrease row 1
Account.decrease | (base row -ℤ stress row j) ⁺ | (stress row j -ℤ base row) ⁺
Account.eul_of | pos fall -ℤ pos margin +ℤ pos extra | pos ((pos fall -ℤ pos margin +ℤ pos extra) ⁺)
Account.eul_of | pos fall -ℤ pos margin +ℤ pos extra | pos fall -ℤ pos margin
Member.house_eul | Σℤ (filter is_house accts) eul | Σℤ (filter is_house accts) (λ a. pos (eul a ⁺))
Member.half_of_clients | (λ a. eul a ⁺)) 2 | (λ a. eul a ⁻)) 2
Member.half_of_clients | ceil_div (Σ (filter is_client accts) (λ a. eul a ⁺)) 2 | Σ (filter is_client accts) (λ a. ceil_div (eul a ⁺) 2)
Member.half_of_clients | ceil_div (Σ (filter is_client accts) (λ a. eul a ⁺)) 2 | ceil_div (Σℤ (filter is_client accts) eul ⁺) 2
Member.half_of_clients | ceil_div (Σ (filter is_client accts) (λ a. eul a ⁺)) 2 | Σ (filter is_client accts) (λ a. eul a ⁺)
Member.two_largest_of_r | take 2 (descending | drop 0 (descending
Member.part_c | (λ a. eul a ⁺) | (λ a. eul a ⁻)
Member.loss | member_own k accts m ⁺ | greatest (range_with_len 1 k) (λ j. member_under accts m j ⁺)
Refusals.member_skipped | passed_over o number prev.member h.member | ltb 0 prev.member && passed_over o number prev.member h.member
Refusals.first_bad_heading | suc (first_bad_heading o number h hs) | suc (first_bad_heading o number prev hs)
Refusals.bad_amount | list_any npv_outside a.npvs | list_any npv_outside (drop 1 a.npvs)
Refusals.bad_amount | list_any npv_outside a.npvs | list_any npv_outside (take 2 a.npvs)
Refusals.opening_refusal | row OutOfTurn when is_open s else opening_rows o | cond (bad_opening o) (opening_rows o) (row OutOfTurn when is_open s else opening_rows o)
Refusals.opening_refusal | row OutOfTurn when is_open s else opening_rows o | cond (bad_opening o) (row OutOfTurn when is_open s else opening_rows o) (row (BadPresence 1) when is_open s && bad_presence (first_day o 1) (last_day o 1) else row OutOfTurn when is_open s else opening_rows o)
Refusals.opening_rows | row BadOpening when bad_opening o else⏎row (BadPresence (bad10 + 1)) when ltb bad10 o.n else | row (BadPresence (bad10 + 1)) when ltb bad10 o.n else⏎row BadOpening when bad_opening o else
Refusals.opening_rows | (BadPresence (bad10 + 1)) | (BadPresence (greatest (filter (λ m. bad_presence (first_day o m) (last_day o m)) (members o.n)) (λ m. m)))
Refusals.opening_rows | (λ m. bad_presence (first_day o m) (last_day o m)) | (λ m. bad_presence (first_day o m) (last_day o m) && not (bad_presence (first_day o (m + 1)) (last_day o (m + 1))))
Refusals.opening_rows | (λ m. bad_presence (first_day o m) (last_day o m)) | (λ m. bad_presence (first_day o m % 4294967296) (last_day o m % 4294967296))
Refusals.bad_presence | ltb last first || outside 1 31 first || outside 1 31 last | ltb last first || outside 1 31 first
Refusals.bad_presence | ltb last first || outside 1 31 first || outside 1 31 last | outside 1 31 first || outside 1 31 last
Refusals.bad_opening | not (eqb (length o.firsts) o.n) | ltb (length o.firsts) o.n
Refusals.bad_opening | not (eqb (length o.firsts) o.n) | ltb o.n (length o.firsts)
Refusals.bad_opening | not (eqb (length o.lasts) o.n) | ltb (length o.lasts) o.n
Refusals.bad_opening | not (eqb (length o.lasts) o.n) | ltb o.n (length o.lasts)
Refusals.bad_opening | not (eqb (length o.firsts) o.n)⏎|| not (eqb (length o.lasts) o.n) | not (eqb (length o.firsts + length o.lasts) (o.n + o.n))
Refusals.member_absent | not (present o number h.member) | false
Refusals.member_absent | not (present o number h.member) | ltb number (first_day o h.member)
Refusals.member_absent | not (present o number h.member) | ltb (last_day o h.member) number
Refusals.passed_over | ltb m to && present o number m | ltb m to
Refusals.passed_over | ltb from m && ltb m to | eqb m (from + 1) && ltb m to
Refusals.passed_over | ltb from m && ltb m to | ltb from m && eqb to (m + 1)
Refusals.passed_over | ltb from m && ltb m to && present o number m | ltb from m && ltb m to && leb (first_day o m) number
Refusals.passed_over | ltb from m && ltb m to && present o number m | ltb from m && ltb m to && leb number (last_day o m)
Refusals.last_missing | present o number m && not | not
Refusals.last_missing | present o number m && | leb (first_day o m) number &&
Refusals.last_missing | present o number m && | leb number (last_day o m) &&
Refusals.last_missing | (members o.n) | (drop (o.n - 1) (members o.n))
Account.present | leb (first_day o m) number && leb number (last_day o m) | leb (first_day o m) number
Account.present | leb (first_day o m) number && leb number (last_day o m) | leb number (last_day o m)
Account.present | leb (first_day o m) number && leb number (last_day o m) | cond (eqb (first_day o m) (last_day o m)) (leb (first_day o m) number) (leb (first_day o m) number && leb number (last_day o m))
Account.first_day | get_or o.firsts (m - 1) 0 | get_or o.firsts (o.n - m) 0
Account.last_day | get_or o.lasts (m - 1) 0 | get_or o.lasts (o.n - m) 0
Account.first_day | get_or o.firsts (m - 1) 0 | get_or o.firsts 0 0
Account.last_day | get_or o.lasts (m - 1) 0 | get_or o.lasts 0 0
Text.read_member | (get_or ns 2 0) (get_or ns 3 0) | (get_or ns 3 0) (get_or ns 2 0)
Text.read_member | (get_or ns 2 0) (get_or ns 3 0) | (get_or ns 2 0 % 4294967296) (get_or ns 3 0)
Text.read_member | (get_or ns 2 0) (get_or ns 3 0) | (get_or ns 2 0) (get_or ns 3 0 % 4294967296)
Text.opened | (opening_line_named (row_index row)) | 1
Register.accept | held = o; | held = record { n = o.n; k = o.k; groups = o.groups; firsts = g.held.firsts; lasts = g.held.lasts };
Contribution.raw | (length (counted o days)) | (length (filter (λ d. present o d.number m) (counted o days)))
Contribution.contributions | (members o.n) | (filter (λ m. list_any (λ d. present o d.number m) days) (members o.n))
RowNumbers.row_index | (BadPresence member) = Some member | (BadPresence member) = None
RowNumbers.row_index | (BadHeading index) = Some index | (BadHeading index) = None
RowNumbers.row_index | (BadAmount index) = Some index | (BadAmount index) = None
Register.step | if_accepted (refusal g c) (accept g c) g | accept g c
Register.buffer | if_accepted (refusal g c) (written (step g c) c) before | written (step g c) c
Contribution.raw | (length (counted o days)) | (length (take 3 (counted o days)))
Day.group_of | (filter (λ m'. eqb (group_number o m') (group_number o m)) (members o.n)) | (take 2 (filter (λ m'. eqb (group_number o m') (group_number o m)) (members o.n)))
Day.group_of | eqb (group_number o m') (group_number o m) | eqb (group_number o m' % 16) (group_number o m % 16)
Member.part_c | Σ (filter is_aor_u accts) (λ a. eul a ⁺) | Σℤ (filter is_aor_u accts) eul ⁺
Member.two_largest_of_r | map (λ a. eul a ⁺) (filter is_r accts) | map (λ a. eul a ⁺) (take 2 (filter is_r accts))
Member.part_b | max (half_of_clients eul accts) (two_largest_of_r eul accts) | cond (ltb 1 (length (filter is_r accts))) (max (half_of_clients eul accts) (two_largest_of_r eul accts)) (half_of_clients eul accts)
Member.two_largest_of_r | Σ (take 2 (descending (map (λ a. eul a ⁺) (filter is_r accts)))) (λ x. x) | let l = map (λ a. eul a ⁺) (filter is_r accts) in let most = greatest l (λ x. x) in most + greatest (filter (λ x. ltb x most) l) (λ x. x)
Member.two_largest_of_r | Σ (take 2 (descending (map (λ a. eul a ⁺) (filter is_r accts)))) (λ x. x) | let l = map (λ a. eul a ⁺) (filter is_r accts) in let most = greatest l (λ x. x) in most + greatest (drop (suc (position_or_len (λ x. eqb x most) l)) l) (λ x. x)
Member.two_largest_of_r | Σ (take 2 (descending (map (λ a. eul a ⁺) (filter is_r accts)))) (λ x. x) | let l = map (λ a. eul a ⁺) (filter is_r accts) in let most = greatest l (λ x. x) in most + greatest (take (position_or_len (λ x. eqb x most) l) l) (λ x. x)
Member.member_eul | pos (part_b eul accts) +ℤ pos (part_c eul accts) | pos (part_b eul (map (λ a. record { heading = cond (is_house a) a.heading (get_or accts (length accts - 1) a).heading; npvs = a.npvs; margin = a.margin; extra = a.extra }) accts)) +ℤ pos (part_c eul (map (λ a. record { heading = cond (is_house a) a.heading (get_or accts (length accts - 1) a).heading; npvs = a.npvs; margin = a.margin; extra = a.extra }) accts))
Refusals.bad_input | (count * (o.k + 1)))⏎|| not (eqb (length d.margins) count)⏎|| not (eqb (length d.extras) count) | (length d.margins * (o.k + 1)))⏎|| not (eqb (length d.margins) (length d.extras))
Refusals.bad_amount | list_any npv_outside a.npvs | list_any npv_outside (take 3 a.npvs)
Refusals.bad_amount | list_any npv_outside a.npvs | list_any npv_outside (take 16 a.npvs)
Refusals.first_not_zero | not (eqb prev.member h.member) && | ltb 0 prev.member && not (eqb prev.member h.member) &&
Refusals.member_skipped | passed_over o number prev.member h.member | eqb (prev.member + 2) h.member && passed_over o number prev.member h.member
Refusals.day_rows | row BadDayNumber when bad_day_number last d.terms.number else⏎account_rows o d | row BadDayNumber when outside 1 31 d.terms.number else⏎elim (account_rows o d) [ Err r ↦ Err r⏎|⏎Ok _ ↦ row BadDayNumber when leb d.terms.number last else clear ]
Refusals.day_refusal | row BadLengths when bad_output o room else⏎day_rows o last d | elim (day_rows o last d) [ Err r ↦ Err r⏎|⏎Ok _ ↦ row BadLengths when bad_output o room else clear ]
Refusals.day_rows | row BadDayNumber when bad_day_number last d.terms.number else⏎account_rows o d | elim (account_rows o d) [ Err r ↦ Err r⏎|⏎Ok _ ↦ row BadDayNumber when bad_day_number last d.terms.number else clear ]
Register.accept | status = Open; held = o; days = [] | status = Open; held = o; days = cond (eqb o.n g.held.n) g.days []
Register.accept | held = o; days = [] | held = record { n = o.n; k = o.k; groups = cond (eqb o.n g.held.n) g.held.groups o.groups; firsts = o.firsts; lasts = o.lasts }; days = []
Register.step | if_accepted (refusal g c) (accept g c) g | if_accepted (refusal g c) (accept g c) (record { status = g.status; held = g.held; days = take 1 g.days })
Rounding.round_div | (2 * p + q) / (2 * q) | cond (eqb ((2 * p + q) % (2 * q)) 0) ((2 * p + q) / (2 * q) / 2 * 2) ((2 * p + q) / (2 * q))
Rounding.round_div | (2 * p + q) / (2 * q) | (2 * p + (q - 1)) / (2 * q)
Text.signed_of | (below0 (number_of (drop 1 f))) | (below0 (number_of (take 13 (drop 1 f))))
Text.kind_of | kind_u 9 | kind_u 3
Text.kind_of | cond (same f (bytes "H")) | cond (same f (bytes "H") || same f (bytes "h"))
Text.kind_of | cond (same f (bytes "R")) | cond (same f (bytes "R") || same f (bytes "r"))
Text.kind_of | cond (same f (bytes "H")) | cond (same f (bytes "H") || same f (bytes "H\\r"))
Text.kind_of | cond (same f (bytes "H")) | cond (same f (bytes "H") || same f [])
Text.kind_of | cond (same f (bytes "H")) | cond (eqb (get_or f 0 0) 72)
Text.kind_of | cond (same f (bytes "R")) | cond (same f (bytes "R") || same f (bytes "1"))
Text.kind_of | cond (same f (bytes "H")) | cond (same f (bytes "H") || same f (bytes "0"))
Text.bad_bytes | list_any (ltb 127) line | ltb 127 (get_or line 0 0)
Text.numbers_after | same (get_or (fields line) 0 []) word | eqb (length (get_or (fields line) 0 [])) (length word)
Text.numbers_after | same (get_or (fields line) 0 []) word | same (take (length word) line) word
Text.account_of | same (get_or fs 0 []) (bytes "acct") | eqb (length (get_or fs 0 [])) 4
Text.account_of | same (get_or fs 0 []) (bytes "acct") | same (take 4 line) (bytes "acct")
Text.numbers_after | same (get_or (fields line) 0 []) word | same (get_or (fields line) 0 []) (take (length (get_or (fields line) 0 [])) word)
Text.read_period | cond (n_outside n || k_outside k) (ends (refused_line BadOpening i)) | cond false (ends (refused_line BadOpening i))
Text.read_line | cond (same l (bytes "end")) | cond (same (take 3 l) (bytes "end"))
Text.sized | (day after) | (day g)
Text.totals | ∷ column_sum 5 n out 4 ∷ [] | ∷ []
Text.column_sum | Σ (members n) | Σ (members (n - 1))
Text.column_sum | Σ (members n) | Σ (range_with_len 2 (n - 1))
Text.day_lines | (totals n out) | (n ∷ totals n out)
Text.day_lines | (totals n out) | (totals n (take 5 out))
Text.day_lines | (totals n out) | (column_sum 5 n out 0 ∷ 1000000000000 ∷ drop 2 (totals n out))
Text.day_lines | (totals n out) | (column_sum 5 n out 0 ∷ column_sum 5 n out 1 ∷ column_sum 5 n out 2 ∷ column_sum 5 n out 3 ∷ 2 * column_sum 5 n out 3 ∷ [])
Text.day_lines | (totals n out) | (column_sum 5 n out 0 ∷ column_sum 5 n out 1 ∷ column_sum 5 n out 2 ∷ 11 * column_sum 5 n out 2 / 10 ∷ column_sum 5 n out 4 ∷ [])
Text.day_lines | (totals n out) | (column_sum 5 n out 0 ∷ column_sum 5 n out 1 ∷ 100 * get_or answer 1 0 ∷ drop 3 (totals n out))
Text.sized | day_lines d.terms.number after.held.n (returned after call) (written after call) | printed (bytes "day") (d.terms.number ∷ returned after call) ++ rows (bytes "daily") 5 after.held.n (written after call) ++ printed (bytes "total") (totals after.held.n (flat_map (λ k. dailies g.held (reported_max_eul g.held g.days) k.accounts) (take 1 g.days)))
Text.sized | day_lines d.terms.number after.held.n (returned after call) (written after call) | printed (bytes "day") (d.terms.number ∷ returned after call) ++ rows (bytes "daily") 5 after.held.n (written after call) ++ printed (bytes "total") (map (λ c. Σ after.days (λ k. column_sum 5 after.held.n (dailies g.held (reported_max_eul g.held after.days) k.accounts) c)) (range_with_len 0 5))
Contribution.counted | filter (λ d. counts (total o d.accounts)) days | cond (eqb (length (filter (λ d. counts (total o d.accounts)) days)) 0) days (filter (λ d. counts (total o d.accounts)) days)
Contribution.counted | filter (λ d. counts (total o d.accounts)) days | take 30 (filter (λ d. counts (total o d.accounts)) days)
Contribution.counted | counts (total o d.accounts) | counts (total o d.accounts) || eqb d.number 31
Contribution.counted | counts (total o d.accounts) | counts (total o d.accounts) && not (eqb d.number 31)
Contribution.counted | counts (total o d.accounts) | counts (loss o.k d.accounts 1)
Contribution.counted | counts (total o d.accounts) | counts (greatest (members o.n) (loss o.k d.accounts) / 2)
Contribution.raw | (length (counted o days)) | (length days)
Contribution.raw | (length (counted o days)) | (max 1 (length days))
Contribution.raw | (sum_of_shares o days m) | (Σ days (λ d. cond (counts (total o d.accounts)) (share (loss o.k d.accounts m) (total o d.accounts)) scale))
Contribution.sum_of_shares | Σ (counted o days) | Σ days
Contribution.sum_of_shares | Σ (counted o days) | greatest (counted o days)
Contribution.exact_charge | let D = length (counted o days) in | let D = length days in
Contribution.exact_charge | (10 * D) ⊗ | (10 * length days) ⊗
Contribution.exact_charge | cond (eqb D 0) | cond (eqb (length days) 0)
Contribution.exact_charge | Σᶠ (counted o days) | Σᶠ days
Contribution.highest | greatest days | greatest (filter (λ d. ltb 0 (total o d.accounts)) days)
Contribution.reported_max_eul | greatest days | greatest (filter (λ d. ltb 0 (total o d.accounts)) days)
Day.five | (0 ∷ 0 ∷ 0 ∷ 0 ∷ 0 ∷ []) | (e ∷ 0 ∷ 0 ∷ 0 ∷ 0 ∷ [])
Day.five | (0 ∷ 0 ∷ 0 ∷ 0 ∷ 0 ∷ []) | (0 ∷ scale ∷ 0 ∷ 0 ∷ 0 ∷ [])
Day.five | (0 ∷ 0 ∷ 0 ∷ 0 ∷ 0 ∷ []) | (0 ∷ 0 ∷ 100 * Max ∷ 110 * Max ∷ 220 * Max ∷ [])
Day.five | (0 ∷ 0 ∷ 0 ∷ 0 ∷ 0 ∷ []) | []
Day.five | cond (eqb T 0) (0 | cond (leb T 1) (0
Register.returned | length (counted g.held g.days) ∷ highest | length g.days ∷ highest
Register.returned | length (counted g.held g.days) ∷ highest | cond (eqb (length (counted g.held g.days)) 0) (length g.days) (length (counted g.held g.days)) ∷ highest
Register.returned | reported_max_eul g.held g.days ∷ [] | cond (eqb (total g.held (accounts g.held.k d)) 0) 0 (reported_max_eul g.held g.days) ∷ []
Register.refusal | (last_number g.days) | (last_number (counted g.held g.days))
Register.refusal | (last_number g.days) | (cond (eqb (length (counted g.held g.days)) 0) 0 (last_number g.days))
Register.refusal | day_refusal g.status g.held (last_number g.days) d room | day_refusal g.status g.held (cond (eqb (total g.held (accounts g.held.k d)) 0) (last_number g.days - 1) (last_number g.days)) d room
Register.refusal | day_refusal g.status g.held (last_number g.days) d room | cond (eqb (total g.held (accounts g.held.k d)) 0 && eqb (last_number g.days) 31) (Err BadDayNumber) (day_refusal g.status g.held (last_number g.days) d room)
Register.accept | number = d.terms.number | number = cond (eqb (total g.held (accounts g.held.k d)) 0) 0 d.terms.number
Register.accept | number = d.terms.number | number = cond (eqb (total g.held (accounts g.held.k d)) 0) (last_number g.days) d.terms.number
Register.accept | record { number = d.terms.number; accounts = accounts g.held.k d } ∷ g.days | cond (eqb (total g.held (accounts g.held.k d)) 0) g.days (record { number = d.terms.number; accounts = accounts g.held.k d } ∷ g.days)
Register.accept | record { number = d.terms.number; accounts = accounts g.held.k d } ∷ g.days | record { number = d.terms.number; accounts = accounts g.held.k d } ∷ cond (eqb (total g.held (accounts g.held.k d)) 0) [] g.days
Register.accept | record { status = Closed; held | record { status = cond (eqb (length (counted g.held g.days)) 0) Open Closed; held
Refusals.day_refusal | day_rows o last d | elim (day_rows o last d) [ Err r ↦ Err r⏎|⏎Ok _ ↦ row BadLengths when eqb (total o (accounts o.k d)) 0 else clear ]
Refusals.day_refusal | day_rows o last d | elim (day_rows o last d) [ Err r ↦ Err r⏎|⏎Ok _ ↦ row BadLine when eqb last 0 && eqb (total o (accounts o.k d)) 0 else clear ]
Refusals.day_refusal | day_rows o last d | cond (eqb (total o (accounts o.k d)) 0) clear (day_rows o last d)
Refusals.day_rows | account_rows o d | cond (eqb (total o (accounts o.k d)) 0) clear (account_rows o d)
Text.day_lines | rows (bytes "daily") 5 n out | cond (eqb (get_or answer 0 0) 0) [] (rows (bytes "daily") 5 n out)
Text.day_lines | printed (bytes "total") (totals n out) | cond (eqb (get_or answer 0 0) 0) [] (printed (bytes "total") (totals n out))
Text.followed_by | report ++ rest next | rest next
""".strip().split("\n")]

UNCHANGED = ": unchanged"

# ---- reading a file of definitions

# A projection is a token for each of its names, as g, .held and .k in g.held.k.
TOKEN = re.compile(r'"(?:\\.|[^"])*"|[(){};,]|(?<=[\w\'])\.[a-z]\w*|[a-z][\w\']*(?=\.[a-z])|[^\s(){};,"]+')
WORDS = {"let", "in", "=", ";", "row", "when", "else", ",", "{", "}", "record", ":", "→"}
INFIX = {"||", "&&", "+", "-", "*", "/", "%", "∷", "++", "+ℤ", "-ℤ", "over", "⊕", "⊗", "×", "≤", "<"}

Token = namedtuple("Token", "text start end")


def is_field(token):
    return token.text.startswith(".") and len(token.text) > 1


def said(tokens):
    """With a blank between two, and none before a field."""
    return "".join(" " * (i > 0 and not is_field(token)) + token.text for i, token in enumerate(tokens))


def definitions(text):
    """The name of each definition, with the tokens that stand after its first =, equation by
    equation. Signatures, records, constructors and comments have none."""
    at, name, found = 0, None, []
    for line in text.split("\n"):
        code = line.split("--")[0] if line.lstrip().startswith("--") else line
        tokens = [Token(m.group(), at + m.start(), at + m.end()) for m in TOKEN.finditer(code)]
        words = [token.text for token in tokens]
        if words and not line[0].isspace():
            name = None
            if words[0] not in ("use", "pub", "abbrev", "unfoldable", "infix", "infixl", "infixr") \
                    and not words[0].startswith("--") and words[0] != "}" and "=" in words:
                name = words[0] if words[0] != "row" else "row_"
                found.append((name, tokens[words.index("=") + 1:]))
        elif name and tokens:
            found[-1][1].extend(tokens)
        at += len(line) + 1
    return found


def sequences(tokens):
    """The applications and operators of an expression: lists of items (a token, a projection, or a
    group in parentheses), of one depth and between the words that part an expression."""
    out, stack = [], [[]]
    for token in tokens:
        if token.text == "(":
            stack.append([token])
        elif token.text == ")" and len(stack) > 1:
            group = stack.pop()
            out.append(group[1:])
            stack[-1].append(Token("(", group[0].start, token.end))
        elif is_field(token) and stack[-1] and stack[-1][-1].end == token.start:
            stack[-1].append(Token("(", stack[-1].pop().start, token.end))
        else:
            stack[-1].append(token)
    out += stack
    parted = []
    for items in out:
        run = []
        for item in items:
            if item.text in WORDS or item.text == "λ" or item.text.endswith(".") and len(item.text) > 1:
                parted.append(run)
                run = []
            else:
                run.append(item)
        parted.append(run)
    return [run for run in parted if len(run) > 1]


def operands(items):
    """The parts between infix operators: [operand, operator, operand ..], each a list of items."""
    parts = [[]]
    for item in items:
        if item.text in INFIX:
            parts += [[item], []]
        else:
            parts[-1].append(item)
    return parts if all(parts) else []


def span(items):
    return items[0].start, items[-1].end


# ---- the changes

def word_changes(tokens):
    """A constant by one; an operator or a name by another."""
    for i, token in enumerate(tokens):
        label = i + 1 < len(tokens) and tokens[i + 1].text == "=" and token.text != "="
        if label:
            continue            # the field's name in a record, or what a let names
        if token.text.isdigit():
            value = int(token.text)
            yield token, str(value + 1)
            if value:
                yield token, str(value - 1)
        for other in INSTEAD.get(token.text, []):
            yield token, other
        for names in SAME_TYPE:
            if token.text in names:
                for other in names:
                    if other != token.text:
                        yield token, " " * (is_field(token) and other[0] != ".") + other


def order_changes(text, tokens):
    """A list cut short, two arguments exchanged, an operand dropped, two elements of a list exchanged."""
    for items in sequences(tokens):
        parts = operands(items)
        for i in range(0, len(parts) - 2, 2):
            left, middle, right = parts[i], parts[i + 1], parts[i + 2]
            start, end = span(left + middle + right)
            (a, b), (c, d) = span(left), span(right)
            if middle[0].text in ("∷", "-", "-ℤ", "over", "++", "/", "%"):
                yield start, end, text[c:d] + text[b:c] + text[a:b]
            yield start, end, text[a:b]
            if middle[0].text not in ("∷", "-ℤ"):
                yield start, end, text[c:d]
        for part in parts[::2] if parts else [items]:
            cut = OVER_A_LIST.get(part[0].text, len(part))
            if cut < len(part):
                start, end = span([part[cut]])
                for short in ("take 1", "take 2", "take 3", "drop 1"):
                    yield start, end, f"({short} {text[start:end]})"
            for one, two in zip(part[1:], part[2:]) if part[0].text not in COMMUTE else ():
                if text[slice(*span([one]))] != text[slice(*span([two]))]:
                    yield one.start, two.end, text[two.start:two.end] + text[one.end:two.start] + text[one.start:one.end]


def row_changes(text):
    """A row of the refusal table dropped, or exchanged with the next."""
    lines = list(re.finditer(r"    row .*? else\n", text))

    def named(row):
        return row.group().split()[1].strip("(")

    for i, row in enumerate(lines):
        yield row.start(), row.end(), "", f"row {named(row)} dropped"
        if i + 1 < len(lines) and lines[i + 1].start() == row.end():
            after = lines[i + 1]
            yield (row.start(), after.end(), after.group() + row.group(),
                   f"row {named(after)} before row {named(row)}")


def source(path):
    with open(os.path.join(TOP, path), encoding="utf8") as file:
        return file.read()


def wrong_definitions():
    """All of them, and for each file one that is right: the tables must let it through."""
    out, seen = [], Counter()

    def add(path, start, end, new, definition, change):
        name = f"{os.path.basename(path)[:-5]}.{definition}: {' '.join(change.split())}"
        seen[name] += 1
        if seen[name] > 1:
            name += f" ({seen[name]})"
        out.append(Wrong(path, start, end, new, name))

    for crate in ("numbers", "methodology"):
        for file in sorted(os.listdir(os.path.join(TOP, crate, "specs"))):
            if file[:-5] in NOT_OF_THE_DOCUMENT:
                continue
            path = os.path.join(crate, "specs", file)
            text = source(path)
            out.append(Wrong(path, 0, 0, "", file[:-5] + UNCHANGED))
            for definition, tokens in definitions(text):
                held = set()
                for token, new in word_changes(tokens):
                    i = tokens.index(token)
                    before, after = said(tokens[max(0, i - 3):i]), said(tokens[i + 1:i + 3])
                    held.add((token.start, token.end, new))
                    add(path, token.start, token.end, new, definition,
                        f"{before} [{token.text} → {new.strip()}] {after}")
                for start, end, new in order_changes(text, tokens):
                    if (start, end, new) not in held and text[start:end] != new:
                        held.add((start, end, new))
                        add(path, start, end, new, definition, f"{text[start:end]} → {new}")
            for start, end, new, change in row_changes(text):
                add(path, start, end, new, "table", f"{change} at {text[:start].count(chr(10)) + 1}")
    for place, right, wrong in BY_HAND:
        file, definition = place.split(".")
        path = next(one.file for one in out if module_of(one) == file)
        text = source(path)
        start = text.find(right, text.index(f"\n{definition} "))
        assert start >= 0, f"{place}: its text has moved: {right}"
        add(path, start, start + len(right), wrong, definition, f"by hand: {right} → {wrong}")
    return out


# ---- the check

MODULE = re.compile(r"Rattle\.(?:numbers|methodology)\.(specs|proofs)\.(\w+)")


class Modules:
    """The definitions and a table, all in one crate, by name: folder and text."""
    def __init__(self, table):
        self.table, self.folder, self.text, self.uses = table, {}, {}, {}
        for crate, folder, names in (("numbers", "specs", None), ("methodology", "specs", None),
                                     ("methodology", "proofs", ("Samples", table) if table else ("none",))):
            for file in sorted(os.listdir(os.path.join(TOP, crate, folder))):
                name = file[:-5]
                if name in NOT_OF_THE_DOCUMENT or not file.endswith(".antt") or names and name not in names:
                    continue
                self.folder[name], self.text[name] = folder, source(os.path.join(crate, folder, file))
        for name, text in self.text.items():
            self.uses[name] = {used for _, used in MODULE.findall(text)} & set(self.text)
        # what the table rests on
        self.below = {table} if table else set(self.text)
        for _ in self.text:
            self.below |= {used for name in self.below & set(self.text) for used in self.uses[name]}

    def resting_on(self, name):
        """A module with all that rest on it and that the table rests on; without a table itself alone."""
        found = {name}
        for _ in self.text if self.table else ():
            found |= {other for other in self.text if self.uses[other] & found}
        return found & self.below

    def written(self, place, names, mark, texts):
        """Writes these modules under names that begin with the mark, which they use among each
        other; all else they use of the modules without one."""
        for name in names:
            text = MODULE.sub(lambda m: "Rattle.methodology.%s.%s" % (
                m[1], (mark if m[2] in names else "") + m[2]), texts.get(name, self.text[name]))
            with open(os.path.join(place, self.folder[name], mark + name + ".antt"), "w", encoding="utf8") as file:
                file.write(text)
        return [(self.folder[name], mark + name) for name in names]


def checked(modules, wrongs):
    """Checks several wrong definitions at once, each with copies of all that rests on it. What
    becomes of each: held, by which table; let through; or no definition at all."""
    with tempfile.TemporaryDirectory() as top:
        place = os.path.join(top, "crates", "methodology")
        for folder in ("src", "specs", "proofs"):
            os.makedirs(os.path.join(place, folder))
        shutil.copy(os.path.join(TOP, "methodology", "src", "lib.rt"), os.path.join(place, "src"))
        with open(os.path.join(top, "crates.txt"), "w") as file:
            file.write("methodology:\n")
        listed, marks = [], {}
        for number, wrong in enumerate(wrongs):
            name, mark = module_of(wrong), f"W{number}x"
            text = modules.text[name]
            changed = with_names(text[:wrong.start] + wrong.new + text[wrong.end:], wrong.new)
            listed += modules.written(place, modules.resting_on(name), mark, {name: changed})
            marks[mark] = wrong
        listed += modules.written(place, [name for name in modules.text if name != modules.table], "", {})
        for folder in ("specs", "proofs"):
            with open(os.path.join(place, folder, "Lib.antt"), "w") as file:
                file.write("".join(f"pub mod {name}\n" for where, name in listed if where == folder))
        done = subprocess.run(["rt", "check"], cwd=place, stdout=subprocess.PIPE, stderr=subprocess.STDOUT)
        said = done.stdout.decode(errors="replace")
    if done.returncode not in (0, 1):
        return None
    errors = re.findall(r"/(specs|proofs)/(W\d+x)?(\w+)\.antt:\d+:\d+: error", said)
    if any(not mark for _, mark, _ in errors):
        raise SystemExit("the right definitions are refused:\n" + said)
    verdicts = []
    for mark, wrong in marks.items():
        mine = [(folder, name) for folder, at, name in errors if at == mark]
        if any(folder == "specs" for folder, _ in mine):
            verdicts.append((wrong, "no definition"))
        elif mine:
            verdicts.append((wrong, "held by " + mine[0][1]))
        else:
            verdicts.append((wrong, "let through"))
    return verdicts


def judged(task):
    """The verdicts on a batch; one by one where the prover gives none on all of it."""
    modules, wrongs = task
    verdicts = checked(modules, wrongs)
    if verdicts is None:
        verdicts = [one for wrong in wrongs for one in checked(modules, [wrong]) or [(wrong, "no verdict")]]
    return verdicts


def with_names(text, new):
    """The file with the names brought in that the change needs."""
    lines = text.split("\n")
    for name in FROM:
        bare = name.strip("◌")
        if not re.search(r"(?<![^\s()])" + re.escape(bare) + r"(?![^\s()])", new) and name not in new.split():
            continue
        if re.search(r"[{, ]" + re.escape(name) + r"[,}]", text) or re.search(
                r"^(abbrev |unfoldable )?(pub )?" + re.escape(name) + r" ", text, re.M):
            continue
        at = next((i for i, line in enumerate(lines) if line.startswith(f"use {FROM[name]}.{{")), None)
        if at is None:
            first = next(i for i, line in enumerate(lines) if line.startswith("use "))
            lines.insert(first, f"use {FROM[name]}.{{{name}}}")
        else:
            lines[at] = lines[at].replace("{", "{" + name + ", ", 1)
    return "\n".join(lines)


def known():
    """The changes that say the same, as tests/equivalent_definitions.txt lists them."""
    with open(os.path.join(os.path.dirname(os.path.abspath(__file__)), "equivalent_definitions.txt"), encoding="utf8") as file:
        return {line.strip() for line in list(file)[1:] if line.strip() and not line.startswith("#")}


def main():
    parser = argparse.ArgumentParser(description=__doc__, formatter_class=argparse.RawDescriptionHelpFormatter)
    parser.add_argument("--only", default="")
    parser.add_argument("--jobs", type=int, default=2)
    parser.add_argument("--list", action="store_true")
    given = parser.parse_args()
    wrong = [w for w in wrong_definitions() if given.only in w.name or w.name.endswith(UNCHANGED)]
    if given.list:
        print("\n".join(w.name for w in wrong))
        print(len(wrong))
        return
    same, made, count, left = known(), {one.name for one in wrong}, Counter(), []
    with multiprocessing.Pool(given.jobs) as pool:
        for table, size in STAGES:
            modules = Modules(table)
            asked = [one for one in wrong if module_of(one) in modules.below]
            through = [one for one in wrong if module_of(one) not in modules.below]
            batches = [asked[i:i + size] for i in range(0, len(asked), size)]
            for verdicts in pool.imap_unordered(judged, [(modules, batch) for batch in batches]):
                for one, verdict in verdicts:
                    if one.name.endswith(UNCHANGED) and verdict != "let through":
                        raise SystemExit(f"the right definitions are refused: {one.name}, {verdict}")
                    if ": by hand: " in one.name and verdict == "no definition":
                        raise SystemExit(f"no definition: {one.name}")
                    if verdict == "let through":
                        through.append(one)
                    else:
                        count[verdict] += 1
            wrong = through
            print(f"{table or 'no table'}: {len(wrong)} let through", file=sys.stderr, flush=True)
    for one in wrong:
        if one.name.endswith(UNCHANGED):
            continue
        if one.name in same:
            count["says the same"] += 1
        else:
            count["let through"] += 1
            left.append(one.name)
            print("let through:", one.name)
    stale = same - made if not given.only else set()
    for name in sorted(stale):
        print("known to say the same, and no longer made:", name)
    for verdict, times in sorted(count.items()):
        print(f"{times:6} {verdict}")
    print(f"{sum(count.values()) - count['no definition']} wrong definitions, {len(left)} left")
    sys.exit(1 if left or stale or count["no verdict"] else 0)


if __name__ == "__main__":
    main()
