#!/usr/bin/env python3
"""Gives the repository's own definitions and lemmas today's spelling, once, after the kit's port.py.

Words are in snake case, types in upper camel case; a dash joins two names, and a plain word is added with an underscore. Run at the top
of the repository. It changes whole words in crates/**/*.antt and in the ghost lines and clauses of crates/**/*.rt; functions of src/,
strings, inputs and outputs keep their names.
"""
import pathlib
import re

NAMES = """
Corrected-places CorrectedPlaces
Minimum-distance MinimumDistance
Syndromes-decide SyndromesDecide
add-past add_past
add-swap add_swap
admitted-begins admitted_begins
admitted-by-lead admitted_by_lead
admitted-no admitted_no
ahead-here ahead_here
all-zero all_zero
all-zero-at all_zero_at
all-zero-of all_zero_of
all-zero-snoc all_zero-snoc
among-at among_at
among-front among_front
among-last among_last
answered-value answered_value
apart-minus apart_minus
before-sum before_sum
below-kills below_kills
bit-back bit_back
bits-equal-whole bits-equal_whole
by-fill by_fill
by-fire by_fire
by-found by_found
byte-bits byte_bits
cell-put cell_put
cell-read cell_read
check-fits check_fits
checks-long checks_long
cleared-all cleared_all
codeword-syndromes codeword_syndromes
columns-differ columns_differ
count-after count_after
count-before count_before
count-swap count_swap
crowded-here crowded_here
crowded-of crowded_of
crowded-skip crowded_skip
data-at data_at
data-kept data_kept
data-long data_long
differ-assoc differ_assoc
distance-at distance_at
distance-taken-off distance-taken_off
distance-triangle distance_triangle
divided-front divided_front
division-only division_only
end-put end_put
equal-agree equal_agree
equal-no equal_no
equal-yes equal_yes
error-root error_root
exp-at exp_at
factor-end factor_end
factor-first factor_first
factor-later factor_later
factor-more factor_more
factor-start factor_start
few-places few_places
filled-codeword filled_codeword
filled-in-place filled_in_place
fills-where fills_where
fire-fits fire_fits
fire-generator fire_generator
fire-word fire_word
flip-sound flip_sound
flips-sound flips_sound
generator-first generator_first
generator-later generator_later
generator-past generator_past
getD-behind get_or_behind
good-is good_is
good-past good_past
horner-from horner_from
in-before in_before
in-now in_now
insert-sound insert_sound
inside-set inside_set
keeps-more keeps_more
kernel-front kernel_front
last-nonzero last_nonzero
layout-fits layout_fits
length-behind length_behind
length-in length_in
length-step length_step
length-taken-off length-taken_off
length-terms length-terms_of
level-steps level_steps
locator-solved locator_solved
log-at log_at
low-reverse low_reverse
many-roots many_roots
merge-sound merge_sound
message-part message_part
minimum-distance minimum_distance
mul-past mul_past
multiple-at multiple_at
next-as-was next_as_was
no-divisors no_divisors
none-sound none_sound
norm-sound norm_sound
of-block of_block
of-term of_term
only-near only_near
only-rest only_rest
only-times-x only-times_x
opened-alignment opened_alignment
opened-fault opened_fault
opened-fire opened_fire
opposite-sound opposite_sound
outcome-clean outcome_clean
outcome-right outcome_right
outcome-wrong outcome_wrong
over-assoc over_assoc
over-comm over_comm
over-front over_front
over-later over_later
over-swap over_swap
own-double own_double
own-inverse own_inverse
past-block past_block
place-wrong place_wrong
plus-level plus_level
plus-quotient plus_quotient
plus-rest plus_rest
plus-self plus_self
point-here point_here
power-sum power_sum
power-sum-each power_sum-each
power-sum-less power_sum-less
power-sum-next power_sum_next
power-sum-sum power_sum-sum
power-sum-zero power_sum-zero
product-sound product_sound
products-sound products_sound
put-sound put_sound
remainder-after remainder_after
remainder-parts remainder_parts
remainder-short remainder_short
rest-none rest_none
reverse-at reverse_at
root-products root_products
root-products-at root_products_at
root-products256 root_products256
roots-map roots_map
row-times-x row-times_x
rows-differ rows_differ
same-data same_data
same-sound same_sound
same-values same_values
scale-sound scale_sound
sent-added sent_added
sent-change sent_change
sent-more sent_more
sent-past sent_past
sent-vector sent_vector
signed-unlike signed_unlike
solution-found solution_found
solved-all solved_all
solved-at solved_at
solved-more solved_more
solved-none solved_none
square-in square_in
start-at start_at
start-behind start_behind
start-last start_last
start-packed start_packed
start-part start_part
stepped-at stepped_at
stepped-cons-at stepped-cons_at
stepped-last stepped_last
steps-more steps_more
still-covered still_covered
still-same still_same
sum-change sum_change
sum-front sum_front
sum-sound sum_sound
suspects-few suspects_few
suspects-hit suspects_hit
suspects-miss suspects_miss
swap-last swap_last
swapped-kills swapped_kills
symbol-more symbol_more
symbol-taken-off symbol-taken_off
syndrome-errors syndrome_errors
syndrome-taken-off syndrome-taken_off
syndromes-decide syndromes_decide
syndromes-more syndromes_more
taken-all taken_all
taken-off taken_off
taken-off-next taken_off_next
terms-at terms_at
terms-of terms_of
terms-one terms_one
terms-terms terms_terms
tiled-answer tiled_answer
times-assoc times_assoc
times-comm times_comm
times-row times_row
times-times-x times-times_x
times-x times_x
times-x-plus times_x-plus
times-x-times times_x-times
times-x-zeros times_x-zeros
total-terms total-terms_of
unit-at unit_at
unit-check unit_check
unit-count unit_count
unit-generator unit_generator
unsigned-first unsigned_first
unsigned-lower unsigned_lower
unsigned-second unsigned_second
unsigned-split unsigned_split
unsigned-within unsigned_within
up-rounds up_rounds
value-here value_here
values-solved values_solved
work-after work_after
work-before work_before
work-long work_long
work-other work_other
work-shape work_shape
written-first written_first
written-more written_more
written-packed written_packed
zero-at zero_at
zero-everywhere zero_everywhere
"""

WORD = re.compile(r'[^\s(){}.;,@"«»\[\]]+')


def respell(text, names):
    return WORD.sub(lambda word: names.get(word[0], word[0]), text)


def main():
    names = dict(line.split() for line in NAMES.split("\n") if line)
    for path in sorted(pathlib.Path("crates").rglob("*")):
        if path.suffix in (".antt", ".rt") and "out" not in path.parts:
            old = path.read_text()
            new = respell(old, names)
            if new != old:
                path.write_text(new)


main()
