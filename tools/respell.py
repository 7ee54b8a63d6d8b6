#!/usr/bin/env python3
"""Spells this repository's own definitions and lemmas as today's Rattle spells names.

usage: tools/respell.py [FOLDER]     FOLDER is the top of a checkout on which the kit's port.py has run; default: here

Definitions and fields are in snake case, facts and types in camel case; in the name of a lemma or a law a dash joins two names.
Functions of src/, strings, inputs and outputs keep theirs. A second run changes nothing."""

import os
import re
import sys

# old name, new name
TABLE = """
Checks-tell-codewords ChecksTellCodewords
Encoding-is-codeword EncodingIsCodeword
Holds-run HoldsRun
Product-is-remainder ProductIsRemainder
Root-returns RootReturns
add-code add_code
add-neg-next add_neg_next
add-next add_next
add-one-last add_one_last
add-outside-left add_outside_left
add-outside-right add_outside_right
any-meaning any_meaning
below-from-div below_from_div
binary-kept binary_kept
binary-laws binary_laws
binary-opening binary_opening
binary-ring binary_ring
bit-above bit_above
bit-low bit_low
both-sound both_sound
call-answer call_answer
check-count check_count
check-values check_values
checks-tell-codewords checks_tell_codewords
code-factors code_factors
code-facts code_facts
code-fault code_fault
code-pow code_pow
code-value code_value
code-words code_words
codes-divided codes_divided
codes-powers codes_powers
codes-times-factors codes-times_factors
codes-zeros codes_zeros
comes-round comes_round
complaint-line complaint_line
complaint-words complaint_words
counting-rising counting_rising
current-after current_after
current-read current_read
cut-linear cut_linear
degree-passes degree_passes
design-of design_of
digit-below digit_below
digit-top digit_top
digit-xor digit_xor
digits-alone digits_alone
digits-read digits_read
digits-xor digits_xor
distance-fits distance_fits
distance-judged distance_judged
distance-low distance_low
div-top div_top
divide-turn divide_turn
drop-written drop_written
each-accepted each_accepted
elements-ring elements_ring
encoded-elements encoded_elements
encoded-is encoded_is
encoded-length encoded_length
encoded-root encoded_root
encoded-symbols encoded_symbols
encodes-in-place encodes_in_place
encoding-is-codeword encoding_is_codeword
entry-accepted entry_accepted
equal-same equal_same
examples-of-8 examples_of_8
exponent-reached exponent_reached
exponents-are exponents_are
exponents-reached exponents_reached
exponents-smallest exponents_smallest
factor-in-place factor_in_place
factor-turn factor_turn
factors-root factors_root
field-fault field_fault
field-line field_line
field-words field_words
first-is first_is
first-none first_none
first-order first_order
first-return first_return
four-codes four_codes
generator-begins generator_begins
generator-first generator_first
generator-fits generator_fits
generator-is generator_is
generator-judged generator_judged
generator-length generator_length
generator-long generator_long
generator-symbols generator_symbols
generator-table generator_table
generator-tail generator_tail
generator-value generator_value
ground-add ground_add
ground-code ground_code
ground-high ground_high
ground-low ground_low
ground-mul ground_mul
ground-neg ground_neg
ground-next ground_next
guarded-assoc guarded_assoc
guarded-below guarded_below
guarded-comm guarded_comm
guarded-in guarded_in
guarded-left guarded_left
guarded-right guarded_right
help-line help_line
horner-turn horner_turn
horner-value horner_value
in-set in_set
insert-sound insert_sound
inv-code inv_code
inv-outside inv_outside
inverse-by-power inverse_by_power
inverse-is inverse_is
is-in is_in
is-long is_long
iterate-below iterate_below
iterate-first iterate_first
iterate-step iterate_step
judged-maps judged_maps
kept-rising kept_rising
layer-name layer_name
length-fits length_fits
length-low length_low
length-order length_order
length-raised length_raised
length-times-factors length-times_factors
less-past less_past
line-said line_said
linear-digit linear_digit
linear-terms linear_terms
linear-zero linear_zero
map-turn map_turn
mapped-all mapped_all
mark-back mark_back
mark-here mark_here
mark-kept mark_kept
marked-are-exponents marked_are_exponents
marks-are-exponents marks_are_exponents
member-left member_left
member-some member_some
modulo-laws modulo_laws
modulo-ring modulo_ring
mul-code mul_code
mul-mod mul_mod
mul-outside-left mul_outside_left
mul-outside-right mul_outside_right
multiply-turn multiply_turn
neg-add-next neg_add_next
neg-code neg_code
neg-outside neg_outside
negative-below negative_below
next-point next_point
no-inverse no_inverse
none-marked none_marked
none-outside none_outside
norm-sound norm_sound
not-all-digits not_all_digits
not-before not_before
nothing-under nothing_under
number-too-large number_too_large
on-codes on_codes
on-elements on_elements
one-more-check one_more_check
one-reduced one_reduced
opened-line opened_line
opened-or opened_or
opening-accepted opening_accepted
opening-accepts opening_accepts
opening-degree opening_degree
opening-field opening_field
opening-polynomial opening_polynomial
opening-root opening_root
opens-code opens_code
orbit-at orbit_at
orbit-begins orbit_begins
orbit-closed orbit_closed
orbit-goes-on orbit_goes_on
orbit-set orbit_set
orbit-started orbit_started
order-high order_high
order-low order_low
outside-at outside_at
outside-none outside_none
over-linear over_linear
over-map over_map
over-same over_same
over-sum over_sum
over-terms over_terms
partial-all partial_all
partial-gap partial_gap
partial-none partial_none
partial-term partial_term
plain-add plain_add
polynomial-passes polynomial_passes
power-code power_code
power-full power_full
power-of-one power_of_one
power-reduced power_reduced
powers-of powers_of
prime-kept prime_kept
product-assoc product_assoc
product-below product_below
product-comm product_comm
product-is-remainder product_is_remainder
product-one product_one
product-sound product_sound
product-sum product_sum
put-sound put_sound
raise-apart raise_apart
raise-below raise_below
raise-first raise_first
raise-high raise_high
raise-kernel raise_kernel
raise-linear raise_linear
raise-low raise_low
raise-reduced raise_reduced
raised-more raised_more
raised-one raised_one
raised-reduced raised_reduced
reach-most reach_most
reached-closed reached_closed
reached-exponent reached_exponent
reached-least reached_least
reduced-assoc reduced_assoc
reduced-below reduced_below
reduced-comm reduced_comm
reduced-is reduced_is
reduced-left reduced_left
reduced-one reduced_one
reduced-right reduced_right
redundancy-is redundancy_is
redundancy-judged redundancy_judged
refusal-at refusal_at
refused-distance refused_distance
refused-first refused_first
refused-generator refused_generator
refused-length refused_length
refused-redundancy refused_redundancy
remainder-linear remainder_linear
remainder-shift remainder_shift
remainder-short remainder_short
rest-written rest_written
returns-929 returns_929
returns-by returns_by
returns-soon returns_soon
ring-on-codes ring_on_codes
root-code root_code
root-different root_different
root-element root_element
root-judged root_judged
root-modulo root_modulo
root-order root_order
root-power root_power
root-raises root_raises
root-return root_return
root-returns root_returns
root-turns root_turns
run-begins run_begins
run-goes-on run_goes_on
run-reached run_reached
same-element same_element
same-listed same_listed
scale-sound scale_sound
set-closed set_closed
shift-more shift_more
signed-cancel signed_cancel
size-high size_high
some-member some_member
some-message some_message
spaced-first spaced_first
spaced-next spaced_next
spaced-push spaced_push
standard-opening standard_opening
subtract-turn subtract_turn
sum-assoc sum_assoc
sum-negative sum_negative
sum-sound sum_sound
sums-differ sums_differ
supplied-opens supplied_opens
symbols-add symbols_add
symbols-codes symbols_codes
symbols-less symbols_less
symbols-mul symbols_mul
symbols-neg symbols_neg
symbols-negatives symbols_negatives
symbols-remainder symbols_remainder
symbols-zero symbols_zero
symbols-zeros symbols_zeros
table-accepted table_accepted
tail-root tail_root
tail-value tail_value
taken-up taken_up
times-factor times_factor
times-factors times_factors
times-linear times_linear
times-short times_short
unmarked-falls unmarked_falls
value-by-horner value_by_horner
value-code value_code
value-divided value_divided
value-of-none value_of_none
value-step value_step
value-times-factor value-times_factor
value-times-factors value-times_factors
value-zeros value_zeros
walk-back walk_back
walk-next walk_next
walk-nonzero walk_nonzero
with-codes with_codes
within-out within_out
worked-codes code_examples
worked-examples worked_examples
xor-back xor_back
xor-equal xor_equal
xor-four xor_four
xor-last xor_last
zero-code zero_code
"""

NAMES = dict(row.split() for row in TABLE.split("\n") if row)
# A name stands alone where no letter, digit, prime or dash is beside it.
NAME = re.compile(r"(?<![\w'-])(" + "|".join(sorted(map(re.escape, NAMES), key=len, reverse=True)) + r")(?![\w'-])")

# `ground` is a tactic's name today, so the field `ground` of a meaning is called `ground_size`; the method `ground` keeps its name.
GROUND = re.compile(r"(?<=\.)ground(?![\w'(-])|(?<=pub )ground(?= :)|(?<=      )ground(?= = )")


def main():
    top = sys.argv[1] if len(sys.argv) > 1 else "."
    changed = 0
    for folder, _, files in os.walk(os.path.join(top, "crates")):
        for file in files:
            if not file.endswith((".antt", ".rt")):
                continue
            path = os.path.join(folder, file)
            with open(path, encoding="utf-8") as text:
                old = text.read()
            # In a .rt file only clauses and ghost items have names with dashes.
            new = GROUND.sub("ground_size", NAME.sub(lambda found: NAMES[found[1]], old))
            if new != old:
                changed += 1
                with open(path, "w", encoding="utf-8") as text:
                    text.write(new)
    print(f"{changed} files respelled")


main()
