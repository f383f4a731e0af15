#!/usr/bin/env python3
"""Brings the repository's own names to the spelling of today's Rattle, after port.py has run.

usage: python3 tools/respell.py [ROOT]

Names of definitions, lemmas, fields and constructors that were written with capitals inside get underscores (`wellFormed` is `well_formed`). port.py has already
respelled some names of this repository, those of PORT; where one of these fell together with a name of OWN in one file, SPECIAL gives the lemma another name.
Constants such as MAX-TEXT keep their dash: with an underscore they would have the name of a constant of src/.

Rewritten are the .antt and .rt files of crates/, the .edit files there and below tests/wrong (which port.py leaves), and what stands in backquotes in the pages.
Text inside double quotes stays. A second run changes nothing.
"""

import os
import re
import sys

OWN = """
afterFirst after_first, afterItem after_item, afterLeaf after_leaf, afterList after_list, afterNode after_node, afterSet after_set
all-flatBody all-flat_body, all-flatNode all-flat_node, allIfReached all_if_reached, allowedAll allowed_all, allowedFor allowed_for
allowedWithSet allowed_with_set, andThen and_then, andThen-done and_then-done, asLeaf as_leaf, asListed as_listed, asSteps as_steps
asSteps-long as_steps-long, asSteps-records as_steps-records, asSteps-wrapped as_steps-wrapped, askConstraints ask_constraints, askFamily ask_family
askLayers ask_layers, askMultiplier ask_multiplier, atEnd at_end, bigEndian big_endian, bigEndian-below big_endian-below
bigEndian-fromBigEndian big_endian-from_big_endian, binaryAt binary_at, binaryGroup binary_group, binaryGroup-goes binary_group-goes
binaryGroupKind binary_group_kind, binaryGroupKind-alike binary_group_kind-alike, binaryGroupKind-plain binary_group_kind-plain
binaryGroupNode binary_group_node, binaryHead binary_head, binaryKind binary_kind, binaryNumber binary_number, binaryNumber-lt binary_number-lt
bodyBytes body_bytes, bodyDepth body_depth, bodyFits body_fits, bodyHead body_head, bodyHeads body_heads, bodyInRange body_in_range, bodyOk body_ok
bodyParens body_parens, bodyParens-depth body_parens-depth, bodyParens-unspanned body_parens-unspanned, bodySize body_size, bothWays both_ways
bothZero both_zero, bytesOr bytes_or, charWidth char_width, checkedSteps checked_steps, clampLayer clamp_layer, clampLayerToCount clamp_layer_to_count
clampRange clamp_range, clampToLayerCount clamp_to_layer_count, classNumber class_number, clauseByClause clause_by_clause, cleanBody clean_body
cleanBody-map clean_body-map, cleanNode clean_node, cleanNode-map clean_node-map, cleanNodes clean_nodes, codePoint code_point, codedPlace coded_place
commutatorInverted commutator_inverted, conjugateInverted conjugate_inverted, conjugateOnly conjugate_only, constraintInRange constraint_in_range
constraintMeaning constraint_meaning, constraintSet constraint_set, constraintsAt constraints_at, constraintsGiven constraints_given
constraintsIn constraints_in, constraintsInRange constraints_in_range, constraintsOk constraints_ok, constraintsReading constraints_reading
constraintsWritten constraints_written, contents-asSteps contents-as_steps, contentsOf contents_of, contentsRefuse contents_refuse
countBack count_back, countBinary count_binary, countBody count_body, countBody-is count_body-is, countFrom count_from, countNode count_node
countNode-is count_node-is, countOk count_ok, countSteps count_steps, countsIn counts_in, countsOk counts_ok, curlyPrimes curly_prime_codes
curlyWidth curly_width, cut-headRecord cut-head_record, cut-layOut cut-lay_out, cutOut cut_out, deepBinary deep_binary, deepBody deep_body
deepGroup deep_group, deepInverse deep_inverse, deepInverses deep_inverses, deepRefusal deep_refusal, deepRefusalBody deep_refusal_body
deepRefusalNode deep_refusal_node, deepView deep_view, deeplyBody deeply_body, deeplyBody-bytes deeply_body-bytes, deeplyBody-clean deeply_body-clean
deeplyBody-count deeply_body-count, deeplyBody-depth deeply_body-depth, deeplyBody-fits deeply_body-fits, deeplyBody-in-range deeply_body-in-range
deeplyBody-ok deeply_body-ok, deeplyBody-parens deeply_body-parens, deeplyBody-size deeply_body-size, deeplyBody-twice deeply_body-twice
deeplyBody-unrefused deeply_body-unrefused, deeplyNode deeply_node, deeplyNode-bytes deeply_node-bytes, deeplyNode-clean deeply_node-clean
deeplyNode-count deeply_node-count, deeplyNode-depth deeply_node-depth, deeplyNode-fits deeply_node-fits, deeplyNode-in-range deeply_node-in-range
deeplyNode-ok deeply_node-ok, deeplyNode-parens deeply_node-parens, deeplyNode-size deeply_node-size, deeplyNode-twice deeply_node-twice
deeplyNode-unrefused deeply_node-unrefused, digitRun digit_run, displayEntry display_entry, displayRoom display_room, drop-putPart drop-put_part
eachFlagAlone each_flag_alone, elementInRange element_in_range, elementOf element_of, elementRange element_range, elementReading element_reading
elementsAt elements_at, elementsFrom elements_from, endReading end_reading, everyKind every_kind, familyAt family_at, familyFits family_fits
familyInRange family_in_range, familyOf family_of, familyOk family_ok, familyReads family_reads, familyRefusal family_refusal, familySet family_set
familySpan family_span, familyText family_text, familyText-alike family_text-alike, familyText-plain family_text-plain, familyWritten family_written
fieldStart field_start, fieldsIn fields_in, first-asSteps first-as_steps, firstBody first_body, firstBytes first_bytes, firstCount first_count
firstIn first_in, firstInOrder first_in_order, firstLeaf first_leaf, firstList first_list, firstNode first_node, firstOk first_ok
firstRefusal first_refusal, fitsBits fits_bits, fitsNode fits_node, flatBinary flat_binary, flatBody flat_body, flatBody-backwards flat_body-backwards
flatBody-deeply flat_body-deeply, flatBody-map flat_body-map, flatNode flat_node, flatNode-backwards flat_node-backwards
flatNode-deeply flat_node-deeply, flatNode-inverted flat_node-inverted, flatNode-map flat_node-map, flattenBinary flatten_binary
flattenBody flatten_body, flattenBody-is flatten_body-is, flattenEntry flatten_entry, flattenLeaf flatten_leaf, flattenNode flatten_node
flattenNode-is flatten_node-is, flattenNodes flatten_nodes, foldBinary fold_binary, foldBody fold_body, foldBody-is fold_body-is
foldInOrder fold_in_order, foldNode fold_node, foldNode-is fold_node-is, foldNodes fold_nodes, foldNodes-append fold_nodes-append, formAt form_at
formedCount formed_count, fromBigEndian from_big_endian, fromBigEndian-bigEndian from_big_endian-big_endian, fromBigEndian-lt from_big_endian-lt
fromBits from_bits, fromBits-fits from_bits-fits, fromBits-toBits from_bits-to_bits, fromTo from_to, givenFrom given_from
greatestMultiplier greatest_multiplier, greekSet greek_set, groupAt group_at, groupCount group_count, groupHead group_head, groupKind group_kind
groupKind-alike group_kind-alike, groupKind-plain group_kind-plain, groupNode group_node, groupNumber group_number, groupNumber-lt group_number-lt
groupReading group_reading, groupRefuses group_refuses, groupTwiceInverted group_twice_inverted, groupsDeep groups_deep, halfFields half_fields
hasConstraints has_constraints, hasFamily has_family, hasLayers has_layers, hasMultiplier has_multiplier, hasSet has_set, headAt head_at
headAt-headRecord head_at-head_record, headAt-kind head_at-kind, headFields head_fields, headFields-fit head_fields-fit
headOf-headFields head_of-head_fields, headOk head_ok, headOverflows head_overflows, headRecord head_record, headRecord-below head_record-below
headRefusal head_refusal, highNegative high_negative, ifReached if_reached, in-upTo in-up_to, inBounds in_bounds, inCommutator in_commutator
inConjugate in_conjugate, inDirection in_direction, inEntries in_entries, inFirst in_first, inGroup in_group, inOrder in_order, inRangeAs in_range_as
inText in_text, invB inv_b, invDeep inv_deep, invDeep-is inv_deep-is, invDeep-size inv_deep-size, invDeepBody inv_deep_body
invDeepBody-is inv_deep_body-is, invDeepEntry inv_deep_entry, invDeepNode inv_deep_node, invDeepNode-is inv_deep_node-is, invEntry inv_entry
invNode inv_node, invRefusal inv_refusal, invRefusalNode inv_refusal_node, inverseCounts inverse_counts, inverseSize inverse_size
invertedDeep inverted_deep, invertedNode inverted_node, invertedNode-parens inverted_node-parens, invertedNode-twice inverted_node-twice
invertingDeeply inverting_deeply, isBinary is_binary, isDigit is_digit, isDigit-listed is_digit-listed, isFamilyChar is_family_char
isFamilyClass is_family_class, isGreekLetter is_greek_letter, isLatinLetter is_latin_letter, isLeaf is_leaf, isNegative is_negative, isNiss is_niss
isNiss-map is_niss-map, isNode is_node, isPair is_pair, isPositive is_positive, isPrime is_prime, isPrimeClass is_prime_class, isRotation is_rotation
isSingle is_single, isStep is_step, isUtf8 is_utf8, itemEnds item_ends, joinFrom join_from, keptBoth kept_both, kindOk kind_ok, layOut lay_out
layOut-below lay_out-below, layOut-cut lay_out-cut, layerAfterDots layer_after_dots, layerAfterHyphen layer_after_hyphen, layerAnswer layer_answer
layerBytes layer_bytes, layerElement layer_element, layerForm layer_form, layerForm-lt layer_form-lt, layerLimits layer_limits
layerMeaning layer_meaning, layerNumbers layer_numbers, layerOption layer_option, layerPrefixContents layer_prefix_contents, layerRange layer_range
layerRanges layer_ranges, layerSet layer_set, layerSet-means layer_set-means, layerSetElement layer_set_element
layerSetElementOf layer_set_element_of, layerSetElements layer_set_elements, layerSetIn layer_set_in, layersAt layers_at, layersGiven layers_given
layersInRange layers_in_range, layersOf layers_of, layersOk layers_ok, layersReading layers_reading, leafAfterSpaces leaf_after_spaces
leafAnswer leaf_answer, leafBytes leaf_bytes, leafFields leaf_fields, leafFits leaf_fits, leafGiven leaf_given, leafHead leaf_head, leafOk leaf_ok
leafParens leaf_parens, leafRead leaf_read, leafRecord leaf_record, leafRefusal leaf_refusal, leafRefuses leaf_refuses, leastNumber least_number
lendAt lend_at, lendBoth lend_both, length-bigEndian length-big_endian, length-flatBody length-flat_body, length-flatNode length-flat_node
length-headFields length-head_fields, length-headRecord length-head_record, length-layOut length-lay_out, length-packBody length-pack_body
length-packNode length-pack_node, length-putPart length-put_part, length-rangeBytes length-range_bytes, length-tallyBody length-tally_body
length-tallyList length-tally_list, length-tallyNode length-tally_node, length-tallyRecord length-tally_record, lentBoth lent_both, listOne list_one
listTwo list_two, listerOfThePaper lister_of_the_paper, listerRefusals lister_refusals, listsEnd lists_end, litSet lit_set, lowAndHigh low_and_high
mapNode map_node, mapNodes map_nodes, markedAll marked_all, markedElement marked_element, markedIf marked_if, markedSet marked_set, maxTree max_tree
megaminxNumber megaminx_number, megaminxNumber-lt megaminx_number-lt, megaminxScrambleMove megaminx_scramble_move, moreOf more_of
mostSteps most_steps, moveLeaf move_leaf, moveNode move_node, multiplierBy multiplier_by, multiplierInRange multiplier_in_range
multiplierOk multiplier_ok, multiplierReading multiplier_reading, multiplierTooLarge multiplier_too_large, name-notOpener name-not_opener
nameInRange name_in_range, natAbs-neg nat_abs-neg, needsTheFlag needs_the_flag, nestingOk nesting_ok, newLayer new_layer, nissAtZero niss_at_zero
nissFirst niss_first, nissIn niss_in, nissNotReached niss_not_reached, noFamily no_family, noFamilyNorTail no_family_nor_tail, noLayers no_layers
noLeast no_least, noNiss no_niss, noParts no_parts, noSpace no_space, nodeBytes node_bytes, nodeDepth node_depth, nodeEnd node_end
nodeFields node_fields, nodeFits node_fits, nodeHead node_head, nodeHeads node_heads, nodeInRange node_in_range, nodeList node_list
nodeListBy node_list_by, nodeOk node_ok, nodeParens node_parens, nodeParens-depth node_parens-depth, nodeParens-unspanned node_parens-unspanned
nodeSize node_size, notDigit not_digit, notEntered not_entered, notLong not_long, notOpener not_opener, notUtf8 not_utf8, notationBy notation_by
nowhereUnless nowhere_unless, numberReading number_reading, numberedLayers numbered_layers, oddAndRejected odd_and_rejected, oddButRead odd_but_read
ofNode of_node, ofTree of_tree, okFirst ok_first, okP ok_p, okS ok_s, okSecond ok_second, okV ok_v, oneWay one_way, onlyOuter only_outer
openHead open_head, orEmpty or_empty, orMove or_move, orNowhere or_nowhere, orRefuse or_refuse, othersFrom others_from, overLong over_long
overflowsAt overflows_at, ownCount own_count, packBody pack_body, packNode pack_node, packedBack packed_back, packedFirst packed_first
packedFront packed_front, packedLeft packed_left, packedList packed_list, packedOpened packed_opened, packedRest packed_rest
packedSecond packed_second, packedStep packed_step, pairAfter pair_after, parseNotation parse_notation, partIn part_in, partNumber part_number
partOutcome part_outcome, partsInside parts_inside, partsPrinted parts_printed, partsRead parts_read, partsWritten parts_written
placeWidth place_width, playedBody played_body, playedNode played_node, prefixAt prefix_at, prefixBytes prefix_bytes, presentAt present_at
primeReading prime_reading, primeSet prime_set, printedInverse printed_inverse, printsAsWritten prints_as_written, putBefore put_before
putBody put_body, putBraces put_braces, putConstraint put_constraint, putConstraints put_constraints, putElement put_element, putLayers put_layers
putMegaminx put_megaminx, putMore put_more, putMultiplier put_multiplier, putNode put_node, putNodes put_nodes, putOthers put_others, putPart put_part
putPrefix put_prefix, putPrime put_prime, putSeparator put_separator, putStep put_step, putTilde put_tilde, putTransform put_transform
rangeAt range_at, rangeBetween range_between, rangeBytes range_bytes, rangeBytes-append range_bytes-append, rangeCount range_count
rangeCutOff range_cut_off, rangeEnd range_end, rangeFrom range_from, rangeOption range_option, rangeTooDeep range_too_deep, rangesAt ranges_at
rangesFrom ranges_from, rangesIn ranges_in, readBack read_back, reads-constraintSet reads-constraint_set, reads-familyText reads-family_text
reads-groupKind reads-group_kind, reads-layerSet reads-layer_set, reads-someWhitespace reads-some_whitespace, readsBack reads_back, recordAt record_at
recordReading record_reading, recordSize record_size, refusalBinary refusal_binary, refusalBody refusal_body, refusalNode refusal_node
refusalNumber refusal_number, refusalOf refusal_of, refusedBy refused_by, rejects-someWhitespace rejects-some_whitespace
repeatableNodeBy repeatable_node_by, resolveRange resolve_range, resolveUnclamped resolve_unclamped, restBytes rest_bytes, roomBack room_back
roomInverse room_inverse, roomPrinted room_printed, roomTree room_tree, rotationAt rotation_at, rotationLeaf rotation_leaf, rotationNode rotation_node
runsFrom runs_from, sameSide same_side, sameSpans same_spans, scrambleAt scramble_at, scrambleKind scramble_kind, scrambleOrMove scramble_or_move
scrambleRead scramble_read, second-asSteps second-as_steps, secondBytes second_bytes, secondIn second_in, secondList second_list
secondSlice second_slice, seekBack seek_back, seekStep seek_step, separatedBy separated_by, setAllowed set_allowed, setNumber set_number
setOfLayers set_of_layers, setPart set_part, setRanges set_ranges, setWritten set_written, shallowView shallow_view
shortLowercaseGreek short_lowercase_greek, showFrom show_from, showFrom-ok show_from-ok, showSigned show_signed, showsDeep shows_deep, signAt sign_at
signedBetween signed_between, signedDigits signed_digits, signedGroups signed_groups, signedInRange signed_in_range, signedLayer signed_layer
simplifyBytes simplify_bytes, singleLayer single_layer, sintReading sint_reading, someFrom some_from, someWhites some_whites
someWhitespace some_whitespace, spanAt span_at, spanGiven span_given, spanOption span_option, sq1Move sq1_move, squeezedFrom squeezed_from
stepAt step_at, stepCount step_count, stepIn step_in, stepInRange step_in_range, stepLines step_lines, stepsAs steps_as, stepsIn steps_in
stepsPart steps_part, stops-familyText stops-family_text, stops-separatedBy stops-separated_by, stops-takeWhile stops-take_while
stores-layOut stores-lay_out, straightFrom straight_from, straightTreeIn straight_tree_in, tailMarks tail_marks, takeWhile take_while
takes-constraintSet takes-constraint_set, takes-familyText takes-family_text, takes-layerSet takes-layer_set
takes-layerSetElement takes-layer_set_element, tallLowercaseGreek tall_lowercase_greek, tallyAt tally_at, tallyBody tally_body, tallyList tally_list
tallyNode tally_node, tallyRecord tally_record, textOk text_ok, thenLast then_last, threeBytes three_bytes, tildeAt tilde_at
tildeReading tilde_reading, toBits-fromBits to_bits-from_bits, toInvert to_invert, toInvertDeep to_invert_deep, toPrint to_print
toPrintAny to_print_any, toRead to_read, toSeek to_seek, toSimplify to_simplify, toUnroll to_unroll, tooDeep too_deep, tooLong too_long
tooMany too_many, tooShallow too_shallow, treeBack tree_back, treeFits tree_fits, treeGiven tree_given, treeIn tree_in, treeOk tree_ok
treePart tree_part, treeSize tree_size, turnedBy turned_by, turnedOver turned_over, uintReading uint_reading, undoIf undo_if, undoView undo_view
undoneHead undone_head, undoneOnce undone_once, undoneRecord undone_record, unpackFrom unpack_from, unpackFrom-pack unpack_from-pack
unpackedBy unpacked_by, unpacksBack unpacks_back, unpacksFirst unpacks_first, unpacksFront unpacks_front, unpacksList unpacks_list
unpacksOpened unpacks_opened, unpacksSecond unpacks_second, unrollsBack unrolls_back, unsignedOrSingle unsigned_or_single, unusedOk unused_ok
uppercaseGreek uppercase_greek, utf8From utf8_from, weightBody weight_body, weightBody-is weight_body-is, weightBody-most weight_body-most
weightBody-one weight_body-one, weightNode weight_node, weightNode-is weight_node-is, weightNode-most weight_node-most, weightNode-one weight_node-one
wellFormed well_formed, wellFormedOrNot well_formed_or_not, wellFormedSteps well_formed_steps, whiteSpace white_space, widthIf width_if
widthIf-length width_if-length, withField with_field, withLists with_lists, withSpan with_span, withoutCurly without_curly
yields-binaryKind yields-binary_kind, yields-constraintSet yields-constraint_set, yields-familyText yields-family_text
yields-layerSet yields-layer_set, yields-separatedBy yields-separated_by, yields-someWhitespace yields-some_whitespace
yields-takeWhile yields-take_while, zeroUnless zero_unless, zeroVal zero_val
"""

# What port.py respelled: .edit files and pages get these too.
PORT = """
Inv-loop invariant-loop, a-move a_move, a-pair a_pair, add-at add_at, add-parts add_parts, add-total add_total, after-first after_first
after-run after_run, all-append all_append, all-digits all_digits, all-drop all_drop, all-fit all_fit, all-head all_head, all-insert all_insert
all-join all_join, all-left all_left, all-placed all_placed, all-right all_right, all-tail all_tail, all-take all_take, and-both and_both
and-left and_left, and-right and_right, andThen and_then, asks-nothing asks_nothing, at-byte at_byte, at-call at_call, at-field at_field
at-first at_first, at-front at_front, at-least at_least, at-most at_most, at-most-one at_most_one, at-onward at_onward, at-other at_other
at-place at_place, at-sign at_sign, back-is back_is, bare-set bare_set, between-ends between_ends, bit-le bit_le, bits-fit bits_fit
blocks-end blocks_end, blocks-start blocks_start, body-below body_below, body-clean body_clean, body-is body_is, body-ok body_ok, body-open body_open
body-run body_run, bodyOf body_of, both-bytes both_bytes, both-ends both_ends, both-is both_is, both-long both_long, both-stored both_stored
by-length by_length, by-place by_place, by-rows by_rows, byKind by_kind, byte-past byte_past, byte-put byte_put, byteAt byte_at
bytes-below bytes_below, bytes-fit bytes_fit, bytes-of bytes_of, bytesOf bytes_of, clamp-spec clamp_spec, clamped-high clamped_high, classOf class_of
close-spec close_spec, comes-home comes_home, copied-all copied_all, copied-none copied_none, count-of count_of, count-spec count_spec
counted-same counted_same, cut-at cut_at, cut-fits cut_fits, cut-parts cut_parts, deep-back deep_back, deep-is deep_is, digit-ok digit_ok
digits-append digits_append, digits-le digits_le, each-after each_after, each-all each_all, each-or each_or, either-side either_side
either-way either_way, endOf end_of, ends-turned ends_turned, enter-spec enter_spec, enters-none enters_none, enum-told enum_told
every-append every_append, field-at field_at, field-is field_is, field-lt field_lt, fieldsAt fields_at, fieldsOf fields_of, fill-meets fill_meets
fill-spec fill_spec, fill-walks fill_walks, find-spec find_spec, first-below first_below, first-byte first_byte, first-count first_count
first-counted first_counted, first-ends first_ends, first-field first_field, first-good first_good, first-head first_head, first-leaf first_leaf
first-of first_of, first-part first_part, first-plain first_plain, first-said first_said, first-some first_some, first-spec first_spec
first-taken first_taken, first-three first_three, first-two first_two, flat-append flat_append, flat-map flat_map, fold-is fold_is
four-bytes four_bytes, from-end from_end, front-fits front_fits, front-long front_long, front-low front_low, get-reverse get_reverse, go-on go_on
goes-on goes_on, going-on going_on, going-start going_start, group-at group_at, group-of group_of, half-is half_is, head-at head_at, headOf head_of
high-bit high_bit, in-between in_between, in-both in_both, in-bounds in_bounds, in-bytes in_bytes, in-group in_group, in-repeat in_repeat
inRange in_range, inner-of inner_of, is-byte is_byte, is-m is_m, is-none is_none, is-some is_some, isGroup is_group, isMin is_min, isMove is_move
isSet is_set, isSome is_some, join-apart join_apart, join-first join_first, kept-byte kept_byte, kept-less kept_less, kept-on kept_on
kept-then kept_then, kind-ok kind_ok, kindAt kind_at, kindOf kind_of, last-byte last_byte, last-fits last_fits, last-row last_row, lastOf last_of
leaf-first leaf_first, leaf-room leaf_room, lends-below lends_below, length-digits length_digits, length-from length_from, length-front length_front
length-marked length_marked, length-part length_part, length-rest length_rest, lentAt lent_at, lies-in lies_in, lies-out lies_out, list-open list_open
list-steps list_steps, list-written list_written, listOf list_of, listed-same listed_same, lists-of lists_of, main-spec main_spec, mapBody map_body
mark-spec mark_spec, met-some met_some, more-left more_left, moveAt move_at, mul-at mul_at, negated-fits negated_fits, new-meets new_meets
new-spec new_spec, new-walks new_walks, next-fits next_fits, next-start next_start, no-bits no_bits, no-bytes no_bytes, no-digit no_digit
no-item no_item, no-kind no_kind, no-last no_last, no-longer no_longer, no-more no_more, no-move no_move, no-node no_node, no-number no_number
no-room no_room, no-run no_run, no-second no_second, no-sign no_sign, no-start no_start, no-value no_value, node-counts node_counts, node-ok node_ok
nodeBy node_by, nodeOf node_of, none-below none_below, none-deep none_deep, none-free none_free, none-left none_left, none-or-some none_or_some
none-read none_read, none-written none_written, none-yet none_yet, not-at not_at, not-byte not_byte, nothing-left nothing_left
nothing-written nothing_written, number-fits number_fits, number-is number_is, of-four of_four, of-three of_three, of-two of_two, ofBits of_bits
once-is once_is, one-byte one_byte, one-follows one_follows, one-inside one_inside, one-less one_less, one-list one_list, one-more one_more
one-same one_same, one-written one_written, oneOf one_of, open-at open_at, or-assoc or_assoc, or-same or_same, or-swap or_swap, orElse or_else
other-width other_width, others-keep others_keep, over-first over_first, over-none over_none, over-plain over_plain, own-is own_is, own-open own_open
pair-fits pair_fits, pair-put pair_put, pair-spec pair_spec, part-length part_length, partOf part_of, parts-at parts_at, past-two past_two
pick-same pick_same, pick-true pick_true, plus-none plus_none, point-at point_at, prefixOf prefix_of, put-first put_first, put-full put_full
put-item put_item, put-last put_last, put-spec put_spec, rangeOf range_of, read-back read_back, read-none read_none, reads-more reads_more
reads-so reads_so, reads-two reads_two, record-is record_is, refused-as refused_as, rest-below rest_below, rest-more rest_more, rest-ok rest_ok
room-back room_back, run-alone run_alone, run-at run_at, run-end run_end, run-length run_length, run-on run_on, run-room run_room, run-spec run_spec
run-step run_step, runFrom run_from, same-first same_first, same-length same_length, same-more same_more, same-refl same_refl, same-start same_start
sameList same_list, says-of says_of, second-below second_below, second-is second_is, second-spec second_spec, secondCount second_count
set-first set_first, set-free set_free, set-is set_is, set-long set_long, set-out set_out, shape-of shape_of, shifted-test shifted_test
sint-plain sint_plain, small-least small_least, small-spec small_spec, some-byte some_byte, some-bytes some_bytes, some-of some_of
some-prefix some_prefix, sort-sorted sort_sorted, span-fits span_fits, starts-with starts_with, step-keeps step_keeps, step-of step_of
step-ok step_ok, stepOf step_of, steps-back steps_back, steps-of steps_of, stepsOf steps_of, store-two store_two, stored-is stored_is, sub-at sub_at
sub-number sub_number, sub-out sub_out, sub-part sub_part, sum-fits sum_fits, sum-room sum_room, takes-front takes_front, takes-run takes_run
then-append then_append, there-and-back there_and_back, to-fill to_fill, to-last to_last, to-read to_read, toBits to_bits, toBits-lt to_bits_lt
toC to_c, too-large too_large, too-long too_long, too-short too_short, too-small too_small, tree-is tree_is, treeOf tree_of, turn-spec turn_spec
turned-round turned_round, two-bytes two_bytes, two-fields two_fields, uint-plain uint_plain, upTo up_to, utf8-append utf8_append, value-on value_on
weight-is weight_is, wide-is wide_is, width-fits width_fits, width-one width_one, width-spec width_spec, withSign with_sign, write-spec write_spec
written-on written_on, wrote-as wrote_as, wrote-kept wrote_kept, wrote-none wrote_none, wrote-then wrote_then, yields-more yields_more
yields-move yields_move, μ-loop decreases-loop
"""

# By the beginning of a path: names that are given another name there.
SPECIAL = {
    "crates/checked/proofs": {"head_at": "head_at_lem"},
    "crates/laws/proofs": {"head_at": "head_at_lem", "body_ok": "body_ok_lem", "node_ok": "node_ok_lem"},
    "crates/clause_laws/proofs": {"kind_ok": "kind_ok_lem"},
    "crates/well_formed/proofs/Turns.antt": {"first_count": "first_count_lem"},
    "crates/value_laws/proofs/Sizes.antt": {"to_read": "to_read_lem"},
}

TOKEN = re.compile(r"[^\s(){}\[\],;.:\u00ab\u00bb\"`\u03bb|]+")
PARTS = re.compile(r'("(?:[^"\\]|\\.)*")')


def table(text):
    return dict(pair.split() for pair in text.replace("\n", ", ").split(", ") if pair.strip())


def turned(text, names):
    return TOKEN.sub(lambda m: names.get(m.group(0), m.group(0)), text)


def code(text, names):
    """Respells a line outside of its strings."""
    return "".join(p if i % 2 else turned(p, names) for i, p in enumerate(PARTS.split(text)))


def edit(text, names):
    """Respells a line of an edit: the names, the prime, and a projection, which is written tight."""
    head, colon, rest = text.partition(": ")
    if head not in ("old", "new"):
        return text
    parts = PARTS.split(rest)
    for i in range(0, len(parts), 2):
        p = turned(parts[i], names).replace("\u2032", "'")
        p = re.sub(r"(?<=[\w)'\u00bb]) \.(?=[\w\u00ab])", ".", p)
        p = re.sub(r"\.\u00ab(\w+)\u00bb", r".\1", p)
        parts[i] = re.sub(r"\b_([-+*/%^<\u2264\u2261&|\u2237\u2219=>]+)_", "\u25cc\\1\u25cc", p)
    return head + colon + "".join(parts)


def page(text, names):
    parts = re.split(r"(`[^`\n]*`)", text)
    return "".join(turned(p, names) if i % 2 else p for i, p in enumerate(parts))


def files(root):
    for top in ("crates", "tests/wrong", "docs"):
        for folder, dirs, found in os.walk(os.path.join(root, top)):
            dirs[:] = sorted(d for d in dirs if d not in ("out", "landings"))
            for f in sorted(found):
                yield os.path.join(folder, f)
    for f in ("README.md", "CONTRIBUTING.md"):
        yield os.path.join(root, f)


def main():
    root = sys.argv[1] if len(sys.argv) > 1 else "."
    own, port = table(OWN), table(PORT)
    antt = [p for p in files(root) if p.endswith(".antt")]
    if not any(name in own for p in antt for line in open(p, encoding="utf-8") for name in TOKEN.findall(line)):
        print("nothing to do: no definition has an old name")
        return
    for path in files(root):
        name = os.path.relpath(path, root)
        special = {k: v for start, names in SPECIAL.items() if name.startswith(start) for k, v in names.items()}
        with open(path, encoding="utf-8") as f:
            before = f.read()
        lines = before.split("\n")
        if name.endswith((".antt", ".rt")):
            names = own | special
            after = "\n".join(code(line, names) for line in lines)
        elif name.endswith(".edit"):
            names = port | own
            after = "\n".join(edit(line, names) for line in lines)
        elif name.endswith(".md") and not name.startswith("docs/PORT"):
            names = {k: v for k, v in (port | own).items() if "-" in k or re.search("[a-z][A-Z]", k)}
            after = page(before, names)
        else:
            continue
        if after != before:
            with open(path, "w", encoding="utf-8") as f:
                f.write(after)


if __name__ == "__main__":
    main()
